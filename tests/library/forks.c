/* A library that is loaded before a program, and runs it once for each case of a folder, each time in a copy of a process that
 * has run some of them: an emulator takes long to start, and to translate what it has not run yet.
 *
 *   LD_PRELOAD=forks.so CASES=FOLDER COUNT=N PROGRAM
 *
 * Of case 7 the folder has `7`, in which it runs, `7.input` and `7.words`, each of which ends with a 0; `7.output`, `7.errors`
 * and `7.status` are written. Cases with as many words follow each other. */

#define _GNU_SOURCE
#include <dlfcn.h>
#include <fcntl.h>
#include <stdio.h>
#include <stdlib.h>
#include <string.h>
#include <sys/wait.h>
#include <unistd.h>

#define SECONDS 60
#define MOST_WORDS 64
#define RUN_BEFORE 8 /* one case of so many */

typedef int program_t(int, char **, char **);
typedef int start_t(program_t *, int, char **, void (*)(void), void (*)(void), void (*)(void), void *);

static program_t *program;
static const char *folder;
static int first, end; /* of the cases that are run now */
static char text[1 << 20];
static char *words[MOST_WORDS + 1];
static char path[4096];

static void fail(const char *why)
{
    perror(why);
    _exit(70);
}

/* Opens a file of a case. */
static int opened(int at, const char *name, int flags)
{
    snprintf(path, sizeof path, "%s/%d.%s", folder, at, name);
    int file = open(path, flags, 0666);
    if (file < 0)
        fail(path);
    return file;
}

/* Opens a file of a case in place of a standard stream. */
static void take_place(int at, const char *name, int flags, int stream)
{
    int file = opened(at, name, flags);
    dup2(file, stream);
    close(file);
}

/* Puts the words of a case where the program reads its arguments; returns their number. */
static int put_words(int at)
{
    int file = opened(at, "words", O_RDONLY), count = 0;
    ssize_t size = read(file, text, sizeof text);
    close(file);
    if (size < 0 || size == sizeof text)
        fail("words");
    for (char *word = text; word < text + size; word += strlen(word) + 1) {
        if (count == MOST_WORDS)
            fail("too many words");
        words[count++] = word;
    }
    words[count] = NULL;
    return count;
}

/* Gives this process the streams, the folder and the words of a case. */
static void become(int at)
{
    take_place(at, "input", O_RDONLY, 0);
    take_place(at, "output", O_WRONLY | O_CREAT | O_TRUNC, 1);
    put_words(at);
    snprintf(path, sizeof path, "%s/%d", folder, at);
    if (chdir(path))
        fail(path);
    take_place(at, "errors", O_WRONLY | O_CREAT | O_TRUNC, 2);
    alarm(SECONDS);
}

static void write_status(int at, int status)
{
    int file = opened(at, "status", O_WRONLY | O_CREAT);
    dprintf(file, "%d", WIFEXITED(status) ? WEXITSTATUS(status) : -WTERMSIG(status));
    close(file);
}

static pid_t copied(void)
{
    pid_t copy = fork();
    if (copy < 0)
        fail("fork");
    return copy;
}

/* Stands for the program's main in a process that the C library has started with as many words as these cases have. */
static int run_cases(int count, char **arguments, char **environment)
{
    for (int at = first; at < end; at += RUN_BEFORE) {
        become(at);
        program(count, arguments, environment);
    }
    alarm(0);
    for (int at = first; at < end; at++) {
        pid_t copy = copied();
        if (copy == 0) {
            become(at);
            return program(count, arguments, environment);
        }
        int status;
        waitpid(copy, &status, 0);
        write_status(at, status);
    }
    _exit(0);
}

/* The C library's function that a program calls first. */
int __libc_start_main(program_t *main, int count, char **arguments, void (*begin)(void), void (*finish)(void),
                      void (*finish_loader)(void), void *stack)
{
    start_t *start;
    int cases = atoi(getenv("COUNT"));
    *(void **)&start = dlsym(RTLD_NEXT, "__libc_start_main");
    program = main;
    folder = getenv("CASES");
    for (; first < cases; first = end) {
        count = put_words(first);
        for (end = first + 1; end < cases && put_words(end) == count;)
            end++;
        pid_t copy = copied();
        if (copy == 0)
            return start(run_cases, count, words, begin, finish, finish_loader, stack);
        waitpid(copy, NULL, 0);
    }
    (void)arguments;
    _exit(0);
}
