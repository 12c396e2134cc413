/* Lets one allocation of the program that it is loaded into fail, or each from that one on: it runs the program once for each of
 * many allocations, each time in a copy of a process that has begun nothing.
 *
 * Loaded by LD_PRELOAD. The environment says what to do:
 *   REFUSE_PLACES  a file with the numbers of the allocations, counted from 1; 0 for none, as in the first run
 *   REFUSE_REST    if it is set, every later allocation fails too
 *   REFUSE_INPUT   a file with what the program reads from standard input
 *   REFUSE_TOLD    a file to which a line is written for each run: the exit status, or less than 0 by a signal; whether the
 *                  allocation failed, and how many there were; whether the output is the beginning of that of the first run;
 *                  and the lengths of the output and of the errors. Below it are the output, unless that was so, and the errors
 *
 * glibc's own functions under the names __libc_* do the work, so nothing has to be looked up for that. */

#define _GNU_SOURCE
#include <dlfcn.h>
#include <errno.h>
#include <fcntl.h>
#include <stddef.h>
#include <stdio.h>
#include <stdlib.h>
#include <string.h>
#include <sys/mman.h>
#include <sys/wait.h>
#include <unistd.h>

#define SECONDS 60
#define MOST_BYTES (1 << 24)
#define MOST_INPUT 4096 /* a pipe holds it */
#define MOST_PLACES (1 << 22)

extern void *__libc_malloc(size_t size);
extern void *__libc_calloc(size_t count, size_t size);
extern void *__libc_realloc(void *old, size_t size);
extern void *__libc_memalign(size_t alignment, size_t size);

typedef int program_t(int, char **, char **);
typedef int start_t(program_t *, int, char **, void (*)(void), void (*)(void), void (*)(void), void *);

/* What the copy and the process have in common. */
struct told {
    int failed;
    unsigned long seen;
};

static program_t *program;
static struct told *told;
static unsigned long seen, refused_at;
static int refuse_rest;
static int output, errors; /* of the copies */
static char *whole, *found;
static ssize_t whole_length = -1;

static void fail(const char *why)
{
    perror(why);
    _exit(70);
}

/* Counts an allocation, and returns whether it fails. */
static int is_refused(void)
{
    seen++;
    if (refused_at == 0 || seen < refused_at || (seen > refused_at && !refuse_rest))
        return 0;
    told->failed = 1;
    errno = ENOMEM;
    return 1;
}

void *malloc(size_t size)
{
    return is_refused() ? NULL : __libc_malloc(size);
}

void *calloc(size_t count, size_t size)
{
    return is_refused() ? NULL : __libc_calloc(count, size);
}

void *realloc(void *old, size_t size)
{
    return is_refused() ? NULL : __libc_realloc(old, size);
}

void *aligned_alloc(size_t alignment, size_t size)
{
    return is_refused() ? NULL : __libc_memalign(alignment, size);
}

int posix_memalign(void **place, size_t alignment, size_t size)
{
    void *block = is_refused() ? NULL : __libc_memalign(alignment, size);
    if (block == NULL)
        return ENOMEM;
    *place = block;
    return 0;
}

__attribute__((destructor)) static void end(void)
{
    if (told)
        told->seen = seen;
}

static void *shared_bytes(size_t size)
{
    void *bytes = mmap(NULL, size, PROT_READ | PROT_WRITE, MAP_SHARED | MAP_ANONYMOUS, -1, 0);
    if (bytes == MAP_FAILED)
        fail("mmap");
    return bytes;
}

static int opened(const char *name, int flags)
{
    int file = open(name, flags, 0666);
    if (file < 0)
        fail(name);
    return file;
}

/* Reads a file whose path a variable has; returns how long it is. */
static ssize_t read_named(const char *variable, char *text, size_t room)
{
    int file = opened(getenv(variable), O_RDONLY);
    ssize_t length = read(file, text, room);
    close(file);
    if (length < 0 || (size_t)length == room)
        fail(variable);
    return length;
}

/* A file without a name, for what a copy prints. */
static int kept(void)
{
    int file = memfd_create("kept", 0);
    if (file < 0)
        fail("memfd_create");
    return file;
}

/* Gives the copy its streams: its input is a pipe that ends. */
static void become(const char *text, ssize_t length)
{
    int input[2];
    if (pipe(input) || write(input[1], text, length) != length)
        fail("input");
    dup2(input[0], 0);
    dup2(output, 1);
    dup2(errors, 2);
    close(input[0]);
    close(input[1]);
    alarm(SECONDS);
}

static void put(int file, const char *bytes, ssize_t length)
{
    for (ssize_t written; length > 0; bytes += written, length -= written)
        if ((written = write(file, bytes, length)) <= 0)
            fail("told");
}

/* Reads what a copy has printed; returns how long it is. */
static ssize_t read_kept(int file)
{
    ssize_t length = lseek(file, 0, SEEK_END);
    if (length < 0 || length > MOST_BYTES || pread(file, found, length, 0) != length)
        fail("kept");
    return length;
}

/* Tells how a run has ended. */
static void tell(int file, int status)
{
    ssize_t of_errors = read_kept(errors), length = read_kept(output);
    int begins = whole_length >= length && memcmp(whole, found, length) == 0;
    dprintf(file, "%d %d %lu %d %zd %zd\n", WIFEXITED(status) ? WEXITSTATUS(status) : -WTERMSIG(status), told->failed, told->seen,
            begins, length, of_errors);
    if (!begins)
        put(file, found, length);
    if (whole_length < 0)
        memcpy(whole, found, whole_length = length);
    read_kept(errors);
    put(file, found, of_errors);
}

/* Empties what the copies print to. */
static void empty(int file)
{
    if (ftruncate(file, 0) || lseek(file, 0, SEEK_SET))
        fail("kept");
}

/* Stands for the program's main: runs it in copies of this process. */
static int run_places(int count, char **arguments, char **environment)
{
    static char places[MOST_PLACES], text[MOST_INPUT];
    places[read_named("REFUSE_PLACES", places, sizeof places - 1)] = '\0';
    ssize_t length = read_named("REFUSE_INPUT", text, sizeof text);
    int file = opened(getenv("REFUSE_TOLD"), O_WRONLY | O_CREAT | O_TRUNC);
    unsigned long at, begun = seen;
    char *next;
    for (char *place = places; (at = strtoul(place, &next, 10)), next != place; place = next) {
        memset(told, 0, sizeof *told);
        empty(output);
        empty(errors);
        pid_t copy = fork();
        if (copy < 0)
            fail("fork");
        if (copy == 0) {
            close(file);
            become(text, length);
            seen = begun;
            refused_at = at;
            return program(count, arguments, environment);
        }
        int status;
        waitpid(copy, &status, 0);
        tell(file, status);
    }
    _exit(0);
}

/* The C library's function that a program calls first. */
int __libc_start_main(program_t *main, int count, char **arguments, void (*begin)(void), void (*finish)(void),
                      void (*finish_loader)(void), void *stack)
{
    start_t *start;
    *(void **)&start = dlsym(RTLD_NEXT, "__libc_start_main");
    program = main;
    refuse_rest = getenv("REFUSE_REST") != NULL;
    told = shared_bytes(sizeof *told);
    whole = shared_bytes(MOST_BYTES);
    found = shared_bytes(MOST_BYTES);
    output = kept();
    errors = kept();
    return start(run_places, count, arguments, begin, finish, finish_loader, stack);
}
