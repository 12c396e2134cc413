/* What the program calls of the system, for Windows: functions of Linux, over the C library of Windows. Numbers of errors up to
 * 34 are those of Linux there. Texts are UTF-8. */

#define NO_OLDNAMES /* the names of Linux are defined here */
#define WIN32_LEAN_AND_MEAN

#include <errno.h>
#include <fcntl.h>
#include <io.h>
#include <stdint.h>
#include <stdlib.h>
#include <string.h>
#include <windows.h>
#include <shellapi.h>

#define PATH_BYTES 4096             /* of a path with its 0 */
#define MOST_BYTES (1u << 30)       /* that one call of Windows moves */
#define MOST_CONSOLE_BYTES (1u << 14)
#define NOT_UTF8 "\377"             /* stands for an argument that is no text */

static int word_count;
static WCHAR **words;

/* The start-up code calls this before main: bytes are read and written as they are, with no ends of lines of Windows. */
__attribute__((constructor)) static void start(void)
{
    for (int descriptor = 0; descriptor <= 2; descriptor++)
        _setmode(descriptor, _O_BINARY);
    words = CommandLineToArgvW(GetCommandLineW(), &word_count);
    if (words == NULL)
        word_count = 0;
    else if (word_count != 0)
        words[0] = L"odb_batch"; /* messages show it, and would show a path of Windows whole */
}

/* A text of Windows as UTF-8 that the caller frees, or NULL without memory. */
static char *utf8_of(const WCHAR *text)
{
    int size = WideCharToMultiByte(CP_UTF8, WC_ERR_INVALID_CHARS, text, -1, NULL, 0, NULL, NULL);
    if (size == 0)
        return _strdup(NOT_UTF8);
    char *found = malloc(size);
    if (found != NULL)
        WideCharToMultiByte(CP_UTF8, 0, text, -1, found, size, NULL, NULL);
    return found;
}

/* Puts an argument at the start of a buffer. Returns its length, -1 if there is none, or -2 if it does not fit. */
int64_t rattle_arg(size_t at, unsigned char *buffer, size_t size)
{
    char *word = at < (size_t)word_count ? utf8_of(words[at]) : NULL;
    if (word == NULL)
        return -1;
    size_t length = strlen(word);
    memcpy(buffer, word, length < size ? length : size);
    free(word);
    return length <= size ? (int64_t)length : -2;
}

int rattle_errno(void)
{
    return errno;
}

void rattle_set_errno(int error)
{
    _set_errno(error);
}

/* Puts the text of an error in a buffer, cut to its size. */
int __xpg_strerror_r(int error, char *buffer, size_t size)
{
    if (size != 0) {
        strncpy(buffer, strerror(error), size);
        buffer[size - 1] = '\0';
    }
    return 0;
}

/* Windows has no signal for a pipe that nobody reads. */
int64_t __sysv_signal(int number, int64_t handler)
{
    (void)number, (void)handler;
    return 0;
}

/* Opens a file to be read: the program opens no other. */
int open(const char *path, int flags, ...)
{
    WCHAR wide[PATH_BYTES];
    (void)flags;
    if (MultiByteToWideChar(CP_UTF8, MB_ERR_INVALID_CHARS, path, -1, wide, PATH_BYTES) == 0) {
        _set_errno(ENOENT);
        return -1;
    }
    return _wopen(wide, _O_RDONLY | _O_BINARY | _O_NOINHERIT);
}

int close(int descriptor)
{
    return _close(descriptor);
}

/* Whether a descriptor is a console; for other devices _isatty holds, too. */
int isatty(int descriptor)
{
    DWORD mode;
    return GetConsoleMode((HANDLE)_get_osfhandle(descriptor), &mode) != 0;
}

int64_t read(int descriptor, void *buffer, size_t size)
{
    return _read(descriptor, buffer, size < MOST_BYTES ? (unsigned)size : MOST_BYTES);
}

/* Writes bytes, or the first of them. */
int64_t write(int descriptor, const void *bytes, size_t size)
{
    size_t most = isatty(descriptor) ? MOST_CONSOLE_BYTES : MOST_BYTES;
    return _write(descriptor, bytes, (unsigned)(size < most ? size : most));
}

/* RtlGenRandom, under its name in the system. */
BOOLEAN NTAPI SystemFunction036(void *buffer, ULONG size);

int getentropy(void *buffer, size_t size)
{
    return SystemFunction036(buffer, (ULONG)size) ? 0 : -1;
}

typedef struct moment {
    int64_t seconds, nanoseconds;
} moment;

/* The time since some moment, whatever the clock: the program measures times alone. */
int clock_gettime(int clock, moment *now)
{
    LARGE_INTEGER ticks, rate;
    (void)clock;
    QueryPerformanceCounter(&ticks);
    QueryPerformanceFrequency(&rate);
    now->seconds = ticks.QuadPart / rate.QuadPart;
    now->nanoseconds = ticks.QuadPart % rate.QuadPart * 1000000000 / rate.QuadPart;
    return 0;
}
