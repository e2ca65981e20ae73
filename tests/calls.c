/* Notes what a program asks of the system: a library that is loaded before the C library, by LD_PRELOAD.
 *
 * CALLS_LOG names a file, to which a line is added for each call, in their order, once it has succeeded or failed:
 *
 *     open FILE            the file of this name, without its folder, was opened
 *     read FILE AT COUNT   so many bytes were asked for, from a place on
 *     read FILE - COUNT    the same of a stream, from where it stands
 *     write FILE AT COUNT  as read
 *     sync FILE
 *     resize FILE SIZE
 *     map FILE             the file was put into memory, where no call shows what is done to it
 *
 * FILE is `input` or `output` for the standard streams. A call that failed has ` failed` behind it.
 *
 * Five more words change what calls do. INSTEAD, two paths with `=` between them, has the second file opened in place of the
 * first. REFUSED, as `sync FILE`, has the reads, writes or syncs of a file fail; and SKIPPED has the program believe that its
 * writes or syncs are done, though they are neither done nor noted. KILLED, as `write FILE 3`, kills the program before its third
 * call of this kind, and `any 10` before its tenth read, write, sync or resize of any file. And ALLOCATION, a number, has the
 * allocation of memory of that number fail.
 */
#define _GNU_SOURCE
#include <dlfcn.h>
#include <errno.h>
#include <fcntl.h>
#include <signal.h>
#include <stdarg.h>
#include <stdio.h>
#include <stdlib.h>
#include <string.h>
#include <sys/mman.h>
#include <sys/syscall.h>
#include <sys/uio.h>
#include <unistd.h>

#define FILES 256
static char names[FILES][64];

/* The library that this one stands before. */
#define NEXT(name) \
    static __typeof__(&name) next; \
    if (!next) next = (__typeof__(&name))dlsym(RTLD_NEXT, #name)

static const char *name_of(int file) {
    if (file >= 0 && file < FILES && names[file][0]) return names[file];
    return file == 0 ? "input" : file == 1 ? "output" : NULL;
}

/* Adds a line. It calls the system itself, so that it isn't noted. */
static void note(int failed, const char *form, ...) {
    static int log = -2;
    int kept = errno;
    char line[256];
    va_list rest;
    if (log == -2) {
        const char *path = getenv("CALLS_LOG");
        log = path ? (int)syscall(SYS_openat, AT_FDCWD, path, O_WRONLY | O_CREAT | O_APPEND | O_CLOEXEC, 0600) : -1;
        if (path && log < 0) abort();
    }
    va_start(rest, form);
    vsnprintf(line, sizeof line - 16, form, rest);
    va_end(rest);
    strcat(line, failed ? " failed\n" : "\n");
    if (log >= 0 && syscall(SYS_write, log, line, strlen(line)) < 0) abort();
    errno = kept;
}

/* Notes an opened file, and keeps its name for its calls. */
static int opened(int file, const char *path) {
    const char *slash = strrchr(path, '/');
    const char *name = slash ? slash + 1 : path;
    if (file >= 0 && file < FILES) snprintf(names[file], sizeof names[file], "%s", name);
    note(file < 0, "open %s", name);
    return file;
}

static const char *instead(const char *path) {
    static char second[4096];
    const char *pair = getenv("INSTEAD");
    size_t length = strlen(path);
    if (!pair || strncmp(pair, path, length) != 0 || pair[length] != '=') return path;
    snprintf(second, sizeof second, "%s", pair + length + 1);
    return second;
}

/* Whether a word of the environment names this call. */
static int names_call(const char *variable, const char *word, const char *name) {
    const char *call = getenv(variable);
    size_t length = strlen(word);
    return call && name && strncmp(call, word, length) == 0 && call[length] == ' ' && strcmp(call + length + 1, name) == 0;
}

/* Kills the program where its next call is the one that KILLED names. */
static void counted(const char *word, const char *name) {
    static long left = -1;
    const char *named = getenv("KILLED"), *number = named ? strrchr(named, ' ') : NULL;
    if (!number || !name) return;
    if (left < 0) left = atol(number + 1);
    size_t length = strlen(word), rest = strlen(name);
    int is_any = strncmp(named, "any ", 4) == 0;
    int is_this = strncmp(named, word, length) == 0 && named[length] == ' ' && strncmp(named + length + 1, name, rest) == 0 &&
                  named + length + 1 + rest == number;
    if ((is_any || is_this) && --left == 0) kill(getpid(), SIGKILL);
}

/* A call that is refused is noted as one that failed; one that is skipped answers what it would have. */
#define UNMADE(word, file, count) \
    do { \
        counted(word, name_of(file)); \
        if (names_call("SKIPPED", word, name_of(file))) return (count); \
        if (names_call("REFUSED", word, name_of(file))) { \
            note(1, word " %s", name_of(file)); \
            errno = EIO; \
            return -1; \
        } \
    } while (0)

/* Whether this allocation is the one that ALLOCATION names. */
static int has_no_memory(void) {
    static long left = -1;
    if (left < 0) {
        const char *number = getenv("ALLOCATION");
        left = number ? atol(number) : 0;
    }
    return left > 0 && --left == 0;
}

extern void *__libc_malloc(size_t size);
extern void *__libc_calloc(size_t count, size_t size);
extern void *__libc_realloc(void *at, size_t size);

#define ALLOCATION(call, ...) \
    { \
        if (!has_no_memory()) return __libc_##call(__VA_ARGS__); \
        errno = ENOMEM; \
        return NULL; \
    }
void *malloc(size_t size) ALLOCATION(malloc, size)
void *calloc(size_t count, size_t size) ALLOCATION(calloc, count, size)
void *realloc(void *at, size_t size) ALLOCATION(realloc, at, size)

/* The mode, which is given only where a file may be made. */
#define MODE(flags, mode) \
    do { \
        if ((flags) & (O_CREAT | O_TMPFILE)) { \
            va_list rest; \
            va_start(rest, flags); \
            mode = va_arg(rest, int); \
            va_end(rest); \
        } \
    } while (0)

int open(const char *path, int flags, ...) {
    int mode = 0;
    NEXT(open);
    MODE(flags, mode);
    return opened(next(instead(path), flags, mode), path);
}

int open64(const char *path, int flags, ...) {
    int mode = 0;
    NEXT(open64);
    MODE(flags, mode);
    return opened(next(instead(path), flags, mode), path);
}

int openat(int folder, const char *path, int flags, ...) {
    int mode = 0;
    NEXT(openat);
    MODE(flags, mode);
    return opened(next(folder, instead(path), flags, mode), path);
}

int openat64(int folder, const char *path, int flags, ...) {
    int mode = 0;
    NEXT(openat64);
    MODE(flags, mode);
    return opened(next(folder, instead(path), flags, mode), path);
}

int close(int file) {
    NEXT(close);
    if (file >= 0 && file < FILES) names[file][0] = 0;
    return next(file);
}

/* A call of a stream, and one at a place of a file; each in the name that it has, and in that of large files. */
#define STREAM(call, word, type) \
    ssize_t call(int file, type bytes, size_t count) { \
        NEXT(call); \
        UNMADE(word, file, (ssize_t)count); \
        ssize_t done = next(file, bytes, count); \
        if (name_of(file)) note(done < 0, word " %s - %zu", name_of(file), count); \
        return done; \
    }
#define PLACE(call, word, type) \
    ssize_t call(int file, type bytes, size_t count, off_t at) { \
        NEXT(call); \
        UNMADE(word, file, (ssize_t)count); \
        ssize_t done = next(file, bytes, count, at); \
        if (name_of(file)) note(done < 0, word " %s %lld %zu", name_of(file), (long long)at, count); \
        return done; \
    }
#define PIECES(call, word) \
    ssize_t call(int file, const struct iovec *pieces, int count) { \
        NEXT(call); \
        counted(word, name_of(file)); \
        ssize_t done = next(file, pieces, count); \
        if (name_of(file)) note(done < 0, word " %s - %zd", name_of(file), done); \
        return done; \
    }
#define PIECES_AT(call, word) \
    ssize_t call(int file, const struct iovec *pieces, int count, off_t at) { \
        NEXT(call); \
        counted(word, name_of(file)); \
        ssize_t done = next(file, pieces, count, at); \
        if (name_of(file)) note(done < 0, word " %s %lld %zd", name_of(file), (long long)at, done); \
        return done; \
    }
#define SYNC(call) \
    int call(int file) { \
        NEXT(call); \
        UNMADE("sync", file, 0); \
        int done = next(file); \
        if (name_of(file)) note(done < 0, "sync %s", name_of(file)); \
        return done; \
    }
#define RESIZE(call) \
    int call(int file, off_t size) { \
        NEXT(call); \
        counted("resize", name_of(file)); \
        int done = next(file, size); \
        if (name_of(file)) note(done < 0, "resize %s %lld", name_of(file), (long long)size); \
        return done; \
    }
#define MAP(call) \
    void *call(void *at, size_t length, int protection, int flags, int file, off_t from) { \
        NEXT(call); \
        if (name_of(file)) note(0, "map %s", name_of(file)); \
        return next(at, length, protection, flags, file, from); \
    }

STREAM(read, "read", void *)
STREAM(write, "write", const void *)
PLACE(pread, "read", void *)
PLACE(pread64, "read", void *)
PLACE(pwrite, "write", const void *)
PLACE(pwrite64, "write", const void *)
PIECES(readv, "read")
PIECES(writev, "write")
PIECES_AT(preadv, "read")
PIECES_AT(preadv64, "read")
PIECES_AT(pwritev, "write")
PIECES_AT(pwritev64, "write")
SYNC(fsync)
SYNC(fdatasync)
RESIZE(ftruncate)
RESIZE(ftruncate64)
MAP(mmap)
MAP(mmap64)
