/* See calls.h. A program's own functions stand before those of the C library, which they call. */
#include "calls.h"

#include <dlfcn.h>
#include <errno.h>
#include <poll.h>
#include <stddef.h>
#include <sys/socket.h>
#include <sys/uio.h>
#include <time.h>
#include <unistd.h>

int is_interrupted, polls, reads, writes;
void (*beside_fork)(void);

/* Whether a signal comes, as far as a call can tell that was made so often. */
static int is_cut_short(int *turn)
{
    if (!is_interrupted || (*turn)++ % 2 != 0)
        return 0;
    errno = EINTR;
    return 1;
}

/* The call of the C library, and how often this one was interrupted or not. The pointer to a function is set as one to data,
   which is what there is. */
#define REAL(name, type) \
    static int turn; \
    type; \
    *(void **)&real = dlsym(RTLD_NEXT, name)

int poll(struct pollfd *files, nfds_t count, int limit)
{
    REAL("poll", int (*real)(struct pollfd *, nfds_t, int));
    polls++;
    return is_cut_short(&turn) ? -1 : real(files, count, limit);
}

ssize_t read(int file, void *bytes, size_t size)
{
    REAL("read", ssize_t (*real)(int, void *, size_t));
    reads++;
    return is_cut_short(&turn) ? -1 : real(file, bytes, size);
}

ssize_t write(int file, const void *bytes, size_t size)
{
    REAL("write", ssize_t (*real)(int, const void *, size_t));
    writes++;
    return is_cut_short(&turn) ? -1 : real(file, bytes, size);
}

ssize_t writev(int file, const struct iovec *parts, int count)
{
    REAL("writev", ssize_t (*real)(int, const struct iovec *, int));
    writes++;
    return is_cut_short(&turn) ? -1 : real(file, parts, count);
}

ssize_t sendmsg(int file, const struct msghdr *message, int flags)
{
    REAL("sendmsg", ssize_t (*real)(int, const struct msghdr *, int));
    writes++;
    return is_cut_short(&turn) ? -1 : real(file, message, flags);
}

int connect(int file, const struct sockaddr *place, socklen_t size)
{
    REAL("connect", int (*real)(int, const struct sockaddr *, socklen_t));
    return is_cut_short(&turn) ? -1 : real(file, place, size);
}

int nanosleep(const struct timespec *length, struct timespec *left)
{
    REAL("nanosleep", int (*real)(const struct timespec *, struct timespec *));
    if (!is_cut_short(&turn))
        return real(length, left);
    if (left)
        *left = *length;
    return -1;
}

pid_t real_fork(void)
{
    pid_t (*real)(void);
    *(void **)&real = dlsym(RTLD_NEXT, "fork");
    return real();
}

pid_t fork(void)
{
    void (*beside)(void) = beside_fork;
    beside_fork = NULL;
    if (beside)
        beside();
    return real_fork();
}
