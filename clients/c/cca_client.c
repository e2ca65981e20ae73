/* See cca_client.h. */
#ifndef _GNU_SOURCE
#define _GNU_SOURCE
#endif
#include "cca_client.h"

#include <errno.h>
#include <fcntl.h>
#include <poll.h>
#include <signal.h>
#include <stdlib.h>
#include <string.h>
#include <sys/socket.h>
#include <sys/syscall.h>
#include <sys/time.h>
#include <sys/uio.h>
#include <sys/un.h>
#include <sys/wait.h>
#include <time.h>
#include <unistd.h>

#define IN_USE_SECONDS 10 /* until the program that has the files must have ended */
#define IN_USE_PAUSE 100  /* milliseconds until cca is started again */
#define ENDING_SECONDS 10 /* for a process that has closed its output */
#define GLANCE 10         /* milliseconds until it is asked again whether a process has ended */
#define LONGEST_WAIT 1000000

/* ---- time */

/* Of a clock that nobody sets: a signal cuts naps and waits short. */
static long long milliseconds(void)
{
    struct timespec now;
    clock_gettime(CLOCK_MONOTONIC, &now);
    return now.tv_sec * 1000LL + now.tv_nsec / 1000000;
}

static void nap(long length)
{
    struct timespec left = {0, 0};
    left.tv_nsec = length * 1000000;
    while (nanosleep(&left, &left) != 0 && errno == EINTR)
        ;
}

/* Waits until bytes may be read or written: whether that is so before the time is up. */
static int wait_until(int file, short events, long long until)
{
    struct pollfd waits = {0, 0, 0};
    int found = 0;
    waits.fd = file;
    waits.events = events;
    do {
        long long left = until - milliseconds();
        if (left <= 0)
            return 0;
        found = poll(&waits, 1, left < LONGEST_WAIT ? (int)left : LONGEST_WAIT);
    } while (found == 0 || (found < 0 && errno == EINTR));
    return found > 0;
}

/* ---- descriptors, and children of fork

   A child that this program forks closes those of each cca that runs and of each connection: cca would else not see the end of
   its input, and the child could ask under the role of a socket. */

struct cca_ends {
    int to, from;        /* ours; both are one where it is a socket */
    int input, output;   /* those of cca, until it is started */
    pthread_t starter;   /* the thread that starts it */
    struct cca_ends *next;
};

static struct cca_ends *held;
static pthread_mutex_t held_turn = PTHREAD_MUTEX_INITIALIZER;

static void close_file(int *file)
{
    if (*file >= 0)
        close(*file);
    *file = -1;
}

static void close_ours(struct cca_ends *it)
{
    if (it->from == it->to)
        it->from = -1;
    close_file(&it->to);
    close_file(&it->from);
}

static void close_theirs(struct cca_ends *it)
{
    close_file(&it->input);
    close_file(&it->output);
}

static void before_fork(void)
{
    pthread_mutex_lock(&held_turn);
}

static void in_parent(void)
{
    pthread_mutex_unlock(&held_turn);
}

/* The child may be the one that becomes cca: it keeps the two that it takes. */
static void in_child(void)
{
    struct cca_ends *it;
    for (it = held; it; it = it->next) {
        close_ours(it);
        if (!pthread_equal(it->starter, pthread_self()))
            close_theirs(it);
    }
    held = NULL;
    pthread_mutex_unlock(&held_turn);
}

static void heed_forks(void)
{
    pthread_atfork(before_fork, in_parent, in_child);
}

/* A descriptor above those of the standard streams, which goes to no program that is started. */
static int above_streams(int file)
{
    int it = fcntl(file, F_DUPFD_CLOEXEC, STDERR_FILENO + 1);
    close(file);
    return it;
}

static int make_pipe(int *output, int *input)
{
    int ends[2];
    if (pipe2(ends, O_CLOEXEC) != 0)
        return -1;
    *output = above_streams(ends[0]);
    *input = above_streams(ends[1]);
    return *output >= 0 && *input >= 0 ? 0 : -1;
}

/* Both pipes of a process. Our end of its input doesn't block: it may take none. */
static int make_pipes(struct cca_ends *it)
{
    if (make_pipe(&it->input, &it->to) != 0 || make_pipe(&it->from, &it->output) != 0)
        return -1;
    return fcntl(it->to, F_SETFL, O_NONBLOCK);
}

static int make_socket(struct cca_ends *it)
{
    it->to = it->from = above_streams(socket(AF_UNIX, SOCK_STREAM | SOCK_CLOEXEC, 0));
    return it->to >= 0 ? 0 : -1;
}

/* Closes what is still open of a process or a connection. */
static void release(struct cca_client *it)
{
    struct cca_ends **at = &held;
    pthread_mutex_lock(&held_turn);
    while (*at != it->ends)
        at = &(*at)->next;
    *at = it->ends->next;
    close_ours(it->ends);
    close_theirs(it->ends);
    free(it->ends);
    it->ends = NULL;
    pthread_mutex_unlock(&held_turn);
}

/* Opens descriptors. No child is forked until they are noted. */
static int hold(struct cca_client *it, int (*open_them)(struct cca_ends *ends))
{
    int came;
    it->ends = malloc(sizeof *it->ends);
    if (!it->ends)
        return -1;
    it->ends->to = it->ends->from = it->ends->input = it->ends->output = -1;
    it->ends->starter = pthread_self();
    pthread_mutex_lock(&held_turn);
    came = open_them(it->ends);
    it->ends->next = held;
    held = it->ends;
    pthread_mutex_unlock(&held_turn);
    if (came != 0)
        release(it);
    return came;
}

/* Ends the input of cca, at which it ends. */
static void end_input(struct cca_client *it)
{
    pthread_mutex_lock(&held_turn);
    close_file(&it->ends->to);
    pthread_mutex_unlock(&held_turn);
}

/* ---- a process */

/* Closes every descriptor but the standard streams: a program that is started gets none of ours. */
static void close_others(void)
{
    long file = STDERR_FILENO + 1, most = sysconf(_SC_OPEN_MAX);
#ifdef SYS_close_range
    if (syscall(SYS_close_range, (unsigned)file, ~0U, 0U) == 0)
        return;
#endif
    for (; file < most; file++)
        close((int)file);
}

/* The child: cca in its folder, with signals as a program expects them, and in a session of its own, so that Ctrl-C at the
   terminal stops the program that asks, and cca ends its request. */
static void become(const struct cca_client *it)
{
    sigset_t none;
    sigemptyset(&none);
    signal(SIGPIPE, SIG_DFL);
    sigprocmask(SIG_SETMASK, &none, NULL);
    setsid();
    if (dup2(it->ends->input, STDIN_FILENO) >= 0 && dup2(it->ends->output, STDOUT_FILENO) >= 0 && chdir(it->folder) == 0) {
        close_others();
        execlp(it->program, it->program, it->command, (char *)NULL);
    }
    _exit(CCA_EXIT_NOT_STARTED);
}

static int start(struct cca_client *it)
{
    it->status = 0;
    if (hold(it, make_pipes) != 0)
        return -1;
    it->pid = fork();
    if (it->pid == 0)
        become(it);
    pthread_mutex_lock(&held_turn);
    close_theirs(it->ends);
    pthread_mutex_unlock(&held_turn);
    if (it->pid > 0)
        return 0;
    it->pid = 0;
    release(it);
    return -1;
}

/* Waits for a process, and kills it where it doesn't end in time. How it ended. */
static int wait_for(pid_t pid, int seconds)
{
    long long until = milliseconds() + seconds * 1000LL;
    int status = 0;
    pid_t ended;
    while ((ended = waitpid(pid, &status, WNOHANG)) == 0 && milliseconds() < until)
        nap(GLANCE);
    if (ended == 0) {
        if (kill(-pid, SIGKILL) != 0) /* with what it has started, where it is a script */
            kill(pid, SIGKILL);
        while ((ended = waitpid(pid, &status, 0)) < 0 && errno == EINTR)
            ;
    }
    if (ended < 0)
        return CCA_UNKNOWN;
    return WIFEXITED(status) ? WEXITSTATUS(status) : 128 + WTERMSIG(status);
}

/* Waits for cca, and notes how it ended. Its input stays open until then: it would carry out half a request at its end. */
static int reap(struct cca_client *it, int seconds)
{
    it->status = wait_for(it->pid, seconds);
    it->pid = 0;
    release(it);
    return it->status;
}

/* ---- a connection */

/* Connects. Where the front has many connections that wait to be taken, that waits too. */
static int connect_until(int file, const struct sockaddr_un *place, long long until)
{
    long long left;
    while ((left = until - milliseconds()) > 0) {
        struct timeval most = {0, 0};
        most.tv_sec = (time_t)(left / 1000);
        most.tv_usec = (suseconds_t)(left % 1000 * 1000);
        setsockopt(file, SOL_SOCKET, SO_SNDTIMEO, &most, sizeof most);
        if (connect(file, (const struct sockaddr *)place, sizeof *place) == 0)
            return 0;
        if (errno != EINTR)
            return -1;
    }
    return -1;
}

/* Connects to the socket of a front. */
static int reach(struct cca_client *it)
{
    struct sockaddr_un place = {0};
    place.sun_family = AF_UNIX;
    if (strlen(it->socket) >= sizeof place.sun_path)
        return -1;
    strcpy(place.sun_path, it->socket);
    if (hold(it, make_socket) != 0)
        return -1;
    if (connect_until(it->ends->to, &place, milliseconds() + it->patience * 1000LL) == 0)
        return 0;
    release(it);
    return -1;
}

/* ---- a request and its reply */

/* Ends a process that gave no whole reply: at once, but where it ends by itself. */
static enum cca_answer give_up(struct cca_client *it, enum cca_answer answer, int is_ending)
{
    if (it->socket) { /* what the front does with a request that it has is its own */
        release(it);
        return answer;
    }
    switch (reap(it, is_ending ? ENDING_SECONDS : 0)) { /* at these ends no request was taken */
    case CCA_EXIT_USAGE: case CCA_EXIT_OUT_OF_MEMORY: case CCA_EXIT_IN_USE:
    case CCA_EXIT_TRAIL_CELL_DAMAGED: case CCA_EXIT_WRONG_SIZE: case CCA_EXIT_NOT_STARTED:
        return CCA_NOT_SENT;
    }
    return answer;
}

/* What is left of a line: the request, and its newline. */
struct line {
    struct iovec parts[2];
};

/* Whether all of it was taken by a write of so many bytes. */
static int is_written(struct line *it, size_t written)
{
    size_t of_first = written < it->parts[0].iov_len ? written : it->parts[0].iov_len;
    it->parts[0].iov_base = (char *)it->parts[0].iov_base + of_first;
    it->parts[0].iov_len -= of_first;
    it->parts[1].iov_len -= written - of_first;
    return it->parts[0].iov_len + it->parts[1].iov_len == 0;
}

/* Writes as much of a line as there is room for, in one call. */
static ssize_t write_some(const struct cca_client *it, struct line *line)
{
    struct msghdr message = {0};
    if (!it->socket)
        return writev(it->ends->to, line->parts, 2);
    message.msg_iov = line->parts;
    message.msg_iovlen = 2;
    return sendmsg(it->ends->to, &message, MSG_NOSIGNAL | MSG_DONTWAIT);
}

/* Writes a whole line: 0, or the error at which that failed. */
static int write_line(const struct cca_client *it, const char *request, size_t length, long long until)
{
    static char newline[] = "\n";
    struct line line;
    line.parts[0].iov_base = (char *)request; /* which is only read */
    line.parts[0].iov_len = length;
    line.parts[1].iov_base = newline;
    line.parts[1].iov_len = 1;
    for (;;) {
        ssize_t written = write_some(it, &line);
        int error = written < 0 ? errno : 0;
        if (written >= 0 && is_written(&line, (size_t)written))
            return 0;
        if (error != 0 && error != EINTR && error != EAGAIN)
            return error;
        if (!wait_until(it->ends->to, POLLOUT, until))
            return ETIMEDOUT;
    }
}

/* The same to a process, where it fails with EPIPE if the process has ended: the signal that would end us is taken back, unless
   it was waiting before. */
static void write_to_process(const struct cca_client *it, const char *request, size_t length, long long until)
{
    const struct timespec at_once = {0, 0};
    sigset_t broken, before, waiting;
    sigemptyset(&broken);
    sigaddset(&broken, SIGPIPE);
    sigemptyset(&waiting);
    pthread_sigmask(SIG_BLOCK, &broken, &before);
    if (sigismember(&before, SIGPIPE))
        sigpending(&waiting);
    if (write_line(it, request, length, until) == EPIPE && !sigismember(&waiting, SIGPIPE))
        while (sigtimedwait(&broken, NULL, &at_once) < 0 && errno == EINTR)
            ;
    if (!sigismember(&before, SIGPIPE))
        pthread_sigmask(SIG_SETMASK, &before, NULL);
}

/* Reads one whole reply and not a byte more: 1. 0 where cca has ended, and -1 where it is out of step, or too slow. */
static int read_reply(const struct cca_client *it, char *reply, size_t size, long long until)
{
    size_t taken = 0;
    while (taken < size) {
        const char *newline;
        ssize_t more;
        if (!wait_until(it->ends->from, POLLIN, until))
            return -1;
        more = read(it->ends->from, reply + taken, size - taken);
        if (more == 0 || (more < 0 && errno == ECONNRESET))
            return 0;
        if (more < 0 && errno != EINTR && errno != EAGAIN)
            return -1;
        if (more < 0)
            continue;
        newline = memchr(reply + taken, '\n', (size_t)more);
        taken += (size_t)more;
        if (newline) {
            int is_one = newline == reply + taken - 1 && !memchr(reply, '\0', taken);
            reply[taken - 1] = '\0';
            return is_one ? 1 : -1;
        }
    }
    return -1;
}

/* 1 where nothing comes from cca, 0 where it has ended, and -1 where it says what it wasn't asked. */
static int is_waiting(const struct cca_client *it)
{
    struct pollfd waits = {0, POLLIN, 0};
    char byte;
    int found;
    waits.fd = it->ends->from;
    while ((found = poll(&waits, 1, 0)) < 0 && errno == EINTR) /* by a signal, also where nothing is waited for */
        ;
    if (found == 0)
        return 1;
    if (it->socket)
        return recv(it->ends->from, &byte, 1, MSG_PEEK | MSG_DONTWAIT) > 0 ? -1 : 0;
    return waits.revents & POLLIN ? -1 : 0;
}

/* A process that waits for a request, or a connection: started or made where there is none. */
static int is_ready(struct cca_client *it)
{
    int came = it->ends ? is_waiting(it) : 1;
    if (came == 0 && it->socket) { /* a front closes a connection that is silent for long: nothing was sent on it */
        release(it);
    } else if (came != 1) {
        give_up(it, CCA_NOT_SENT, came == 0);
        return 0;
    }
    if (it->ends)
        return 1;
    if (it->socket)
        return reach(it) == 0;
    return (it->status == CCA_EXIT_IN_USE || !cca_look_first(it->status)) && start(it) == 0;
}

/* Whether a line is the front's own, which cca never sends: it carried out neither the request nor one behind it. */
static int is_fronts_own(const struct cca_client *it, const char *reply)
{
    return it->socket && strncmp(reply, "-- ", 3) == 0;
}

static enum cca_answer ask_once(struct cca_client *it, const char *request, size_t length, char *reply, size_t size)
{
    long long until;
    int came;
    if (!is_ready(it))
        return CCA_NOT_SENT;
    until = milliseconds() + it->patience * 1000LL;
    if (it->socket)
        write_line(it, request, length, until);
    else
        write_to_process(it, request, length, until);
    came = read_reply(it, reply, size, until);
    if (came == 1 && is_fronts_own(it, reply))
        return give_up(it, CCA_NOT_SENT, 0);
    return came == 1 ? CCA_REPLY : give_up(it, CCA_NO_REPLY, came == 0);
}

/* Asks again for some seconds where another program has the files. */
static enum cca_answer ask(struct cca_client *it, const char *request, size_t length, char *reply, size_t size)
{
    long long until = milliseconds() + IN_USE_SECONDS * 1000LL;
    enum cca_answer answer = ask_once(it, request, length, reply, size);
    while (answer == CCA_NOT_SENT && it->status == CCA_EXIT_IN_USE && milliseconds() < until) {
        nap(IN_USE_PAUSE);
        answer = ask_once(it, request, length, reply, size);
    }
    return answer;
}

/* ---- what cca_client.h declares */

/* Begins a turn. A thread that is cancelled in it would leave it to nobody. */
static int begin_turn(struct cca_client *it)
{
    int cancelling;
    pthread_setcancelstate(PTHREAD_CANCEL_DISABLE, &cancelling);
    pthread_mutex_lock(&it->turn);
    return cancelling;
}

static void end_turn(struct cca_client *it, int cancelling)
{
    pthread_mutex_unlock(&it->turn);
    pthread_setcancelstate(cancelling, &cancelling);
}

void cca_init(struct cca_client *it, const char *folder, const char *program, const char *command)
{
    static pthread_once_t once = PTHREAD_ONCE_INIT;
    pthread_once(&once, heed_forks);
    memset(it, 0, sizeof *it);
    it->folder = folder;
    it->program = program;
    it->command = command;
    it->patience = 300;
    it->owner = getpid();
    pthread_mutex_init(&it->turn, NULL);
}

void cca_init_socket(struct cca_client *it, const char *socket)
{
    cca_init(it, NULL, NULL, NULL);
    it->socket = socket;
}

enum cca_answer cca_ask(struct cca_client *it, const char *request, size_t length, char *reply)
{
    int status;
    return cca_ask_short(it, request, length, reply, CCA_REPLY_SIZE, &status);
}

enum cca_answer cca_ask_short(struct cca_client *it, const char *request, size_t length, char *reply, size_t size, int *status)
{
    enum cca_answer answer;
    int cancelling;
    *status = 0;
    if (it->owner != getpid() || memchr(request, '\n', length))
        return CCA_NO_REQUEST;
    cancelling = begin_turn(it);
    answer = ask(it, request, length, reply, size);
    *status = it->status;
    end_turn(it, cancelling);
    return answer;
}

/* Ends cca, at once or once it has answered, or closes the connection. How cca ended. */
static int end(struct cca_client *it, int is_at_once)
{
    int status = 0, cancelling;
    if (it->owner != getpid())
        return 0;
    cancelling = begin_turn(it);
    if (it->pid != 0) {
        if (!is_at_once)
            end_input(it);
        status = reap(it, is_at_once ? 0 : it->patience);
    } else if (it->ends) {
        release(it);
    }
    end_turn(it, cancelling);
    return status;
}

int cca_stop(struct cca_client *it)
{
    return end(it, 0);
}

int cca_drop(struct cca_client *it)
{
    return end(it, 1);
}

int cca_look_first(int status)
{
    switch (status) {
    case CCA_EXIT_USAGE: case CCA_EXIT_CELL_DAMAGED: case CCA_EXIT_MODULE_FAILED: case CCA_EXIT_STORE_FAILED:
    case CCA_EXIT_IN_USE: case CCA_EXIT_TRAIL_FAILED: case CCA_EXIT_TRAIL_CELL_DAMAGED: case CCA_EXIT_TRAIL_FULL:
    case CCA_EXIT_WRONG_SIZE: case CCA_EXIT_NOT_STARTED: case CCA_UNKNOWN:
        return 1;
    }
    return 0;
}
