/* What a program does that takes the client in C: asks two coprocessors, from several threads, and where cca has gone; forks,
   gets signals, takes its children's ends, and starts other programs.

       library WHAT STUB FOLDER [FOLDER]

   FOLDER/socket is a socket, where one is asked. */
#include "calls.h"
#include "cca_client.h"

#include <errno.h>
#include <fcntl.h>
#include <poll.h>
#include <pthread.h>
#include <signal.h>
#include <stdio.h>
#include <stdlib.h>
#include <string.h>
#include <sys/time.h>
#include <sys/wait.h>
#include <unistd.h>

#define THREADS 4
#define REQUESTS 200
#define MOST_FILES 1024

static struct cca_client shared;

/* How many descriptors this process has. */
static int count_files(void)
{
    int file, count = 0;
    for (file = 0; file < MOST_FILES; file++)
        count += fcntl(file, F_GETFD) != -1;
    return count;
}

static enum cca_answer asked(struct cca_client *it, const char *request, char *reply)
{
    return cca_ask(it, request, strlen(request), reply);
}

/* Two coprocessors of one process: the first one is stopped, which must not wait for the second one. */
static int two(char **words)
{
    static char reply[CCA_REPLY_SIZE];
    struct cca_client first, second;
    cca_init(&first, words[3], words[2], "run");
    cca_init(&second, words[4], words[2], "run");
    if (asked(&first, "A role=B C", reply) != CCA_REPLY || asked(&second, "A role=B D", reply) != CCA_REPLY)
        return 1;
    printf("%s %d", reply, cca_stop(&first));
    printf(" %d\n", cca_stop(&second));
    return 0;
}

/* One thread of several: how many replies belonged to other requests. */
static void *thread(void *number)
{
    static char replies[THREADS][CCA_REPLY_SIZE];
    char *reply = replies[*(int *)number];
    long wrong = 0;
    int turn;
    for (turn = 0; turn < REQUESTS; turn++) {
        char request[64], wanted[64];
        snprintf(request, sizeof request, "A role=B K%d.%d", *(int *)number, turn);
        snprintf(wanted, sizeof wanted, "OK value=role=B,K%d.%d", *(int *)number, turn);
        wrong += asked(&shared, request, reply) != CCA_REPLY || strcmp(reply, wanted) != 0;
    }
    return (void *)wrong;
}

static int threads(char **words)
{
    pthread_t all[THREADS];
    int numbers[THREADS], it;
    long wrong = 0;
    cca_init(&shared, words[3], words[2], "run");
    for (it = 0; it < THREADS; it++) {
        numbers[it] = it;
        if (pthread_create(&all[it], NULL, thread, &numbers[it]) != 0)
            return 1;
    }
    for (it = 0; it < THREADS; it++) {
        void *found;
        pthread_join(all[it], &found);
        wrong += (long)found;
    }
    printf("%ld %d\n", wrong, cca_stop(&shared));
    return 0;
}

/* Requests, one by one, each behind the seconds that its reply has: what came of each, and its reply. */
static int each(char **words)
{
    static char reply[CCA_REPLY_SIZE], line[20000];
    signal(SIGPIPE, SIG_DFL);
    cca_init(&shared, words[3], words[2], "run");
    while (fgets(line, sizeof line, stdin)) {
        enum cca_answer answer;
        char *request;
        shared.patience = (int)strtol(line, &request, 10);
        request++;
        request[strcspn(request, "\n")] = '\0';
        answer = asked(&shared, strcmp(request, "newline") ? request : "A role=B C\nA role=B D", reply);
        printf("%d %s\n", answer, answer == CCA_REPLY ? reply : "-");
    }
    return 0;
}

/* A child that asks by its parent's client. */
static int forked(char **words)
{
    static char reply[CCA_REPLY_SIZE];
    int status = 0;
    cca_init(&shared, words[3], words[2], "run");
    asked(&shared, "A role=B C", reply);
    if (fork() == 0)
        _exit(asked(&shared, "A role=B D", reply));
    wait(&status);
    printf("%d %d\n", WEXITSTATUS(status), asked(&shared, "A role=B E", reply));
    return 0;
}

/* A child that lives on: cca ends with the input of its parent all the same. */
static int outlived(char **words)
{
    static char reply[CCA_REPLY_SIZE];
    int ends[2];
    char byte;
    cca_init(&shared, words[3], words[2], "run");
    shared.patience = 60;
    if (pipe(ends) != 0 || asked(&shared, "A role=B C", reply) != CCA_REPLY)
        return 1;
    if (fork() == 0) {
        close(ends[1]);
        _exit((int)read(ends[0], &byte, 1)); /* as long as its parent lives */
    }
    printf("%d\n", cca_stop(&shared));
    return 0;
}

/* A client of FOLDER/socket. */
static void init_socket(const char *folder)
{
    static char path[200];
    snprintf(path, sizeof path, "%s/socket", folder);
    cca_init_socket(&shared, path);
}

/* A child of one that is connected: how many descriptors of the client's it has, and what came of its parent's next request. */
static int connected(char **words)
{
    static char reply[CCA_REPLY_SIZE];
    int status = 0, before = count_files();
    init_socket(words[3]);
    if (asked(&shared, "A B", reply) != CCA_REPLY)
        return 1;
    if (fork() == 0)
        _exit(count_files() - before);
    wait(&status);
    printf("%d %d\n", WEXITSTATUS(status), asked(&shared, "A C", reply));
    return 0;
}

static int files_before, files_of_other;

static void *fork_other(void *unused)
{
    int status = 0;
    pid_t child = real_fork();
    (void)unused;
    if (child == 0)
        _exit(count_files() - files_before);
    waitpid(child, &status, 0);
    files_of_other = WEXITSTATUS(status);
    return NULL;
}

static void beside_start(void)
{
    pthread_t other;
    if (pthread_create(&other, NULL, fork_other, NULL) == 0)
        pthread_join(other, NULL);
}

/* Another thread forks while cca is started: how many of the client's descriptors that child has, and what came of the request. */
static int beside(char **words)
{
    static char reply[CCA_REPLY_SIZE];
    int came;
    files_before = count_files();
    cca_init(&shared, words[3], words[2], "run");
    files_of_other = -1;
    beside_fork = beside_start;
    came = asked(&shared, "A role=B C", reply);
    printf("%d %d\n", files_of_other, came);
    return 0;
}

static void *ask_and_end(void *reply)
{
    asked(&shared, "A role=B stub=waits500 C", reply);
    pthread_testcancel();
    return NULL;
}

/* A thread is cancelled while it asks: whether that ended it, and what comes of the next request. */
static int cancelled(char **words)
{
    static char replies[2][CCA_REPLY_SIZE];
    pthread_t other;
    void *ended;
    cca_init(&shared, words[3], words[2], "run");
    if (pthread_create(&other, NULL, ask_and_end, replies[0]) != 0 || pthread_cancel(other) != 0)
        return 1;
    pthread_join(other, &ended);
    printf("%d %d\n", ended == PTHREAD_CANCELED, asked(&shared, "A role=B D", replies[1]));
    return 0;
}

/* Three requests and an end, where every other call is cut short by a signal. */
static int ask_interrupted(void)
{
    static char reply[CCA_REPLY_SIZE];
    int answers[3], at;
    is_interrupted = 1;
    for (at = 0; at < 3; at++)
        answers[at] = asked(&shared, "A role=B C", reply);
    at = cca_stop(&shared);
    is_interrupted = 0;
    printf("%d %d %d %d\n", answers[0], answers[1], answers[2], at);
    return 0;
}

static int interrupted(char **words)
{
    cca_init(&shared, words[3], words[2], "run");
    return ask_interrupted();
}

static int interrupted_socket(char **words)
{
    init_socket(words[3]);
    return ask_interrupted();
}

static void take_signal(int number)
{
    (void)number;
}

/* Signals come so often, and restart the calls that they interrupt, or not. */
static void set_timer(int microseconds, int flags)
{
    struct itimerval timer = {{0, 0}, {0, 0}};
    struct sigaction action;
    memset(&action, 0, sizeof action);
    action.sa_handler = take_signal;
    action.sa_flags = flags;
    sigaction(SIGVTALRM, &action, NULL);
    sigaction(SIGPROF, &action, NULL);
    sigaction(SIGALRM, &action, NULL);
    timer.it_interval.tv_usec = timer.it_value.tv_usec = microseconds;
    setitimer(ITIMER_REAL, &timer, NULL);
}

/* Thousands of requests beside signals: how many didn't get their replies. */
static int storm(char **words)
{
    static char reply[CCA_REPLY_SIZE];
    int turn, lost_ones = 0;
    cca_init(&shared, words[3], words[2], "run");
    for (turn = 0; turn < 40 * REQUESTS; turn++) {
        if (turn % REQUESTS == 0)
            set_timer(turn % (2 * REQUESTS) ? 1000 : 50, turn % (4 * REQUESTS) ? SA_RESTART : 0);
        lost_ones += asked(&shared, "A role=B C", reply) != CCA_REPLY;
    }
    set_timer(0, 0);
    printf("%d %d\n", lost_ones, cca_stop(&shared));
    return 0;
}

/* An end that takes seconds, beside signals that cut each nap short. */
static int closing(char **words)
{
    static char reply[CCA_REPLY_SIZE];
    int status;
    cca_init(&shared, words[3], words[2], "run");
    shared.patience = 60;
    asked(&shared, "A role=B stub=lingers3000 C", reply);
    set_timer(100, SA_RESTART);
    status = cca_stop(&shared);
    set_timer(0, 0);
    printf("%d\n", status);
    return 0;
}

/* How often a hundred requests write, read and ask whether there is anything. */
static int counted(char **words)
{
    static char reply[CCA_REPLY_SIZE];
    int turn, is_wrong = 0;
    if (strcmp(words[2], "socket") == 0)
        init_socket(words[3]);
    else
        cca_init(&shared, words[3], words[2], "run");
    is_wrong |= asked(&shared, "A role=B C", reply) != CCA_REPLY;
    writes = reads = polls = 0;
    for (turn = 0; turn < 100; turn++)
        is_wrong |= asked(&shared, "A role=B C", reply) != CCA_REPLY;
    printf("%d %d %d %d\n", is_wrong, writes, reads, polls);
    return 0;
}

static volatile sig_atomic_t has_taken;

static void take_children(int number)
{
    int error = errno;
    (void)number;
    while (waitpid(-1, NULL, WNOHANG) > 0)
        has_taken = 1;
    errno = error;
}

/* Another one has the status of cca before the client asks for it: what comes of the next request, and of the one behind it. */
static int taken(char **words)
{
    static char reply[CCA_REPLY_SIZE];
    enum cca_answer answers[2];
    sigset_t ends, before;
    signal(SIGCHLD, take_children);
    cca_init(&shared, words[3], words[2], "run");
    asked(&shared, "A role=B C", reply);
    sigemptyset(&ends);
    sigaddset(&ends, SIGCHLD);
    sigprocmask(SIG_BLOCK, &ends, &before);
    kill(shared.pid, SIGKILL);
    while (!has_taken)
        sigsuspend(&before);
    sigprocmask(SIG_SETMASK, &before, NULL);
    answers[0] = asked(&shared, "A role=B D", reply);
    answers[1] = asked(&shared, "A role=B E", reply);
    printf("%d %d %d %d\n", answers[0], answers[1], shared.status, cca_stop(&shared));
    return 0;
}

/* Nobody has it: this program has no ends of children. What comes of a request at which cca ends, and of the next one. */
static int ignored(char **words)
{
    static char reply[CCA_REPLY_SIZE];
    enum cca_answer answers[2];
    signal(SIGCHLD, SIG_IGN);
    cca_init(&shared, words[3], words[2], "run");
    answers[0] = asked(&shared, "A role=B stub=ends7 C", reply);
    answers[1] = asked(&shared, "A role=B D", reply);
    printf("%d %d %d %d\n", answers[0], answers[1], shared.status, cca_stop(&shared));
    return 0;
}

/* How many descriptors another program has that this one starts. */
static int count_in_other(void)
{
    FILE *it = popen("ls /proc/self/fd | wc -l", "r");
    int count = -1;
    if (!it || fscanf(it, "%d", &count) != 1)
        return -1;
    pclose(it);
    return count;
}

/* Whether cca has none of this program's descriptors, is in another session, and leaves its pipes to this program alone. */
static int apart(char **words)
{
    static char reply[CCA_REPLY_SIZE];
    struct pollfd other;
    int ends[2], count;
    if (pipe(ends) != 0)
        return 1;
    count = count_in_other();
    cca_init(&shared, words[3], words[2], "run");
    if (asked(&shared, "A role=B C", reply) != CCA_REPLY)
        return 1;
    printf("%d", count_in_other() - count);
    close(ends[1]);
    other.fd = ends[0];
    other.events = POLLIN;
    printf(" %d %d", poll(&other, 1, 2000), getsid(shared.pid) == shared.pid);
    printf(" %d\n", cca_stop(&shared));
    return 0;
}

int main(int count, char **words)
{
    static const struct {
        const char *name;
        int (*run)(char **words);
    } all[] = {
        {"two", two},
        {"threads", threads},
        {"each", each},
        {"forked", forked},
        {"outlived", outlived},
        {"connected", connected},
        {"beside", beside},
        {"cancelled", cancelled},
        {"interrupted", interrupted},
        {"interrupted-socket", interrupted_socket},
        {"storm", storm},
        {"closing", closing},
        {"counted", counted},
        {"ignored", ignored},
        {"taken", taken},
        {"apart", apart},
    };
    size_t at;
    if (count < 4)
        return 2;
    for (at = 0; at < sizeof all / sizeof *all; at++)
        if (strcmp(words[1], all[at].name) == 0)
            return all[at].run(words);
    return 2;
}
