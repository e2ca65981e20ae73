/* How a program reaches cca: request lines to a process of its own, over two pipes, or to a front, over a Unix socket.
   cca.h has a function for each verb over it.

   A reply must never be taken for that to another request. So requests of several threads take turns, and where a request gets
   no whole reply, whatever the reason, cca is killed, or the connection is closed; the next request begins anew.

   No signal cuts a call short. A thread that is cancelled (pthread_cancel) ends its call first, which may take as long as the
   reply; cancelling asynchronously isn't allowed. A child of fork has none of the descriptors, and can't ask. */
#ifndef CCA_CLIENT_H
#define CCA_CLIENT_H

#include <pthread.h>
#include <stddef.h>
#include <sys/types.h>

#ifdef __cplusplus
extern "C" {
#endif

#define CCA_REPLY_SIZE 66581 /* bytes of the longest reply, with its newline */

/* How cca ended, as docs/operating explains. A signal is told as 128 and its number. */
enum cca_status {
    CCA_EXIT_DONE = 0,                /* its input ended, and each line was answered */
    CCA_EXIT_USAGE = 2,               /* the command line is wrong */
    CCA_EXIT_CELL_DAMAGED = 3,        /* a cell of the module or the store isn't valid */
    CCA_EXIT_INPUT_FAILED = 4,        /* standard input failed */
    CCA_EXIT_OUTPUT_FAILED = 5,       /* standard output failed */
    CCA_EXIT_MODULE_FAILED = 6,       /* the file of the module failed */
    CCA_EXIT_STORE_FAILED = 7,        /* the file of the store failed */
    CCA_EXIT_RANDOM_FAILED = 8,       /* the source of random bytes failed */
    CCA_EXIT_INPUT_TOO_LONG = 9,      /* 2^40 bytes of requests were read */
    CCA_EXIT_OUT_OF_MEMORY = 10,      /* there was no memory at its start */
    CCA_EXIT_IN_USE = 11,             /* another program has the files, or one of them can't be opened */
    CCA_EXIT_REFUSED = 12,            /* a rule refused `cca unload` */
    CCA_EXIT_TRAIL_FAILED = 13,       /* the file of the trail failed */
    CCA_EXIT_TRAIL_CELL_DAMAGED = 14, /* a cell of the trail isn't valid */
    CCA_EXIT_TRAIL_FULL = 15,         /* the trail is full */
    CCA_EXIT_REPORT_FAILED = 16,      /* the report of `cca unload` couldn't be written */
    CCA_EXIT_WRONG_SIZE = 17,         /* a file has a wrong size */
    CCA_EXIT_NOT_STARTED = 127,       /* the program or the folder isn't there */
    CCA_UNKNOWN = 128                 /* nobody can tell: this program ignores SIGCHLD, or waits for cca itself */
};

enum cca_answer {
    CCA_REPLY,      /* a whole reply has come */
    CCA_NO_REQUEST, /* a newline in it, or another process than the one of cca_init: nothing was sent */
    CCA_NOT_SENT,   /* cca had ended before, took none, or couldn't be started or reached: the request wasn't carried out */
    CCA_NO_REPLY    /* cca ended before the whole reply came: the request may have been carried out all the same */
};

struct cca_client {
    const char *folder, *program, *command; /* the command is "run" or "audit" */
    const char *socket;                     /* of a front, in place of these three */
    int patience;                           /* seconds for a reply */
    int status;                             /* how cca ended: enum cca_status, or 128 and the number of a signal */
    pid_t owner, pid;                       /* the process that may ask; cca's, or 0 where it isn't running */
    struct cca_ends *ends;                  /* the descriptors, where cca runs or the socket is connected */
    pthread_mutex_t turn;
};

/* Names what cca_ask starts. Nothing is started yet, and the texts aren't copied. The process that calls it is the one that may
   ask: a child that it forks later needs a client, and a folder, of its own. */
void cca_init(struct cca_client *it, const char *folder, const char *program, const char *command);

/* Names the socket that cca_ask connects to, that of a role of cca-front. Its requests name no role: the front adds it. */
void cca_init_socket(struct cca_client *it, const char *socket);

/* Sends a request of so many bytes, without its newline, and puts the reply into REPLY, of CCA_REPLY_SIZE bytes, with a zero
   byte in the place of its newline. Where cca ends with CCA_EXIT_IN_USE it is started again for ten seconds: another one may
   still be ending. After that, too, the next request starts it again. */
enum cca_answer cca_ask(struct cca_client *it, const char *request, size_t length, char *reply);

/* The same for a reply of SIZE bytes at most, with its newline; a longer one is taken for no reply. STATUS becomes that of this
   request, where other threads may ask too. */
enum cca_answer cca_ask_short(struct cca_client *it, const char *request, size_t length, char *reply, size_t size, int *status);

/* Ends the input and waits for cca, or closes the connection. Its status, or 0 where it isn't running. */
int cca_stop(struct cca_client *it);

/* Kills cca, or closes the connection: for a reply that its request can't have. The status, or 0 where it isn't running. */
int cca_drop(struct cca_client *it);

/* Whether someone should look at the files before cca is started again: docs/operating says how. It isn't started until then,
   but for CCA_EXIT_IN_USE. */
int cca_look_first(int status);

#ifdef __cplusplus
}
#endif

#endif
