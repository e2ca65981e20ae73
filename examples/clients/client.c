/* A client of `cca run`: starts it in a folder as a coprocess, and asks it line by line.

       cc -I ../../clients/c -o client client.c ../../clients/c/cca_client.c
       ./client FOLDER [PROGRAM [run|audit]] < requests

   prints the reply to each request. cca_client.h says what each function does. */
#ifndef _GNU_SOURCE
#define _GNU_SOURCE
#endif
#include "cca_client.h"

#include <stdio.h>
#include <stdlib.h>
#include <string.h>

/* Prints what came of a request: 0, or -1 where that fails. */
static int print(enum cca_answer answer, const char *reply, int status)
{
    int came;
    if (answer == CCA_REPLY)
        came = puts(reply);
    else
        came = printf("-- no reply: cca ended with status %d; the request %s\n", status,
                      answer == CCA_NO_REPLY ? "may have been carried out all the same" : "wasn't carried out");
    if (came >= 0 && fflush(stdout) == 0)
        return 0;
    perror("client: standard output");
    return -1;
}

/* Asks each line: 0, or -1 where someone should look. */
static int converse(struct cca_client *cca)
{
    static char reply[CCA_REPLY_SIZE];
    char *line = NULL;
    size_t size = 0;
    ssize_t length;
    int came = 0;
    while (came == 0 && (length = getline(&line, &size, stdin)) > 0) {
        enum cca_answer answer;
        if (line[length - 1] != '\n') {
            fputs("client: the last line has no newline: it may be half a request, and isn't asked\n", stderr);
            break;
        }
        answer = cca_ask(cca, line, (size_t)length - 1, reply);
        came = print(answer, reply, cca->status);
        if (answer != CCA_REPLY && cca_look_first(cca->status))
            came = -1;
    }
    free(line);
    return came;
}

int main(int count, char **words)
{
    const char *program = count > 2 ? words[2] : "cca";
    char *full = strchr(program, '/') ? realpath(program, NULL) : NULL; /* the folder changes before it is started */
    struct cca_client cca;
    int came, status;
    if (count < 2)
        return 2;
    cca_init(&cca, words[1], full ? full : program, count > 3 ? words[3] : "run");
    came = converse(&cca);
    status = cca_stop(&cca);
    free(full);
    return came == 0 ? status : 1;
}
