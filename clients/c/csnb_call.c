/* See csnb_call.h. */
#ifndef _GNU_SOURCE
#define _GNU_SOURCE
#endif
#include "csnb_call.h"

#include <stdio.h>
#include <stdlib.h>
#include <string.h>
#include <unistd.h>

#define WORD 8
#define MOST_WORDS 16

/* ---- the cca that is asked */

static struct cca own, *used;
static pthread_once_t once = PTHREAD_ONCE_INIT;

void csnb_use(struct cca *it)
{
    used = it;
}

/* Waits for cca, so that a program that is started next finds the folder free. */
static void close_own(void)
{
    cca_close(&own);
}

/* A path from the root: the folder of this program may be another one when cca is started again. A name without a slash, where
   IS_NAME says that it may be one, stays as it is: it is looked for on the path. */
static const char *absolute(const char *path, int is_name)
{
    char *here, *it;
    size_t size;
    if (path[0] == '/' || (is_name && !strchr(path, '/')))
        return path;
    here = getcwd(NULL, 0);
    size = here ? strlen(here) + strlen(path) + 2 : 0;
    it = here ? malloc(size) : NULL;
    if (it)
        snprintf(it, size, "%s/%s", here, path);
    free(here);
    return it ? it : path;
}

static void from_environment(void)
{
    const char *socket = getenv("CCA_SOCKET"), *folder = getenv("CCA_FOLDER"), *role = getenv("CCA_ROLE");
    const char *program = getenv("CCA"), *command = getenv("CCA_COMMAND");
    reasons_begin();
    if (used)
        return;
    if (socket) {
        cca_open_socket(&own, socket);
    } else if (folder && role) {
        cca_open(&own, absolute(folder, 0), role);
        own.client.program = absolute(program ? program : "cca", 1);
        own.client.command = command ? command : "run";
    } else {
        return;
    }
    used = &own;
    atexit(close_own);
}

/* ---- a call */

void call_fault(struct call *it, long reason)
{
    if (it->code == 0) {
        it->code = 8;
        it->reason = reason;
    }
}

void call_begin(struct call *it, const long *exit_data_length, const unsigned char *exit_data, int are_there)
{
    (void)exit_data;
    memset(it, 0, sizeof *it);
    pthread_setcancelstate(PTHREAD_CANCEL_DISABLE, &it->cancelling);
    pthread_once(&once, from_environment);
    it->cca = used;
    if (!are_there)
        call_fault(it, CSNB_MISSING);
    if (exit_data_length && *exit_data_length != 0)
        call_fault(it, CSNB_EXIT_DATA);
}

void call_words(struct call *it, const long *count, const unsigned char *words)
{
    if (!count || (*count > 0 && !words)) {
        call_fault(it, CSNB_MISSING);
    } else if (*count < 0 || *count > MOST_WORDS) {
        call_fault(it, CSNB_KEYWORDS);
    } else {
        it->count = *count;
        it->words = words;
    }
}

int call_choose(struct call *it, const char *const *group, int otherwise)
{
    int chosen = -1, place;
    long at;
    for (at = 0; at < it->count; at++) {
        char word[WORD + 1];
        field_text(word, it->words + at * WORD, WORD);
        for (place = 0; group[place]; place++) {
            if (strcmp(word, group[place]) != 0)
                continue;
            if (chosen >= 0)
                call_fault(it, CSNB_KEYWORDS);
            chosen = place;
            it->used |= 1u << at;
        }
    }
    it->is_missing |= chosen < 0 && otherwise < 0;
    return chosen < 0 ? otherwise : chosen;
}

void call_label(struct call *it, const unsigned char *field, struct operand *key)
{
    const char *byte;
    memset(key, 0, sizeof *key);
    if (!field) {
        call_fault(it, CSNB_MISSING);
        return;
    }
    field_text(key->label, field, sizeof key->label - 1);
    for (byte = key->label; *byte; byte++)
        if (*byte < 0x21 || *byte > 0x7E)
            call_fault(it, CSNB_LABEL);
    if (key->label[0] == '\0')
        call_fault(it, CSNB_LABEL);
    key->key = cca_label(key->label);
}

void call_key(struct call *it, const unsigned char *identifier, struct operand *key)
{
    memset(key, 0, sizeof *key);
    if (!identifier)
        call_fault(it, CSNB_MISSING);
    else if (identifier[0] == 0)
        call_fault(it, CSNB_KEY);
    else if (identifier[0] <= 2)
        key->key = cca_token(identifier);
    else
        call_label(it, identifier, key);
}

int call_is_target(struct call *it, const unsigned char *identifier, struct operand *key)
{
    memset(key, 0, sizeof *key);
    if (!identifier)
        call_fault(it, CSNB_MISSING);
    if (!identifier || identifier[0] <= 2)
        return 0;
    call_label(it, identifier, key);
    return 1;
}

size_t call_length(struct call *it, const long *length)
{
    if (!length)
        call_fault(it, CSNB_MISSING);
    else if (*length < 0)
        call_fault(it, CSNB_LENGTH);
    else
        return (size_t)*length;
    return 0;
}

int call_understood(struct call *it)
{
    if (it->used != (1u << it->count) - 1)
        call_fault(it, CSNB_KEYWORD);
    if (it->is_missing)
        call_fault(it, CSNB_KEYWORDS);
    return it->code == 0;
}

int call_ready(struct call *it)
{
    if (call_understood(it) && !it->cca) {
        it->code = 12;
        it->reason = CSNB_NOWHERE;
    }
    return it->code == 0;
}

void call_came(struct call *it, struct cca_result came)
{
    it->is_done = came.outcome == CCA_DONE;
    switch (came.outcome) {
    case CCA_DONE:
        it->code = 0;
        it->reason = came.is_old ? CSNB_OLD_KEY : 0;
        break;
    case CCA_REFUSED:
        it->code = 8;
        it->reason = came.rule;
        break;
    case CCA_ENDED:
        it->code = 12;
        it->reason = (came.is_in_doubt ? CSNB_IN_DOUBT : CSNB_NOT_DONE) + came.status;
        break;
    default:
        it->code = 8;
        it->reason = CSNB_UNSAYABLE;
    }
}

void call_end(const struct call *it, long *return_code, long *reason_code)
{
    long code = it->code, reason = it->reason;
    int cancelling;
    reasons_tell(&code, &reason);
    if (return_code)
        *return_code = code;
    if (reason_code)
        *reason_code = reason;
    pthread_setcancelstate(it->cancelling, &cancelling);
}

/* ---- fields of a fixed size */

void field_text(char *text, const unsigned char *field, size_t size)
{
    memcpy(text, field, size);
    while (size > 0 && text[size - 1] == ' ')
        size--;
    text[size] = '\0';
}

void field_fill(unsigned char *field, const char *text, size_t size)
{
    size_t length = strlen(text) < size ? strlen(text) : size;
    memset(field, ' ', size);
    memcpy(field, text, length);
}
