/* A request, field by field, and what came of it: what the functions of cca.c are made of. */
#ifndef CCA_EXCHANGE_H
#define CCA_EXCHANGE_H

#include "cca.h"

#define CCA_LINE_SIZE 9217 /* bytes of the longest request, and of each reply but that of CSNBKRL, with the newline */

struct exchange {
    char request[CCA_LINE_SIZE];
    size_t length, begun; /* as long as it is, and was before its first field behind the role */
    char own_reply[CCA_LINE_SIZE];
    char *reply; /* own_reply, or another one */
    size_t reply_size;
    int left; /* fields of the reply that weren't taken yet */
    struct cca *cca;
    struct cca_result result;
};

/* Begins a request: the verb, and the role where one is named. */
void exchange_begin(struct exchange *it, struct cca *cca, const char *verb);

/* Each adds a field. A value that would break the line makes the request one that isn't sent. */
void exchange_put_text(struct exchange *it, const char *name, const char *text);
void exchange_put_number(struct exchange *it, const char *name, int number);
void exchange_put_hex(struct exchange *it, const char *name, const unsigned char *bytes, size_t length);
void exchange_put_key(struct exchange *it, const char *name, struct cca_key key);
void exchange_put_to(struct exchange *it, const char *to, const unsigned char *token);

/* Makes it one that isn't sent, and says why. */
void exchange_refuse(struct exchange *it, const char *why);

/* Sends it, and reads the reply. */
void exchange_ask(struct exchange *it);

/* Each takes a field of a reply to a request that was carried out. The reply must have the field, in this form, and no other one
   that isn't taken. Of bytes that aren't in this form nothing is left. */
void exchange_get_text(struct exchange *it, const char *name, char *text, size_t size);
int exchange_get_word(struct exchange *it, const char *name, const char *const *words); /* its place; behind the last is a null */
void exchange_get_number(struct exchange *it, const char *name, int *number);
void exchange_get_hex(struct exchange *it, const char *name, unsigned char *bytes, size_t length);
size_t exchange_get_data(struct exchange *it, const char *name, unsigned char *bytes, size_t room);
void exchange_get_made(struct exchange *it, const char *name, const char *to, unsigned char *token);

/* Ends cca, whose reply is none to this request: what was done isn't known. */
void exchange_doubt(struct exchange *it);

/* Overwrites request and reply, which may have clear keys and data: the result. */
struct cca_result exchange_end(struct exchange *it);

/* Overwrites bytes, also where nothing reads them afterwards. */
void exchange_wipe(void *bytes, size_t length);

#endif
