/* What the functions of csnb.c share: a call, its keywords, its operands, and how it ends. */
#ifndef CSNB_CALL_H
#define CSNB_CALL_H

#include "csnb.h"
#include "table.h"

struct call {
    struct cca *cca;
    long code, reason; /* 0 as long as nothing is wrong */
    int is_done;       /* the request was carried out */
    const unsigned char *words;
    long count;
    unsigned used;  /* a bit for each keyword that was understood */
    int is_missing; /* a keyword of a group that must have one */
    int cancelling; /* whether the thread may be cancelled where it isn't in a call */
};

/* An operand that names a key, with room for its label. */
struct operand {
    struct cca_key key;
    char label[65];
};

/* Begins a call whose parameters are there. Its thread isn't cancelled until it ends. */
void call_begin(struct call *it, const long *exit_data_length, const unsigned char *exit_data, int are_there);

/* Takes the keywords. Each group of them is then asked for by call_choose, and the rest is refused by call_ready. */
void call_words(struct call *it, const long *count, const unsigned char *words);

/* Which one of a group stands among the keywords, a list that ends with a null: its place, or OTHERWISE if none does. Where that
   is negative one must be there. */
int call_choose(struct call *it, const char *const *group, int otherwise);

/* Notes what is wrong with a parameter; the first fault stays. */
void call_fault(struct call *it, long reason);

/* Reads a key identifier that must name a key, or a label. */
void call_key(struct call *it, const unsigned char *identifier, struct operand *key);
void call_label(struct call *it, const unsigned char *field, struct operand *key);

/* Whether a key identifier says that a key goes under a label: then it is read. Else a token comes in its place. */
int call_is_target(struct call *it, const unsigned char *identifier, struct operand *key);

/* A length, or 0 where it is negative. */
size_t call_length(struct call *it, const long *length);

/* Whether nothing is wrong with the parameters. */
int call_understood(struct call *it);

/* The same, and there is a cca, which is asked. */
int call_ready(struct call *it);

/* Takes the result of the verb. */
void call_came(struct call *it, struct cca_result came);

/* Sets the return code and its reason. */
void call_end(const struct call *it, long *return_code, long *reason_code);

/* Reads from the environment whether reasons are told by IBM's numbers. */
void reasons_begin(void);

/* What is told for a return code and a reason: the same, or IBM's nearest pair. */
void reasons_tell(long *code, long *reason);

/* A field of so many bytes without the blanks at its end. */
void field_text(char *text, const unsigned char *field, size_t size);

/* The same the other way. */
void field_fill(unsigned char *field, const char *text, size_t size);

/* Whether a token has the control vector of a key type, for a length: 8, or 16 with either form. */
int has_type(const unsigned char *token, const struct cca_type *type, int length);

/* The type that a token without a key has, as CSNBKPI FIRST takes it, and the length of a part; else null. */
const char *skeleton_type(const unsigned char *token, size_t *length);

#endif
