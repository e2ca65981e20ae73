/* The verbs of cca as functions: bytes in, bytes out, and each error by value. docs/VERBS.md explains the verbs, their words, as
   "X9.19OPT", and their rules; docs/LIBRARIES.md shows programs.

       struct cca cca;
       struct cca_result came;
       unsigned char mac[8];
       cca_open(&cca, "/var/lib/cca", "TELLER");
       came = cca_mac_generate(&cca, cca_label("PAY.MAC"), "X9.9-1", 8, message, length, mac);
       if (came.outcome != CCA_DONE)
           ..
       cca_close(&cca);

   Threads may share one struct cca. Data of any length is cut into segments. A result that isn't CCA_DONE leaves the outputs
   undefined, but for those of which something else is said. */
#ifndef CCA_H
#define CCA_H

#include "cca_client.h"

#include <stdint.h>

#ifdef __cplusplus
extern "C" {
#endif

#define CCA_TOKEN_SIZE 64
#define CCA_CHAIN_SIZE 16
#define CCA_LABELS_SIZE CCA_REPLY_SIZE

struct cca {
    struct cca_client client; /* client.program, client.command and client.patience may be changed before the first verb */
    const char *role;         /* that each request names; null over a socket, whose front adds it */
};

enum cca_outcome {
    CCA_DONE,      /* it was carried out */
    CCA_REFUSED,   /* a rule refused it, and nothing was changed */
    CCA_ENDED,     /* no reply came, or one that the request can't have: is_in_doubt says what that means */
    CCA_UNSAYABLE  /* an argument fits no request: nothing was sent */
};

struct cca_result {
    enum cca_outcome outcome;
    int is_old;      /* CCA_DONE: a key of the request is under the old master key */
    int rule;        /* CCA_REFUSED: the number of the rule */
    char field[12];  /* CCA_REFUSED: the field that breaks it, or "-" for the request as a whole */
    int is_in_doubt; /* CCA_ENDED: the request may have been carried out all the same; else it wasn't */
    int status;      /* CCA_ENDED: how cca ended, as cca_client.h says; 0 where that isn't known */
    const char *why; /* CCA_UNSAYABLE: what is wrong with the argument */
};

/* An operand that names a key: a label, or an internal token of CCA_TOKEN_SIZE bytes. */
struct cca_key {
    const char *label;
    const unsigned char *token;
};

enum cca_segment { CCA_FIRST, CCA_MIDDLE, CCA_LAST };

/* What cca_key_generate makes. What a form doesn't have is null. */
struct cca_generation {
    const char *form;                      /* "OP", "OPEX", "OPIM", "IMEX", "EXEX" or "IMIM" */
    const char *length;                    /* "8", "16" or "DOUBLE-O" */
    const char *type1, *type2;             /* as "MAC" and "MACVER" */
    struct cca_key transport1, transport2;
};

/* The fields of a token. */
struct cca_parsed {
    char kind[9], key_class[9]; /* "internal" or "external"; "DATA", "CIPHER", "MAC", "EXPORTER", "IMPORTER" or "OTHER" */
    int length;                 /* of the key, 8 or 16 */
    unsigned char vector[16];   /* the control vector; its right half is zero for a length of 8 */
    unsigned char pattern[8];   /* the verification pattern of the master key; zero in an external token */
};

/* ---- beginning and end */

/* `cca run` or `cca audit` in a folder, and the socket of a role of cca-front. The first verb starts it or connects to it. The
   texts aren't copied. A name of a program with a slash in it must begin with one. */
void cca_open(struct cca *it, const char *folder, const char *role);
void cca_open_audited(struct cca *it, const char *folder, const char *role);
void cca_open_socket(struct cca *it, const char *socket);

/* Ends cca, or the connection: the exit status. */
int cca_close(struct cca *it);

struct cca_key cca_label(const char *label);
struct cca_key cca_token(const unsigned char *token);

/* The sentence of a rule; null if no rule has this number. */
const char *cca_rule(int rule);

/* A result as one line of text. */
void cca_tell(const struct cca_result *it, char *text, size_t size);

/* ---- master keys and roles */

/* The action is "FIRST", "MIDDLE" or "LAST". */
struct cca_result cca_master_key_part(struct cca *it, const char *action, const unsigned char part[24]);
struct cca_result cca_master_key_clear(struct cca *it);
struct cca_result cca_master_key_set(struct cca *it);
struct cca_result cca_role_define(struct cca *it, const char *name, uint32_t points);
struct cca_result cca_role_remove(struct cca *it, const char *name);

/* The action is null, "AHEAD" or "DROP". */
struct cca_result cca_reencipher(struct cca *it, const char *action, int *changed);

/* ---- key storage */

struct cca_result cca_record_create(struct cca *it, const char *label);
struct cca_result cca_record_write(struct cca *it, const char *label, const unsigned char *token);
struct cca_result cca_record_read(struct cca *it, const char *label, unsigned char *token);
struct cca_result cca_record_delete(struct cca *it, const char *label);

/* The labels that begin with a prefix, with commas between them. */
struct cca_result cca_record_list(struct cca *it, const char *prefix, char labels[CCA_LABELS_SIZE], int *count);

/* ---- keys: those that are made go under the label TO, and else, where TO is null, into TOKEN */

struct cca_result cca_clear_key_import(struct cca *it, const unsigned char clear[8], const char *to, unsigned char *token);
struct cca_result cca_key_generate(struct cca *it, const struct cca_generation *what, const char *to, unsigned char *token1,
                                   unsigned char *token2);

/* Parts have 8 or 16 bytes. The rule of a later part is "MIDDLE" or "LAST". */
struct cca_result cca_key_part_first(struct cca *it, const char *type, const unsigned char *part, size_t length, const char *to,
                                     unsigned char *token);
struct cca_result cca_key_part_next(struct cca *it, const char *rule, struct cca_key key, const unsigned char *part,
                                    size_t length, const char *to, unsigned char *token);

struct cca_result cca_key_export(struct cca *it, struct cca_key key, struct cca_key transport, unsigned char *external);
struct cca_result cca_key_import(struct cca *it, const unsigned char *external, struct cca_key transport, const char *to,
                                 unsigned char *token);
struct cca_result cca_key_translate(struct cca *it, const unsigned char *external, struct cca_key transport1,
                                    struct cca_key transport2, unsigned char *translated);
struct cca_result cca_prohibit_export(struct cca *it, struct cca_key key, const char *to, unsigned char *token);

/* The rule is "RTCMK" or "RTNMK". */
struct cca_result cca_token_change(struct cca *it, const char *rule, const unsigned char *token, unsigned char *changed);

struct cca_result cca_token_parse(struct cca *it, const unsigned char *token, struct cca_parsed *parsed);
struct cca_result cca_key_test(struct cca *it, struct cca_key key, unsigned char value[4]);

/* ---- data: OUT may be TEXT itself. Where the result isn't CCA_DONE, nothing of the data is in it */

/* The padding is "NONE" or "X9.23". OUT of cca_encipher has room for 8 bytes more than TEXT. */
struct cca_result cca_encipher(struct cca *it, struct cca_key key, const unsigned char iv[8], const char *pad,
                               const unsigned char *text, size_t length, unsigned char *out, size_t *out_length);
struct cca_result cca_decipher(struct cca *it, struct cca_key key, const unsigned char iv[8], const char *pad,
                               const unsigned char *text, size_t length, unsigned char *out, size_t *out_length);

/* The rule is "X9.9-1" or "X9.19OPT", and MAC_LENGTH 4, 6 or 8. */
struct cca_result cca_mac_generate(struct cca *it, struct cca_key key, const char *rule, int mac_length,
                                   const unsigned char *text, size_t length, unsigned char *mac);
struct cca_result cca_mac_verify(struct cca *it, struct cca_key key, const char *rule, const unsigned char *mac, int mac_length,
                                 const unsigned char *text, size_t length, int *matches);

/* ---- data that comes piece by piece, each of any length: one CCA_FIRST, any number of CCA_MIDDLE, one CCA_LAST

   CCA_FIRST takes IV and sets CHAIN, which the next one takes and changes. CCA_LAST takes the padding, or the MAC or its length.
   OUT has room for 16 bytes more than TEXT. */

struct cca_result cca_encipher_segment(struct cca *it, struct cca_key key, enum cca_segment segment, const unsigned char *iv,
                                       const char *pad, unsigned char chain[CCA_CHAIN_SIZE], const unsigned char *text,
                                       size_t length, unsigned char *out, size_t *out_length);
struct cca_result cca_decipher_segment(struct cca *it, struct cca_key key, enum cca_segment segment, const unsigned char *iv,
                                       const char *pad, unsigned char chain[CCA_CHAIN_SIZE], const unsigned char *text,
                                       size_t length, unsigned char *out, size_t *out_length);
struct cca_result cca_mac_generate_segment(struct cca *it, struct cca_key key, const char *rule, enum cca_segment segment,
                                           int mac_length, unsigned char chain[CCA_CHAIN_SIZE], const unsigned char *text,
                                           size_t length, unsigned char *mac);
struct cca_result cca_mac_verify_segment(struct cca *it, struct cca_key key, const char *rule, enum cca_segment segment,
                                         const unsigned char *mac, int mac_length, unsigned char chain[CCA_CHAIN_SIZE],
                                         const unsigned char *text, size_t length, int *matches);

/* ---- random bytes: the form is "RANDOM", "ODD" or "EVEN" */

struct cca_result cca_random(struct cca *it, const char *form, unsigned char random[8]);

#ifdef __cplusplus
}
#endif

#endif
