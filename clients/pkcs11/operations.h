/* What a session does: a search, or an operation over data that may come in parts. */
#ifndef CCA_PKCS11_OPERATIONS_H
#define CCA_PKCS11_OPERATIONS_H

#include "cca.h"
#include "mechanisms.h"

#include <p11-kit/pkcs11.h>

#define BLOCK 8

struct session;

enum activity { NOTHING, SEARCHING, ENCRYPTING, DECRYPTING, SIGNING, VERIFYING };

struct operation {
    enum activity activity;
    const struct mechanism *mechanism;
    int is_label; /* how the key is named: by its label, or by its token */
    char label[65];
    unsigned char token[CCA_TOKEN_SIZE];
    int has_parts;                    /* a part has come */
    unsigned char held[BLOCK];        /* the end of the data so far */
    size_t held_length;
    unsigned char iv[BLOCK];          /* CBC: what the next block is XORed with */
    int has_chain;                    /* MACs by segments: the first one was sent */
    unsigned char chain[CCA_CHAIN_SIZE];
    size_t mac_length;
};

/* Begins an operation of a session. */
CK_RV operation_init(CK_SESSION_HANDLE session, enum activity activity, const CK_MECHANISM *mechanism, CK_OBJECT_HANDLE key);

/* Whether the session does this: else CKR_OPERATION_NOT_INITIALIZED. */
CK_RV operation_check(const struct session *session, enum activity activity);

struct cca_key operation_key(const struct operation *it);

#endif
