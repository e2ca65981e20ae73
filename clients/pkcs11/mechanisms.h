/* The mechanisms, and what they are here. */
#ifndef CCA_PKCS11_MECHANISMS_H
#define CCA_PKCS11_MECHANISMS_H

#include <p11-kit/pkcs11.h>

enum kind { GENERATION, ECB, CBC, CBC_PAD, MAC, CBC_MAC, EXTERNAL_TOKEN };

struct mechanism {
    CK_MECHANISM_TYPE type;
    enum kind kind;
    int key_length;       /* 8 or 16; 0 where it takes any */
    CK_FLAGS flags;
    const char *rule;     /* of a MAC */
    int has_length;       /* its parameter is the length of the MAC */
};

/* Null where there is none. */
const struct mechanism *mechanism_of_type(CK_MECHANISM_TYPE type);

#endif
