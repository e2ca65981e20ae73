/* The attributes of a key, as callers read and compare them. */
#ifndef CCA_PKCS11_ATTRIBUTES_H
#define CCA_PKCS11_ATTRIBUTES_H

#include "objects.h"
#include "sessions.h"

struct value {
    unsigned char bytes[LONGEST_NAME];
    CK_ULONG length;
};

/* CKR_ATTRIBUTE_TYPE_INVALID where a key has none of this type, CKR_ATTRIBUTE_SENSITIVE where it isn't told. */
CK_RV attribute_read(struct session *session, const struct object *it, CK_ATTRIBUTE_TYPE type, struct value *value);

#endif
