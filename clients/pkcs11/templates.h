/* Templates: the attributes that a caller gives, of a key that is to be made or of keys that are searched. */
#ifndef CCA_PKCS11_TEMPLATES_H
#define CCA_PKCS11_TEMPLATES_H

#include "objects.h"

#include <p11-kit/pkcs11.h>

struct template {
    const CK_ATTRIBUTE *attributes;
    CK_ULONG count;
};

/* The attributes as they are given; CKR_ARGUMENTS_BAD where a value is missing. */
CK_RV template_take(struct template *it, const CK_ATTRIBUTE *attributes, CK_ULONG count);

/* Null where there is none. */
const CK_ATTRIBUTE *template_find(const struct template *it, CK_ATTRIBUTE_TYPE type);

/* Whether an attribute, where there is one, has this value: a CK_ULONG, and a CK_BBOOL. */
int template_fits_number(const struct template *it, CK_ATTRIBUTE_TYPE type, CK_ULONG number);
int template_fits_flag(const struct template *it, CK_ATTRIBUTE_TYPE type, int flag);

/* What a template asks of a new key. */
struct order {
    int length;     /* 8 or 16; 0: nothing is said */
    int shows_des3; /* as CKK_DES3 */
    CK_ULONG value_length;
    int is_token;
    int is_never_exported;
    struct name label, id;
    unsigned wanted, unwanted; /* uses */
    const CK_ATTRIBUTE *value;
};

/* Reads a template; what can't be had is refused, but for what makes no difference here. */
CK_RV order_read(struct order *it, const CK_ATTRIBUTE *attributes, CK_ULONG count);

#endif
