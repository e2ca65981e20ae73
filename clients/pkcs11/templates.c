/* See templates.h. */
#include "templates.h"

#include <string.h>

CK_RV template_take(struct template *it, const CK_ATTRIBUTE *attributes, CK_ULONG count)
{
    CK_ULONG at;
    it->attributes = attributes;
    it->count = count;
    if (!attributes && count > 0)
        return CKR_ARGUMENTS_BAD;
    for (at = 0; at < count; at++)
        if (!attributes[at].pValue && attributes[at].ulValueLen > 0)
            return CKR_ARGUMENTS_BAD;
    return CKR_OK;
}

const CK_ATTRIBUTE *template_find(const struct template *it, CK_ATTRIBUTE_TYPE type)
{
    CK_ULONG at;
    for (at = 0; at < it->count; at++)
        if (it->attributes[at].type == type)
            return &it->attributes[at];
    return NULL;
}

/* The number, or the flag, that an attribute is. */
static CK_RV read_number(const CK_ATTRIBUTE *it, CK_ULONG *number)
{
    if (it->ulValueLen != sizeof *number)
        return CKR_ATTRIBUTE_VALUE_INVALID;
    memcpy(number, it->pValue, sizeof *number);
    return CKR_OK;
}

static CK_RV read_flag(const CK_ATTRIBUTE *it, int *flag)
{
    CK_BBOOL byte;
    if (it->ulValueLen != sizeof byte)
        return CKR_ATTRIBUTE_VALUE_INVALID;
    memcpy(&byte, it->pValue, sizeof byte);
    *flag = byte != CK_FALSE;
    return CKR_OK;
}

int template_fits_number(const struct template *it, CK_ATTRIBUTE_TYPE type, CK_ULONG number)
{
    const CK_ATTRIBUTE *given = template_find(it, type);
    CK_ULONG found;
    return !given || (read_number(given, &found) == CKR_OK && found == number);
}

int template_fits_flag(const struct template *it, CK_ATTRIBUTE_TYPE type, int flag)
{
    const CK_ATTRIBUTE *given = template_find(it, type);
    int found;
    return !given || (read_flag(given, &found) == CKR_OK && found == flag);
}

/* ---- a new key */

static CK_RV take_class(const CK_ATTRIBUTE *given)
{
    CK_ULONG number;
    CK_RV rv = read_number(given, &number);
    return rv == CKR_OK && number != CKO_SECRET_KEY ? CKR_ATTRIBUTE_VALUE_INVALID : rv;
}

static CK_RV take_key_type(struct order *it, const CK_ATTRIBUTE *given)
{
    CK_ULONG number;
    CK_RV rv = read_number(given, &number);
    if (rv != CKR_OK || (number != CKK_DES && number != CKK_DES2 && number != CKK_DES3))
        return CKR_ATTRIBUTE_VALUE_INVALID;
    it->length = number == CKK_DES ? 8 : 16;
    it->shows_des3 = number == CKK_DES3;
    return CKR_OK;
}

static CK_RV take_name(struct name *it, const CK_ATTRIBUTE *given)
{
    if (given->ulValueLen > LONGEST_NAME)
        return CKR_ATTRIBUTE_VALUE_INVALID;
    memset(it, 0, sizeof *it);
    it->length = given->ulValueLen;
    if (it->length > 0)
        memcpy(it->text, given->pValue, it->length);
    return CKR_OK;
}

static CK_RV take_use(struct order *it, const CK_ATTRIBUTE *given, unsigned use)
{
    int flag;
    CK_RV rv = read_flag(given, &flag);
    if (rv == CKR_OK && flag)
        it->wanted |= use;
    else if (rv == CKR_OK)
        it->unwanted |= use;
    return rv;
}

/* What no key here can have. */
static CK_RV take_constant(const CK_ATTRIBUTE *given, int only)
{
    int flag;
    CK_RV rv = read_flag(given, &flag);
    return rv == CKR_OK && flag != only ? CKR_TEMPLATE_INCONSISTENT : rv;
}

/* What may be said and isn't kept. A key is always sensitive, and wants no login. */
static CK_RV take_any_flag(const CK_ATTRIBUTE *given)
{
    int flag;
    return read_flag(given, &flag);
}

static CK_RV take_extractable(struct order *it, const CK_ATTRIBUTE *given)
{
    int flag;
    CK_RV rv = read_flag(given, &flag);
    if (rv == CKR_OK)
        it->is_never_exported = !flag;
    return rv;
}

static CK_RV take_use_or_other(struct order *it, const CK_ATTRIBUTE *given)
{
    switch (given->type) {
    case CKA_ENCRYPT:
        return take_use(it, given, ENCRYPTS);
    case CKA_DECRYPT:
        return take_use(it, given, DECRYPTS);
    case CKA_SIGN:
        return take_use(it, given, SIGNS);
    case CKA_VERIFY:
        return take_use(it, given, VERIFIES);
    case CKA_WRAP:
        return take_use(it, given, WRAPS);
    case CKA_UNWRAP:
        return take_use(it, given, UNWRAPS);
    case CKA_PRIVATE:
    case CKA_SENSITIVE:
    case CKA_MODIFIABLE:
    case CKA_COPYABLE:
        return take_any_flag(given);
    case CKA_DERIVE:
    case CKA_WRAP_WITH_TRUSTED:
    case CKA_TRUSTED:
        return take_constant(given, 0);
    case CKA_DESTROYABLE:
        return take_constant(given, 1);
    case CKA_START_DATE:
    case CKA_END_DATE:
    case CKA_CHECK_VALUE:
        return given->ulValueLen == 0 ? CKR_OK : CKR_ATTRIBUTE_VALUE_INVALID;
    case CKA_LOCAL:
    case CKA_ALWAYS_SENSITIVE:
    case CKA_NEVER_EXTRACTABLE:
    case CKA_KEY_GEN_MECHANISM:
        return CKR_ATTRIBUTE_READ_ONLY;
    }
    return CKR_ATTRIBUTE_TYPE_INVALID;
}

static CK_RV take(struct order *it, const CK_ATTRIBUTE *given)
{
    switch (given->type) {
    case CKA_CLASS:
        return take_class(given);
    case CKA_KEY_TYPE:
        return take_key_type(it, given);
    case CKA_VALUE_LEN:
        return read_number(given, &it->value_length);
    case CKA_VALUE:
        it->value = given;
        return CKR_OK;
    case CKA_TOKEN:
        return read_flag(given, &it->is_token);
    case CKA_LABEL:
        return take_name(&it->label, given);
    case CKA_ID:
        return take_name(&it->id, given);
    case CKA_EXTRACTABLE:
        return take_extractable(it, given);
    }
    return take_use_or_other(it, given);
}

/* A key under a label has this label, and no other ID. */
static CK_RV check_names(struct order *it)
{
    if (!it->is_token)
        return CKR_OK;
    if (it->label.length == 0)
        it->label = it->id;
    if (it->label.length == 0)
        return CKR_TEMPLATE_INCOMPLETE;
    if (!is_label(it->label.text, it->label.length))
        return CKR_ATTRIBUTE_VALUE_INVALID;
    if (it->id.length == 0)
        return CKR_OK;
    return it->id.length == it->label.length && memcmp(it->id.text, it->label.text, it->id.length) == 0
               ? CKR_OK
               : CKR_ATTRIBUTE_VALUE_INVALID;
}

static CK_RV check_length(const struct order *it)
{
    CK_ULONG length = it->value_length;
    if (length == 0 || it->length == 0)
        return CKR_OK;
    return length == (CK_ULONG)it->length || (length == 24 && it->shows_des3) ? CKR_OK : CKR_TEMPLATE_INCONSISTENT;
}

CK_RV order_read(struct order *it, const CK_ATTRIBUTE *attributes, CK_ULONG count)
{
    struct template given;
    CK_ULONG at;
    CK_RV rv = template_take(&given, attributes, count);
    memset(it, 0, sizeof *it);
    for (at = 0; rv == CKR_OK && at < count; at++)
        rv = take(it, &attributes[at]);
    if (rv == CKR_OK)
        rv = check_length(it);
    return rv == CKR_OK ? check_names(it) : rv;
}
