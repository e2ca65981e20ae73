/* See attributes.h. */
#include "attributes.h"

#include "errors.h"
#include "slots.h"

#include <string.h>

#define CHECK_VALUE_SIZE 3

static CK_RV be_bytes(struct value *it, const void *bytes, size_t length)
{
    memcpy(it->bytes, bytes, length);
    it->length = length;
    return CKR_OK;
}

static CK_RV be_number(struct value *it, CK_ULONG number)
{
    return be_bytes(it, &number, sizeof number);
}

static CK_RV be_flag(struct value *it, int flag)
{
    CK_BBOOL byte = flag ? CK_TRUE : CK_FALSE;
    return be_bytes(it, &byte, sizeof byte);
}

static CK_KEY_TYPE key_type(const struct object *it)
{
    if (it->key.length == 8)
        return CKK_DES;
    return it->shows_des3 ? CKK_DES3 : CKK_DES2;
}

static CK_ULONG value_length(const struct object *it)
{
    if (it->key.length == 8)
        return 8;
    return it->shows_des3 ? 24 : 16;
}

/* The check value, which cca is asked for. A role that may not have it sees none. */
static CK_RV read_check_value(struct session *session, const struct object *it, struct value *value)
{
    unsigned char found[4];
    struct cca_result came = cca_key_test(&session->slot->cca, object_key(it), found);
    if (is_refused(&came, 4))
        return CKR_ATTRIBUTE_TYPE_INVALID;
    if (is_refused(&came, 7) || is_refused(&came, 8))
        return CKR_OBJECT_HANDLE_INVALID;
    if (came.outcome != CCA_DONE)
        return session_told(session, came);
    return be_bytes(value, found, CHECK_VALUE_SIZE);
}

/* What the control vector says. */
static CK_RV read_use(const struct object *it, CK_ATTRIBUTE_TYPE type, struct value *value)
{
    unsigned uses = it->key.uses;
    switch (type) {
    case CKA_ENCRYPT:
        return be_flag(value, (uses & ENCRYPTS) != 0);
    case CKA_DECRYPT:
        return be_flag(value, (uses & DECRYPTS) != 0);
    case CKA_SIGN:
        return be_flag(value, (uses & SIGNS) != 0);
    case CKA_VERIFY:
        return be_flag(value, (uses & VERIFIES) != 0);
    case CKA_WRAP:
        return be_flag(value, (uses & WRAPS) != 0);
    case CKA_UNWRAP:
        return be_flag(value, (uses & UNWRAPS) != 0);
    case CKA_EXTRACTABLE:
        return be_flag(value, it->key.is_exportable);
    }
    return CKR_ATTRIBUTE_TYPE_INVALID;
}

/* What isn't known of a key under a label is told as what claims least. */
static CK_RV read_flag(const struct object *it, CK_ATTRIBUTE_TYPE type, struct value *value)
{
    switch (type) {
    case CKA_TOKEN:
        return be_flag(value, !it->session);
    case CKA_SENSITIVE:
    case CKA_COPYABLE:
    case CKA_DESTROYABLE:
        return be_flag(value, 1);
    case CKA_LOCAL:
    case CKA_ALWAYS_SENSITIVE:
        return be_flag(value, it->is_generated);
    case CKA_NEVER_EXTRACTABLE:
        return be_flag(value, it->is_never_exportable);
    case CKA_PRIVATE:
    case CKA_MODIFIABLE:
    case CKA_DERIVE:
    case CKA_TRUSTED:
    case CKA_WRAP_WITH_TRUSTED:
        return be_flag(value, 0);
    }
    return read_use(it, type, value);
}

CK_RV attribute_read(struct session *session, const struct object *it, CK_ATTRIBUTE_TYPE type, struct value *value)
{
    switch (type) {
    case CKA_CLASS:
        return be_number(value, CKO_SECRET_KEY);
    case CKA_KEY_TYPE:
        return be_number(value, key_type(it));
    case CKA_VALUE_LEN:
        return be_number(value, value_length(it));
    case CKA_KEY_GEN_MECHANISM:
        return be_number(value, CK_UNAVAILABLE_INFORMATION);
    case CKA_LABEL:
        return be_bytes(value, it->label.text, it->label.length);
    case CKA_ID:
        return be_bytes(value, it->id.text, it->id.length);
    case CKA_START_DATE:
    case CKA_END_DATE:
        return be_bytes(value, "", 0);
    case CKA_CHECK_VALUE:
        return read_check_value(session, it, value);
    case CKA_VALUE:
        return CKR_ATTRIBUTE_SENSITIVE;
    }
    return read_flag(it, type, value);
}

/* Puts an attribute where the caller wants it. */
static CK_RV give(struct session *session, const struct object *it, CK_ATTRIBUTE *to)
{
    struct value value;
    CK_RV rv = attribute_read(session, it, to->type, &value);
    if (rv == CKR_OK && to->pValue && to->ulValueLen < value.length)
        rv = CKR_BUFFER_TOO_SMALL;
    if (rv == CKR_OK && to->pValue && value.length > 0)
        memcpy(to->pValue, value.bytes, value.length);
    to->ulValueLen = rv == CKR_OK ? value.length : CK_UNAVAILABLE_INFORMATION;
    return rv;
}

CK_RV C_GetAttributeValue(CK_SESSION_HANDLE handle, CK_OBJECT_HANDLE key, CK_ATTRIBUTE *attributes, CK_ULONG count)
{
    struct session *session;
    const struct object *it;
    CK_ULONG at;
    CK_RV worst = CKR_OK, rv = session_enter(handle, &session);
    if (rv != CKR_OK)
        return rv;
    it = object_at(session->slot, key);
    if (!it)
        return session_leave(session, CKR_OBJECT_HANDLE_INVALID);
    if (!attributes && count > 0)
        return session_leave(session, CKR_ARGUMENTS_BAD);
    for (at = 0; at < count; at++) {
        rv = give(session, it, &attributes[at]);
        if (rv != CKR_OK)
            worst = rv;
    }
    return session_leave(session, worst);
}

/* No attribute of a key changes. */
CK_RV C_SetAttributeValue(CK_SESSION_HANDLE handle, CK_OBJECT_HANDLE key, CK_ATTRIBUTE *attributes, CK_ULONG count)
{
    struct session *session;
    CK_RV rv = session_enter(handle, &session);
    if (rv != CKR_OK)
        return rv;
    if (!attributes && count > 0)
        rv = CKR_ARGUMENTS_BAD;
    else
        rv = object_at(session->slot, key) ? CKR_ACTION_PROHIBITED : CKR_OBJECT_HANDLE_INVALID;
    return session_leave(session, rv);
}

CK_RV C_GetObjectSize(CK_SESSION_HANDLE handle, CK_OBJECT_HANDLE key, CK_ULONG *size)
{
    struct session *session;
    CK_RV rv = session_enter(handle, &session);
    if (rv != CKR_OK)
        return rv;
    if (!size)
        return session_leave(session, CKR_ARGUMENTS_BAD);
    *size = CCA_TOKEN_SIZE;
    return session_leave(session, object_at(session->slot, key) ? CKR_OK : CKR_OBJECT_HANDLE_INVALID);
}
