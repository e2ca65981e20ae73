/* See operations.h. */
#include "operations.h"

#include "slots.h"

#include <string.h>

#define SHORT_MAC 4

CK_RV operation_check(const struct session *session, enum activity activity)
{
    return session->operation.activity == activity ? CKR_OK : CKR_OPERATION_NOT_INITIALIZED;
}

struct cca_key operation_key(const struct operation *it)
{
    return it->is_label ? cca_label(it->label) : cca_token(it->token);
}

/* What the key must be able to do. A MAC by triple DES in CBC mode is made by enciphering. */
static unsigned needed_uses(const struct mechanism *how, enum activity activity)
{
    unsigned ciphers = how->kind == CBC_MAC ? ENCRYPTS : 0u;
    switch (activity) {
    case ENCRYPTING:
        return ENCRYPTS;
    case DECRYPTING:
        return DECRYPTS;
    case SIGNING:
        return SIGNS | ciphers;
    default:
        return VERIFIES | ciphers;
    }
}

static CK_RV check_key(const struct mechanism *how, enum activity activity, const struct object *it)
{
    unsigned needed = needed_uses(how, activity);
    if (!it)
        return CKR_KEY_HANDLE_INVALID;
    if (it->key.length && it->key.length != how->key_length)
        return CKR_KEY_TYPE_INCONSISTENT;
    return (it->key.uses & needed) == needed ? CKR_OK : CKR_KEY_FUNCTION_NOT_PERMITTED;
}

static CK_RV take_mac_length(struct operation *it, const CK_MECHANISM *given)
{
    CK_ULONG length;
    if (!given->pParameter || given->ulParameterLen != sizeof length)
        return CKR_MECHANISM_PARAM_INVALID;
    memcpy(&length, given->pParameter, sizeof length);
    it->mac_length = length;
    return length == 4 || length == 6 || length == 8 ? CKR_OK : CKR_MECHANISM_PARAM_INVALID;
}

static CK_RV take_parameter(struct operation *it, const CK_MECHANISM *given)
{
    enum kind kind = it->mechanism->kind;
    it->mac_length = SHORT_MAC;
    if (it->mechanism->has_length)
        return take_mac_length(it, given);
    if (kind != CBC && kind != CBC_PAD)
        return given->ulParameterLen == 0 ? CKR_OK : CKR_MECHANISM_PARAM_INVALID;
    if (!given->pParameter || given->ulParameterLen != BLOCK)
        return CKR_MECHANISM_PARAM_INVALID;
    memcpy(it->iv, given->pParameter, BLOCK);
    return CKR_OK;
}

static void take_key(struct operation *it, const struct object *key)
{
    it->is_label = !key->session;
    memcpy(it->label, key->label.text, sizeof it->label);
    memcpy(it->token, key->token, sizeof it->token);
}

static CK_FLAGS flag_of(enum activity activity)
{
    static const CK_FLAGS flags[] = {0, 0, CKF_ENCRYPT, CKF_DECRYPT, CKF_SIGN, CKF_VERIFY};
    return flags[activity];
}

static CK_RV begin(struct session *session, enum activity activity, const CK_MECHANISM *mechanism, CK_OBJECT_HANDLE key)
{
    struct operation new = {0};
    const struct object *it = object_at(session->slot, key);
    CK_RV rv;
    if (session->operation.activity != NOTHING)
        return CKR_OPERATION_ACTIVE;
    if (!mechanism)
        return CKR_ARGUMENTS_BAD;
    new.mechanism = mechanism_of_type(mechanism->mechanism);
    if (!new.mechanism || !(new.mechanism->flags & flag_of(activity)))
        return CKR_MECHANISM_INVALID;
    rv = check_key(new.mechanism, activity, it);
    if (rv == CKR_OK)
        rv = take_parameter(&new, mechanism);
    if (rv != CKR_OK)
        return rv;
    take_key(&new, it);
    new.activity = activity;
    session->operation = new;
    return CKR_OK;
}

CK_RV operation_init(CK_SESSION_HANDLE handle, enum activity activity, const CK_MECHANISM *mechanism, CK_OBJECT_HANDLE key)
{
    struct session *session;
    CK_RV rv = session_enter(handle, &session);
    return rv == CKR_OK ? session_leave(session, begin(session, activity, mechanism, key)) : rv;
}
