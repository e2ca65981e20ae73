/* Making keys: generated, from clear bytes, unwrapped or copied; wrapping and deleting them. A key is made as a token first. So a
   template that can't be had leaves nothing behind, and one that forbids export is never stored as a key that permits it. */
#include "cca-pkcs11.h"
#include "errors.h"
#include "exchange.h"
#include "slots.h"
#include "templates.h"

#include <string.h>

/* ---- keeping a new key */

static CK_RV begin(struct session *session, struct order *order, const CK_ATTRIBUTE *attributes, CK_ULONG count)
{
    CK_RV rv = order_read(order, attributes, count);
    if (rv == CKR_OK && order->is_token && !session_may_write(session))
        rv = CKR_SESSION_READ_ONLY;
    return rv;
}

/* Stores a token under a new label. */
static CK_RV store(struct session *session, const char *label, const unsigned char *token, const struct key *key,
                   struct object **made)
{
    struct cca *cca = &session->slot->cca;
    CK_RV rv = session_told(session, cca_record_create(cca, label));
    if (rv != CKR_OK)
        return rv;
    rv = session_told(session, cca_record_write(cca, label, token));
    if (rv != CKR_OK) {
        cca_record_delete(cca, label); /* as far as the role may */
        return rv;
    }
    return object_under_label(session->slot, label, key, made);
}

static CK_RV hold(struct session *session, const struct order *order, const unsigned char *token, const struct key *key,
                  struct object **made)
{
    struct object *it = object_add(session->slot);
    if (!it)
        return CKR_HOST_MEMORY;
    it->session = session->handle;
    it->label = order->label;
    it->id = order->id;
    it->key = *key;
    it->shows_des3 |= order->shows_des3;
    memcpy(it->token, token, CCA_TOKEN_SIZE);
    *made = it;
    return CKR_OK;
}

/* Whether a key is what a template asks for. */
static int fits(const struct order *order, const struct key *key)
{
    return (order->length == 0 || order->length == key->length) && !(order->wanted & ~key->uses) &&
           !(order->unwanted & key->uses);
}

/* Makes a token an object, as a template says. */
static CK_RV keep(struct session *session, const struct order *order, unsigned char *token, struct object **made)
{
    struct key key;
    CK_RV rv = CKR_OK;
    if (order->is_never_exported)
        rv = session_told(session, cca_prohibit_export(&session->slot->cca, cca_token(token), NULL, token));
    if (rv != CKR_OK)
        return rv;
    if (!key_of_token(token, &key) || !fits(order, &key))
        return CKR_TEMPLATE_INCONSISTENT;
    return order->is_token ? store(session, order->label.text, token, &key, made) : hold(session, order, token, &key, made);
}

/* ---- generating */

static CK_RV generate(struct session *session, const struct order *order, int length, struct object **made)
{
    unsigned char token[CCA_TOKEN_SIZE];
    struct cca_generation what = {.form = "OP", .length = length == 8 ? "8" : "16"};
    CK_RV rv;
    what.type1 = key_type_with(length, order->wanted, order->unwanted);
    if (!what.type1 || order->value || (order->length && order->length != length))
        return CKR_TEMPLATE_INCONSISTENT;
    rv = session_told(session, cca_key_generate(&session->slot->cca, &what, NULL, token, NULL));
    if (rv == CKR_OK)
        rv = keep(session, order, token, made);
    if (rv == CKR_OK && !order->is_token) {
        (*made)->is_generated = 1;
        (*made)->is_never_exportable = order->is_never_exported;
    }
    return rv;
}

CK_RV C_GenerateKey(CK_SESSION_HANDLE handle, CK_MECHANISM *mechanism, CK_ATTRIBUTE *attributes, CK_ULONG count,
                    CK_OBJECT_HANDLE *key)
{
    const struct mechanism *how;
    struct session *session;
    struct object *made;
    struct order order;
    CK_RV rv = session_enter(handle, &session);
    if (rv != CKR_OK)
        return rv;
    if (!mechanism || !key)
        return session_leave(session, CKR_ARGUMENTS_BAD);
    how = mechanism_of_type(mechanism->mechanism);
    if (!how || how->kind != GENERATION)
        return session_leave(session, CKR_MECHANISM_INVALID);
    if (mechanism->ulParameterLen != 0)
        return session_leave(session, CKR_MECHANISM_PARAM_INVALID);
    rv = begin(session, &order, attributes, count);
    if (rv == CKR_OK)
        rv = generate(session, &order, how->key_length, &made);
    if (rv == CKR_OK)
        *key = made->handle;
    return session_leave(session, rv);
}

/* ---- from clear bytes */

/* Checks the value of a clear key, and how long it is here: 24 bytes must end as they begin. */
static CK_RV check_value(const struct order *order, int *length)
{
    const unsigned char *bytes = order->value->pValue;
    CK_ULONG size = order->value->ulValueLen;
    if (order->shows_des3 && size == 24 && memcmp(bytes, bytes + 16, 8) == 0)
        size = 16;
    else if (order->shows_des3 || size != (CK_ULONG)order->length)
        return CKR_ATTRIBUTE_VALUE_INVALID;
    *length = (int)size;
    return CKR_OK;
}

/* Enters a key of any type: as a first part, and zeros as the last one. */
static CK_RV enter_parts(struct session *session, const char *type, const unsigned char *clear, int length, unsigned char *token)
{
    static const unsigned char zeros[16];
    struct cca *cca = &session->slot->cca;
    size_t size = (size_t)length;
    CK_RV rv = session_told(session, cca_key_part_first(cca, type, clear, size, NULL, token));
    if (rv == CKR_OK)
        rv = session_told(session, cca_key_part_next(cca, "LAST", cca_token(token), zeros, size, NULL, token));
    return rv;
}

/* Enters a clear key: in one request where that makes this type, and the role has the point CKI. */
static CK_RV enter(struct session *session, const char *type, const unsigned char *clear, int length, unsigned char *token)
{
    struct cca_result came;
    if (length != 8 || strcmp(type, "DATA") != 0)
        return enter_parts(session, type, clear, length, token);
    came = cca_clear_key_import(&session->slot->cca, clear, NULL, token);
    return is_refused(&came, 4) ? enter_parts(session, type, clear, length, token) : session_told(session, came);
}

static CK_RV create(struct session *session, const struct order *order, struct object **made)
{
    unsigned char token[CCA_TOKEN_SIZE];
    const char *type;
    int length;
    CK_RV rv;
    if (!order->value || order->length == 0)
        return CKR_TEMPLATE_INCOMPLETE;
    rv = check_value(order, &length);
    if (rv != CKR_OK)
        return rv;
    type = key_type_with(length, order->wanted, order->unwanted);
    if (!type)
        return CKR_TEMPLATE_INCONSISTENT;
    rv = enter(session, type, order->value->pValue, length, token);
    return rv == CKR_OK ? keep(session, order, token, made) : rv;
}

CK_RV C_CreateObject(CK_SESSION_HANDLE handle, CK_ATTRIBUTE *attributes, CK_ULONG count, CK_OBJECT_HANDLE *key)
{
    struct template given = {attributes, count};
    struct session *session;
    struct object *made;
    struct order order;
    CK_RV rv = session_enter(handle, &session);
    if (rv != CKR_OK)
        return rv;
    if (!attributes || !key)
        return session_leave(session, CKR_ARGUMENTS_BAD);
    rv = template_find(&given, CKA_CLASS) ? begin(session, &order, attributes, count) : CKR_TEMPLATE_INCOMPLETE;
    if (rv == CKR_OK)
        rv = create(session, &order, &made);
    if (rv == CKR_OK)
        *key = made->handle;
    return session_leave(session, rv);
}

/* ---- copying */

static CK_RV copy(struct session *session, const struct object *it, const struct order *order, struct object **made)
{
    unsigned char token[CCA_TOKEN_SIZE];
    CK_RV rv = CKR_OK;
    if (order->value)
        return CKR_ATTRIBUTE_READ_ONLY;
    if (it->session)
        memcpy(token, it->token, sizeof token);
    else
        rv = session_told(session, cca_record_read(&session->slot->cca, it->label.text, token));
    if (rv == CKR_KEY_HANDLE_INVALID)
        return CKR_OBJECT_HANDLE_INVALID;
    return rv == CKR_OK ? keep(session, order, token, made) : rv;
}

CK_RV C_CopyObject(CK_SESSION_HANDLE handle, CK_OBJECT_HANDLE key, CK_ATTRIBUTE *attributes, CK_ULONG count,
                   CK_OBJECT_HANDLE *copied)
{
    struct session *session;
    struct object *it, *made;
    struct order order;
    CK_RV rv = session_enter(handle, &session);
    if (rv != CKR_OK)
        return rv;
    it = object_at(session->slot, key);
    if (!it)
        return session_leave(session, CKR_OBJECT_HANDLE_INVALID);
    rv = copied ? begin(session, &order, attributes, count) : CKR_ARGUMENTS_BAD;
    if (rv == CKR_OK)
        rv = copy(session, it, &order, &made);
    if (rv == CKR_OK)
        *copied = made->handle;
    return session_leave(session, rv);
}

/* ---- external tokens */

/* The mechanism, and the key that other keys are under. */
static CK_RV find_transport(struct session *session, const CK_MECHANISM *mechanism, CK_OBJECT_HANDLE handle, unsigned use,
                            struct object **transport)
{
    int is_wrapping = use == WRAPS;
    if (!mechanism)
        return CKR_ARGUMENTS_BAD;
    if (mechanism->mechanism != CKM_CCA_EXTERNAL_TOKEN)
        return CKR_MECHANISM_INVALID;
    if (mechanism->ulParameterLen != 0)
        return CKR_MECHANISM_PARAM_INVALID;
    *transport = object_at(session->slot, handle);
    if (!*transport)
        return is_wrapping ? CKR_WRAPPING_KEY_HANDLE_INVALID : CKR_UNWRAPPING_KEY_HANDLE_INVALID;
    return (*transport)->key.uses & use ? CKR_OK : CKR_KEY_FUNCTION_NOT_PERMITTED;
}

/* The code of a refusal, where the transport key broke the rule. */
static CK_RV told_of_transport(struct session *session, struct cca_result came, int is_wrapping)
{
    CK_RV rv = session_told(session, came);
    if (is_refused(&came, 22))
        return is_wrapping ? CKR_WRAPPING_KEY_SIZE_RANGE : CKR_UNWRAPPING_KEY_SIZE_RANGE;
    if (rv != CKR_KEY_HANDLE_INVALID || strcmp(came.field, "transport") != 0)
        return rv;
    return is_wrapping ? CKR_WRAPPING_KEY_HANDLE_INVALID : CKR_UNWRAPPING_KEY_HANDLE_INVALID;
}

static CK_RV wrap(struct session *session, const struct object *transport, const struct object *it, unsigned char *wrapped,
                  CK_ULONG *length)
{
    CK_ULONG room = *length;
    *length = CCA_TOKEN_SIZE;
    if (!wrapped)
        return CKR_OK;
    if (room < CCA_TOKEN_SIZE)
        return CKR_BUFFER_TOO_SMALL;
    return told_of_transport(session, cca_key_export(&session->slot->cca, object_key(it), object_key(transport), wrapped), 1);
}

CK_RV C_WrapKey(CK_SESSION_HANDLE handle, CK_MECHANISM *mechanism, CK_OBJECT_HANDLE transport_key, CK_OBJECT_HANDLE key,
                CK_BYTE *wrapped, CK_ULONG *length)
{
    struct session *session;
    struct object *transport, *it;
    CK_RV rv = session_enter(handle, &session);
    if (rv != CKR_OK)
        return rv;
    rv = length ? find_transport(session, mechanism, transport_key, WRAPS, &transport) : CKR_ARGUMENTS_BAD;
    it = object_at(session->slot, key);
    if (rv == CKR_OK)
        rv = it ? wrap(session, transport, it, wrapped, length) : CKR_KEY_HANDLE_INVALID;
    return session_leave(session, rv);
}

static CK_RV unwrap(struct session *session, const struct object *transport, const unsigned char *wrapped,
                    const struct order *order, struct object **made)
{
    unsigned char token[CCA_TOKEN_SIZE];
    struct cca_result came;
    CK_RV rv;
    if (order->value)
        return CKR_TEMPLATE_INCONSISTENT;
    came = cca_key_import(&session->slot->cca, wrapped, object_key(transport), NULL, token);
    rv = told_of_transport(session, came, 0);
    return rv == CKR_OK ? keep(session, order, token, made) : rv;
}

CK_RV C_UnwrapKey(CK_SESSION_HANDLE handle, CK_MECHANISM *mechanism, CK_OBJECT_HANDLE transport_key, CK_BYTE *wrapped,
                  CK_ULONG length, CK_ATTRIBUTE *attributes, CK_ULONG count, CK_OBJECT_HANDLE *key)
{
    struct session *session;
    struct object *transport, *made;
    struct order order;
    CK_RV rv = session_enter(handle, &session);
    if (rv != CKR_OK)
        return rv;
    rv = wrapped && key ? find_transport(session, mechanism, transport_key, UNWRAPS, &transport) : CKR_ARGUMENTS_BAD;
    if (rv == CKR_OK && length != CCA_TOKEN_SIZE)
        rv = CKR_WRAPPED_KEY_LEN_RANGE;
    if (rv == CKR_OK)
        rv = begin(session, &order, attributes, count);
    if (rv == CKR_OK)
        rv = unwrap(session, transport, wrapped, &order, &made);
    if (rv == CKR_OK)
        *key = made->handle;
    return session_leave(session, rv);
}

/* ---- deleting */

static CK_RV destroy(struct session *session, struct object *it)
{
    struct cca_result came;
    if (it->session) {
        object_remove(it);
        return CKR_OK;
    }
    if (!session_may_write(session))
        return CKR_SESSION_READ_ONLY;
    came = cca_record_delete(&session->slot->cca, it->label.text);
    if (came.outcome == CCA_DONE || is_refused(&came, 7))
        object_remove(it);
    return is_refused(&came, 7) ? CKR_OBJECT_HANDLE_INVALID : session_told(session, came);
}

CK_RV C_DestroyObject(CK_SESSION_HANDLE handle, CK_OBJECT_HANDLE key)
{
    struct session *session;
    struct object *it;
    CK_RV rv = session_enter(handle, &session);
    if (rv != CKR_OK)
        return rv;
    it = object_at(session->slot, key);
    return session_leave(session, it ? destroy(session, it) : CKR_OBJECT_HANDLE_INVALID);
}

/* ---- random bytes */

static CK_RV give_random(struct session *session, unsigned char *to, CK_ULONG length)
{
    unsigned char eight[8];
    CK_RV rv = CKR_OK;
    while (rv == CKR_OK && length > 0) {
        CK_ULONG some = length < sizeof eight ? length : sizeof eight;
        rv = session_told(session, cca_random(&session->slot->cca, "RANDOM", eight));
        if (rv == CKR_OK)
            memcpy(to, eight, some);
        to += some;
        length -= some;
    }
    exchange_wipe(eight, sizeof eight);
    return rv;
}

CK_RV C_GenerateRandom(CK_SESSION_HANDLE handle, CK_BYTE *to, CK_ULONG length)
{
    struct session *session;
    CK_RV rv = session_enter(handle, &session);
    if (rv != CKR_OK)
        return rv;
    return session_leave(session, to || length == 0 ? give_random(session, to, length) : CKR_ARGUMENTS_BAD);
}

CK_RV C_SeedRandom(CK_SESSION_HANDLE handle, CK_BYTE *seed, CK_ULONG length)
{
    struct session *session;
    CK_RV rv = session_enter(handle, &session);
    (void)seed;
    (void)length;
    return rv == CKR_OK ? session_leave(session, CKR_RANDOM_SEED_NOT_SUPPORTED) : rv;
}
