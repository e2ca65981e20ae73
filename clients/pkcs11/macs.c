/* MACs. What comes is sent on in whole blocks, and the last bytes, 1 to 8, are held: only the end may be padded. */
#include "errors.h"
#include "exchange.h"
#include "slots.h"

#include <stdint.h>
#include <stdlib.h>
#include <string.h>

/* ---- by cca's own MACs */

static CK_RV send_segment(struct session *session, unsigned char *bytes, size_t length)
{
    struct operation *it = &session->operation;
    struct cca *cca = &session->slot->cca;
    struct cca_key key = operation_key(it);
    const char *rule = it->mechanism->rule;
    enum cca_segment segment = it->has_chain ? CCA_MIDDLE : CCA_FIRST;
    struct cca_result came;
    int matches;
    if (it->activity == SIGNING)
        came = cca_mac_generate_segment(cca, key, rule, segment, 0, it->chain, bytes, length, NULL);
    else
        came = cca_mac_verify_segment(cca, key, rule, segment, NULL, 0, it->chain, bytes, length, &matches);
    it->has_chain = 1;
    return session_told(session, came);
}

static CK_RV end_generation(struct session *session, unsigned char *mac)
{
    struct operation *it = &session->operation;
    struct cca *cca = &session->slot->cca;
    struct cca_key key = operation_key(it);
    const char *rule = it->mechanism->rule;
    int size = (int)it->mac_length;
    struct cca_result came;
    if (it->has_chain)
        came = cca_mac_generate_segment(cca, key, rule, CCA_LAST, size, it->chain, it->held, it->held_length, mac);
    else
        came = cca_mac_generate(cca, key, rule, size, it->held, it->held_length, mac);
    return session_told(session, came);
}

static CK_RV end_verification(struct session *session, const unsigned char *mac)
{
    struct operation *it = &session->operation;
    struct cca *cca = &session->slot->cca;
    struct cca_key key = operation_key(it);
    const char *rule = it->mechanism->rule;
    int size = (int)it->mac_length, matches = 0;
    struct cca_result came;
    CK_RV rv;
    if (it->has_chain)
        came = cca_mac_verify_segment(cca, key, rule, CCA_LAST, mac, size, it->chain, it->held, it->held_length, &matches);
    else
        came = cca_mac_verify(cca, key, rule, mac, size, it->held, it->held_length, &matches);
    rv = session_told(session, came);
    return rv == CKR_OK && !matches ? CKR_SIGNATURE_INVALID : rv;
}

/* ---- by enciphering in CBC mode: the MAC is the beginning of the last block */

static CK_RV chain_blocks(struct session *session, unsigned char *bytes, size_t length)
{
    struct operation *it = &session->operation;
    size_t came;
    struct cca *cca = &session->slot->cca;
    CK_RV rv = session_told(session, cca_encipher(cca, operation_key(it), it->iv, "NONE", bytes, length, bytes, &came));
    if (rv == CKR_OK)
        memcpy(it->iv, bytes + length - BLOCK, BLOCK);
    return rv;
}

static CK_RV end_chain(struct session *session)
{
    struct operation *it = &session->operation;
    unsigned char room[2 * BLOCK] = {0};
    CK_RV rv = CKR_DATA_LEN_RANGE; /* of no data */
    memcpy(room, it->held, it->held_length);
    if (it->held_length > 0)
        rv = chain_blocks(session, room, BLOCK);
    exchange_wipe(room, sizeof room);
    return rv;
}

/* In a time that doesn't tell where they differ. */
static int is_same(const unsigned char *one, const unsigned char *other, size_t length)
{
    unsigned char difference = 0;
    while (length-- > 0)
        difference = (unsigned char)(difference | (one[length] ^ other[length]));
    return difference == 0;
}

/* ---- parts and ends */

static CK_RV send(struct session *session, unsigned char *bytes, size_t length)
{
    if (length == 0)
        return CKR_OK;
    if (session->operation.mechanism->kind == CBC_MAC)
        return chain_blocks(session, bytes, length);
    return send_segment(session, bytes, length);
}

static CK_RV take_part(struct session *session, const unsigned char *data, size_t length)
{
    struct operation *it = &session->operation;
    size_t total = it->held_length + length, whole = total > 0 ? (total - 1) / BLOCK * BLOCK : 0;
    unsigned char *bytes;
    CK_RV rv;
    if (length > SIZE_MAX / 2)
        return CKR_DATA_LEN_RANGE;
    bytes = malloc(total + 2 * BLOCK);
    if (!bytes)
        return CKR_HOST_MEMORY;
    memcpy(bytes, it->held, it->held_length);
    if (length > 0)
        memcpy(bytes + it->held_length, data, length);
    it->held_length = total - whole;
    memcpy(it->held, bytes + whole, it->held_length);
    rv = send(session, bytes, whole);
    exchange_wipe(bytes, total + 2 * BLOCK);
    free(bytes);
    return rv;
}

static CK_RV generate(struct session *session, unsigned char *mac)
{
    struct operation *it = &session->operation;
    CK_RV rv;
    if (it->mechanism->kind != CBC_MAC)
        return end_generation(session, mac);
    rv = end_chain(session);
    if (rv == CKR_OK)
        memcpy(mac, it->iv, it->mac_length);
    return rv;
}

static CK_RV verify(struct session *session, const unsigned char *mac)
{
    struct operation *it = &session->operation;
    CK_RV rv;
    if (it->mechanism->kind != CBC_MAC)
        return end_verification(session, mac);
    rv = end_chain(session);
    return rv == CKR_OK && !is_same(mac, it->iv, it->mac_length) ? CKR_SIGNATURE_INVALID : rv;
}

/* ---- the functions of PKCS#11 */

static CK_RV update(CK_SESSION_HANDLE handle, enum activity activity, const unsigned char *part, CK_ULONG length)
{
    struct session *session;
    CK_RV rv = session_enter(handle, &session);
    if (rv != CKR_OK)
        return rv;
    rv = operation_check(session, activity);
    if (rv == CKR_OK && !part && length > 0)
        rv = CKR_ARGUMENTS_BAD;
    if (rv != CKR_OK)
        return session_leave(session, rv);
    session->operation.has_parts = 1;
    rv = take_part(session, part, length);
    if (rv != CKR_OK)
        session_rest(session);
    return session_leave(session, rv);
}

/* All of a message, or its end. */
static CK_RV sign(CK_SESSION_HANDLE handle, int is_whole, const unsigned char *data, CK_ULONG length, unsigned char *mac,
                  CK_ULONG *mac_length)
{
    struct session *session;
    struct operation *it;
    CK_ULONG room;
    CK_RV rv = session_enter(handle, &session);
    if (rv != CKR_OK)
        return rv;
    it = &session->operation;
    rv = operation_check(session, SIGNING);
    if (rv == CKR_OK && (!mac_length || (!data && length > 0)))
        rv = CKR_ARGUMENTS_BAD;
    if (rv != CKR_OK)
        return session_leave(session, rv);
    room = *mac_length;
    *mac_length = it->mac_length;
    if (!mac || room < it->mac_length)
        return session_leave(session, mac ? CKR_BUFFER_TOO_SMALL : CKR_OK);
    rv = is_whole && it->has_parts ? CKR_OPERATION_NOT_INITIALIZED : take_part(session, data, length);
    if (rv == CKR_OK)
        rv = generate(session, mac);
    session_rest(session);
    return session_leave(session, rv);
}

static CK_RV check(CK_SESSION_HANDLE handle, int is_whole, const unsigned char *data, CK_ULONG length, const unsigned char *mac,
                   CK_ULONG mac_length)
{
    struct session *session;
    struct operation *it;
    CK_RV rv = session_enter(handle, &session);
    if (rv != CKR_OK)
        return rv;
    it = &session->operation;
    rv = operation_check(session, VERIFYING);
    if (rv == CKR_OK && (!mac || (!data && length > 0)))
        rv = CKR_ARGUMENTS_BAD;
    if (rv != CKR_OK)
        return session_leave(session, rv);
    if (is_whole && it->has_parts)
        rv = CKR_OPERATION_NOT_INITIALIZED;
    else
        rv = mac_length == it->mac_length ? take_part(session, data, length) : CKR_SIGNATURE_LEN_RANGE;
    if (rv == CKR_OK)
        rv = verify(session, mac);
    session_rest(session);
    return session_leave(session, rv);
}

CK_RV C_SignInit(CK_SESSION_HANDLE handle, CK_MECHANISM *mechanism, CK_OBJECT_HANDLE key)
{
    return operation_init(handle, SIGNING, mechanism, key);
}

CK_RV C_Sign(CK_SESSION_HANDLE handle, CK_BYTE *data, CK_ULONG length, CK_BYTE *mac, CK_ULONG *mac_length)
{
    return sign(handle, 1, data, length, mac, mac_length);
}

CK_RV C_SignUpdate(CK_SESSION_HANDLE handle, CK_BYTE *part, CK_ULONG length)
{
    return update(handle, SIGNING, part, length);
}

CK_RV C_SignFinal(CK_SESSION_HANDLE handle, CK_BYTE *mac, CK_ULONG *mac_length)
{
    return sign(handle, 0, NULL, 0, mac, mac_length);
}

CK_RV C_VerifyInit(CK_SESSION_HANDLE handle, CK_MECHANISM *mechanism, CK_OBJECT_HANDLE key)
{
    return operation_init(handle, VERIFYING, mechanism, key);
}

CK_RV C_Verify(CK_SESSION_HANDLE handle, CK_BYTE *data, CK_ULONG length, CK_BYTE *mac, CK_ULONG mac_length)
{
    return check(handle, 1, data, length, mac, mac_length);
}

CK_RV C_VerifyUpdate(CK_SESSION_HANDLE handle, CK_BYTE *part, CK_ULONG length)
{
    return update(handle, VERIFYING, part, length);
}

CK_RV C_VerifyFinal(CK_SESSION_HANDLE handle, CK_BYTE *mac, CK_ULONG mac_length)
{
    return check(handle, 0, NULL, 0, mac, mac_length);
}
