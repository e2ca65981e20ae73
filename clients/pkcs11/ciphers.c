/* Enciphering and deciphering. Whole blocks go to cca as they come, with the last block of ciphertext as the IV of the next ones.
   What is asked of cca stands in memory of its own: the caller's buffers may be one, and where there is no room nothing has
   changed. */
#include "errors.h"
#include "exchange.h"
#include "slots.h"

#include <stdint.h>
#include <stdlib.h>
#include <string.h>

/* A step: so much data, with what was held, and what comes of it. */
struct step {
    struct operation *operation;
    int is_last;
    size_t total;  /* bytes of data, with those that were held */
    size_t whole;  /* bytes that cca is asked for */
    size_t most;   /* bytes that may come */
    unsigned char *bytes;
    size_t length; /* bytes that came */
    unsigned char iv[BLOCK];
};

static int is_encrypting(const struct operation *it)
{
    return it->activity == ENCRYPTING;
}

static int is_padded(const struct operation *it)
{
    return it->mechanism->kind == CBC_PAD;
}

/* Ends where the length of all the data is none. */
static CK_RV check_length(const struct step *it)
{
    int is_enciphering = is_encrypting(it->operation);
    if (!it->is_last || (is_enciphering && is_padded(it->operation)))
        return CKR_OK;
    if (it->total % BLOCK == 0 && (it->total > 0 || !is_padded(it->operation)))
        return CKR_OK;
    return is_enciphering ? CKR_DATA_LEN_RANGE : CKR_ENCRYPTED_DATA_LEN_RANGE;
}

static CK_RV measure(struct step *it, size_t length)
{
    int is_unpadding = is_padded(it->operation) && !is_encrypting(it->operation);
    if (length > SIZE_MAX / 2)
        return CKR_DATA_LEN_RANGE;
    it->total = it->operation->held_length + length;
    if (it->is_last && is_padded(it->operation) && is_encrypting(it->operation))
        it->whole = it->total / BLOCK * BLOCK + BLOCK;
    else if (!it->is_last && is_unpadding) /* the last block is held: it may be the one with the padding */
        it->whole = it->total > 0 ? (it->total - 1) / BLOCK * BLOCK : 0;
    else
        it->whole = it->total / BLOCK * BLOCK;
    it->most = it->whole;
    return check_length(it);
}

static CK_RV gather(struct step *it, const unsigned char *data, size_t length)
{
    size_t held = it->operation->held_length, fill = it->whole > it->total ? it->whole - it->total : 0;
    it->bytes = malloc(it->total + 2 * BLOCK);
    if (!it->bytes)
        return CKR_HOST_MEMORY;
    memcpy(it->bytes, it->operation->held, held);
    if (length > 0)
        memcpy(it->bytes + held, data, length);
    memset(it->bytes + it->total, (int)fill, fill);
    memcpy(it->iv, it->operation->iv, BLOCK);
    return CKR_OK;
}

static void let_go(struct step *it)
{
    if (it->bytes)
        exchange_wipe(it->bytes, it->total + 2 * BLOCK);
    free(it->bytes);
}

static CK_RV ask(struct session *session, const unsigned char *iv, unsigned char *bytes, size_t length)
{
    struct cca *cca = &session->slot->cca;
    struct operation *it = &session->operation;
    size_t came;
    if (is_encrypting(it))
        return session_told(session, cca_encipher(cca, operation_key(it), iv, "NONE", bytes, length, bytes, &came));
    return session_told(session, cca_decipher(cca, operation_key(it), iv, "NONE", bytes, length, bytes, &came));
}

static CK_RV chain_blocks(struct session *session, struct step *it)
{
    unsigned char last[BLOCK];
    CK_RV rv;
    memcpy(last, it->bytes + it->whole - BLOCK, BLOCK);
    rv = ask(session, it->iv, it->bytes, it->whole);
    memcpy(it->iv, is_encrypting(it->operation) ? it->bytes + it->whole - BLOCK : last, BLOCK);
    return rv;
}

/* Each block by itself, since CBC begins anew with it. */
static CK_RV encipher_blocks(struct session *session, struct step *it)
{
    static const unsigned char zeros[BLOCK];
    CK_RV rv = CKR_OK;
    size_t at;
    for (at = 0; rv == CKR_OK && at < it->whole; at += BLOCK)
        rv = ask(session, zeros, it->bytes + at, BLOCK);
    return rv;
}

/* All at once: what CBC XORs each block with is the ciphertext before it. */
static CK_RV decipher_blocks(struct session *session, struct step *it)
{
    static const unsigned char zeros[BLOCK];
    unsigned char *ciphertext = malloc(it->whole);
    size_t at;
    CK_RV rv;
    if (!ciphertext)
        return CKR_HOST_MEMORY;
    memcpy(ciphertext, it->bytes, it->whole);
    rv = ask(session, zeros, it->bytes, it->whole);
    for (at = BLOCK; rv == CKR_OK && at < it->whole; at++)
        it->bytes[at] = (unsigned char)(it->bytes[at] ^ ciphertext[at - BLOCK]);
    free(ciphertext);
    return rv;
}

/* The length without the padding of PKCS #7. */
static CK_RV unpad(struct step *it)
{
    size_t count = it->bytes[it->whole - 1], at;
    int is_one = count >= 1 && count <= BLOCK;
    for (at = 1; is_one && at <= count; at++)
        is_one = it->bytes[it->whole - at] == count;
    it->length = is_one ? it->whole - count : 0;
    return is_one ? CKR_OK : CKR_ENCRYPTED_DATA_INVALID;
}

static CK_RV carry_out(struct session *session, struct step *it)
{
    CK_RV rv = CKR_OK;
    it->length = it->whole;
    if (it->whole > 0 && it->operation->mechanism->kind != ECB)
        rv = chain_blocks(session, it);
    else if (it->whole > 0)
        rv = is_encrypting(it->operation) ? encipher_blocks(session, it) : decipher_blocks(session, it);
    if (rv == CKR_OK && it->is_last && is_padded(it->operation) && !is_encrypting(it->operation))
        rv = unpad(it);
    return rv;
}

/* Gives the caller what came, and notes what is held for the next step. */
static CK_RV give(struct step *it, unsigned char *out, CK_ULONG *out_length)
{
    struct operation *operation = it->operation;
    CK_ULONG room = *out_length;
    *out_length = it->length;
    if (room < it->length)
        return CKR_BUFFER_TOO_SMALL;
    if (it->length > 0)
        memcpy(out, it->bytes, it->length);
    operation->has_parts = 1;
    operation->held_length = it->is_last ? 0 : it->total - it->whole;
    memcpy(operation->held, it->bytes + it->whole, operation->held_length);
    memcpy(operation->iv, it->iv, BLOCK);
    return CKR_OK;
}

static CK_RV step(struct session *session, struct step *it, const unsigned char *data, size_t length, unsigned char *out,
                  CK_ULONG *out_length)
{
    int is_unpadding = it->is_last && is_padded(it->operation) && !is_encrypting(it->operation);
    CK_RV rv = measure(it, length);
    if (rv != CKR_OK)
        return rv;
    if (!out || (*out_length < it->most && !is_unpadding)) {
        *out_length = it->most;
        return out ? CKR_BUFFER_TOO_SMALL : CKR_OK;
    }
    rv = gather(it, data, length);
    if (rv == CKR_OK)
        rv = carry_out(session, it);
    if (rv == CKR_OK)
        rv = give(it, out, out_length);
    let_go(it);
    return rv;
}

enum call { WHOLE, PART, END };

/* The operation ends with its last step, and where it fails, but not where there is no room, or the length alone is asked for. */
static CK_RV cipher(CK_SESSION_HANDLE handle, enum activity activity, enum call call, const unsigned char *data, CK_ULONG length,
                    unsigned char *out, CK_ULONG *out_length)
{
    struct session *session;
    struct step it = {0};
    CK_RV rv = session_enter(handle, &session);
    if (rv != CKR_OK)
        return rv;
    rv = operation_check(session, activity);
    if (rv == CKR_OK && (!out_length || (!data && length > 0)))
        rv = CKR_ARGUMENTS_BAD;
    if (rv != CKR_OK)
        return session_leave(session, rv);
    it.operation = &session->operation;
    it.is_last = call != PART;
    if (call == WHOLE && it.operation->has_parts)
        rv = CKR_OPERATION_NOT_INITIALIZED;
    else
        rv = step(session, &it, data, length, out, out_length);
    if (rv != CKR_BUFFER_TOO_SMALL && (rv != CKR_OK || (it.is_last && out)))
        session_rest(session);
    return session_leave(session, rv);
}

/* ---- the functions of PKCS#11 */

CK_RV C_EncryptInit(CK_SESSION_HANDLE handle, CK_MECHANISM *mechanism, CK_OBJECT_HANDLE key)
{
    return operation_init(handle, ENCRYPTING, mechanism, key);
}

CK_RV C_Encrypt(CK_SESSION_HANDLE handle, CK_BYTE *data, CK_ULONG length, CK_BYTE *out, CK_ULONG *out_length)
{
    return cipher(handle, ENCRYPTING, WHOLE, data, length, out, out_length);
}

CK_RV C_EncryptUpdate(CK_SESSION_HANDLE handle, CK_BYTE *part, CK_ULONG length, CK_BYTE *out, CK_ULONG *out_length)
{
    return cipher(handle, ENCRYPTING, PART, part, length, out, out_length);
}

CK_RV C_EncryptFinal(CK_SESSION_HANDLE handle, CK_BYTE *out, CK_ULONG *out_length)
{
    return cipher(handle, ENCRYPTING, END, NULL, 0, out, out_length);
}

CK_RV C_DecryptInit(CK_SESSION_HANDLE handle, CK_MECHANISM *mechanism, CK_OBJECT_HANDLE key)
{
    return operation_init(handle, DECRYPTING, mechanism, key);
}

CK_RV C_Decrypt(CK_SESSION_HANDLE handle, CK_BYTE *data, CK_ULONG length, CK_BYTE *out, CK_ULONG *out_length)
{
    return cipher(handle, DECRYPTING, WHOLE, data, length, out, out_length);
}

CK_RV C_DecryptUpdate(CK_SESSION_HANDLE handle, CK_BYTE *part, CK_ULONG length, CK_BYTE *out, CK_ULONG *out_length)
{
    return cipher(handle, DECRYPTING, PART, part, length, out, out_length);
}

CK_RV C_DecryptFinal(CK_SESSION_HANDLE handle, CK_BYTE *out, CK_ULONG *out_length)
{
    return cipher(handle, DECRYPTING, END, NULL, 0, out, out_length);
}
