/* See sessions.h. */
#include "sessions.h"

#include "errors.h"
#include "exchange.h"
#include "slots.h"

#include <stdlib.h>
#include <string.h>

/* A handle has the number of its session, and that of the slot below it. */
static CK_SESSION_HANDLE handle_of(const struct slot *slot)
{
    return slot->last_session * MOST_SLOTS + slot->id;
}

static struct session *find(struct slot *slot, CK_SESSION_HANDLE handle)
{
    size_t at;
    for (at = 0; at < MOST_SESSIONS; at++)
        if (slot->sessions[at].handle == handle)
            return &slot->sessions[at];
    return NULL;
}

CK_RV session_enter(CK_SESSION_HANDLE handle, struct session **session)
{
    struct slot *slot;
    CK_RV rv = slot_enter(handle % MOST_SLOTS, &slot);
    if (rv == CKR_SLOT_ID_INVALID)
        return CKR_SESSION_HANDLE_INVALID;
    if (rv != CKR_OK)
        return rv;
    *session = handle ? find(slot, handle) : NULL;
    return *session ? CKR_OK : slot_leave(slot, CKR_SESSION_HANDLE_INVALID);
}

CK_RV session_leave(struct session *it, CK_RV rv)
{
    return slot_leave(it->slot, rv);
}

CK_RV session_told(struct session *it, struct cca_result came)
{
    it->refused_by = came.outcome == CCA_REFUSED ? (CK_ULONG)came.rule : 0;
    return error_of(&came);
}

void session_rest(struct session *it)
{
    free(it->search.found);
    memset(&it->search, 0, sizeof it->search);
    exchange_wipe(&it->operation, sizeof it->operation);
}

int session_may_write(const struct session *it)
{
    return (it->flags & CKF_RW_SESSION) != 0;
}

CK_RV C_OpenSession(CK_SLOT_ID id, CK_FLAGS flags, void *application, CK_NOTIFY notify, CK_SESSION_HANDLE *handle)
{
    struct slot *slot;
    struct session *it;
    CK_RV rv = slot_enter(id, &slot);
    (void)application;
    (void)notify;
    if (rv != CKR_OK)
        return rv;
    if (!handle)
        return slot_leave(slot, CKR_ARGUMENTS_BAD);
    if (!(flags & CKF_SERIAL_SESSION))
        return slot_leave(slot, CKR_SESSION_PARALLEL_NOT_SUPPORTED);
    if (!slot_is_present(slot))
        return slot_leave(slot, CKR_TOKEN_NOT_PRESENT);
    it = find(slot, 0);
    if (!it)
        return slot_leave(slot, CKR_SESSION_COUNT);
    memset(it, 0, sizeof *it);
    slot->last_session++;
    *handle = it->handle = handle_of(slot);
    it->slot = slot;
    it->flags = flags & (CKF_SERIAL_SESSION | CKF_RW_SESSION);
    return slot_leave(slot, CKR_OK);
}

static void session_close(struct session *it)
{
    session_rest(it);
    objects_end_session(it->slot, it->handle);
    it->handle = 0;
}

/* With the last session ends the login. */
static void end_login(struct slot *slot)
{
    size_t at;
    for (at = 0; at < MOST_SESSIONS; at++)
        if (slot->sessions[at].handle)
            return;
    slot->is_logged_in = 0;
}

CK_RV C_CloseSession(CK_SESSION_HANDLE handle)
{
    struct session *it;
    CK_RV rv = session_enter(handle, &it);
    if (rv != CKR_OK)
        return rv;
    session_close(it);
    end_login(it->slot);
    return session_leave(it, CKR_OK);
}

CK_RV C_CloseAllSessions(CK_SLOT_ID id)
{
    struct slot *slot;
    size_t at;
    CK_RV rv = slot_enter(id, &slot);
    if (rv != CKR_OK)
        return rv;
    for (at = 0; at < MOST_SESSIONS; at++)
        if (slot->sessions[at].handle)
            session_close(&slot->sessions[at]);
    slot->is_logged_in = 0;
    return slot_leave(slot, CKR_OK);
}

static CK_STATE state_of(const struct session *it)
{
    if (session_may_write(it))
        return it->slot->is_logged_in ? CKS_RW_USER_FUNCTIONS : CKS_RW_PUBLIC_SESSION;
    return it->slot->is_logged_in ? CKS_RO_USER_FUNCTIONS : CKS_RO_PUBLIC_SESSION;
}

CK_RV C_GetSessionInfo(CK_SESSION_HANDLE handle, CK_SESSION_INFO *info)
{
    struct session *it;
    CK_RV rv = session_enter(handle, &it);
    if (rv != CKR_OK)
        return rv;
    if (!info)
        return session_leave(it, CKR_ARGUMENTS_BAD);
    info->slotID = it->slot->id;
    info->state = state_of(it);
    info->flags = it->flags;
    info->ulDeviceError = it->refused_by;
    return session_leave(it, CKR_OK);
}

/* There is no PIN: who may open the socket or the folder has the role. So none is asked for, and one that comes isn't looked at. */
static CK_RV log_in(struct slot *slot, CK_USER_TYPE user)
{
    if (user == CKU_CONTEXT_SPECIFIC)
        return CKR_OPERATION_NOT_INITIALIZED;
    if (user != CKU_USER)
        return CKR_USER_TYPE_INVALID;
    if (slot->is_logged_in)
        return CKR_USER_ALREADY_LOGGED_IN;
    slot->is_logged_in = 1;
    return CKR_OK;
}

CK_RV C_Login(CK_SESSION_HANDLE handle, CK_USER_TYPE user, CK_UTF8CHAR *pin, CK_ULONG length)
{
    struct session *it;
    CK_RV rv = session_enter(handle, &it);
    if (rv != CKR_OK)
        return rv;
    if (!pin && length > 0)
        return session_leave(it, CKR_ARGUMENTS_BAD);
    return session_leave(it, log_in(it->slot, user));
}

CK_RV C_Logout(CK_SESSION_HANDLE handle)
{
    struct session *it;
    CK_RV rv = session_enter(handle, &it);
    if (rv != CKR_OK)
        return rv;
    rv = it->slot->is_logged_in ? CKR_OK : CKR_USER_NOT_LOGGED_IN;
    it->slot->is_logged_in = 0;
    return session_leave(it, rv);
}

/* The state of an operation isn't given out: it would be a chaining value. */
CK_RV C_GetOperationState(CK_SESSION_HANDLE handle, CK_BYTE *state, CK_ULONG *length)
{
    struct session *it;
    CK_RV rv = session_enter(handle, &it);
    (void)state;
    if (rv != CKR_OK)
        return rv;
    if (!length)
        return session_leave(it, CKR_ARGUMENTS_BAD);
    return session_leave(it, it->operation.activity == NOTHING ? CKR_OPERATION_NOT_INITIALIZED : CKR_STATE_UNSAVEABLE);
}

CK_RV C_SetOperationState(CK_SESSION_HANDLE handle, CK_BYTE *state, CK_ULONG length, CK_OBJECT_HANDLE encryption,
                          CK_OBJECT_HANDLE authentication)
{
    struct session *it;
    CK_RV rv = session_enter(handle, &it);
    (void)state;
    (void)length;
    (void)encryption;
    (void)authentication;
    return rv == CKR_OK ? session_leave(it, CKR_SAVED_STATE_INVALID) : rv;
}
