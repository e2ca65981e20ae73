/* Sessions: each has one search or one operation at a time. */
#ifndef CCA_PKCS11_SESSIONS_H
#define CCA_PKCS11_SESSIONS_H

#include "operations.h"

#include <p11-kit/pkcs11.h>

#define MOST_SESSIONS 256 /* of a slot */

struct slot;

struct search {
    CK_OBJECT_HANDLE *found;
    CK_ULONG count, next;
};

struct session {
    CK_SESSION_HANDLE handle; /* 0: the place is free */
    CK_FLAGS flags;
    struct slot *slot;
    CK_ULONG refused_by; /* the rule that refused the last request, or 0: ulDeviceError */
    struct search search;
    struct operation operation;
};

/* Takes a session, and its slot for this thread alone, until it is left. */
CK_RV session_enter(CK_SESSION_HANDLE handle, struct session **session);
CK_RV session_leave(struct session *it, CK_RV rv);

/* What a request came to, whose rule is noted. */
CK_RV session_told(struct session *it, struct cca_result came);

/* Ends whatever the session does. */
void session_rest(struct session *it);

/* Whether the session may make and delete objects. */
int session_may_write(const struct session *it);

#endif
