/* The slots: each is a place of the configuration, and a token with the name of the role. Calls for one slot take turns. */
#ifndef CCA_PKCS11_SLOTS_H
#define CCA_PKCS11_SLOTS_H

#include "configuration.h"
#include "objects.h"
#include "sessions.h"

#include <pthread.h>

struct slot {
    CK_SLOT_ID id;
    struct place place;
    char program[LONGEST_PROGRAM]; /* that is started in a folder */
    struct cca cca;
    pthread_mutex_t turn;
    int is_logged_in;
    CK_ULONG last_session;        /* the number of the session that was opened last */
    CK_OBJECT_HANDLE last_object; /* the handle that was given last */
    struct session sessions[MOST_SESSIONS];
    struct object objects[MOST_OBJECTS];
};

/* Whether this process has initialized the module. */
int slots_are_there(void);

/* Null where there is none. */
struct slot *slot_at(CK_SLOT_ID id);

/* Whether its socket or its folder is there. */
int slot_is_present(const struct slot *it);

/* Takes a slot for this thread alone, and leaves it. */
CK_RV slot_enter(CK_SLOT_ID id, struct slot **slot);
CK_RV slot_leave(struct slot *it, CK_RV rv);

#endif
