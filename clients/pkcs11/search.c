/* Searching keys by their attributes. */
#include "attributes.h"
#include "slots.h"
#include "templates.h"

#include <stdlib.h>
#include <string.h>

/* Whether a key has an attribute as it is given. An error is that of cca. */
static CK_RV compare(struct session *session, const struct object *it, const CK_ATTRIBUTE *given, int *is_same)
{
    struct value value;
    CK_RV rv = attribute_read(session, it, given->type, &value);
    *is_same = rv == CKR_OK && value.length == given->ulValueLen &&
               (value.length == 0 || memcmp(value.bytes, given->pValue, value.length) == 0);
    switch (rv) {
    case CKR_ATTRIBUTE_TYPE_INVALID:
    case CKR_ATTRIBUTE_SENSITIVE:
    case CKR_OBJECT_HANDLE_INVALID:
        return CKR_OK;
    }
    return rv;
}

static CK_RV matches(struct session *session, const struct object *it, const struct template *searched, int *is_found)
{
    CK_ULONG at;
    CK_RV rv = CKR_OK;
    *is_found = 1;
    for (at = 0; rv == CKR_OK && *is_found && at < searched->count; at++)
        rv = compare(session, it, &searched->attributes[at], is_found);
    return rv;
}

static CK_RV collect(struct session *session, const struct template *searched)
{
    struct search *search = &session->search;
    size_t at;
    CK_RV rv = CKR_OK;
    search->found = calloc(MOST_OBJECTS, sizeof *search->found);
    if (!search->found)
        return CKR_HOST_MEMORY;
    for (at = 0; rv == CKR_OK && at < MOST_OBJECTS; at++) {
        const struct object *it = &session->slot->objects[at];
        int is_found = 0;
        if (it->handle)
            rv = matches(session, it, searched, &is_found);
        if (is_found)
            search->found[search->count++] = it->handle;
    }
    return rv;
}

static CK_RV begin(struct session *session, const CK_ATTRIBUTE *attributes, CK_ULONG count)
{
    struct template searched;
    CK_RV rv;
    if (session->operation.activity != NOTHING)
        return CKR_OPERATION_ACTIVE;
    rv = template_take(&searched, attributes, count);
    if (rv == CKR_OK)
        rv = objects_look_up(session->slot, &searched);
    if (rv == CKR_OK)
        rv = collect(session, &searched);
    if (rv == CKR_OK)
        session->operation.activity = SEARCHING;
    else
        session_rest(session);
    return rv;
}

CK_RV C_FindObjectsInit(CK_SESSION_HANDLE handle, CK_ATTRIBUTE *attributes, CK_ULONG count)
{
    struct session *session;
    CK_RV rv = session_enter(handle, &session);
    return rv == CKR_OK ? session_leave(session, begin(session, attributes, count)) : rv;
}

CK_RV C_FindObjects(CK_SESSION_HANDLE handle, CK_OBJECT_HANDLE *keys, CK_ULONG most, CK_ULONG *count)
{
    struct session *session;
    struct search *search;
    CK_RV rv = session_enter(handle, &session);
    if (rv != CKR_OK)
        return rv;
    rv = operation_check(session, SEARCHING);
    if (!count || (!keys && most > 0))
        rv = CKR_ARGUMENTS_BAD;
    if (rv != CKR_OK)
        return session_leave(session, rv);
    search = &session->search;
    for (*count = 0; *count < most && search->next < search->count; ++*count)
        keys[*count] = search->found[search->next++];
    return session_leave(session, CKR_OK);
}

CK_RV C_FindObjectsFinal(CK_SESSION_HANDLE handle)
{
    struct session *session;
    CK_RV rv = session_enter(handle, &session);
    if (rv != CKR_OK)
        return rv;
    rv = operation_check(session, SEARCHING);
    if (rv == CKR_OK)
        session_rest(session);
    return session_leave(session, rv);
}
