/* See slots.h. */
#define _GNU_SOURCE
#include "slots.h"

#include "exchange.h"

#include <stdatomic.h>
#include <stdio.h>
#include <stdlib.h>
#include <string.h>
#include <sys/stat.h>
#include <unistd.h>

#define MANUFACTURER "cca"

static struct slot *slots[MOST_SLOTS];
static CK_ULONG slot_count;
static _Atomic pid_t owner; /* the process that initialized the module, or 0 */
static pthread_mutex_t beginning = PTHREAD_MUTEX_INITIALIZER;

/* ---- beginning and end */

/* What isn't a folder now is taken for a socket that a front is still to make. */
static void slot_open(struct slot *it)
{
    struct stat found;
    if (stat(it->place.path, &found) != 0 || !S_ISDIR(found.st_mode)) {
        cca_open_socket(&it->cca, it->place.path);
        return;
    }
    if (it->place.is_audited)
        cca_open_audited(&it->cca, it->place.path, it->place.role);
    else
        cca_open(&it->cca, it->place.path, it->place.role);
    configuration_program(it->program);
    it->cca.client.program = it->program;
}

static struct slot *slot_new(CK_SLOT_ID id, const struct place *place)
{
    struct slot *it = calloc(1, sizeof *it);
    if (!it)
        return NULL;
    it->id = id;
    it->place = *place;
    pthread_mutex_init(&it->turn, NULL);
    slot_open(it);
    return it;
}

static void slot_end_searches(struct slot *it)
{
    size_t at;
    for (at = 0; at < MOST_SESSIONS; at++)
        free(it->sessions[at].search.found);
}

/* Forgets all slots. In a child of the process that made them cca and the connections are left to the parent, and what another
   thread of it was just changing isn't looked at. */
static void forget_slots(int is_ours)
{
    for (; slot_count > 0; slot_count--) {
        struct slot *it = slots[slot_count - 1];
        if (is_ours) {
            cca_close(&it->cca);
            slot_end_searches(it);
            pthread_mutex_destroy(&it->turn);
        }
        exchange_wipe(it, sizeof *it);
        free(it);
    }
}

static CK_RV make_slots(void)
{
    static struct place places[MOST_SLOTS];
    CK_ULONG count;
    CK_RV rv = configuration_read(places, &count);
    while (rv == CKR_OK && slot_count < count) {
        slots[slot_count] = slot_new(slot_count, &places[slot_count]);
        if (!slots[slot_count])
            rv = CKR_HOST_MEMORY;
        else
            slot_count++;
    }
    if (rv != CKR_OK)
        forget_slots(1);
    return rv;
}

/* Locks are those of the system: where only the caller's own may be used, there are none. */
static CK_RV check_arguments(const CK_C_INITIALIZE_ARGS *it)
{
    int given;
    if (!it)
        return CKR_OK;
    given = (it->CreateMutex != NULL) + (it->DestroyMutex != NULL) + (it->LockMutex != NULL) + (it->UnlockMutex != NULL);
    if (it->pReserved || (given != 0 && given != 4))
        return CKR_ARGUMENTS_BAD;
    return given == 4 && !(it->flags & CKF_OS_LOCKING_OK) ? CKR_CANT_LOCK : CKR_OK;
}

CK_RV C_Initialize(void *arguments)
{
    CK_RV rv = check_arguments(arguments);
    if (rv != CKR_OK)
        return rv;
    pthread_mutex_lock(&beginning);
    if (owner == getpid()) {
        rv = CKR_CRYPTOKI_ALREADY_INITIALIZED;
    } else {
        forget_slots(0);
        rv = make_slots();
        owner = rv == CKR_OK ? getpid() : 0;
    }
    pthread_mutex_unlock(&beginning);
    return rv;
}

CK_RV C_Finalize(void *reserved)
{
    if (reserved)
        return CKR_ARGUMENTS_BAD;
    pthread_mutex_lock(&beginning);
    if (!slots_are_there()) {
        pthread_mutex_unlock(&beginning);
        return CKR_CRYPTOKI_NOT_INITIALIZED;
    }
    owner = 0;
    forget_slots(1);
    pthread_mutex_unlock(&beginning);
    return CKR_OK;
}

int slots_are_there(void)
{
    return owner == getpid();
}

struct slot *slot_at(CK_SLOT_ID id)
{
    return slots_are_there() && id < slot_count ? slots[id] : NULL;
}

CK_RV slot_enter(CK_SLOT_ID id, struct slot **slot)
{
    if (!slots_are_there())
        return CKR_CRYPTOKI_NOT_INITIALIZED;
    *slot = slot_at(id);
    if (!*slot)
        return CKR_SLOT_ID_INVALID;
    pthread_mutex_lock(&(*slot)->turn);
    return CKR_OK;
}

CK_RV slot_leave(struct slot *it, CK_RV rv)
{
    pthread_mutex_unlock(&it->turn);
    return rv;
}

/* ---- what is told of them */

/* A text without a zero byte, filled with spaces; of a long one the end. */
static void fill(unsigned char *to, size_t size, const char *text)
{
    size_t length = strlen(text);
    if (length > size) {
        text += length - size;
        length = size;
    }
    memset(to, ' ', size);
    memcpy(to, text, length);
}

CK_RV C_GetInfo(CK_INFO *info)
{
    if (!slots_are_there())
        return CKR_CRYPTOKI_NOT_INITIALIZED;
    if (!info)
        return CKR_ARGUMENTS_BAD;
    memset(info, 0, sizeof *info);
    info->cryptokiVersion.major = 2;
    info->cryptokiVersion.minor = 40;
    info->libraryVersion.major = 1;
    fill(info->manufacturerID, sizeof info->manufacturerID, MANUFACTURER);
    fill(info->libraryDescription, sizeof info->libraryDescription, "DES keys of IBM CCA");
    return CKR_OK;
}

int slot_is_present(const struct slot *it)
{
    struct stat found;
    if (stat(it->place.path, &found) != 0)
        return 0;
    return it->cca.client.socket ? S_ISSOCK(found.st_mode) : S_ISDIR(found.st_mode);
}

CK_RV C_GetSlotList(CK_BBOOL present_alone, CK_SLOT_ID *list, CK_ULONG *count)
{
    CK_ULONG room, at;
    if (!slots_are_there())
        return CKR_CRYPTOKI_NOT_INITIALIZED;
    if (!count)
        return CKR_ARGUMENTS_BAD;
    room = *count;
    *count = 0;
    for (at = 0; at < slot_count; at++) {
        if (present_alone && !slot_is_present(slots[at]))
            continue;
        if (list && *count < room)
            list[*count] = at;
        ++*count;
    }
    return list && *count > room ? CKR_BUFFER_TOO_SMALL : CKR_OK;
}

CK_RV C_GetSlotInfo(CK_SLOT_ID id, CK_SLOT_INFO *info)
{
    struct slot *it = slot_at(id);
    if (!slots_are_there())
        return CKR_CRYPTOKI_NOT_INITIALIZED;
    if (!it)
        return CKR_SLOT_ID_INVALID;
    if (!info)
        return CKR_ARGUMENTS_BAD;
    memset(info, 0, sizeof *info);
    fill(info->slotDescription, sizeof info->slotDescription, it->place.path);
    fill(info->manufacturerID, sizeof info->manufacturerID, MANUFACTURER);
    info->flags = slot_is_present(it) ? CKF_TOKEN_PRESENT : 0;
    return CKR_OK;
}

/* A number of its own for each path and role, by FNV-1a. */
static void fill_serial_number(unsigned char to[16], const struct place *place)
{
    unsigned long long hash = 0xCBF29CE484222325ULL;
    char text[sizeof place->path + sizeof place->role + 8], *at;
    snprintf(text, sizeof text, "%s=%s%s", place->path, place->role, place->shows_des3 ? ",DES3" : "");
    for (at = text; *at; at++)
        hash = (hash ^ (unsigned char)*at) * 0x100000001B3ULL;
    snprintf(text, sizeof text, "%016llx", hash);
    memcpy(to, text, 16);
}

static void count_sessions(const struct slot *it, CK_TOKEN_INFO *info)
{
    size_t at;
    for (at = 0; at < MOST_SESSIONS; at++) {
        info->ulSessionCount += it->sessions[at].handle != 0;
        info->ulRwSessionCount += it->sessions[at].handle != 0 && (it->sessions[at].flags & CKF_RW_SESSION) != 0;
    }
}

CK_RV C_GetTokenInfo(CK_SLOT_ID id, CK_TOKEN_INFO *info)
{
    struct slot *it;
    CK_RV rv = slot_enter(id, &it);
    if (rv != CKR_OK)
        return rv;
    if (!info)
        return slot_leave(it, CKR_ARGUMENTS_BAD);
    if (!slot_is_present(it))
        return slot_leave(it, CKR_TOKEN_NOT_PRESENT);
    memset(info, 0, sizeof *info);
    fill(info->label, sizeof info->label, it->place.role);
    fill(info->manufacturerID, sizeof info->manufacturerID, MANUFACTURER);
    fill(info->model, sizeof info->model, "CCA DES");
    fill_serial_number(info->serialNumber, &it->place);
    fill(info->utcTime, sizeof info->utcTime, "");
    info->flags = CKF_RNG | CKF_TOKEN_INITIALIZED | CKF_USER_PIN_INITIALIZED;
    info->ulMaxSessionCount = info->ulMaxRwSessionCount = MOST_SESSIONS;
    info->ulMaxPinLen = 255;
    info->ulTotalPublicMemory = info->ulFreePublicMemory = CK_UNAVAILABLE_INFORMATION;
    info->ulTotalPrivateMemory = info->ulFreePrivateMemory = CK_UNAVAILABLE_INFORMATION;
    count_sessions(it, info);
    return slot_leave(it, CKR_OK);
}

CK_RV C_WaitForSlotEvent(CK_FLAGS flags, CK_SLOT_ID *slot, void *reserved)
{
    if (!slots_are_there())
        return CKR_CRYPTOKI_NOT_INITIALIZED;
    if (!slot || reserved)
        return CKR_ARGUMENTS_BAD;
    return flags & CKF_DONT_BLOCK ? CKR_NO_EVENT : CKR_FUNCTION_NOT_SUPPORTED;
}
