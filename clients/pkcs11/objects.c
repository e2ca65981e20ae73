/* See objects.h. */
#include "objects.h"

#include "errors.h"
#include "exchange.h"
#include "slots.h"
#include "templates.h"

#include <stdio.h>
#include <string.h>

/* ---- the table */

struct object *object_at(struct slot *slot, CK_OBJECT_HANDLE handle)
{
    size_t at;
    for (at = 0; handle && at < MOST_OBJECTS; at++)
        if (slot->objects[at].handle == handle)
            return &slot->objects[at];
    return NULL;
}

struct cca_key object_key(const struct object *it)
{
    return it->session ? cca_token(it->token) : cca_label(it->label.text);
}

struct object *object_add(struct slot *slot)
{
    size_t at;
    for (at = 0; at < MOST_OBJECTS; at++)
        if (slot->objects[at].handle == 0) {
            slot->objects[at].handle = ++slot->last_object;
            slot->objects[at].shows_des3 = slot->place.shows_des3;
            return &slot->objects[at];
        }
    return NULL;
}

void object_remove(struct object *it)
{
    exchange_wipe(it, sizeof *it);
}

void objects_end_session(struct slot *slot, CK_SESSION_HANDLE session)
{
    size_t at;
    for (at = 0; at < MOST_OBJECTS; at++)
        if (slot->objects[at].handle && slot->objects[at].session == session)
            object_remove(&slot->objects[at]);
}

int is_label(const char *text, size_t length)
{
    static const char characters[] = "ABCDEFGHIJKLMNOPQRSTUVWXYZ#$@.0123456789";
    return length >= 1 && length <= LONGEST_NAME && strspn(text, characters) >= length && !strchr(".0123456789", text[0]);
}

static struct object *under_label(struct slot *slot, const char *label)
{
    size_t at;
    for (at = 0; at < MOST_OBJECTS; at++)
        if (slot->objects[at].handle && !slot->objects[at].session && strcmp(slot->objects[at].label.text, label) == 0)
            return &slot->objects[at];
    return NULL;
}

CK_RV object_under_label(struct slot *slot, const char *label, const struct key *key, struct object **found)
{
    *found = under_label(slot, label);
    if (!*found)
        *found = object_add(slot);
    if (!*found)
        return CKR_HOST_MEMORY;
    strcpy((*found)->label.text, label);
    (*found)->label.length = strlen(label);
    (*found)->id = (*found)->label;
    (*found)->key = *key;
    return CKR_OK;
}

/* ---- keys whose tokens the role may not read

   Each use is tried with no data: where it is permitted, the length of the data is what the request is refused for. */

static const unsigned char nothing[BLOCK];

static struct cca_result try_encipher(struct cca *cca, struct cca_key key)
{
    unsigned char out[BLOCK];
    size_t length;
    return cca_encipher(cca, key, nothing, "NONE", nothing, 0, out, &length);
}

static struct cca_result try_decipher(struct cca *cca, struct cca_key key)
{
    unsigned char out[BLOCK];
    size_t length;
    return cca_decipher(cca, key, nothing, "NONE", nothing, 0, out, &length);
}

static struct cca_result try_mac_generate(struct cca *cca, struct cca_key key)
{
    unsigned char mac[BLOCK];
    return cca_mac_generate(cca, key, "X9.9-1", 4, nothing, 0, mac);
}

static struct cca_result try_mac_verify(struct cca *cca, struct cca_key key)
{
    int matches;
    return cca_mac_verify(cca, key, "X9.9-1", nothing, 4, nothing, 0, &matches);
}

static struct cca_result try_key_test(struct cca *cca, struct cca_key key)
{
    unsigned char value[4];
    return cca_key_test(cca, key, value);
}

/* Notes what a trial told: whether there is a key that is shown, and the use. -1 where there is none. */
static int heed(const struct cca_result *came, unsigned use, struct key *key)
{
    if (is_refused(came, 4))
        return 0;
    if (came->outcome == CCA_DONE || is_refused(came, 23))
        key->uses |= use;
    else if (!is_refused(came, 20) && (!is_refused(came, 19) || !use))
        return -1;
    return 1;
}

/* The length of a key that makes or verifies MACs: one of single length takes X9.9-1. */
static struct cca_result try_length(struct cca *cca, struct cca_key name, struct key *key)
{
    struct cca_result came = {0};
    unsigned char mac[BLOCK];
    int matches;
    if (key->uses & SIGNS)
        came = cca_mac_generate(cca, name, "X9.9-1", 4, nothing, 1, mac);
    else if (key->uses & VERIFIES)
        came = cca_mac_verify(cca, name, "X9.9-1", nothing, 4, nothing, 1, &matches);
    else
        return came;
    if (came.outcome == CCA_DONE)
        key->length = 8;
    else if (is_refused(&came, 32))
        key->length = 16;
    return came;
}

/* What a role can know of a key that it may use and not read. A key without a use of data may be a transport key. */
static CK_RV try_uses(struct slot *slot, const char *label, struct key *key, int *is_shown)
{
    static const struct {
        unsigned use;
        struct cca_result (*run)(struct cca *cca, struct cca_key key);
    } trials[] = {{0, try_key_test},
                  {ENCRYPTS, try_encipher},
                  {DECRYPTS, try_decipher},
                  {SIGNS, try_mac_generate},
                  {VERIFIES, try_mac_verify}};
    struct cca_result came;
    size_t at;
    memset(key, 0, sizeof *key);
    key->is_exportable = 1;
    *is_shown = 0;
    for (at = 0; at < sizeof trials / sizeof *trials; at++) {
        int told;
        came = trials[at].run(&slot->cca, cca_label(label));
        if (came.outcome != CCA_DONE && came.outcome != CCA_REFUSED)
            return error_of(&came);
        told = heed(&came, trials[at].use, key);
        if (told < 0)
            *is_shown = 0;
        if (told < 0)
            return CKR_OK;
        *is_shown |= told;
    }
    came = try_length(&slot->cca, cca_label(label), key);
    if (key->uses == 0)
        key->uses = WRAPS | UNWRAPS;
    return came.outcome == CCA_ENDED ? error_of(&came) : CKR_OK;
}

/* ---- looking up */

/* What is known of the key of a label. */
static CK_RV read_key(struct slot *slot, const char *label, struct key *key, int *is_shown)
{
    unsigned char token[CCA_TOKEN_SIZE];
    struct cca_result came = cca_record_read(&slot->cca, label, token);
    *is_shown = 0;
    if (came.outcome == CCA_DONE)
        *is_shown = key_of_token(token, key);
    else if (is_refused(&came, 4))
        return try_uses(slot, label, key, is_shown);
    else if (!is_refused(&came, 7) && !is_refused(&came, 8))
        return error_of(&came);
    return CKR_OK;
}

CK_RV object_look_up(struct slot *slot, const char *label, struct object **found)
{
    struct key key;
    int is_shown;
    CK_RV rv = read_key(slot, label, &key, &is_shown);
    *found = under_label(slot, label);
    if (rv != CKR_OK)
        return rv;
    if (is_shown)
        return object_under_label(slot, label, &key, found);
    if (*found)
        object_remove(*found);
    *found = NULL;
    return CKR_OK;
}

/* Forgets the labels that aren't in a list. */
static void forget_others(struct slot *slot, const char *labels)
{
    char text[CCA_LABELS_SIZE + 2], name[LONGEST_NAME + 3];
    size_t at;
    sprintf(text, ",%s,", labels);
    for (at = 0; at < MOST_OBJECTS; at++) {
        struct object *it = &slot->objects[at];
        sprintf(name, ",%s,", it->label.text);
        if (it->handle && !it->session && !strstr(text, name))
            object_remove(it);
    }
}

/* Each label of a list, of which a wrong one shows that this isn't cca. */
static CK_RV look_up_each(struct slot *slot, const char *labels)
{
    char label[LONGEST_NAME + 1];
    struct object *found;
    CK_RV rv = CKR_OK;
    while (rv == CKR_OK && *labels) {
        size_t length = strcspn(labels, ",");
        if (!is_label(labels, length) || strcmp(labels + length, ",") == 0)
            return CKR_DEVICE_ERROR;
        memcpy(label, labels, length);
        label[length] = '\0';
        rv = object_look_up(slot, label, &found);
        labels += length + (labels[length] == ',');
    }
    return rv;
}

/* All labels, where the role may list them. */
static CK_RV look_up_all(struct slot *slot)
{
    char labels[CCA_LABELS_SIZE];
    struct cca_result came = cca_record_list(&slot->cca, "", labels, NULL);
    if (is_refused(&came, 4))
        return CKR_OK;
    if (came.outcome != CCA_DONE)
        return error_of(&came);
    forget_others(slot, labels);
    return look_up_each(slot, labels);
}

CK_RV objects_look_up(struct slot *slot, const struct template *searched)
{
    const CK_ATTRIBUTE *label = template_find(searched, CKA_LABEL);
    char text[LONGEST_NAME + 1] = "";
    struct object *found;
    if (!template_fits_number(searched, CKA_CLASS, CKO_SECRET_KEY) || !template_fits_flag(searched, CKA_TOKEN, 1))
        return CKR_OK; /* no key under a label is asked for */
    if (!label)
        label = template_find(searched, CKA_ID);
    if (!label)
        return look_up_all(slot);
    if (label->ulValueLen == 0 || label->ulValueLen > LONGEST_NAME)
        return CKR_OK;
    memcpy(text, label->pValue, label->ulValueLen);
    return is_label(text, label->ulValueLen) ? object_look_up(slot, text, &found) : CKR_OK;
}
