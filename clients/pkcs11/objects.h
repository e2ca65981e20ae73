/* The objects of a slot: keys under labels, which are token objects, and keys whose tokens are held here, which are session
   objects. A handle names one object as long as the module is initialized, and none afterwards. */
#ifndef CCA_PKCS11_OBJECTS_H
#define CCA_PKCS11_OBJECTS_H

#include "cca.h"
#include "keys.h"

#include <p11-kit/pkcs11.h>

#define MOST_OBJECTS 2048 /* of a slot: twice the labels that cca has room for */
#define LONGEST_NAME 64

struct slot;
struct template;

/* A label or an ID. */
struct name {
    char text[LONGEST_NAME + 1]; /* a zero byte behind it */
    size_t length;
};

struct object {
    CK_OBJECT_HANDLE handle;   /* 0: the place is free */
    CK_SESSION_HANDLE session; /* that it ends with; 0: a key under a label */
    struct name label, id;
    unsigned char token[CCA_TOKEN_SIZE]; /* of a session object */
    struct key key;
    int shows_des3;
    int is_generated, is_never_exportable; /* a session object that was made so */
};

/* Null where there is none. */
struct object *object_at(struct slot *slot, CK_OBJECT_HANDLE handle);

struct cca_key object_key(const struct object *it);

/* A new object; null where there is no room. */
struct object *object_add(struct slot *slot);

/* Forgets an object, and those of a session. */
void object_remove(struct object *it);
void objects_end_session(struct slot *slot, CK_SESSION_HANDLE session);

int is_label(const char *text, size_t length);

/* The object of a label, which may be new, with this key. */
CK_RV object_under_label(struct slot *slot, const char *label, const struct key *key, struct object **found);

/* Makes the key of a label an object, or brings the object up to date. FOUND is null where the label has no key that is shown. */
CK_RV object_look_up(struct slot *slot, const char *label, struct object **found);

/* Brings the labels up to date that a template can mean, as far as the role may see them. */
CK_RV objects_look_up(struct slot *slot, const struct template *searched);

#endif
