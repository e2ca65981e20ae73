/* See keys.h. */
#include "keys.h"

#include "table.h"

#include <string.h>

#define VECTOR 32 /* the place of the control vector in a token */

static int bit(const unsigned char *vector, int number)
{
    return vector[number / 8] >> (7 - number % 8) & 1;
}

/* The uses of a class of keys, by their bits. */
static unsigned uses_of_vector(const unsigned char *vector)
{
    unsigned ciphers = (bit(vector, 18) ? ENCRYPTS : 0u) | (bit(vector, 19) ? DECRYPTS : 0u);
    unsigned macs = (bit(vector, 20) ? SIGNS : 0u) | (bit(vector, 21) ? VERIFIES : 0u);
    switch (vector[1]) {
    case 0x00:
        return ciphers | macs;
    case 0x03:
        return ciphers;
    case 0x05:
        return macs;
    case 0x41:
        return bit(vector, 21) ? WRAPS : 0u;
    case 0x42:
        return bit(vector, 21) ? UNWRAPS : 0u;
    }
    return 0;
}

static int is_zero(const unsigned char *vector)
{
    static const unsigned char zeros[8];
    return memcmp(vector, zeros, sizeof zeros) == 0;
}

/* A vector of zeros is that of a DATA key with every permission. */
static void key_of_vector(const unsigned char *vector, struct key *it)
{
    it->length = vector[5] >> 5 ? 16 : 8;
    it->uses = is_zero(vector) ? (unsigned)(ENCRYPTS | DECRYPTS | SIGNS | VERIFIES) : uses_of_vector(vector);
    it->is_exportable = is_zero(vector) || bit(vector, 17);
}

static int is_known(unsigned char key_class)
{
    return key_class == 0x00 || key_class == 0x03 || key_class == 0x05 || key_class == 0x41 || key_class == 0x42;
}

int key_of_token(const unsigned char *token, struct key *it)
{
    const unsigned char *vector = token + VECTOR;
    key_of_vector(vector, it);
    return is_known(vector[1]) && !bit(vector, 44);
}

static const struct cca_type *type_named(const char *name)
{
    const struct cca_type *it;
    for (it = cca_types; it->name; it++)
        if (strcmp(it->name, name) == 0)
            return it;
    return NULL;
}

static int count(unsigned uses)
{
    int found = 0;
    for (; uses; uses &= uses - 1)
        found++;
    return found;
}

const char *key_type_with(int length, unsigned wanted, unsigned unwanted)
{
    /* Of types with as many uses the first one is taken. */
    static const char *const names[] = {"CIPHER", "ENCIPHER", "DECIPHER", "DATAC", "MAC", "MACVER", "EXPORTER", "IMPORTER", "DATA"};
    const char *found = NULL;
    int best = 0;
    size_t at;
    if (!wanted)
        unwanted |= WRAPS | UNWRAPS;
    for (at = 0; at < sizeof names / sizeof *names; at++) {
        const struct cca_type *type = type_named(names[at]);
        const unsigned char *vector = length == 8 ? type->single : type->left;
        struct key key;
        if (is_zero(vector)) /* the type hasn't this length */
            continue;
        key_of_vector(vector, &key);
        if ((wanted & ~key.uses) || (unwanted & key.uses))
            continue;
        if (!found || (wanted ? count(key.uses) < best : count(key.uses) > best)) {
            best = count(key.uses);
            found = names[at];
        }
    }
    return found;
}
