/* Key types, their control vectors, and tokens without a key: computed here, without a request. */
#include "csnb_call.h"

#include <string.h>

/* Bits of a byte of a control vector, each with one that keeps the number of ones even: the key is a part; it may be exported. */
#define PART 0x09
#define EXPORT 0x41

static const unsigned char zeros[16];

/* ---- key types */

/* Changes bits of a byte in each half that isn't all zero. */
static void change_halves(unsigned char vectors[16], int byte, unsigned char bits)
{
    vectors[byte] ^= bits;
    if (memcmp(vectors + 8, zeros, 8) != 0)
        vectors[8 + byte] ^= bits;
}

/* The vectors of both halves: those of the type, with other bytes for the form of the key. */
static int has_halves(const unsigned char *vectors, const unsigned char *left, unsigned char left_form, unsigned char right_form)
{
    unsigned char wanted[16];
    memcpy(wanted, left, 8);
    memcpy(wanted + 8, left, 8);
    wanted[5] = left_form;
    wanted[13] = right_form;
    return memcmp(vectors, wanted, 16) == 0;
}

int has_type(const unsigned char *token, const struct cca_type *type, int length)
{
    const unsigned char *vectors = token + 32;
    if (length == 8)
        return memcmp(type->single, zeros, 8) != 0 && memcmp(vectors, type->single, 8) == 0 && memcmp(vectors + 8, zeros, 8) == 0;
    if (memcmp(type->left, zeros, 8) == 0)
        return 0;
    return has_halves(vectors, type->left, 0x41, 0x21) || has_halves(vectors, type->left, 0xC0, 0xA0);
}

const char *skeleton_type(const unsigned char *token, size_t *length)
{
    unsigned char whole[CCA_TOKEN_SIZE];
    const struct cca_type *type;
    if (token[0] != 1 || memcmp(token + 16, zeros, 16) != 0)
        return NULL;
    memcpy(whole, token, sizeof whole);
    if (token[37] & 0x08) /* it says already that the key will be a part */
        change_halves(whole + 32, 5, PART);
    for (type = cca_types; type->name; type++) {
        *length = has_type(whole, type, 8) ? 8 : 16;
        if (has_type(whole, type, (int)*length) && whole[37] != 0xC0)
            return type->name;
    }
    return NULL;
}

/* The control vector of a key type, for a length of 8 or 16: 0, or -1 where there is none. */
static int find_vector(const char *key_type, int length, unsigned char vector[16])
{
    const struct cca_type *type = cca_types;
    const unsigned char *half;
    while (type->name && strcmp(type->name, key_type) != 0)
        type++;
    half = length == 8 ? type->single : type->left;
    if (!type->name || (length != 8 && length != 16) || memcmp(half, zeros, 8) == 0)
        return -1;
    memset(vector, 0, 16);
    memcpy(vector, half, 8);
    if (length == 16) {
        memcpy(vector + 8, half, 8);
        vector[13] = 0x21;
    }
    return 0;
}

/* ---- tokens without a key */

/* The token of a control vector, with its validation value. */
static void build_token(const unsigned char vector[16], unsigned char token[CCA_TOKEN_SIZE])
{
    uint32_t sum = 0;
    int at;
    memset(token, 0, CCA_TOKEN_SIZE);
    token[0] = 1;
    token[6] = 0x40; /* a control vector and no key */
    memcpy(token + 32, vector, 16);
    for (at = 0; at < 60; at += 4)
        sum += (uint32_t)token[at] << 24 | (uint32_t)token[at + 1] << 16 | (uint32_t)token[at + 2] << 8 | token[at + 3];
    for (at = 60; at < 64; at++)
        token[at] = (unsigned char)(sum >> (63 - at) * 8);
}

int csnb_skeleton(const char *key_type, int key_length, unsigned char token[CCA_TOKEN_SIZE])
{
    unsigned char vector[16];
    if (find_vector(key_type, key_length, vector) != 0)
        return -1;
    build_token(vector, token);
    return 0;
}

/* ---- IBM's verbs */

/* The keywords of a control vector, and the vector of the key type with them. Where no length is named it is 8, if the type has
   it. */
static void read_vector(struct call *it, const unsigned char *key_type, unsigned char vector[16])
{
    static const char *const lengths[] = {"SINGLE", "KEYLN8", "DOUBLE", "KEYLN16", "DOUBLE-O", NULL};
    static const char *const exports[] = {"XPORT-OK", "NO-XPORT", NULL};
    static const char *const parts[] = {"KEY-PART", NULL};
    int length = call_choose(it, lengths, 5), is_closed = call_choose(it, exports, 0), is_whole = call_choose(it, parts, 1);
    char name[9] = "";
    if (key_type)
        field_text(name, key_type, 8);
    if (find_vector(name, length < 2 || length == 5 ? 8 : 16, vector) != 0 && (length != 5 || find_vector(name, 16, vector) != 0)) {
        call_fault(it, CSNB_KEY_TYPE);
        return;
    }
    if (length == 4) { /* halves that are guaranteed to be unique */
        vector[5] = 0xC0;
        vector[13] = 0xA0;
    }
    if (is_closed)
        change_halves(vector, 2, EXPORT);
    if (!is_whole)
        change_halves(vector, 5, PART);
}

void SECURITYAPI CSNBCVG(CSNB_FIRST_FOUR, unsigned char *key_type, long *rule_array_count, unsigned char *rule_array,
                         unsigned char *reserved, unsigned char *control_vector)
{
    unsigned char vector[16];
    struct call it;
    (void)reserved;
    call_begin(&it, exit_data_length, exit_data, key_type && control_vector);
    call_words(&it, rule_array_count, rule_array);
    read_vector(&it, key_type, vector);
    if (call_understood(&it))
        memcpy(control_vector, vector, sizeof vector);
    call_end(&it, return_code, reason_code);
}

void SECURITYAPI CSNBKTB(CSNB_FIRST_FOUR, unsigned char *key_token, unsigned char *key_type, long *rule_array_count,
                         unsigned char *rule_array, unsigned char *key_value, void *reserved_1, long *reserved_2,
                         unsigned char *reserved_3, unsigned char *control_vector, unsigned char *reserved_4, long *reserved_5,
                         unsigned char *reserved_6, unsigned char *master_key_verification_pattern)
{
    static const char *const kinds[] = {"INTERNAL", NULL}, *const keys[] = {"NO-KEY", NULL}, *const vectors[] = {"CV", NULL};
    unsigned char vector[16];
    struct call it;
    (void)key_value, (void)reserved_1, (void)reserved_2, (void)reserved_3, (void)control_vector, (void)reserved_4;
    (void)reserved_5, (void)reserved_6, (void)master_key_verification_pattern;
    call_begin(&it, exit_data_length, exit_data, key_token && key_type);
    call_words(&it, rule_array_count, rule_array);
    call_choose(&it, kinds, -1);
    call_choose(&it, keys, 0);
    call_choose(&it, vectors, 0);
    read_vector(&it, key_type, vector);
    if (call_understood(&it))
        build_token(vector, key_token);
    call_end(&it, return_code, reason_code);
}
