/* The verbs over data: whole, piece by piece, and cut into segments where a piece is longer than a request may have. */
#include "cca.h"
#include "exchange.h"

#include <string.h>

#define LONGEST_TEXT 4096
#define LONGEST_SEGMENT 4088

/* Where a piece stands: as enum cca_segment says, or it is the data as a whole. */
enum place { FIRST = CCA_FIRST, MIDDLE = CCA_MIDDLE, LAST = CCA_LAST, WHOLE };

/* What is to be done with the data. */
struct data_call {
    const char *verb;
    struct cca_key key;
    const unsigned char *iv; /* CSNBENC, CSNBDEC */
    const char *pad;         /* CSNBENC, CSNBDEC */
    const char *rule;        /* CSNBMGN, CSNBMVR */
    int mac_length;          /* CSNBMGN, CSNBMVR */
    const unsigned char *mac; /* CSNBMVR */
    unsigned char *chain;
    unsigned char *out; /* CSNBENC, CSNBDEC: what comes, in so many bytes at most; so many came */
    size_t out_room, out_length;
    size_t least, most;  /* bytes of the whole output, where it is known */
    unsigned char *made; /* CSNBMGN: the MAC */
    int *matches;        /* CSNBMVR */
};

static int is_mac(const struct data_call *it)
{
    return strncmp(it->verb, "CSNBM", 5) == 0;
}

static int is_verified(const struct data_call *it)
{
    return strcmp(it->verb, "CSNBMVR") == 0;
}

static int is_padded(const struct data_call *it)
{
    return it->pad && strcmp(it->pad, "NONE") != 0;
}

static void put_mac(struct exchange *x, const struct data_call *it)
{
    if (it->mac_length != 4 && it->mac_length != 6 && it->mac_length != 8)
        exchange_refuse(x, "a MAC has 4, 6 or 8 bytes");
    else if (is_verified(it))
        exchange_put_hex(x, "mac", it->mac, (size_t)it->mac_length);
    else
        exchange_put_number(x, "length", it->mac_length);
}

/* The end of the reply to a last piece, or to the whole. */
static void get_end(struct exchange *x, struct data_call *it)
{
    static const char *const matches[] = {"no", "yes", NULL};
    if (is_verified(it))
        *it->matches = exchange_get_word(x, "match", matches);
    else
        exchange_get_hex(x, "mac", it->made, (size_t)it->mac_length);
}

/* One request. */
static struct cca_result piece(struct cca *cca, struct data_call *it, enum place place, const unsigned char *text, size_t length)
{
    static const char *const segments[] = {"FIRST", "MIDDLE", "LAST"};
    int is_first = place == FIRST || place == WHOLE, is_last = place == LAST || place == WHOLE;
    struct exchange x;
    exchange_begin(&x, cca, it->verb);
    exchange_put_key(&x, "key", it->key);
    if (is_mac(it))
        exchange_put_text(&x, "rule", it->rule);
    if (place != WHOLE)
        exchange_put_text(&x, "segment", segments[place]);
    if (is_first && !is_mac(it))
        exchange_put_hex(&x, "iv", it->iv, 8);
    if (is_last && is_mac(it))
        put_mac(&x, it);
    if (!is_first)
        exchange_put_hex(&x, "chain", it->chain, CCA_CHAIN_SIZE);
    if (is_last && !is_mac(it))
        exchange_put_text(&x, "pad", it->pad);
    exchange_put_hex(&x, "text", text, length);
    exchange_ask(&x);
    if (!is_mac(it))
        it->out_length += exchange_get_data(&x, "text", it->out + it->out_length, it->out_room - it->out_length);
    if (is_last && it->most > 0 && (it->out_length < it->least || it->out_length > it->most))
        exchange_doubt(&x);
    if (!is_last)
        exchange_get_hex(&x, "chain", it->chain, CCA_CHAIN_SIZE);
    else if (is_mac(it))
        get_end(&x, it);
    return exchange_end(&x);
}

/* Segment after segment. */
static struct cca_result pieces(struct cca *cca, struct data_call *it, enum place place, const unsigned char *text, size_t left)
{
    int is_first = place == FIRST || place == WHOLE, is_last = place == LAST || place == WHOLE, is_old = 0;
    struct cca_result came;
    do {
        size_t length = left < LONGEST_SEGMENT ? left : LONGEST_SEGMENT;
        enum place here = is_first ? FIRST : is_last && length == left ? LAST : MIDDLE;
        came = piece(cca, it, here, text, length);
        if (came.outcome != CCA_DONE)
            return came;
        is_first = 0;
        is_old |= came.is_old;
        text = length ? text + length : text;
        left -= length;
    } while (left > 0);
    came.is_old = is_old;
    return came;
}

/* The data as a whole, in one request where it has room, or one piece of it. Where it fails what came is overwritten. */
static struct cca_result carry_out(struct cca *cca, struct data_call *it, enum place place, const unsigned char *text,
                                   size_t length)
{
    size_t longest = is_padded(it) ? LONGEST_TEXT - 1 : LONGEST_TEXT;
    struct cca_result came;
    if (place == WHOLE && length <= longest)
        came = piece(cca, it, WHOLE, text, length);
    else
        came = pieces(cca, it, place, text, length);
    if (came.outcome != CCA_DONE && it->out) {
        exchange_wipe(it->out, it->out_length);
        it->out_length = 0;
    }
    return came;
}

/* ---- enciphering and deciphering */

static struct cca_result cipher(struct cca *cca, struct data_call *it, enum place place, const unsigned char *text, size_t length,
                                size_t *out_length)
{
    struct cca_result came = carry_out(cca, it, place, text, length);
    *out_length = it->out_length;
    return came;
}

struct cca_result cca_encipher(struct cca *it, struct cca_key key, const unsigned char iv[8], const char *pad,
                               const unsigned char *text, size_t length, unsigned char *out, size_t *out_length)
{
    unsigned char chain[CCA_CHAIN_SIZE];
    struct data_call call = {.verb = "CSNBENC", .key = key, .iv = iv, .pad = pad, .chain = chain, .out = out};
    call.out_room = length + 8;
    call.least = call.most = is_padded(&call) ? length / 8 * 8 + 8 : length;
    return cipher(it, &call, WHOLE, text, length, out_length);
}

struct cca_result cca_decipher(struct cca *it, struct cca_key key, const unsigned char iv[8], const char *pad,
                               const unsigned char *text, size_t length, unsigned char *out, size_t *out_length)
{
    unsigned char chain[CCA_CHAIN_SIZE];
    struct data_call call = {.verb = "CSNBDEC", .key = key, .iv = iv, .pad = pad, .chain = chain, .out = out};
    call.out_room = length;
    call.least = is_padded(&call) && length >= 8 ? length - 8 : length;
    call.most = is_padded(&call) && length >= 8 ? length - 1 : length;
    return cipher(it, &call, WHOLE, text, length, out_length);
}

struct cca_result cca_encipher_segment(struct cca *it, struct cca_key key, enum cca_segment segment, const unsigned char *iv,
                                       const char *pad, unsigned char chain[CCA_CHAIN_SIZE], const unsigned char *text,
                                       size_t length, unsigned char *out, size_t *out_length)
{
    struct data_call call = {.verb = "CSNBENC", .key = key, .iv = iv, .pad = pad, .chain = chain, .out = out};
    call.out_room = length + 16;
    return cipher(it, &call, (enum place)segment, text, length, out_length);
}

struct cca_result cca_decipher_segment(struct cca *it, struct cca_key key, enum cca_segment segment, const unsigned char *iv,
                                       const char *pad, unsigned char chain[CCA_CHAIN_SIZE], const unsigned char *text,
                                       size_t length, unsigned char *out, size_t *out_length)
{
    struct data_call call = {.verb = "CSNBDEC", .key = key, .iv = iv, .pad = pad, .chain = chain, .out = out};
    call.out_room = length + 16;
    return cipher(it, &call, (enum place)segment, text, length, out_length);
}

/* ---- MACs */

struct cca_result cca_mac_generate(struct cca *it, struct cca_key key, const char *rule, int mac_length,
                                   const unsigned char *text, size_t length, unsigned char *mac)
{
    unsigned char chain[CCA_CHAIN_SIZE];
    struct data_call call = {.verb = "CSNBMGN", .key = key, .rule = rule, .mac_length = mac_length, .chain = chain, .made = mac};
    return carry_out(it, &call, WHOLE, text, length);
}

struct cca_result cca_mac_generate_segment(struct cca *it, struct cca_key key, const char *rule, enum cca_segment segment,
                                           int mac_length, unsigned char chain[CCA_CHAIN_SIZE], const unsigned char *text,
                                           size_t length, unsigned char *mac)
{
    struct data_call call = {.verb = "CSNBMGN", .key = key, .rule = rule, .mac_length = mac_length, .chain = chain, .made = mac};
    return carry_out(it, &call, (enum place)segment, text, length);
}

static struct cca_result verify(struct cca *cca, struct data_call *it, enum place place, const unsigned char *text, size_t length,
                                int *matches)
{
    struct cca_result came;
    *matches = 0;
    it->verb = "CSNBMVR";
    it->matches = matches;
    came = carry_out(cca, it, place, text, length);
    *matches &= came.outcome == CCA_DONE;
    return came;
}

struct cca_result cca_mac_verify(struct cca *it, struct cca_key key, const char *rule, const unsigned char *mac, int mac_length,
                                 const unsigned char *text, size_t length, int *matches)
{
    unsigned char chain[CCA_CHAIN_SIZE];
    struct data_call call = {.key = key, .rule = rule, .mac = mac, .mac_length = mac_length, .chain = chain};
    return verify(it, &call, WHOLE, text, length, matches);
}

struct cca_result cca_mac_verify_segment(struct cca *it, struct cca_key key, const char *rule, enum cca_segment segment,
                                         const unsigned char *mac, int mac_length, unsigned char chain[CCA_CHAIN_SIZE],
                                         const unsigned char *text, size_t length, int *matches)
{
    struct data_call call = {.key = key, .rule = rule, .mac = mac, .mac_length = mac_length, .chain = chain};
    return verify(it, &call, (enum place)segment, text, length, matches);
}
