/* See exchange.h. */
#include "exchange.h"

#include <stdio.h>
#include <stdlib.h>
#include <string.h>

#define TOO_LONG "the request is longer than a line may be"

void exchange_wipe(void *bytes, size_t length)
{
    volatile unsigned char *it = bytes;
    while (length-- > 0)
        *it++ = 0;
}

void exchange_refuse(struct exchange *it, const char *why)
{
    if (it->result.outcome != CCA_UNSAYABLE)
        it->result.why = why;
    it->result.outcome = CCA_UNSAYABLE;
}

static void put(struct exchange *it, const char *bytes, size_t length)
{
    if (length >= CCA_LINE_SIZE - it->length) {
        exchange_refuse(it, TOO_LONG);
        return;
    }
    memcpy(it->request + it->length, bytes, length);
    it->length += length;
}

static void put_name(struct exchange *it, const char *name)
{
    put(it, " ", 1);
    put(it, name, strlen(name));
    put(it, "=", 1);
}

/* A value must not end the field or the line. */
static void put_value(struct exchange *it, const char *text)
{
    const char *byte;
    if (!text) {
        exchange_refuse(it, "an argument is missing");
        return;
    }
    for (byte = text; *byte; byte++)
        if (*byte < 0x21 || *byte > 0x7E)
            exchange_refuse(it, "a text has a byte outside of X'21' to X'7E'");
    put(it, text, strlen(text));
}

static void put_digits(struct exchange *it, const unsigned char *bytes, size_t length)
{
    static const char digits[] = "0123456789abcdef";
    size_t at;
    if (!bytes && length > 0)
        exchange_refuse(it, "an argument is missing");
    if (length > (CCA_LINE_SIZE - 1 - it->length) / 2)
        exchange_refuse(it, TOO_LONG);
    for (at = 0; at < length && it->result.outcome != CCA_UNSAYABLE; at++) {
        char pair[2];
        pair[0] = digits[bytes[at] >> 4];
        pair[1] = digits[bytes[at] & 15];
        put(it, pair, 2);
    }
}

void exchange_begin(struct exchange *it, struct cca *cca, const char *verb)
{
    memset(&it->result, 0, sizeof it->result);
    it->cca = cca;
    it->length = 0;
    it->left = 0;
    it->reply = it->own_reply;
    it->reply_size = sizeof it->own_reply;
    put(it, verb, strlen(verb));
    if (cca->role)
        exchange_put_text(it, "role", cca->role);
    else if (!cca->client.socket)
        exchange_refuse(it, "no role is named");
    it->begun = it->length;
}

void exchange_put_text(struct exchange *it, const char *name, const char *text)
{
    put_name(it, name);
    put_value(it, text);
}

void exchange_put_number(struct exchange *it, const char *name, int number)
{
    char text[16];
    snprintf(text, sizeof text, "%d", number);
    exchange_put_text(it, name, text);
}

void exchange_put_hex(struct exchange *it, const char *name, const unsigned char *bytes, size_t length)
{
    put_name(it, name);
    put_digits(it, bytes, length);
}

void exchange_put_key(struct exchange *it, const char *name, struct cca_key key)
{
    put_name(it, name);
    put(it, key.token ? "T:" : "L:", 2);
    if (key.token)
        put_digits(it, key.token, CCA_TOKEN_SIZE);
    else
        put_value(it, key.label);
}

void exchange_put_to(struct exchange *it, const char *to, const unsigned char *token)
{
    put_name(it, "to");
    put(it, to ? "L:" : "-", to ? 2 : 1);
    if (to)
        put_value(it, to);
    else if (!token)
        exchange_refuse(it, "neither a label nor a place for the token is given");
}

void exchange_doubt(struct exchange *it)
{
    if (it->result.outcome != CCA_DONE)
        return;
    it->result.outcome = CCA_ENDED;
    it->result.is_in_doubt = 1;
    it->result.status = cca_drop(&it->cca->client);
}

/* Whether a refusal may name a field: one of the request, or none. */
static int is_field(const struct exchange *it, const char *name)
{
    size_t size = strlen(name), at;
    if (strcmp(name, "-") == 0)
        return 1;
    for (at = it->begun; at + size + 1 < it->length; at++)
        if (it->request[at] == ' ' && memcmp(it->request + at + 1, name, size) == 0 && it->request[at + 1 + size] == '=')
            return 1;
    return 0;
}

/* Reads NO, the two digits of a rule, and a field: whether it is a refusal of this request. */
static int is_refusal(struct exchange *it)
{
    const char *reply = it->reply, *field = reply + 6;
    int rule;
    if (strncmp(reply, "NO ", 3) != 0 || strspn(reply + 3, "0123456789") != 2 || reply[5] != ' ')
        return 0;
    rule = (reply[3] - '0') * 10 + reply[4] - '0';
    if (!cca_rule(rule) || strlen(field) >= sizeof it->result.field || !is_field(it, field))
        return 0;
    it->result.rule = rule;
    strcpy(it->result.field, field);
    return 1;
}

/* Reads OK, OK with fields, or a refusal. */
static void read_reply(struct exchange *it)
{
    static const char warning[] = " warn=old";
    size_t length = strlen(it->reply);
    const char *at;
    if (strncmp(it->reply, "OK", 2) == 0 && (it->reply[2] == ' ' || it->reply[2] == '\0')) {
        it->result.outcome = CCA_DONE;
        if (length >= sizeof warning && strcmp(it->reply + length - (sizeof warning - 1), warning) == 0) {
            it->result.is_old = 1;
            it->reply[length - (sizeof warning - 1)] = '\0';
        }
        for (at = it->reply; (at = strchr(at, ' ')) != NULL; at++)
            it->left++;
    } else if (is_refusal(it)) {
        it->result.outcome = CCA_REFUSED;
    } else {
        exchange_doubt(it);
    }
}

void exchange_ask(struct exchange *it)
{
    int status;
    if (it->result.outcome == CCA_UNSAYABLE)
        return;
    switch (cca_ask_short(&it->cca->client, it->request, it->length, it->reply, it->reply_size, &status)) {
    case CCA_REPLY:
        read_reply(it);
        break;
    case CCA_NO_REQUEST:
        exchange_refuse(it, "this process is a child of the one that may ask");
        break;
    case CCA_NO_REPLY:
        it->result.is_in_doubt = 1; /* fall through */
    case CCA_NOT_SENT:
        it->result.outcome = CCA_ENDED;
        it->result.status = status;
    }
}

/* The value of a field, which ends at a space or at the end of the reply; null where the request wasn't carried out. */
static const char *value(struct exchange *it, const char *name, size_t *length)
{
    size_t size = strlen(name);
    const char *at = it->reply;
    if (it->result.outcome != CCA_DONE)
        return NULL;
    while ((at = strchr(at, ' ')) != NULL) {
        at++;
        if (strncmp(at, name, size) == 0 && at[size] == '=') {
            it->left--;
            *length = strcspn(at + size + 1, " ");
            return at + size + 1;
        }
    }
    exchange_doubt(it);
    return NULL;
}

void exchange_get_text(struct exchange *it, const char *name, char *text, size_t size)
{
    size_t length;
    const char *from = value(it, name, &length);
    if (from && length < size) {
        memmove(text, from, length);
        text[length] = '\0';
    } else if (from) {
        exchange_doubt(it);
    }
}

void exchange_get_number(struct exchange *it, const char *name, int *number)
{
    char text[8];
    exchange_get_text(it, name, text, sizeof text);
    if (it->result.outcome != CCA_DONE)
        return;
    if (text[0] == '\0' || text[strspn(text, "0123456789")] != '\0')
        exchange_doubt(it);
    else if (number)
        *number = atoi(text);
}

int exchange_get_word(struct exchange *it, const char *name, const char *const *words)
{
    char text[9];
    int place;
    exchange_get_text(it, name, text, sizeof text);
    for (place = 0; it->result.outcome == CCA_DONE && words[place]; place++)
        if (strcmp(text, words[place]) == 0)
            return place;
    exchange_doubt(it);
    return 0;
}

static int digit(char it)
{
    return it >= '0' && it <= '9' ? it - '0' : it >= 'a' && it <= 'f' ? it - 'a' + 10 : -1;
}

size_t exchange_get_data(struct exchange *it, const char *name, unsigned char *bytes, size_t room)
{
    size_t length, at;
    const char *from = value(it, name, &length);
    if (from && (length % 2 != 0 || length / 2 > room))
        exchange_doubt(it);
    for (at = 0; it->result.outcome == CCA_DONE && at < length; at += 2) {
        int high = digit(from[at]), low = digit(from[at + 1]);
        if (high < 0 || low < 0) {
            exchange_doubt(it);
            exchange_wipe(bytes, at / 2);
        } else {
            bytes[at / 2] = (unsigned char)(high << 4 | low);
        }
    }
    return it->result.outcome == CCA_DONE ? length / 2 : 0;
}

void exchange_get_hex(struct exchange *it, const char *name, unsigned char *bytes, size_t length)
{
    size_t came = exchange_get_data(it, name, bytes, length);
    if (came == length)
        return;
    exchange_doubt(it);
    exchange_wipe(bytes, came);
}

void exchange_get_made(struct exchange *it, const char *name, const char *to, unsigned char *token)
{
    char label[65];
    if (!to) {
        exchange_get_hex(it, name, token, CCA_TOKEN_SIZE);
        return;
    }
    exchange_get_text(it, "stored", label, sizeof label);
    if (it->result.outcome == CCA_DONE && strcmp(label, to) != 0)
        exchange_doubt(it);
}

struct cca_result exchange_end(struct exchange *it)
{
    if (it->left != 0)
        exchange_doubt(it);
    exchange_wipe(it->request, sizeof it->request);
    exchange_wipe(it->own_reply, sizeof it->own_reply);
    return it->result;
}
