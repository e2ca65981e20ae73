/* See cca.h. */
#include "cca.h"
#include "exchange.h"

#include <stdio.h>
#include <string.h>

/* ---- beginning and end */

void cca_open(struct cca *it, const char *folder, const char *role)
{
    cca_init(&it->client, folder, "cca", "run");
    it->role = role;
}

void cca_open_audited(struct cca *it, const char *folder, const char *role)
{
    cca_init(&it->client, folder, "cca", "audit");
    it->role = role;
}

void cca_open_socket(struct cca *it, const char *socket)
{
    cca_init_socket(&it->client, socket);
    it->role = NULL;
}

int cca_close(struct cca *it)
{
    return cca_stop(&it->client);
}

struct cca_key cca_label(const char *label)
{
    struct cca_key it = {NULL, NULL};
    it.label = label;
    return it;
}

struct cca_key cca_token(const unsigned char *token)
{
    struct cca_key it = {NULL, NULL};
    it.token = token;
    return it;
}

void cca_tell(const struct cca_result *it, char *text, size_t size)
{
    const char *rule = cca_rule(it->rule);
    switch (it->outcome) {
    case CCA_DONE:
        snprintf(text, size, "done%s", it->is_old ? "; a key is under the old master key" : "");
        break;
    case CCA_REFUSED:
        snprintf(text, size, "refused by rule %02d, field %s: %s", it->rule, it->field, rule ? rule : "");
        break;
    case CCA_ENDED:
        snprintf(text, size, "no reply: cca ended with status %d; the request %s", it->status,
                 it->is_in_doubt ? "may have been carried out all the same" : "wasn't carried out");
        break;
    default:
        snprintf(text, size, "not sent: %s", it->why ? it->why : "");
    }
}

/* ---- master keys and roles */

/* The reply to a request about the new master key: the state of its register. */
static struct cca_result master_key_end(struct exchange *x)
{
    static const char *const states[] = {"empty", "partial", "full", NULL};
    exchange_ask(x);
    exchange_get_word(x, "new", states);
    return exchange_end(x);
}

struct cca_result cca_master_key_part(struct cca *it, const char *action, const unsigned char part[24])
{
    struct exchange x;
    exchange_begin(&x, it, "CSNBMKP");
    exchange_put_text(&x, "action", action);
    exchange_put_hex(&x, "part", part, 24);
    return master_key_end(&x);
}

static struct cca_result master_key_without_part(struct cca *it, const char *action)
{
    struct exchange x;
    exchange_begin(&x, it, "CSNBMKP");
    exchange_put_text(&x, "action", action);
    return master_key_end(&x);
}

struct cca_result cca_master_key_clear(struct cca *it)
{
    return master_key_without_part(it, "CLEAR");
}

struct cca_result cca_master_key_set(struct cca *it)
{
    return master_key_without_part(it, "SET");
}

struct cca_result cca_role_define(struct cca *it, const char *name, uint32_t points)
{
    struct exchange x;
    char digits[9];
    snprintf(digits, sizeof digits, "%08lx", (unsigned long)points);
    exchange_begin(&x, it, "CSUAACI");
    exchange_put_text(&x, "action", "DEFINE");
    exchange_put_text(&x, "name", name);
    exchange_put_text(&x, "points", digits);
    exchange_ask(&x);
    return exchange_end(&x);
}

struct cca_result cca_role_remove(struct cca *it, const char *name)
{
    struct exchange x;
    exchange_begin(&x, it, "CSUAACI");
    exchange_put_text(&x, "action", "REMOVE");
    exchange_put_text(&x, "name", name);
    exchange_ask(&x);
    return exchange_end(&x);
}

struct cca_result cca_reencipher(struct cca *it, const char *action, int *changed)
{
    struct exchange x;
    exchange_begin(&x, it, "REENCIPHER");
    if (action)
        exchange_put_text(&x, "action", action);
    exchange_ask(&x);
    exchange_get_number(&x, "changed", changed);
    return exchange_end(&x);
}

/* ---- key storage */

/* A request with a label alone, and a reply without a field. */
static struct cca_result of_label(struct cca *it, const char *verb, const char *label)
{
    struct exchange x;
    exchange_begin(&x, it, verb);
    exchange_put_text(&x, "label", label);
    exchange_ask(&x);
    return exchange_end(&x);
}

struct cca_result cca_record_create(struct cca *it, const char *label)
{
    return of_label(it, "CSNBKRC", label);
}

struct cca_result cca_record_write(struct cca *it, const char *label, const unsigned char *token)
{
    struct exchange x;
    exchange_begin(&x, it, "CSNBKRW");
    exchange_put_text(&x, "label", label);
    exchange_put_hex(&x, "token", token, CCA_TOKEN_SIZE);
    exchange_ask(&x);
    return exchange_end(&x);
}

struct cca_result cca_record_read(struct cca *it, const char *label, unsigned char *token)
{
    struct exchange x;
    exchange_begin(&x, it, "CSNBKRR");
    exchange_put_text(&x, "label", label);
    exchange_ask(&x);
    exchange_get_hex(&x, "token", token, CCA_TOKEN_SIZE);
    return exchange_end(&x);
}

struct cca_result cca_record_delete(struct cca *it, const char *label)
{
    return of_label(it, "CSNBKRD", label);
}

static int count_labels(const char *labels)
{
    int count = labels[0] != '\0';
    while ((labels = strchr(labels, ',')) != NULL) {
        labels++;
        count++;
    }
    return count;
}

struct cca_result cca_record_list(struct cca *it, const char *prefix, char labels[CCA_LABELS_SIZE], int *count)
{
    struct exchange x;
    int told = 0;
    exchange_begin(&x, it, "CSNBKRL");
    exchange_put_text(&x, "prefix", prefix);
    x.reply = labels; /* which the list is then taken out of */
    x.reply_size = CCA_LABELS_SIZE;
    exchange_ask(&x);
    exchange_get_number(&x, "count", &told);
    exchange_get_text(&x, "labels", labels, CCA_LABELS_SIZE);
    if (x.result.outcome == CCA_DONE && count_labels(labels) != told)
        exchange_doubt(&x);
    if (x.result.outcome == CCA_DONE && count)
        *count = told;
    return exchange_end(&x);
}

/* ---- keys */

struct cca_result cca_clear_key_import(struct cca *it, const unsigned char clear[8], const char *to, unsigned char *token)
{
    struct exchange x;
    exchange_begin(&x, it, "CSNBCKI");
    exchange_put_hex(&x, "clear", clear, 8);
    exchange_put_to(&x, to, token);
    exchange_ask(&x);
    exchange_get_made(&x, "token", to, token);
    return exchange_end(&x);
}

static int is_there(struct cca_key key)
{
    return key.label || key.token;
}

struct cca_result cca_key_generate(struct cca *it, const struct cca_generation *what, const char *to, unsigned char *token1,
                                   unsigned char *token2)
{
    struct exchange x;
    int is_out = is_there(what->transport1); /* no key for here: both tokens are external */
    exchange_begin(&x, it, "CSNBKGN");
    exchange_put_text(&x, "form", what->form);
    exchange_put_text(&x, "length", what->length);
    exchange_put_text(&x, "type1", what->type1);
    if (what->type2)
        exchange_put_text(&x, "type2", what->type2);
    if (is_out)
        exchange_put_key(&x, "transport1", what->transport1);
    if (is_there(what->transport2))
        exchange_put_key(&x, "transport2", what->transport2);
    if (!is_out)
        exchange_put_to(&x, to, token1);
    if ((is_out && !token1) || (what->type2 && !token2))
        exchange_refuse(&x, "no place for a token is given");
    exchange_ask(&x);
    exchange_get_made(&x, "token1", is_out ? NULL : to, token1);
    if (what->type2)
        exchange_get_hex(&x, "token2", token2, CCA_TOKEN_SIZE);
    return exchange_end(&x);
}

struct cca_result cca_key_part_first(struct cca *it, const char *type, const unsigned char *part, size_t length, const char *to,
                                     unsigned char *token)
{
    struct exchange x;
    exchange_begin(&x, it, "CSNBKPI");
    exchange_put_text(&x, "rule", "FIRST");
    exchange_put_text(&x, "type", type);
    exchange_put_hex(&x, "part", part, length);
    exchange_put_to(&x, to, token);
    exchange_ask(&x);
    exchange_get_made(&x, "token", to, token);
    return exchange_end(&x);
}

struct cca_result cca_key_part_next(struct cca *it, const char *rule, struct cca_key key, const unsigned char *part,
                                    size_t length, const char *to, unsigned char *token)
{
    struct exchange x;
    exchange_begin(&x, it, "CSNBKPI");
    exchange_put_text(&x, "rule", rule);
    exchange_put_key(&x, "key", key);
    exchange_put_hex(&x, "part", part, length);
    exchange_put_to(&x, to, token);
    exchange_ask(&x);
    exchange_get_made(&x, "token", to, token);
    return exchange_end(&x);
}

struct cca_result cca_key_export(struct cca *it, struct cca_key key, struct cca_key transport, unsigned char *external)
{
    struct exchange x;
    exchange_begin(&x, it, "CSNBKEX");
    exchange_put_key(&x, "key", key);
    exchange_put_key(&x, "transport", transport);
    exchange_ask(&x);
    exchange_get_hex(&x, "token", external, CCA_TOKEN_SIZE);
    return exchange_end(&x);
}

struct cca_result cca_key_import(struct cca *it, const unsigned char *external, struct cca_key transport, const char *to,
                                 unsigned char *token)
{
    struct exchange x;
    exchange_begin(&x, it, "CSNBKIM");
    exchange_put_hex(&x, "token", external, CCA_TOKEN_SIZE);
    exchange_put_key(&x, "transport", transport);
    exchange_put_to(&x, to, token);
    exchange_ask(&x);
    exchange_get_made(&x, "token", to, token);
    return exchange_end(&x);
}

struct cca_result cca_key_translate(struct cca *it, const unsigned char *external, struct cca_key transport1,
                                    struct cca_key transport2, unsigned char *translated)
{
    struct exchange x;
    exchange_begin(&x, it, "CSNBKTR");
    exchange_put_hex(&x, "token", external, CCA_TOKEN_SIZE);
    exchange_put_key(&x, "transport1", transport1);
    exchange_put_key(&x, "transport2", transport2);
    exchange_ask(&x);
    exchange_get_hex(&x, "token", translated, CCA_TOKEN_SIZE);
    return exchange_end(&x);
}

struct cca_result cca_prohibit_export(struct cca *it, struct cca_key key, const char *to, unsigned char *token)
{
    struct exchange x;
    exchange_begin(&x, it, "CSNBPEX");
    exchange_put_key(&x, "key", key);
    exchange_put_to(&x, to, token);
    exchange_ask(&x);
    exchange_get_made(&x, "token", to, token);
    return exchange_end(&x);
}

struct cca_result cca_token_change(struct cca *it, const char *rule, const unsigned char *token, unsigned char *changed)
{
    struct exchange x;
    exchange_begin(&x, it, "CSNBKTC");
    exchange_put_text(&x, "rule", rule);
    exchange_put_hex(&x, "token", token, CCA_TOKEN_SIZE);
    exchange_ask(&x);
    exchange_get_hex(&x, "token", changed, CCA_TOKEN_SIZE);
    return exchange_end(&x);
}

struct cca_result cca_token_parse(struct cca *it, const unsigned char *token, struct cca_parsed *parsed)
{
    struct exchange x;
    size_t size;
    memset(parsed, 0, sizeof *parsed);
    exchange_begin(&x, it, "CSNBKTP");
    exchange_put_hex(&x, "token", token, CCA_TOKEN_SIZE);
    exchange_ask(&x);
    exchange_get_text(&x, "kind", parsed->kind, sizeof parsed->kind);
    exchange_get_text(&x, "class", parsed->key_class, sizeof parsed->key_class);
    exchange_get_number(&x, "length", &parsed->length);
    size = exchange_get_data(&x, "vector", parsed->vector, sizeof parsed->vector);
    if ((size != 8 && size != 16) || size != (size_t)parsed->length)
        exchange_doubt(&x);
    exchange_get_hex(&x, "pattern", parsed->pattern, sizeof parsed->pattern);
    return exchange_end(&x);
}

struct cca_result cca_key_test(struct cca *it, struct cca_key key, unsigned char value[4])
{
    struct exchange x;
    exchange_begin(&x, it, "CSNBKYT");
    exchange_put_key(&x, "key", key);
    exchange_ask(&x);
    exchange_get_hex(&x, "value", value, 4);
    return exchange_end(&x);
}

struct cca_result cca_random(struct cca *it, const char *form, unsigned char random[8])
{
    struct exchange x;
    exchange_begin(&x, it, "CSNBRNG");
    exchange_put_text(&x, "form", form);
    exchange_ask(&x);
    exchange_get_hex(&x, "random", random, 8);
    return exchange_end(&x);
}
