/* See csnb.h. Each function reads its parameters, asks cca unless something is wrong with them, and sets its outputs. */
#ifndef _GNU_SOURCE
#define _GNU_SOURCE
#endif
#include "csnb_call.h"
#include "exchange.h"

#include <stdio.h>
#include <stdlib.h>
#include <string.h>
#include <unistd.h>

#define BEGIN(are_there) call_begin(&it, exit_data_length, exit_data, (are_there))
#define LONGEST_RANDOM 8192
#define END() call_end(&it, return_code, reason_code)

/* ---- master keys and roles */

void SECURITYAPI CSNBMKP(CSNB_FIRST_FOUR, long *rule_array_count, unsigned char *rule_array, unsigned char *key_part)
{
    static const char *const kinds[] = {"SYM-MK", NULL};
    static const char *const actions[] = {"CLEAR", "SET", "FIRST", "MIDDLE", "LAST", NULL};
    struct call it;
    int action;
    BEGIN(1);
    call_words(&it, rule_array_count, rule_array);
    call_choose(&it, kinds, 0);
    action = call_choose(&it, actions, -1);
    if (action > 1 && !key_part)
        call_fault(&it, CSNB_MISSING);
    if (call_ready(&it)) {
        if (action == 0)
            call_came(&it, cca_master_key_clear(it.cca));
        else if (action == 1)
            call_came(&it, cca_master_key_set(it.cca));
        else
            call_came(&it, cca_master_key_part(it.cca, actions[action], key_part));
    }
    END();
}

void SECURITYAPI CSUAACI(CSNB_FIRST_FOUR, long *rule_array_count, unsigned char *rule_array, long *verb_data_1_length,
                         unsigned char *verb_data_1, long *verb_data_2_length, unsigned char *verb_data_2)
{
    static const char *const actions[] = {"DEFINE", "REMOVE", NULL};
    char role[9] = "";
    uint32_t points = 0;
    struct call it;
    int action, at;
    BEGIN(verb_data_1 != NULL);
    call_words(&it, rule_array_count, rule_array);
    action = call_choose(&it, actions, -1);
    if (call_length(&it, verb_data_1_length) != 8)
        call_fault(&it, CSNB_LENGTH);
    if (action == 0 && (call_length(&it, verb_data_2_length) != 4 || !verb_data_2))
        call_fault(&it, CSNB_LENGTH);
    if (call_ready(&it)) {
        field_text(role, verb_data_1, 8);
        for (at = 0; action == 0 && at < 4; at++)
            points = points << 8 | verb_data_2[at];
        call_came(&it, action == 0 ? cca_role_define(it.cca, role, points) : cca_role_remove(it.cca, role));
    }
    END();
}

/* ---- key storage */

void SECURITYAPI CSNBKRC(CSNB_FIRST_FOUR, unsigned char *key_label)
{
    struct operand label;
    struct call it;
    BEGIN(1);
    call_label(&it, key_label, &label);
    if (call_ready(&it))
        call_came(&it, cca_record_create(it.cca, label.label));
    END();
}

void SECURITYAPI CSNBKRD(CSNB_FIRST_FOUR, long *rule_array_count, unsigned char *rule_array, unsigned char *key_label)
{
    static const char *const kinds[] = {"LABEL-DL", NULL};
    struct operand label;
    struct call it;
    BEGIN(1);
    call_words(&it, rule_array_count, rule_array);
    call_choose(&it, kinds, -1);
    call_label(&it, key_label, &label);
    if (call_ready(&it))
        call_came(&it, cca_record_delete(it.cca, label.label));
    END();
}

/* Writes labels, one a line, into a new file of the folder that CSUDESLD names: its path, or -1. */
static int write_list(char *labels, char path[65])
{
    const char *folder = getenv("CSUDESLD");
    char *comma = labels;
    FILE *list;
    int file;
    if (!folder || snprintf(path, 65, "%s/KYRLTXXXXXX", folder) > 64)
        return -1;
    file = mkstemp(path);
    list = file < 0 ? NULL : fdopen(file, "w");
    if (!list)
        return -1;
    while ((comma = strchr(comma, ',')) != NULL)
        *comma = '\n';
    fprintf(list, "%s%s", labels, *labels ? "\n" : "");
    return fclose(list) == 0 ? 0 : -1;
}

void SECURITYAPI CSNBKRL(CSNB_FIRST_FOUR, unsigned char *key_label, long *data_set_name_length, unsigned char *data_set_name,
                         unsigned char *security_server_name)
{
    struct operand prefix;
    struct call it;
    char path[65], *labels = malloc(CCA_LABELS_SIZE), *star;
    BEGIN(data_set_name_length && data_set_name && labels);
    call_label(&it, key_label, &prefix);
    star = strchr(prefix.label, '*');
    if (!star || star[1] != '\0' || !getenv("CSUDESLD")) /* here a list is that of a prefix */
        call_fault(&it, star && star[1] == '\0' ? CSNB_LIST : CSNB_LABEL);
    if (call_ready(&it)) {
        *star = '\0';
        call_came(&it, cca_record_list(it.cca, prefix.label, labels, NULL));
    }
    if (it.is_done && write_list(labels, path) != 0) {
        call_fault(&it, CSNB_LIST);
    } else if (it.is_done) {
        *data_set_name_length = (long)strlen(path);
        field_fill(data_set_name, path, 64);
        if (security_server_name)
            memset(security_server_name, ' ', 8);
    }
    free(labels);
    END();
}

void SECURITYAPI CSNBKRR(CSNB_FIRST_FOUR, unsigned char *key_label, unsigned char *key_token)
{
    struct operand label;
    struct call it;
    BEGIN(key_token != NULL);
    call_label(&it, key_label, &label);
    if (call_ready(&it))
        call_came(&it, cca_record_read(it.cca, label.label, key_token));
    END();
}

void SECURITYAPI CSNBKRW(CSNB_FIRST_FOUR, unsigned char *key_token, unsigned char *key_label)
{
    struct operand label;
    struct call it;
    BEGIN(key_token != NULL);
    call_label(&it, key_label, &label);
    if (call_ready(&it))
        call_came(&it, cca_record_write(it.cca, label.label, key_token));
    END();
}

/* ---- keys */

void SECURITYAPI CSNBCKI(CSNB_FIRST_FOUR, unsigned char *clear_key, unsigned char *target_key_identifier)
{
    struct operand target;
    struct call it;
    BEGIN(clear_key != NULL);
    call_is_target(&it, target_key_identifier, &target);
    if (call_ready(&it))
        call_came(&it, cca_clear_key_import(it.cca, clear_key, target.key.label, target_key_identifier));
    END();
}

void SECURITYAPI CSNBCKM(CSNB_FIRST_FOUR, long *rule_array_count, unsigned char *rule_array, long *clear_key_length,
                         unsigned char *clear_key, unsigned char *target_key_identifier)
{
    static const char *const algorithms[] = {"DES", NULL};
    struct operand target;
    struct call it;
    BEGIN(clear_key != NULL);
    call_words(&it, rule_array_count, rule_array);
    call_choose(&it, algorithms, 0);
    if (call_length(&it, clear_key_length) != 8)
        call_fault(&it, CSNB_LENGTH);
    call_is_target(&it, target_key_identifier, &target);
    if (call_ready(&it))
        call_came(&it, cca_clear_key_import(it.cca, clear_key, target.key.label, target_key_identifier));
    END();
}

/* Whether a token has the type that a key_type parameter names: TOKEN takes any. */
static int is_of_type(const unsigned char *key_type, const unsigned char *token)
{
    static const unsigned char zeros[16];
    const struct cca_type *type;
    char name[9];
    field_text(name, key_type, 8);
    if (strcmp(name, "TOKEN") == 0 || (strcmp(name, "DATA") == 0 && memcmp(token + 32, zeros, 16) == 0))
        return 1;
    for (type = cca_types; type->name; type++)
        if (strcmp(name, type->name) == 0)
            return has_type(token, type, 8) || has_type(token, type, 16);
    return 0;
}

void SECURITYAPI CSNBKEX(CSNB_FIRST_FOUR, unsigned char *key_type, unsigned char *source_key_identifier,
                         unsigned char *exporter_key_identifier, unsigned char *target_key_token)
{
    unsigned char external[CCA_TOKEN_SIZE];
    struct operand key, exporter;
    struct call it;
    BEGIN(key_type && target_key_token);
    call_key(&it, source_key_identifier, &key);
    call_key(&it, exporter_key_identifier, &exporter);
    if (call_ready(&it))
        call_came(&it, cca_key_export(it.cca, key.key, exporter.key, external));
    if (it.is_done && !is_of_type(key_type, external)) { /* the key of a label is known by its token alone */
        call_fault(&it, CSNB_KEY_TYPE);
    } else if (it.is_done) {
        memcpy(target_key_token, external, sizeof external);
    }
    END();
}

void SECURITYAPI CSNBKIM(CSNB_FIRST_FOUR, unsigned char *key_type, unsigned char *source_key_token,
                         unsigned char *importer_key_identifier, unsigned char *target_key_identifier)
{
    struct operand importer, target;
    struct call it;
    BEGIN(key_type && source_key_token);
    call_key(&it, importer_key_identifier, &importer);
    call_is_target(&it, target_key_identifier, &target);
    if (key_type && source_key_token && !is_of_type(key_type, source_key_token))
        call_fault(&it, CSNB_KEY_TYPE);
    if (call_ready(&it))
        call_came(&it, cca_key_import(it.cca, source_key_token, importer.key, target.key.label, target_key_identifier));
    END();
}

/* A key type that is there, or blanks where none is needed. */
static const char *read_type(struct call *it, char name[9], const unsigned char *key_type)
{
    const struct cca_type *type;
    field_text(name, key_type, 8);
    for (type = cca_types; type->name; type++)
        if (strcmp(name, type->name) == 0)
            return name;
    call_fault(it, CSNB_KEY_TYPE);
    return NULL;
}

static const char *read_length(struct call *it, const unsigned char *key_length)
{
    static const char *const names[][2] = {
        {"SINGLE", "8"}, {"KEYLN8", "8"}, {"DOUBLE", "16"}, {"KEYLN16", "16"}, {"DOUBLE-O", "DOUBLE-O"}};
    char name[9];
    size_t at;
    field_text(name, key_length, 8);
    for (at = 0; at < sizeof names / sizeof names[0]; at++)
        if (strcmp(name, names[at][0]) == 0)
            return names[at][1];
    call_fault(it, CSNB_KEY_TYPE);
    return NULL;
}

/* Where the form stands: OP, then those with a key for here and one for another party, then those with two for others. */
static int read_form(struct call *it, const unsigned char *key_form, struct cca_generation *what)
{
    static const char *const forms[] = {"OP", "OPEX", "OPIM", "IMEX", "EXEX", "IMIM"};
    char name[5];
    int at;
    field_text(name, key_form, 4);
    for (at = 0; at < 6; at++)
        if (strcmp(name, forms[at]) == 0) {
            what->form = forms[at];
            return at;
        }
    call_fault(it, CSNB_KEY_TYPE);
    return 0;
}

void SECURITYAPI CSNBKGN(CSNB_FIRST_FOUR, unsigned char *key_form, unsigned char *key_length, unsigned char *key_type_1,
                         unsigned char *key_type_2, unsigned char *kek_key_identifier_1, unsigned char *kek_key_identifier_2,
                         unsigned char *generated_key_identifier_1, unsigned char *generated_key_identifier_2)
{
    struct cca_generation what = {NULL, NULL, NULL, NULL, {NULL, NULL}, {NULL, NULL}};
    struct operand transport1, transport2, target = {{NULL, NULL}, ""};
    char type1[9], type2[9];
    struct call it;
    int form = 0, are_there = key_form && key_length && key_type_1 && generated_key_identifier_1;
    BEGIN(are_there);
    if (are_there) {
        form = read_form(&it, key_form, &what);
        what.length = read_length(&it, key_length);
        what.type1 = read_type(&it, type1, key_type_1);
        call_is_target(&it, generated_key_identifier_1, &target);
    }
    if (form > 0 && !(key_type_2 && generated_key_identifier_2)) {
        call_fault(&it, CSNB_MISSING);
    } else if (form > 0) {
        what.type2 = read_type(&it, type2, key_type_2);
        call_key(&it, kek_key_identifier_2, &transport2);
        what.transport2 = transport2.key;
    }
    if (form > 2) {
        call_key(&it, kek_key_identifier_1, &transport1);
        what.transport1 = transport1.key;
        if (target.key.label) /* an external token isn't stored */
            call_fault(&it, CSNB_KEY);
    }
    if (call_ready(&it))
        call_came(&it, cca_key_generate(it.cca, &what, target.key.label, generated_key_identifier_1, generated_key_identifier_2));
    END();
}

/* A later part. The length of the key under a label isn't known here: a part of the wrong length is refused and changes nothing. */
static void next_part(struct call *it, const char *rule, const struct operand *key, const unsigned char *part, unsigned char *token)
{
    size_t length = key->key.token && (key->key.token[37] & 0xE0) == 0 ? 8 : 16;
    struct cca_result came = cca_key_part_next(it->cca, rule, key->key, part, length, key->key.label, token);
    if (key->key.label && came.outcome == CCA_REFUSED && came.rule == 32 && strcmp(came.field, "part") == 0)
        came = cca_key_part_next(it->cca, rule, key->key, part, 8, key->key.label, token);
    call_came(it, came);
}

void SECURITYAPI CSNBKPI(CSNB_FIRST_FOUR, long *rule_array_count, unsigned char *rule_array, unsigned char *key_part,
                         unsigned char *key_identifier)
{
    static const char *const rules[] = {"FIRST", "MIDDLE", "LAST", NULL};
    const char *type = NULL;
    struct operand key;
    struct call it;
    size_t length = 0;
    int rule;
    BEGIN(key_part != NULL);
    call_words(&it, rule_array_count, rule_array);
    rule = call_choose(&it, rules, -1);
    call_key(&it, key_identifier, &key);
    if (rule == 0 && key.key.token)
        type = skeleton_type(key_identifier, &length);
    if (rule == 0 && !type)
        call_fault(&it, CSNB_KEY);
    if (call_ready(&it)) {
        if (rule == 0)
            call_came(&it, cca_key_part_first(it.cca, type, key_part, length, NULL, key_identifier));
        else
            next_part(&it, rules[rule], &key, key_part, key_identifier);
    }
    END();
}

/* The key under a label: read, changed, and written back where it isn't the same token. */
static void change_label(struct call *it, const char *rule, const char *label)
{
    unsigned char token[CCA_TOKEN_SIZE], changed[CCA_TOKEN_SIZE];
    call_came(it, cca_record_read(it->cca, label, token));
    if (it->is_done)
        call_came(it, cca_token_change(it->cca, rule, token, changed));
    if (it->is_done && memcmp(token, changed, sizeof token) != 0)
        call_came(it, cca_record_write(it->cca, label, changed));
}

void SECURITYAPI CSNBKTC(CSNB_FIRST_FOUR, long *rule_array_count, unsigned char *rule_array, unsigned char *key_identifier)
{
    static const char *const rules[] = {"RTCMK", "RTNMK", NULL};
    struct operand key;
    struct call it;
    int rule;
    BEGIN(1);
    call_words(&it, rule_array_count, rule_array);
    rule = call_choose(&it, rules, -1);
    call_key(&it, key_identifier, &key);
    if (call_ready(&it)) {
        if (key.key.label)
            change_label(&it, rules[rule], key.label);
        else
            call_came(&it, cca_token_change(it.cca, rules[rule], key_identifier, key_identifier));
    }
    if (it.is_done)
        it.reason = 0; /* the key was under the old master key, and no more is */
    END();
}

void SECURITYAPI CSNBKTP(CSNB_FIRST_FOUR, unsigned char *key_token, unsigned char *key_type, long *rule_array_count,
                         unsigned char *rule_array, unsigned char *key_value, void *reserved_1, long *reserved_2,
                         unsigned char *reserved_3, unsigned char *control_vector, unsigned char *reserved_4, long *reserved_5,
                         unsigned char *reserved_6, unsigned char *master_key_verification_pattern)
{
    struct cca_parsed parsed;
    struct call it;
    (void)reserved_1, (void)reserved_2, (void)reserved_3, (void)reserved_4, (void)reserved_5, (void)reserved_6;
    BEGIN(key_token && key_type && rule_array_count && rule_array && key_value && control_vector &&
          master_key_verification_pattern);
    if (rule_array_count && *rule_array_count < 3)
        call_fault(&it, CSNB_KEYWORDS);
    if (call_ready(&it))
        call_came(&it, cca_token_parse(it.cca, key_token, &parsed));
    if (it.is_done) {
        field_fill(key_type, parsed.key_class, 8);
        *rule_array_count = 3;
        field_fill(rule_array, strcmp(parsed.kind, "internal") == 0 ? "INTERNAL" : "EXTERNAL", 8);
        field_fill(rule_array + 8, "KEY", 8);
        field_fill(rule_array + 16, "CV", 8);
        memcpy(key_value, key_token + 16, 16);
        memcpy(control_vector, parsed.vector, 16);
        memcpy(master_key_verification_pattern, parsed.pattern, 8);
    }
    END();
}

void SECURITYAPI CSNBKTR(CSNB_FIRST_FOUR, unsigned char *input_key_token, unsigned char *input_kek_key_identifier,
                         unsigned char *output_kek_key_identifier, unsigned char *output_key_token)
{
    struct operand from, to;
    struct call it;
    BEGIN(input_key_token && output_key_token);
    call_key(&it, input_kek_key_identifier, &from);
    call_key(&it, output_kek_key_identifier, &to);
    if (call_ready(&it))
        call_came(&it, cca_key_translate(it.cca, input_key_token, from.key, to.key, output_key_token));
    END();
}

void SECURITYAPI CSNBKYT(CSNB_FIRST_FOUR, long *rule_array_count, unsigned char *rule_array, unsigned char *key_identifier,
                         unsigned char *random_number, unsigned char *verification_pattern)
{
    static const char *const keys[] = {"KEY-ENC", "KEY-ENCD", NULL};
    static const char *const ways[] = {"GENERATE", "VERIFY", NULL};
    static const char *const methods[] = {"ENC-ZERO", NULL};
    unsigned char value[8] = {0};
    struct operand key;
    struct call it;
    int way;
    (void)random_number;
    BEGIN(verification_pattern != NULL);
    call_words(&it, rule_array_count, rule_array);
    call_choose(&it, keys, -1);
    way = call_choose(&it, ways, -1);
    call_choose(&it, methods, -1);
    call_key(&it, key_identifier, &key);
    if (call_ready(&it))
        call_came(&it, cca_key_test(it.cca, key.key, value));
    if (it.is_done && way == 0) {
        memcpy(verification_pattern, value, sizeof value);
    } else if (it.is_done && memcmp(verification_pattern, value, 4) != 0) {
        it.code = 4;
        it.reason = CSNB_MISMATCH;
    }
    END();
}

void SECURITYAPI CSNBPEX(CSNB_FIRST_FOUR, unsigned char *key_identifier)
{
    struct operand key;
    struct call it;
    BEGIN(1);
    call_key(&it, key_identifier, &key);
    if (call_ready(&it))
        call_came(&it, cca_prohibit_export(it.cca, key.key, key.key.label, key_identifier));
    END();
}

void SECURITYAPI CSNBRNG(CSNB_FIRST_FOUR, unsigned char *form, unsigned char *random_number)
{
    static const char *const forms[] = {"RANDOM", "ODD", "EVEN", NULL};
    struct call it;
    long one = 1;
    int chosen;
    BEGIN(form && random_number);
    call_words(&it, &one, form);
    chosen = call_choose(&it, forms, -1);
    if (call_ready(&it))
        call_came(&it, cca_random(it.cca, forms[chosen], random_number));
    END();
}

void SECURITYAPI CSNBRNGL(CSNB_FIRST_FOUR, long *rule_array_count, unsigned char *rule_array, long *reserved_length,
                          unsigned char *reserved, long *random_number_length, unsigned char *random_number)
{
    static const char *const forms[] = {"RANDOM", "ODD", "EVEN", NULL};
    unsigned char drawn[8];
    struct call it;
    size_t length, at;
    int chosen;
    (void)reserved_length, (void)reserved;
    BEGIN(random_number != NULL);
    call_words(&it, rule_array_count, rule_array);
    chosen = call_choose(&it, forms, 0);
    length = call_length(&it, random_number_length);
    if (length < 1 || length > LONGEST_RANDOM)
        call_fault(&it, CSNB_LENGTH);
    call_ready(&it);
    for (at = 0; at < length && it.code == 0; at += sizeof drawn) {
        call_came(&it, cca_random(it.cca, forms[chosen], drawn));
        if (it.is_done)
            memcpy(random_number + at, drawn, length - at < sizeof drawn ? length - at : sizeof drawn);
    }
    if (random_number && it.code != 0 && length <= LONGEST_RANDOM)
        memset(random_number, 0, length); /* no half of a key is taken for the whole */
    exchange_wipe(drawn, sizeof drawn);
    END();
}

/* ---- data */

/* The keywords of CSNBENC and CSNBDEC: whether the data is padded, and the vector that it begins with. */
static int read_cipher(struct call *it, const long *count, const unsigned char *words, const unsigned char *initial,
                       const unsigned char *chaining, const unsigned char **iv)
{
    static const char *const methods[] = {"CBC", "X9.23", NULL};
    static const char *const vectors[] = {"INITIAL", "CONTINUE", NULL};
    int is_padded;
    call_words(it, count, words);
    is_padded = call_choose(it, methods, 0);
    *iv = call_choose(it, vectors, 0) ? chaining : initial;
    if (!*iv)
        call_fault(it, CSNB_MISSING);
    return is_padded;
}

/* What the next call continues with: the last block of the ciphertext. */
static void put_chain(unsigned char *chaining_vector, const unsigned char *block)
{
    if (!chaining_vector)
        return;
    memset(chaining_vector, 0, 18);
    memcpy(chaining_vector, block, 8);
}

void SECURITYAPI CSNBENC(CSNB_FIRST_FOUR, unsigned char *key_identifier, long *text_length, unsigned char *clear_text,
                         unsigned char *initialization_vector, long *rule_array_count, unsigned char *rule_array,
                         long *pad_character, unsigned char *chaining_vector, unsigned char *cipher_text)
{
    const unsigned char *iv;
    struct operand key;
    size_t length, came = 0;
    struct call it;
    int is_padded;
    BEGIN(text_length && cipher_text && (clear_text || *text_length == 0));
    is_padded = read_cipher(&it, rule_array_count, rule_array, initialization_vector, chaining_vector, &iv);
    if (is_padded && (!pad_character || *pad_character != 0))
        call_fault(&it, pad_character ? CSNB_PAD : CSNB_MISSING);
    call_key(&it, key_identifier, &key);
    length = call_length(&it, text_length);
    if (call_ready(&it))
        call_came(&it, cca_encipher(it.cca, key.key, iv, is_padded ? "X9.23" : "NONE", clear_text, length, cipher_text, &came));
    if (it.is_done && came >= 8) {
        *text_length = (long)came;
        put_chain(chaining_vector, cipher_text + came - 8);
    }
    END();
}

void SECURITYAPI CSNBDEC(CSNB_FIRST_FOUR, unsigned char *key_identifier, long *text_length, unsigned char *cipher_text,
                         unsigned char *initialization_vector, long *rule_array_count, unsigned char *rule_array,
                         unsigned char *chaining_vector, unsigned char *clear_text)
{
    unsigned char last[8] = {0};
    const unsigned char *iv;
    struct operand key;
    size_t length, came = 0;
    struct call it;
    int is_padded;
    BEGIN(text_length && cipher_text && clear_text);
    is_padded = read_cipher(&it, rule_array_count, rule_array, initialization_vector, chaining_vector, &iv);
    call_key(&it, key_identifier, &key);
    length = call_length(&it, text_length);
    if (cipher_text && length >= 8)
        memcpy(last, cipher_text + length - 8, 8); /* before the output may take its place */
    if (call_ready(&it))
        call_came(&it, cca_decipher(it.cca, key.key, iv, is_padded ? "X9.23" : "NONE", cipher_text, length, clear_text, &came));
    if (it.is_done) {
        *text_length = (long)came;
        put_chain(chaining_vector, last);
    }
    END();
}

/* The keywords of a MAC. */
struct mac_words {
    const char *rule;
    int segment; /* 0 the data as a whole, and else 1 more than enum cca_segment has */
    int length;
};

static struct mac_words read_mac(struct call *it, const long *count, const unsigned char *words, const unsigned char *chaining)
{
    static const char *const rules[] = {"X9.9-1", "X9.19OPT", NULL};
    static const char *const segments[] = {"ONLY", "FIRST", "MIDDLE", "LAST", NULL};
    static const char *const lengths[] = {"MACLEN4", "MACLEN6", "MACLEN8", NULL};
    struct mac_words read;
    call_words(it, count, words);
    read.rule = rules[call_choose(it, rules, 0)];
    read.segment = call_choose(it, segments, 0);
    read.length = 4 + 2 * call_choose(it, lengths, 0);
    if (read.segment != 0 && !chaining)
        call_fault(it, CSNB_MISSING);
    return read;
}

/* Asks for one piece, or the whole, with the chaining value of 16 bytes. */
static struct cca_result ask_mac(struct call *it, struct cca_key key, const struct mac_words *words, const unsigned char *text,
                                 size_t length, unsigned char *chain, unsigned char *mac, int *matches)
{
    enum cca_segment segment = (enum cca_segment)(words->segment - 1);
    if (words->segment == 0 && matches)
        return cca_mac_verify(it->cca, key, words->rule, mac, words->length, text, length, matches);
    if (words->segment == 0)
        return cca_mac_generate(it->cca, key, words->rule, words->length, text, length, mac);
    if (matches)
        return cca_mac_verify_segment(it->cca, key, words->rule, segment, mac, words->length, chain, text, length, matches);
    return cca_mac_generate_segment(it->cca, key, words->rule, segment, words->length, chain, text, length, mac);
}

void SECURITYAPI CSNBMGN(CSNB_FIRST_FOUR, unsigned char *key_identifier, long *text_length, unsigned char *text,
                         long *rule_array_count, unsigned char *rule_array, unsigned char *chaining_vector, unsigned char *mac)
{
    struct mac_words words;
    struct operand key;
    struct call it;
    size_t length;
    BEGIN(text_length && (text || *text_length == 0));
    words = read_mac(&it, rule_array_count, rule_array, chaining_vector);
    if (!mac && words.segment != 1 && words.segment != 2)
        call_fault(&it, CSNB_MISSING);
    call_key(&it, key_identifier, &key);
    length = call_length(&it, text_length);
    if (call_ready(&it))
        call_came(&it, ask_mac(&it, key.key, &words, text, length, chaining_vector, mac, NULL));
    END();
}

void SECURITYAPI CSNBMVR(CSNB_FIRST_FOUR, unsigned char *key_identifier, long *text_length, unsigned char *text,
                         long *rule_array_count, unsigned char *rule_array, unsigned char *chaining_vector, unsigned char *mac)
{
    struct mac_words words;
    struct operand key;
    struct call it;
    size_t length;
    int matches = 0, is_last;
    BEGIN(text_length && (text || *text_length == 0));
    words = read_mac(&it, rule_array_count, rule_array, chaining_vector);
    is_last = words.segment == 0 || words.segment == 3;
    if (!mac && is_last)
        call_fault(&it, CSNB_MISSING);
    call_key(&it, key_identifier, &key);
    length = call_length(&it, text_length);
    if (call_ready(&it))
        call_came(&it, ask_mac(&it, key.key, &words, text, length, chaining_vector, mac, &matches));
    if (it.is_done && is_last && !matches) {
        it.code = 4;
        it.reason = CSNB_MISMATCH;
    }
    END();
}
