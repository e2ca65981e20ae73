/* What IBM's programs ask about their coprocessor before they use it. Here most of it has a fixed answer. */
#include "csnb_call.h"

#include <string.h>

/* A low one: a program that asks for a feature by the version that brought it finds none. */
#define VERSION "1.0.0"
#define COPROCESSOR "CRP01"

/* ---- whether there is a current master key */

/* Asks with a token that no verb takes, in one of a few ways, each of which needs another point. Nothing is changed. */
static struct cca_result ask_with_no_key(struct cca *cca, int way)
{
    static const unsigned char no_key[CCA_TOKEN_SIZE], block[8];
    unsigned char out[CCA_TOKEN_SIZE];
    size_t length;
    switch (way) {
    case 0:
        return cca_key_test(cca, cca_token(no_key), out);
    case 1:
        return cca_encipher(cca, cca_token(no_key), block, "NONE", block, sizeof block, out, &length);
    case 2:
        return cca_mac_generate(cca, cca_token(no_key), "X9.9-1", 4, block, sizeof block, out);
    }
    return cca_token_change(cca, "RTCMK", no_key, out);
}

/* How the current master key's register is told: "1" it is empty, "2" it is full, and blank where the role may not find out. */
static const char *current_master_key(struct call *it)
{
    struct cca_result came = ask_with_no_key(it->cca, 0);
    int way;
    for (way = 1; way < 4 && came.outcome == CCA_REFUSED && came.rule == 4; way++)
        came = ask_with_no_key(it->cca, way);
    if (came.outcome == CCA_REFUSED && came.rule == 5)
        return "1";
    if (came.outcome == CCA_REFUSED && came.rule > 5)
        return "2";
    if (came.outcome != CCA_REFUSED || came.rule != 4)
        call_came(it, came);
    return "";
}

/* ---- the verbs */

/* Fills the rule array with so many elements: of those behind the first ones nothing is known. */
static void put_elements(long *count, unsigned char *array, const char *const *elements, int known, int all)
{
    int at;
    for (at = 0; at < all; at++)
        field_fill(array + 8 * at, at < known ? elements[at] : "", 8);
    *count = all;
}

void SECURITYAPI CSUACFQ(CSNB_FIRST_FOUR, long *rule_array_count, unsigned char *rule_array, long *verb_data_length,
                         unsigned char *verb_data)
{
    static const char *const questions[] = {"STATCCA", "STATCCAE", "STATCARD", NULL};
    static const char *const adapters[] = {"ADAPTER1", NULL};
    static const int sizes[] = {6, 9, 15};
    const char *status[9] = {"", "", "", VERSION, "", "", "1", "1", "1"}; /* there are no asymmetric master keys */
    const char *const card[] = {"1"};
    struct call it;
    int question;
    (void)verb_data;
    call_begin(&it, exit_data_length, exit_data, rule_array != NULL);
    call_words(&it, rule_array_count, rule_array);
    call_choose(&it, adapters, 0);
    question = call_choose(&it, questions, -1);
    if (call_ready(&it) && question < 2) {
        status[1] = current_master_key(&it);
        status[5] = it.cca->role ? it.cca->role : "";
    }
    if (it.code == 0) {
        if (question < 2)
            put_elements(rule_array_count, rule_array, status, sizes[question], sizes[question]);
        else
            put_elements(rule_array_count, rule_array, card, 1, sizes[question]);
        if (verb_data_length)
            *verb_data_length = 0;
    }
    call_end(&it, return_code, reason_code);
}

void SECURITYAPI CSUACFV(CSNB_FIRST_FOUR, long *version_data_length, unsigned char *version_data)
{
    struct call it;
    call_begin(&it, exit_data_length, exit_data, version_data != NULL);
    if (call_length(&it, version_data_length) < sizeof VERSION)
        call_fault(&it, CSNB_LENGTH);
    if (call_understood(&it)) {
        memcpy(version_data, VERSION, sizeof VERSION);
        *version_data_length = sizeof VERSION - 1;
    }
    call_end(&it, return_code, reason_code);
}

/* There is one coprocessor, which all threads use: nothing is changed. */
static void name_coprocessor(CSNB_FIRST_FOUR, const long *count, const unsigned char *words, const long *length,
                             const unsigned char *name)
{
    static const char *const kinds[] = {"DEVICE", NULL};
    char text[65] = "";
    struct call it;
    size_t size;
    call_begin(&it, exit_data_length, exit_data, name != NULL);
    call_words(&it, count, words);
    call_choose(&it, kinds, -1);
    size = call_length(&it, length);
    if (size < 1 || size > 64)
        call_fault(&it, CSNB_LENGTH);
    else if (name)
        field_text(text, name, size);
    if (strcmp(text, COPROCESSOR) != 0)
        call_fault(&it, CSNB_UNSAYABLE);
    call_understood(&it);
    call_end(&it, return_code, reason_code);
}

void SECURITYAPI CSUACRA(CSNB_FIRST_FOUR, long *rule_array_count, unsigned char *rule_array, long *resource_name_length,
                         unsigned char *resource_name)
{
    name_coprocessor(return_code, reason_code, exit_data_length, exit_data, rule_array_count, rule_array, resource_name_length,
                     resource_name);
}

void SECURITYAPI CSUACRD(CSNB_FIRST_FOUR, long *rule_array_count, unsigned char *rule_array, long *resource_name_length,
                         unsigned char *resource_name)
{
    name_coprocessor(return_code, reason_code, exit_data_length, exit_data, rule_array_count, rule_array, resource_name_length,
                     resource_name);
}
