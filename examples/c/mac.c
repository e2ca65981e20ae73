/* A MAC by the verbs of CCA, with IBM's signatures: a MAC key is generated, a MAC computed over a message, and verified; then the
   same for another message, which must not match.

       CCA_FOLDER=FOLDER CCA_ROLE=ROLE ./mac

   docs/LIBRARIES.md shows how it is compiled. The folder has a module with a master key, and the role the access control points
   KGN_OP, MGN and MVR. */
#include "csnb.h"

#include <stdio.h>
#include <string.h>

static long return_code, reason_code, no_exit_data = 0;

/* Says what a verb answered: whether it did what was asked. */
static int is_well(const char *verb)
{
    printf("%s: return code %ld, reason %ld: %s\n", verb, return_code, reason_code, csnb_reason(return_code, reason_code));
    return return_code == 0;
}

int main(void)
{
    unsigned char key_form[] = "OP  ", key_length[] = "KEYLN8  ", key_type[] = "MAC     ", no_type[] = "        ";
    unsigned char key_token[64] = {0}, no_token[64] = {0}, chaining_vector[18], mac[8];
    unsigned char rule_array[] = "X9.9-1  ONLY    MACLEN8 ";
    unsigned char message[] = "Pay 125.00 EUR to account 4711";
    long rule_array_count = 3, length = sizeof message - 1;

    CSNBKGN(&return_code, &reason_code, &no_exit_data, NULL, key_form, key_length, key_type, no_type, no_token, no_token,
            key_token, no_token);
    if (!is_well("CSNBKGN"))
        return 1;
    CSNBMGN(&return_code, &reason_code, &no_exit_data, NULL, key_token, &length, message, &rule_array_count, rule_array,
            chaining_vector, mac);
    if (!is_well("CSNBMGN"))
        return 1;
    CSNBMVR(&return_code, &reason_code, &no_exit_data, NULL, key_token, &length, message, &rule_array_count, rule_array,
            chaining_vector, mac);
    if (!is_well("CSNBMVR"))
        return 1;
    memcpy(message + 4, "925.00", 6);
    CSNBMVR(&return_code, &reason_code, &no_exit_data, NULL, key_token, &length, message, &rule_array_count, rule_array,
            chaining_vector, mac);
    is_well("CSNBMVR");
    return return_code == 4 ? 0 : 1;
}
