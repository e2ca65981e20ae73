/* Reasons: as numbers of IBM's, where the environment asks for these, and as sentences. */
#include "csnb_call.h"

#include <stdlib.h>
#include <string.h>

#define RULES 36
#define OURS 9000 /* and a reason of ours, where IBM has none that is near */

struct pair {
    long code, reason;
};

/* The pair of IBM's that stands nearest to each rule, written down from memory, as docs/FROM-IBM.md has it; zeros where none is
   near. */
static const struct pair nearest[1 + RULES] = {
    {0, 0}, /* there is no rule 0 */
    {8, 33}, {8, 153}, {8, 90}, {8, 90}, {12, 764}, {8, 32}, {8, 30}, {8, 47}, {8, 63}, /* 1 to 9 */
    {8, 29}, {8, 49}, {8, 65}, {8, 65}, {8, 39}, {8, 39}, {8, 39}, {8, 39}, {8, 48}, /* 10 to 18 */
    {8, 39}, {8, 39}, {8, 39}, {8, 39}, {8, 51}, {8, 39}, {8, 708}, {8, 704}, {0, 0}, /* 19 to 27 */
    {12, 97}, {8, 44}, {0, 0}, {8, 706}, {8, 159}, {0, 0}, {0, 0}, {0, 0}, {0, 0}, /* 28 to 36 */
};

static int is_ibms; /* whether reasons are told so */

void reasons_begin(void)
{
    const char *asked = getenv("CCA_REASONS");
    is_ibms = asked && strcmp(asked, "ibm") == 0;
}

void reasons_tell(long *code, long *reason)
{
    struct pair found = {8, *reason + OURS};
    if (!is_ibms || *code != 8)
        return;
    if (*reason <= RULES && nearest[*reason].code != 0)
        found = nearest[*reason];
    else if (*reason == CSNB_KEYWORD || *reason == CSNB_KEYWORDS)
        found = nearest[1];
    else if (*reason == CSNB_LABEL)
        found = nearest[6];
    *code = found.code;
    *reason = found.reason;
}

/* The sentence of a pair of IBM's: that of its rule, if it is the pair of one alone. Null: it is none. */
static const char *ibms_reason(long code, long reason)
{
    int rule, one = 0;
    if (code == nearest[1].code && reason == nearest[1].reason) /* no verb of csnb.h breaks rule 1 */
        return "a keyword isn't one of this verb here, one is missing, or two exclude each other";
    for (rule = 1; rule <= RULES; rule++)
        if (code != 0 && nearest[rule].code == code && nearest[rule].reason == reason)
            one = one ? -1 : rule;
    if (one < 0)
        return "refused: several rules have this reason of IBM's, and without CCA_REASONS it is told which one";
    return one ? cca_rule(one) : NULL;
}

static const char *own_reason(long reason)
{
    switch (reason) {
    case CSNB_MISSING:
        return "a parameter is a null pointer";
    case CSNB_EXIT_DATA:
        return "exit_data_length isn't 0";
    case CSNB_KEYWORD:
        return "a keyword isn't one of this verb here";
    case CSNB_KEYWORDS:
        return "a keyword is missing, two exclude each other, or there are too many or too few";
    case CSNB_KEY:
        return "a key identifier has no key, or one of a kind that the verb doesn't take here";
    case CSNB_LABEL:
        return "a label is empty, or has a byte that no request can have";
    case CSNB_LENGTH:
        return "a length is negative, or isn't the one that the parameter has";
    case CSNB_PAD:
        return "the pad character isn't X'00'";
    case CSNB_KEY_TYPE:
        return "a key type, length or form isn't there, or the key has another type";
    case CSNB_LIST:
        return "the list of labels can't be written: look at CSUDESLD";
    }
    return "the parameters fit no request";
}

const char *csnb_reason(long return_code, long reason_code)
{
    const char *ibms = is_ibms ? ibms_reason(return_code, reason_code) : NULL, *rule;
    if (ibms)
        return ibms;
    if (return_code == 8 && reason_code > OURS)
        reason_code -= OURS;
    rule = cca_rule(reason_code > 0 && reason_code < 100 ? (int)reason_code : 0);
    switch (return_code) {
    case 0:
        return reason_code == CSNB_OLD_KEY ? "done, with a key under the old master key" : "done";
    case 4:
        return "the MAC or the check value doesn't match";
    case 8:
        return rule ? rule : own_reason(reason_code);
    }
    if (reason_code == CSNB_NOT_HERE)
        return "the verb isn't in this profile";
    if (reason_code == CSNB_NOWHERE)
        return "no cca is named: set CCA_SOCKET, or CCA_FOLDER and CCA_ROLE";
    return reason_code >= CSNB_IN_DOUBT ? "cca ended; the request may have been carried out all the same"
                                        : "cca ended; the request wasn't carried out";
}
