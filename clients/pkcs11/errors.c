/* See errors.h. */
#include "errors.h"

/* By the number of the rule. */
static const CK_RV of_rules[] = {
    [1] = CKR_FUNCTION_FAILED,
    [2] = CKR_FUNCTION_FAILED,
    [3] = CKR_TOKEN_NOT_RECOGNIZED,
    [4] = CKR_USER_NOT_LOGGED_IN,
    [5] = CKR_TOKEN_NOT_RECOGNIZED,
    [6] = CKR_ATTRIBUTE_VALUE_INVALID,
    [7] = CKR_KEY_HANDLE_INVALID,
    [8] = CKR_KEY_HANDLE_INVALID,
    [9] = CKR_WRAPPED_KEY_INVALID,
    [10] = CKR_WRAPPED_KEY_INVALID,
    [11] = CKR_WRAPPED_KEY_INVALID,
    [12] = CKR_WRAPPED_KEY_INVALID,
    [13] = CKR_WRAPPED_KEY_INVALID,
    [14] = CKR_WRAPPED_KEY_INVALID,
    [15] = CKR_WRAPPED_KEY_INVALID,
    [16] = CKR_WRAPPED_KEY_INVALID,
    [17] = CKR_KEY_FUNCTION_NOT_PERMITTED,
    [18] = CKR_KEY_HANDLE_INVALID,
    [19] = CKR_KEY_FUNCTION_NOT_PERMITTED,
    [20] = CKR_KEY_FUNCTION_NOT_PERMITTED,
    [21] = CKR_KEY_UNEXTRACTABLE,
    [22] = CKR_WRAPPING_KEY_SIZE_RANGE,
    [23] = CKR_DATA_LEN_RANGE,
    [24] = CKR_TEMPLATE_INCONSISTENT,
    [25] = CKR_FUNCTION_FAILED,
    [26] = CKR_FUNCTION_FAILED,
    [27] = CKR_FUNCTION_FAILED,
    [28] = CKR_DEVICE_MEMORY,
    [29] = CKR_ATTRIBUTE_VALUE_INVALID,
    [30] = CKR_FUNCTION_FAILED,
    [31] = CKR_ENCRYPTED_DATA_INVALID,
    [32] = CKR_KEY_SIZE_RANGE,
    [33] = CKR_FUNCTION_FAILED,
    [34] = CKR_FUNCTION_FAILED,
    [35] = CKR_FUNCTION_FAILED,
    [36] = CKR_FUNCTION_FAILED,
};

static CK_RV of_rule(int rule)
{
    const int rules = sizeof of_rules / sizeof *of_rules;
    return rule >= 1 && rule < rules ? of_rules[rule] : CKR_FUNCTION_FAILED;
}

CK_RV error_of(const struct cca_result *it)
{
    switch (it->outcome) {
    case CCA_DONE:
        return CKR_OK;
    case CCA_REFUSED:
        return of_rule(it->rule);
    case CCA_ENDED:
        return it->is_in_doubt ? CKR_DEVICE_ERROR : CKR_DEVICE_REMOVED;
    default:
        return CKR_ARGUMENTS_BAD;
    }
}

int is_refused(const struct cca_result *it, int rule)
{
    return it->outcome == CCA_REFUSED && it->rule == rule;
}
