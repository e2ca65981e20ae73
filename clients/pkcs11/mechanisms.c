/* See mechanisms.h. */
#include "mechanisms.h"

#include "cca-pkcs11.h"
#include "slots.h"

#define CIPHERS (CKF_ENCRYPT | CKF_DECRYPT)
#define MACS (CKF_SIGN | CKF_VERIFY)

static const struct mechanism mechanisms[] = {
    {CKM_DES_KEY_GEN, GENERATION, 8, CKF_GENERATE, NULL, 0},
    {CKM_DES2_KEY_GEN, GENERATION, 16, CKF_GENERATE, NULL, 0},
    {CKM_DES_ECB, ECB, 8, CIPHERS, NULL, 0},
    {CKM_DES_CBC, CBC, 8, CIPHERS, NULL, 0},
    {CKM_DES_CBC_PAD, CBC_PAD, 8, CIPHERS, NULL, 0},
    {CKM_DES3_ECB, ECB, 16, CIPHERS, NULL, 0},
    {CKM_DES3_CBC, CBC, 16, CIPHERS, NULL, 0},
    {CKM_DES3_CBC_PAD, CBC_PAD, 16, CIPHERS, NULL, 0},
    {CKM_DES_MAC, MAC, 8, MACS, "X9.9-1", 0},
    {CKM_DES_MAC_GENERAL, MAC, 8, MACS, "X9.9-1", 1},
    {CKM_DES3_MAC, CBC_MAC, 16, MACS, NULL, 0},
    {CKM_DES3_MAC_GENERAL, CBC_MAC, 16, MACS, NULL, 1},
    {CKM_CCA_X919_MAC, MAC, 16, MACS, "X9.19OPT", 0},
    {CKM_CCA_X919_MAC_GENERAL, MAC, 16, MACS, "X9.19OPT", 1},
    {CKM_CCA_EXTERNAL_TOKEN, EXTERNAL_TOKEN, 0, CKF_WRAP | CKF_UNWRAP, NULL, 0},
};

#define COUNT (sizeof mechanisms / sizeof *mechanisms)

const struct mechanism *mechanism_of_type(CK_MECHANISM_TYPE type)
{
    size_t at;
    for (at = 0; at < COUNT; at++)
        if (mechanisms[at].type == type)
            return &mechanisms[at];
    return NULL;
}

CK_RV C_GetMechanismList(CK_SLOT_ID id, CK_MECHANISM_TYPE *list, CK_ULONG *count)
{
    size_t at;
    CK_ULONG room;
    if (!slots_are_there())
        return CKR_CRYPTOKI_NOT_INITIALIZED;
    if (!slot_at(id))
        return CKR_SLOT_ID_INVALID;
    if (!count)
        return CKR_ARGUMENTS_BAD;
    room = *count;
    *count = COUNT;
    if (!list)
        return CKR_OK;
    if (room < COUNT)
        return CKR_BUFFER_TOO_SMALL;
    for (at = 0; at < COUNT; at++)
        list[at] = mechanisms[at].type;
    return CKR_OK;
}

/* Sizes of keys are told in bytes. A double-length key may be shown with its first half once more at its end. */
CK_RV C_GetMechanismInfo(CK_SLOT_ID id, CK_MECHANISM_TYPE type, CK_MECHANISM_INFO *info)
{
    const struct mechanism *it = mechanism_of_type(type);
    if (!slots_are_there())
        return CKR_CRYPTOKI_NOT_INITIALIZED;
    if (!slot_at(id))
        return CKR_SLOT_ID_INVALID;
    if (!it)
        return CKR_MECHANISM_INVALID;
    if (!info)
        return CKR_ARGUMENTS_BAD;
    info->ulMinKeySize = it->key_length ? (CK_ULONG)it->key_length : 16;
    info->ulMaxKeySize = it->key_length == 16 && it->kind != GENERATION ? 24 : info->ulMinKeySize;
    info->flags = it->flags;
    return CKR_OK;
}
