/* A program that asks a PKCS#11 module what the standard says of each call: which code comes when, how much room is needed, and
   what a call leaves behind. It says what isn't so, and its status is then 1.

       calls WHAT MODULE

   The slot 0 is a module for tests, as cca.testing makes it, under the role DEFAULT. */
#define _GNU_SOURCE
#include <dlfcn.h>
#include <p11-kit/pkcs11.h>
#include <pthread.h>
#include <signal.h>
#include <stdio.h>
#include <stdlib.h>
#include <string.h>
#include <sys/wait.h>
#include <unistd.h>

#define IS(call, wanted) is(__LINE__, #call, (call), (wanted))
#define HOLDS(what) is(__LINE__, #what, (what) ? 1 : 0, 1)
#define TURNS 40

static CK_FUNCTION_LIST *p11;
static void *module;
static int wrong;
static CK_BYTE iv[8] = {1, 2, 3, 4, 5, 6, 7, 8};
static CK_MECHANISM cbc = {CKM_DES_CBC, iv, sizeof iv}, padded = {CKM_DES_CBC_PAD, iv, sizeof iv}, mac = {CKM_DES_MAC, NULL, 0};

static void is(int line, const char *what, CK_RV came, CK_RV wanted)
{
    if (came == wanted)
        return;
    printf("line %d: %s came to %lx, and not %lx\n", line, what, came, wanted);
    wrong = 1;
}

static void load(const char *path)
{
    CK_RV (*get)(CK_FUNCTION_LIST **);
    module = dlopen(path, RTLD_NOW);
    if (!module) {
        printf("%s\n", dlerror());
        exit(1);
    }
    *(void **)&get = dlsym(module, "C_GetFunctionList");
    IS(get(&p11), CKR_OK);
    IS(get(NULL), CKR_ARGUMENTS_BAD);
}

static CK_SESSION_HANDLE opened(CK_FLAGS flags)
{
    CK_SESSION_HANDLE it = 0;
    IS(p11->C_OpenSession(0, CKF_SERIAL_SESSION | flags, NULL, NULL, &it), CKR_OK);
    return it;
}

static CK_SESSION_HANDLE begun(void)
{
    IS(p11->C_Initialize(NULL), CKR_OK);
    return opened(CKF_RW_SESSION);
}

static CK_OBJECT_HANDLE found(CK_SESSION_HANDLE session, const char *label)
{
    CK_ATTRIBUTE given = {CKA_LABEL, (void *)label, strlen(label)};
    CK_OBJECT_HANDLE it = 0;
    CK_ULONG count = 0;
    IS(p11->C_FindObjectsInit(session, &given, 1), CKR_OK);
    IS(p11->C_FindObjects(session, &it, 1, &count), CKR_OK);
    IS(p11->C_FindObjectsFinal(session), CKR_OK);
    IS(count, 1);
    return it;
}

/* ---- beginning and end */

static void before(void)
{
    CK_ULONG count = 0;
    CK_SESSION_HANDLE session = 0;
    CK_INFO info;
    CK_SLOT_INFO slot;
    CK_TOKEN_INFO token;
    CK_BYTE byte;
    IS(p11->C_GetInfo(&info), CKR_CRYPTOKI_NOT_INITIALIZED);
    IS(p11->C_GetSlotList(CK_FALSE, NULL, &count), CKR_CRYPTOKI_NOT_INITIALIZED);
    IS(p11->C_GetSlotInfo(0, &slot), CKR_CRYPTOKI_NOT_INITIALIZED);
    IS(p11->C_GetTokenInfo(0, &token), CKR_CRYPTOKI_NOT_INITIALIZED);
    IS(p11->C_GetMechanismList(0, NULL, &count), CKR_CRYPTOKI_NOT_INITIALIZED);
    IS(p11->C_OpenSession(0, CKF_SERIAL_SESSION, NULL, NULL, &session), CKR_CRYPTOKI_NOT_INITIALIZED);
    IS(p11->C_CloseAllSessions(0), CKR_CRYPTOKI_NOT_INITIALIZED);
    IS(p11->C_CloseSession(1), CKR_CRYPTOKI_NOT_INITIALIZED);
    IS(p11->C_FindObjectsInit(1, NULL, 0), CKR_CRYPTOKI_NOT_INITIALIZED);
    IS(p11->C_EncryptInit(1, &cbc, 1), CKR_CRYPTOKI_NOT_INITIALIZED);
    IS(p11->C_GenerateRandom(1, &byte, 1), CKR_CRYPTOKI_NOT_INITIALIZED);
    IS(p11->C_Finalize(NULL), CKR_CRYPTOKI_NOT_INITIALIZED);
}

static CK_RV no_mutex(void **it)
{
    (void)it;
    return CKR_GENERAL_ERROR;
}

static CK_RV no_lock(void *it)
{
    (void)it;
    return CKR_GENERAL_ERROR;
}

static void initialize(void)
{
    CK_C_INITIALIZE_ARGS given = {0};
    given.pReserved = &given;
    IS(p11->C_Initialize(&given), CKR_ARGUMENTS_BAD);
    given.pReserved = NULL;
    given.CreateMutex = no_mutex;
    IS(p11->C_Initialize(&given), CKR_ARGUMENTS_BAD);
    given.DestroyMutex = given.LockMutex = given.UnlockMutex = no_lock;
    IS(p11->C_Initialize(&given), CKR_CANT_LOCK);
    given.flags = CKF_OS_LOCKING_OK;
    IS(p11->C_Initialize(&given), CKR_OK);
    IS(p11->C_Initialize(NULL), CKR_CRYPTOKI_ALREADY_INITIALIZED);
    IS(p11->C_Finalize(&given), CKR_ARGUMENTS_BAD);
    IS(p11->C_Finalize(NULL), CKR_OK);
    IS(p11->C_Finalize(NULL), CKR_CRYPTOKI_NOT_INITIALIZED);
    memset(&given, 0, sizeof given);
    given.flags = CKF_LIBRARY_CANT_CREATE_OS_THREADS;
    IS(p11->C_Initialize(&given), CKR_OK);
    IS(p11->C_Finalize(NULL), CKR_OK);
}

/* ---- slots and sessions */

static void slots(void)
{
    CK_SLOT_ID list[2] = {9, 9};
    CK_SLOT_INFO slot;
    CK_TOKEN_INFO token;
    CK_INFO info;
    CK_MECHANISM_TYPE types[64];
    CK_MECHANISM_INFO mechanism;
    CK_ULONG count = 0, all;
    IS(p11->C_Initialize(NULL), CKR_OK);
    IS(p11->C_GetInfo(&info), CKR_OK);
    HOLDS(info.cryptokiVersion.major == 2 && info.cryptokiVersion.minor == 40);
    IS(p11->C_GetInfo(NULL), CKR_ARGUMENTS_BAD);
    IS(p11->C_GetSlotList(CK_TRUE, NULL, NULL), CKR_ARGUMENTS_BAD);
    IS(p11->C_GetSlotList(CK_TRUE, NULL, &count), CKR_OK);
    IS(count, 1);
    count = 0;
    IS(p11->C_GetSlotList(CK_TRUE, list, &count), CKR_BUFFER_TOO_SMALL);
    HOLDS(count == 1 && list[0] == 9);
    count = 2;
    IS(p11->C_GetSlotList(CK_FALSE, list, &count), CKR_OK);
    HOLDS(count == 1 && list[0] == 0 && list[1] == 9);
    IS(p11->C_GetSlotInfo(1, &slot), CKR_SLOT_ID_INVALID);
    IS(p11->C_GetSlotInfo(0, &slot), CKR_OK);
    HOLDS(slot.flags & CKF_TOKEN_PRESENT);
    IS(p11->C_GetTokenInfo(7, &token), CKR_SLOT_ID_INVALID);
    IS(p11->C_GetTokenInfo(0, &token), CKR_OK);
    HOLDS(memcmp(token.label, "DEFAULT                         ", 32) == 0 && !(token.flags & CKF_LOGIN_REQUIRED));
    IS(p11->C_GetMechanismList(1, NULL, &count), CKR_SLOT_ID_INVALID);
    IS(p11->C_GetMechanismList(0, NULL, &all), CKR_OK);
    count = all - 1;
    IS(p11->C_GetMechanismList(0, types, &count), CKR_BUFFER_TOO_SMALL);
    HOLDS(count == all && all <= 64);
    IS(p11->C_GetMechanismList(0, types, &count), CKR_OK);
    while (count-- > 0)
        IS(p11->C_GetMechanismInfo(0, types[count], &mechanism), CKR_OK);
    IS(p11->C_GetMechanismInfo(0, CKM_AES_CBC, &mechanism), CKR_MECHANISM_INVALID);
    IS(p11->C_WaitForSlotEvent(CKF_DONT_BLOCK, list, NULL), CKR_NO_EVENT);
}

static void sessions(void)
{
    CK_SESSION_HANDLE first, second, many;
    CK_SESSION_INFO info;
    CK_ULONG count = 0;
    IS(p11->C_Initialize(NULL), CKR_OK);
    IS(p11->C_OpenSession(5, CKF_SERIAL_SESSION, NULL, NULL, &first), CKR_SLOT_ID_INVALID);
    IS(p11->C_OpenSession(0, CKF_RW_SESSION, NULL, NULL, &first), CKR_SESSION_PARALLEL_NOT_SUPPORTED);
    IS(p11->C_OpenSession(0, CKF_SERIAL_SESSION, NULL, NULL, NULL), CKR_ARGUMENTS_BAD);
    first = opened(0);
    second = opened(CKF_RW_SESSION);
    HOLDS(first != second && first && second);
    IS(p11->C_GetSessionInfo(first, &info), CKR_OK);
    HOLDS(info.state == CKS_RO_PUBLIC_SESSION && info.flags == CKF_SERIAL_SESSION && info.slotID == 0);
    IS(p11->C_Logout(first), CKR_USER_NOT_LOGGED_IN);
    IS(p11->C_Login(first, CKU_SO, (CK_BYTE *)"1", 1), CKR_USER_TYPE_INVALID);
    IS(p11->C_Login(first, CKU_CONTEXT_SPECIFIC, (CK_BYTE *)"1", 1), CKR_OPERATION_NOT_INITIALIZED);
    IS(p11->C_Login(first, CKU_USER, NULL, 4), CKR_ARGUMENTS_BAD);
    IS(p11->C_Login(first, CKU_USER, (CK_BYTE *)"1", 1), CKR_OK);
    IS(p11->C_Login(second, CKU_USER, (CK_BYTE *)"1", 1), CKR_USER_ALREADY_LOGGED_IN);
    IS(p11->C_GetSessionInfo(second, &info), CKR_OK);
    IS(info.state, CKS_RW_USER_FUNCTIONS);
    IS(p11->C_Logout(second), CKR_OK);
    IS(p11->C_Login(second, CKU_USER, NULL, 0), CKR_OK);
    IS(p11->C_CloseSession(first), CKR_OK);
    IS(p11->C_CloseSession(first), CKR_SESSION_HANDLE_INVALID);
    IS(p11->C_GetSessionInfo(first, &info), CKR_SESSION_HANDLE_INVALID);
    IS(p11->C_GetSessionInfo(0, &info), CKR_SESSION_HANDLE_INVALID);
    IS(p11->C_GetSessionInfo(~0UL, &info), CKR_SESSION_HANDLE_INVALID);
    IS(p11->C_CloseAllSessions(0), CKR_OK);
    IS(p11->C_CloseSession(second), CKR_SESSION_HANDLE_INVALID);
    first = opened(0);
    IS(p11->C_GetSessionInfo(first, &info), CKR_OK);
    IS(info.state, CKS_RO_PUBLIC_SESSION); /* with the last session the login has ended */
    while (count < 10000 && p11->C_OpenSession(0, CKF_SERIAL_SESSION, NULL, NULL, &many) == CKR_OK)
        count++;
    IS(p11->C_OpenSession(0, CKF_SERIAL_SESSION, NULL, NULL, &many), CKR_SESSION_COUNT);
    IS(p11->C_Finalize(NULL), CKR_OK);
    IS(p11->C_GetSessionInfo(first, &info), CKR_CRYPTOKI_NOT_INITIALIZED);
}

static void unsupported(void)
{
    CK_SESSION_HANDLE session = begun();
    CK_BYTE bytes[8] = {0};
    CK_ULONG length = 8;
    IS(p11->C_DigestInit(session, &cbc), CKR_FUNCTION_NOT_SUPPORTED);
    IS(p11->C_SetPIN(session, bytes, 4, bytes, 4), CKR_FUNCTION_NOT_SUPPORTED);
    IS(p11->C_InitToken(0, bytes, 4, bytes), CKR_FUNCTION_NOT_SUPPORTED);
    IS(p11->C_DeriveKey(session, &cbc, 1, NULL, 0, &length), CKR_FUNCTION_NOT_SUPPORTED);
    IS(p11->C_GetFunctionStatus(session), CKR_FUNCTION_NOT_PARALLEL);
    IS(p11->C_CancelFunction(session), CKR_FUNCTION_NOT_PARALLEL);
    IS(p11->C_SeedRandom(session, bytes, 8), CKR_RANDOM_SEED_NOT_SUPPORTED);
    IS(p11->C_GetOperationState(session, NULL, &length), CKR_OPERATION_NOT_INITIALIZED);
    IS(p11->C_EncryptInit(session, &cbc, found(session, "TEST.DATA")), CKR_OK);
    IS(p11->C_GetOperationState(session, NULL, &length), CKR_STATE_UNSAVEABLE);
    IS(p11->C_SetOperationState(session, bytes, 8, 0, 0), CKR_SAVED_STATE_INVALID);
}

/* ---- objects */

static void searches(void)
{
    CK_SESSION_HANDLE session = begun();
    CK_OBJECT_HANDLE keys[64];
    CK_OBJECT_CLASS class = CKO_CERTIFICATE;
    CK_ATTRIBUTE others = {CKA_CLASS, &class, sizeof class}, bad = {CKA_CLASS, NULL, 8};
    CK_ATTRIBUTE other = {CKA_LABEL, (void *)"no label", 8};
    CK_ULONG count = 0, all = 0;
    IS(p11->C_FindObjects(session, keys, 64, &count), CKR_OPERATION_NOT_INITIALIZED);
    IS(p11->C_FindObjectsFinal(session), CKR_OPERATION_NOT_INITIALIZED);
    IS(p11->C_FindObjectsInit(session, &bad, 1), CKR_ARGUMENTS_BAD);
    IS(p11->C_FindObjectsInit(session, NULL, 0), CKR_OK);
    IS(p11->C_FindObjectsInit(session, NULL, 0), CKR_OPERATION_ACTIVE);
    IS(p11->C_EncryptInit(session, &cbc, 1), CKR_OPERATION_ACTIVE);
    IS(p11->C_FindObjects(session, keys, 64, NULL), CKR_ARGUMENTS_BAD);
    do {
        IS(p11->C_FindObjects(session, &keys[all], 3, &count), CKR_OK);
        all += count;
    } while (count > 0 && all <= 60);
    IS(all, 11); /* the keys of cca.testing */
    IS(p11->C_FindObjectsFinal(session), CKR_OK);
    IS(p11->C_FindObjectsInit(session, &others, 1), CKR_OK);
    IS(p11->C_FindObjects(session, keys, 64, &count), CKR_OK);
    IS(count, 0);
    IS(p11->C_FindObjectsFinal(session), CKR_OK);
    IS(p11->C_FindObjectsInit(session, &other, 1), CKR_OK);
    IS(p11->C_FindObjects(session, keys, 64, &count), CKR_OK);
    IS(count, 0);
    IS(p11->C_FindObjectsFinal(session), CKR_OK);
    HOLDS(found(session, "TEST.DATA") == found(session, "TEST.DATA"));
}

static void attributes(void)
{
    CK_SESSION_HANDLE session = begun();
    CK_OBJECT_HANDLE key = found(session, "TEST.DATA");
    CK_BYTE value[8] = {0}, label[64], small[2], check[3];
    CK_ULONG size = 0;
    CK_BBOOL flag = 9;
    CK_ATTRIBUTE all[] = {{CKA_VALUE, value, sizeof value},  {CKA_LABEL, label, sizeof label}, {CKA_MODULUS, value, sizeof value},
                          {CKA_LABEL, small, sizeof small},  {CKA_ENCRYPT, &flag, sizeof flag}, {CKA_LABEL, NULL, 0},
                          {CKA_CHECK_VALUE, check, sizeof check}};
    HOLDS(p11->C_GetAttributeValue(session, key, all, 7) != CKR_OK);
    IS(all[0].ulValueLen, ~0UL);
    IS(all[1].ulValueLen, 9);
    HOLDS(memcmp(label, "TEST.DATA", 9) == 0 && value[0] == 0);
    IS(all[2].ulValueLen, ~0UL);
    IS(all[3].ulValueLen, ~0UL);
    HOLDS(flag == CK_TRUE && all[5].ulValueLen == 9 && all[6].ulValueLen == 3);
    IS(p11->C_GetAttributeValue(session, key, all, 1), CKR_ATTRIBUTE_SENSITIVE);
    IS(p11->C_GetAttributeValue(session, key, all + 2, 1), CKR_ATTRIBUTE_TYPE_INVALID);
    all[3].ulValueLen = sizeof small;
    IS(p11->C_GetAttributeValue(session, key, all + 3, 1), CKR_BUFFER_TOO_SMALL);
    IS(p11->C_GetAttributeValue(session, key, all + 5, 1), CKR_OK);
    IS(p11->C_GetAttributeValue(session, 99999, all, 1), CKR_OBJECT_HANDLE_INVALID);
    IS(p11->C_GetAttributeValue(session, key, NULL, 1), CKR_ARGUMENTS_BAD);
    IS(p11->C_SetAttributeValue(session, key, all + 1, 1), CKR_ACTION_PROHIBITED);
    IS(p11->C_GetObjectSize(session, key, &size), CKR_OK);
    IS(p11->C_GetObjectSize(session, 99999, &size), CKR_OBJECT_HANDLE_INVALID);
}

static void keys(void)
{
    CK_SESSION_HANDLE session = begun(), other = opened(0);
    CK_MECHANISM how = {CKM_DES_KEY_GEN, NULL, 0}, wrong_parameter = {CKM_DES_KEY_GEN, iv, 8};
    CK_BBOOL yes = CK_TRUE;
    CK_KEY_TYPE type = CKK_DES2;
    CK_OBJECT_CLASS class = CKO_DATA, secret = CKO_SECRET_KEY;
    CK_ATTRIBUTE stored[] = {{CKA_TOKEN, &yes, 1}, {CKA_LABEL, (void *)"CALLS.NEW", 9}, {CKA_ID, (void *)"7", 1}};
    CK_ATTRIBUTE bad = {CKA_LABEL, (void *)"lower case", 10}, double_length = {CKA_KEY_TYPE, &type, sizeof type};
    CK_ATTRIBUTE data = {CKA_CLASS, &class, sizeof class}, unknown = {CKA_MODULUS, iv, 8}, local = {CKA_LOCAL, &yes, 1};
    CK_ATTRIBUTE clear[] = {{CKA_CLASS, &secret, sizeof secret}, {CKA_KEY_TYPE, &type, sizeof type}, {CKA_VALUE, iv, 8}};
    CK_OBJECT_HANDLE key = 0, copy = 0;
    IS(p11->C_GenerateKey(session, &cbc, NULL, 0, &key), CKR_MECHANISM_INVALID);
    IS(p11->C_GenerateKey(session, &wrong_parameter, NULL, 0, &key), CKR_MECHANISM_PARAM_INVALID);
    IS(p11->C_GenerateKey(session, &how, NULL, 0, NULL), CKR_ARGUMENTS_BAD);
    IS(p11->C_GenerateKey(session, &how, NULL, 1, &key), CKR_ARGUMENTS_BAD);
    IS(p11->C_GenerateKey(session, &how, stored, 1, &key), CKR_TEMPLATE_INCOMPLETE);
    IS(p11->C_GenerateKey(session, &how, stored, 3, &key), CKR_ATTRIBUTE_VALUE_INVALID);
    IS(p11->C_GenerateKey(session, &how, &double_length, 1, &key), CKR_TEMPLATE_INCONSISTENT);
    IS(p11->C_GenerateKey(session, &how, &data, 1, &key), CKR_ATTRIBUTE_VALUE_INVALID);
    IS(p11->C_GenerateKey(session, &how, &unknown, 1, &key), CKR_ATTRIBUTE_TYPE_INVALID);
    IS(p11->C_GenerateKey(session, &how, &local, 1, &key), CKR_ATTRIBUTE_READ_ONLY);
    IS(p11->C_GenerateKey(other, &how, stored, 2, &key), CKR_SESSION_READ_ONLY);
    IS(p11->C_GenerateKey(session, &how, stored, 2, &key), CKR_OK);
    IS(p11->C_GenerateKey(session, &how, stored, 2, &copy), CKR_ATTRIBUTE_VALUE_INVALID); /* the label exists */
    IS(p11->C_DestroyObject(other, key), CKR_SESSION_READ_ONLY);
    IS(p11->C_DestroyObject(session, key), CKR_OK);
    IS(p11->C_DestroyObject(session, key), CKR_OBJECT_HANDLE_INVALID);
    IS(p11->C_CreateObject(session, clear, 2, &key), CKR_TEMPLATE_INCOMPLETE);
    IS(p11->C_CreateObject(session, clear + 1, 2, &key), CKR_TEMPLATE_INCOMPLETE);
    IS(p11->C_CreateObject(session, clear, 3, &key), CKR_ATTRIBUTE_VALUE_INVALID);
    IS(p11->C_GenerateKey(other, &how, &bad, 1, &key), CKR_OK); /* of a session: it has no label of cca */
    IS(p11->C_EncryptInit(session, &cbc, key), CKR_OK); /* and other sessions see it */
    IS(p11->C_CopyObject(session, key, stored, 2, &copy), CKR_OK);
    IS(p11->C_CopyObject(session, copy, clear + 2, 1, &copy), CKR_ATTRIBUTE_READ_ONLY);
    IS(p11->C_CloseSession(other), CKR_OK);
    IS(p11->C_DestroyObject(session, key), CKR_OBJECT_HANDLE_INVALID);
    HOLDS(found(opened(0), "CALLS.NEW") == copy);
}

/* ---- data */

static void ciphers(void)
{
    CK_SESSION_HANDLE session = begun();
    CK_OBJECT_HANDLE key = found(session, "TEST.DATA");
    CK_MECHANISM short_iv = {CKM_DES_CBC, iv, 7}, ecb = {CKM_DES_ECB, iv, 8}, triple = {CKM_DES3_CBC, iv, 8};
    CK_BYTE in[40] = "Now is the time for all good men to com", out[64], back[64];
    CK_ULONG length = 64, more = 64;
    IS(p11->C_Encrypt(session, in, 8, out, &length), CKR_OPERATION_NOT_INITIALIZED);
    IS(p11->C_EncryptInit(session, NULL, key), CKR_ARGUMENTS_BAD);
    IS(p11->C_EncryptInit(session, &mac, key), CKR_MECHANISM_INVALID);
    IS(p11->C_EncryptInit(session, &cbc, 99999), CKR_KEY_HANDLE_INVALID);
    IS(p11->C_EncryptInit(session, &short_iv, key), CKR_MECHANISM_PARAM_INVALID);
    IS(p11->C_EncryptInit(session, &ecb, key), CKR_MECHANISM_PARAM_INVALID);
    IS(p11->C_EncryptInit(session, &triple, key), CKR_KEY_TYPE_INCONSISTENT);
    IS(p11->C_EncryptInit(session, &cbc, found(session, "TEST.MAC")), CKR_KEY_FUNCTION_NOT_PERMITTED);
    IS(p11->C_EncryptInit(session, &cbc, key), CKR_OK);
    IS(p11->C_DecryptInit(session, &cbc, key), CKR_OPERATION_ACTIVE);
    IS(p11->C_Decrypt(session, in, 8, out, &length), CKR_OPERATION_NOT_INITIALIZED);
    IS(p11->C_Encrypt(session, in, 16, NULL, &length), CKR_OK);
    IS(length, 16);
    length = 15;
    IS(p11->C_Encrypt(session, in, 16, out, &length), CKR_BUFFER_TOO_SMALL);
    IS(length, 16);
    IS(p11->C_Encrypt(session, in, 16, out, &length), CKR_OK);
    IS(p11->C_Encrypt(session, in, 16, out, &length), CKR_OPERATION_NOT_INITIALIZED);
    IS(p11->C_EncryptInit(session, &cbc, key), CKR_OK);
    IS(p11->C_Encrypt(session, in, 15, out, &length), CKR_DATA_LEN_RANGE); /* at which it ends */
    IS(p11->C_EncryptInit(session, &cbc, key), CKR_OK);
    length = 7;
    IS(p11->C_EncryptUpdate(session, in, 9, out, &length), CKR_BUFFER_TOO_SMALL);
    IS(p11->C_EncryptUpdate(session, in, 9, out, &length), CKR_OK);
    IS(length, 8);
    IS(p11->C_Encrypt(session, in, 8, out, &length), CKR_OPERATION_NOT_INITIALIZED); /* parts have come */
    IS(p11->C_EncryptInit(session, &cbc, key), CKR_OK);
    length = 64;
    IS(p11->C_EncryptUpdate(session, in, 9, out, &length), CKR_OK);
    IS(p11->C_EncryptFinal(session, out, &length), CKR_DATA_LEN_RANGE);
    IS(p11->C_EncryptInit(session, &padded, key), CKR_OK);
    length = 64;
    IS(p11->C_EncryptUpdate(session, in, 20, out, &length), CKR_OK);
    IS(p11->C_EncryptFinal(session, NULL, &more), CKR_OK);
    IS(more, 8);
    more = 0;
    IS(p11->C_EncryptFinal(session, out + length, &more), CKR_BUFFER_TOO_SMALL);
    IS(p11->C_EncryptFinal(session, out + length, &more), CKR_OK);
    IS(length + more, 24);
    IS(p11->C_DecryptInit(session, &padded, key), CKR_OK);
    length = 19;
    IS(p11->C_Decrypt(session, out, 24, back, &length), CKR_BUFFER_TOO_SMALL);
    IS(length, 20);
    IS(p11->C_Decrypt(session, out, 24, back, &length), CKR_OK);
    HOLDS(length == 20 && memcmp(back, in, 20) == 0);
    IS(p11->C_DecryptInit(session, &padded, key), CKR_OK);
    length = 64;
    IS(p11->C_Decrypt(session, out, 16, back, &length), CKR_ENCRYPTED_DATA_INVALID);
    IS(p11->C_DecryptInit(session, &cbc, key), CKR_OK);
    IS(p11->C_Decrypt(session, out, 17, back, &length), CKR_ENCRYPTED_DATA_LEN_RANGE);
    IS(p11->C_DecryptInit(session, &padded, key), CKR_OK);
    IS(p11->C_DecryptFinal(session, back, &length), CKR_ENCRYPTED_DATA_LEN_RANGE);
    IS(p11->C_EncryptInit(session, &cbc, key), CKR_OK);
    IS(p11->C_Encrypt(session, NULL, 8, out, &length), CKR_ARGUMENTS_BAD);
}

static void macs(void)
{
    CK_SESSION_HANDLE session = begun();
    CK_OBJECT_HANDLE key = found(session, "TEST.MAC");
    CK_ULONG five = 5, length = 3;
    CK_MECHANISM wrong_length = {CKM_DES_MAC_GENERAL, &five, sizeof five}, none = {CKM_DES_MAC_GENERAL, NULL, 0};
    CK_BYTE in[20] = "Pay 125.00 EUR", out[8];
    IS(p11->C_SignInit(session, &wrong_length, key), CKR_MECHANISM_PARAM_INVALID);
    IS(p11->C_SignInit(session, &none, key), CKR_MECHANISM_PARAM_INVALID);
    IS(p11->C_SignInit(session, &cbc, key), CKR_MECHANISM_INVALID);
    IS(p11->C_SignInit(session, &mac, found(session, "TEST.MACVER")), CKR_KEY_FUNCTION_NOT_PERMITTED);
    IS(p11->C_SignInit(session, &mac, key), CKR_OK);
    IS(p11->C_Sign(session, in, 14, NULL, &length), CKR_OK);
    IS(length, 4);
    length = 3;
    IS(p11->C_Sign(session, in, 14, out, &length), CKR_BUFFER_TOO_SMALL);
    IS(p11->C_Sign(session, in, 14, out, &length), CKR_OK);
    IS(p11->C_SignFinal(session, out, &length), CKR_OPERATION_NOT_INITIALIZED);
    IS(p11->C_VerifyInit(session, &mac, key), CKR_OK);
    IS(p11->C_VerifyUpdate(session, in, 10), CKR_OK);
    IS(p11->C_VerifyUpdate(session, in + 10, 4), CKR_OK);
    IS(p11->C_VerifyFinal(session, out, 4), CKR_OK);
    IS(p11->C_VerifyInit(session, &mac, key), CKR_OK);
    IS(p11->C_Verify(session, in, 14, out, 8), CKR_SIGNATURE_LEN_RANGE);
    IS(p11->C_VerifyInit(session, &mac, key), CKR_OK);
    IS(p11->C_Verify(session, in, 13, out, 4), CKR_SIGNATURE_INVALID);
    IS(p11->C_VerifyFinal(session, out, 4), CKR_OPERATION_NOT_INITIALIZED);
    IS(p11->C_SignInit(session, &mac, key), CKR_OK);
    IS(p11->C_Sign(session, in, 0, out, &length), CKR_DATA_LEN_RANGE); /* cca makes no MAC of nothing */
    IS(p11->C_SignInit(session, &mac, key), CKR_OK);
    IS(p11->C_SignUpdate(session, in, 1), CKR_OK);
    IS(p11->C_Sign(session, in, 1, out, &length), CKR_OPERATION_NOT_INITIALIZED);
}

/* ---- threads and forks */

static CK_BYTE wanted[24];

static int enciphers(CK_SESSION_HANDLE session, CK_OBJECT_HANDLE key)
{
    CK_BYTE in[24] = "Now is the time for all", out[24];
    CK_ULONG length = sizeof out, count = sizeof out;
    CK_RV rv = p11->C_EncryptInit(session, &cbc, key);
    if (rv == CKR_OK)
        rv = p11->C_EncryptUpdate(session, in, sizeof in, out, &count);
    length = 0;
    if (rv == CKR_OK)
        rv = p11->C_EncryptFinal(session, out, &length);
    return rv == CKR_OK && count == 24 && memcmp(out, wanted, 24) == 0;
}

static CK_OBJECT_HANDLE first_result(CK_SESSION_HANDLE session)
{
    CK_OBJECT_HANDLE key = found(session, "TEST.DATA");
    CK_BYTE in[24] = "Now is the time for all";
    CK_ULONG length = sizeof wanted;
    IS(p11->C_EncryptInit(session, &cbc, key), CKR_OK);
    IS(p11->C_Encrypt(session, in, sizeof in, wanted, &length), CKR_OK);
    return key;
}

static void *thread(void *unused)
{
    CK_SESSION_HANDLE session = 0;
    CK_OBJECT_HANDLE key;
    int turn;
    (void)unused;
    if (p11->C_OpenSession(0, CKF_SERIAL_SESSION, NULL, NULL, &session) != CKR_OK)
        return (void *)1;
    for (turn = 0; turn < TURNS; turn++) {
        key = found(session, "TEST.DATA");
        if (!enciphers(session, key))
            return (void *)1;
    }
    return p11->C_CloseSession(session) == CKR_OK ? NULL : (void *)1;
}

static void threads(void)
{
    pthread_t all[4];
    void *came;
    size_t at;
    CK_C_INITIALIZE_ARGS given = {0};
    given.flags = CKF_OS_LOCKING_OK;
    IS(p11->C_Initialize(&given), CKR_OK);
    first_result(opened(0));
    for (at = 0; at < 4; at++)
        IS((CK_RV)pthread_create(&all[at], NULL, thread, NULL), 0);
    for (at = 0; at < 4; at++) {
        pthread_join(all[at], &came);
        HOLDS(came == NULL);
    }
}

/* In a child: whether it can begin anew, where the place may be used by two. */
static int child(CK_SESSION_HANDLE session, CK_OBJECT_HANDLE key, int is_shared)
{
    CK_SESSION_INFO info;
    IS(p11->C_GetSessionInfo(session, &info), CKR_CRYPTOKI_NOT_INITIALIZED);
    IS(p11->C_EncryptInit(session, &cbc, key), CKR_CRYPTOKI_NOT_INITIALIZED);
    IS(p11->C_Finalize(NULL), CKR_CRYPTOKI_NOT_INITIALIZED);
    IS(p11->C_Initialize(NULL), CKR_OK);
    IS(p11->C_GetSessionInfo(session, &info), CKR_SESSION_HANDLE_INVALID);
    if (is_shared) {
        session = opened(0);
        HOLDS(enciphers(session, found(session, "TEST.DATA")));
    }
    IS(p11->C_Finalize(NULL), CKR_OK);
    fflush(stdout);
    return wrong;
}

static void forks_of(int is_shared)
{
    CK_SESSION_HANDLE session = begun();
    CK_OBJECT_HANDLE key = first_result(session);
    int status = 0, turn;
    for (turn = 0; turn < 3; turn++) {
        pid_t pid;
        fflush(stdout);
        pid = fork();
        if (pid == 0)
            _exit(child(session, key, is_shared));
        HOLDS(enciphers(session, key));
        waitpid(pid, &status, 0);
        IS((CK_RV)status, 0);
        HOLDS(enciphers(session, key));
    }
}

static void forks(void)
{
    forks_of(0);
}

/* Over a front, which has a connection for the child too. */
static void shared_forks(void)
{
    forks_of(1);
}

/* ---- signals */

static volatile int is_over;

static void heed(int number)
{
    (void)number;
}

static void *disturber(void *other)
{
    while (!is_over) {
        pthread_kill(*(pthread_t *)other, SIGUSR1);
        usleep(500);
    }
    return NULL;
}

/* Signals that come all the time cut no call short. */
static void signals(void)
{
    struct sigaction action = {0};
    pthread_t self = pthread_self(), other;
    CK_SESSION_HANDLE session;
    CK_OBJECT_HANDLE key;
    int turn;
    action.sa_handler = heed;
    sigaction(SIGUSR1, &action, NULL);
    IS((CK_RV)pthread_create(&other, NULL, disturber, &self), 0);
    session = begun();
    key = first_result(session);
    for (turn = 0; turn < TURNS; turn++)
        HOLDS(enciphers(session, key));
    is_over = 1;
    pthread_join(other, NULL);
}

/* ---- loaded again */

static const char *path;

static void reloaded(void)
{
    int status = 0;
    pid_t pid;
    first_result(begun());
    IS(p11->C_Finalize(NULL), CKR_OK);
    dlclose(module);
    pid = fork(); /* what the module asked to be called at a fork is gone */
    if (pid == 0)
        _exit(0);
    waitpid(pid, &status, 0);
    IS((CK_RV)status, 0);
    load(path);
    first_result(begun());
}

int main(int count, char **words)
{
    static const struct {
        const char *name;
        void (*run)(void);
    } all[] = {{"before", before},       {"initialize", initialize}, {"slots", slots},     {"sessions", sessions},
               {"unsupported", unsupported}, {"searches", searches},     {"attributes", attributes}, {"keys", keys},
               {"ciphers", ciphers},     {"macs", macs},             {"threads", threads}, {"forks", forks},
               {"shared_forks", shared_forks}, {"reloaded", reloaded}, {"signals", signals}};
    size_t at;
    if (count != 3)
        return 2;
    alarm(200);
    path = words[2];
    load(path);
    for (at = 0; at < sizeof all / sizeof *all; at++)
        if (strcmp(words[1], all[at].name) == 0) {
            all[at].run();
            p11->C_Finalize(NULL);
            dlclose(module);
            return wrong;
        }
    return 2;
}
