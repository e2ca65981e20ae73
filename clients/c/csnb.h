/* The verbs of cca with the names and parameters that IBM's CCA Basic Services have in C, so that a program written for them
   compiles and runs against cca: include this in place of IBM's header. docs/FROM-IBM.md compares parameter by parameter.
   Nothing of IBM's is copied here, and no claim is made about IBM's product.

   Which cca is asked stands in the environment, or is named by csnb_use:

       CCA_SOCKET                the socket of a role of cca-front; or else:
       CCA_FOLDER, CCA_ROLE      the folder of cca.module, and the role of each request
       CCA, CCA_COMMAND          the program, "cca" if not set, and "run" or "audit"
       CCA_REASONS               "ibm": refusals have IBM's nearest return code and reason, and 8 and 9000 more where none is near

   A CCA_FOLDER, and a CCA with a slash in it, that don't begin with one are found from where the first verb is called.

   Strings are fixed: keywords have 8 bytes and labels 64, filled with blanks on the right. A key identifier has 64 bytes: a token
   if its first byte is X'01' or X'02', no key if it is X'00', and else a label. Where a verb makes a key, a label in its place
   means that the key goes under that label. exit_data_length points to 0, or is null. */
#ifndef CSNB_H
#define CSNB_H

#include "cca.h"

#ifdef __cplusplus
extern "C" {
#endif

#ifndef SECURITYAPI
#define SECURITYAPI
#endif

/* Return code 0: the reason is 0, or this one. */
#define CSNB_OLD_KEY 10001 /* it was carried out with a key under the old master key: re-encipher it before the next SET */

/* Return code 4. */
#define CSNB_MISMATCH 1 /* the MAC or the check value isn't that of the data or the key */

/* Return code 8: a rule refused the request, and the reason is its number, 1 to 36; or nothing was sent, for one of these. */
#define CSNB_MISSING 101    /* a parameter is a null pointer */
#define CSNB_EXIT_DATA 102  /* exit_data_length isn't 0 */
#define CSNB_KEYWORD 103    /* a keyword that isn't one of this verb here */
#define CSNB_KEYWORDS 104   /* a keyword is missing, two of them exclude each other, or there are too many or too few */
#define CSNB_KEY 105        /* a key identifier without a key, or of a kind that the verb doesn't take here */
#define CSNB_LABEL 106      /* a label with a byte that no request can have */
#define CSNB_LENGTH 107     /* a length that is negative, or isn't the one that the parameter has */
#define CSNB_PAD 108        /* a pad character other than X'00' */
#define CSNB_KEY_TYPE 109   /* a key type, length or form that isn't there, or another one than the key has */
#define CSNB_LIST 110       /* the list of labels can't be written: CSUDESLD names no folder, or the path is too long */
#define CSNB_UNSAYABLE 111  /* another reason why the parameters fit no request */

/* Return code 12: no reply came. With the exit status of cca, or 128 and the number of a signal, or 0 where it isn't known: */
#define CSNB_NOWHERE 1       /* no cca is named */
#define CSNB_NOT_HERE 2      /* a verb of IBM's that isn't in this profile: libcsulcca.so alone has its name */
#define CSNB_NOT_DONE 1000   /* and the status: the request wasn't carried out */
#define CSNB_IN_DOUBT 2000   /* and the status: it may have been carried out all the same */

/* The cca that is asked from now on, in place of the one that the environment names. Call it before other threads begin. */
void csnb_use(struct cca *it);

/* What a return code and its reason mean, as a sentence. */
const char *csnb_reason(long return_code, long reason_code);

/* A token without a key that has the control vector of a key type, of 8 or 16 bytes: the key identifier of CSNBKPI FIRST. It is
   this project's own, a shorter word for CSNBKTB: 0, or -1 where there is no such type. */
int csnb_skeleton(const char *key_type, int key_length, unsigned char token[CCA_TOKEN_SIZE]);

#define CSNB_FIRST_FOUR long *return_code, long *reason_code, long *exit_data_length, unsigned char *exit_data

/* ---- master keys and roles */

void SECURITYAPI CSNBMKP(CSNB_FIRST_FOUR, long *rule_array_count, unsigned char *rule_array, unsigned char *key_part);
void SECURITYAPI CSUAACI(CSNB_FIRST_FOUR, long *rule_array_count, unsigned char *rule_array, long *verb_data_1_length,
                         unsigned char *verb_data_1, long *verb_data_2_length, unsigned char *verb_data_2);

/* ---- what a program asks about its coprocessor: docs/FROM-IBM.md says which answers are fixed */

/* The rule array needs room for 15 elements: they come in its place. */
void SECURITYAPI CSUACFQ(CSNB_FIRST_FOUR, long *rule_array_count, unsigned char *rule_array, long *verb_data_length,
                         unsigned char *verb_data);
void SECURITYAPI CSUACFV(CSNB_FIRST_FOUR, long *version_data_length, unsigned char *version_data);
void SECURITYAPI CSUACRA(CSNB_FIRST_FOUR, long *rule_array_count, unsigned char *rule_array, long *resource_name_length,
                         unsigned char *resource_name);
void SECURITYAPI CSUACRD(CSNB_FIRST_FOUR, long *rule_array_count, unsigned char *rule_array, long *resource_name_length,
                         unsigned char *resource_name);

/* ---- key storage */

void SECURITYAPI CSNBKRC(CSNB_FIRST_FOUR, unsigned char *key_label);
void SECURITYAPI CSNBKRD(CSNB_FIRST_FOUR, long *rule_array_count, unsigned char *rule_array, unsigned char *key_label);
void SECURITYAPI CSNBKRL(CSNB_FIRST_FOUR, unsigned char *key_label, long *data_set_name_length, unsigned char *data_set_name,
                         unsigned char *security_server_name);
void SECURITYAPI CSNBKRR(CSNB_FIRST_FOUR, unsigned char *key_label, unsigned char *key_token);
void SECURITYAPI CSNBKRW(CSNB_FIRST_FOUR, unsigned char *key_token, unsigned char *key_label);

/* ---- keys */

void SECURITYAPI CSNBCKI(CSNB_FIRST_FOUR, unsigned char *clear_key, unsigned char *target_key_identifier);
void SECURITYAPI CSNBCKM(CSNB_FIRST_FOUR, long *rule_array_count, unsigned char *rule_array, long *clear_key_length,
                         unsigned char *clear_key, unsigned char *target_key_identifier);
void SECURITYAPI CSNBCVG(CSNB_FIRST_FOUR, unsigned char *key_type, long *rule_array_count, unsigned char *rule_array,
                         unsigned char *reserved, unsigned char *control_vector);
void SECURITYAPI CSNBKEX(CSNB_FIRST_FOUR, unsigned char *key_type, unsigned char *source_key_identifier,
                         unsigned char *exporter_key_identifier, unsigned char *target_key_token);
void SECURITYAPI CSNBKGN(CSNB_FIRST_FOUR, unsigned char *key_form, unsigned char *key_length, unsigned char *key_type_1,
                         unsigned char *key_type_2, unsigned char *kek_key_identifier_1, unsigned char *kek_key_identifier_2,
                         unsigned char *generated_key_identifier_1, unsigned char *generated_key_identifier_2);
void SECURITYAPI CSNBKIM(CSNB_FIRST_FOUR, unsigned char *key_type, unsigned char *source_key_token,
                         unsigned char *importer_key_identifier, unsigned char *target_key_identifier);
void SECURITYAPI CSNBKPI(CSNB_FIRST_FOUR, long *rule_array_count, unsigned char *rule_array, unsigned char *key_part,
                         unsigned char *key_identifier);
void SECURITYAPI CSNBKTB(CSNB_FIRST_FOUR, unsigned char *key_token, unsigned char *key_type, long *rule_array_count,
                         unsigned char *rule_array, unsigned char *key_value, void *reserved_1, long *reserved_2,
                         unsigned char *reserved_3, unsigned char *control_vector, unsigned char *reserved_4, long *reserved_5,
                         unsigned char *reserved_6, unsigned char *master_key_verification_pattern);
void SECURITYAPI CSNBKTC(CSNB_FIRST_FOUR, long *rule_array_count, unsigned char *rule_array, unsigned char *key_identifier);
void SECURITYAPI CSNBKTP(CSNB_FIRST_FOUR, unsigned char *key_token, unsigned char *key_type, long *rule_array_count,
                         unsigned char *rule_array, unsigned char *key_value, void *reserved_1, long *reserved_2,
                         unsigned char *reserved_3, unsigned char *control_vector, unsigned char *reserved_4, long *reserved_5,
                         unsigned char *reserved_6, unsigned char *master_key_verification_pattern);
void SECURITYAPI CSNBKTR(CSNB_FIRST_FOUR, unsigned char *input_key_token, unsigned char *input_kek_key_identifier,
                         unsigned char *output_kek_key_identifier, unsigned char *output_key_token);
void SECURITYAPI CSNBKYT(CSNB_FIRST_FOUR, long *rule_array_count, unsigned char *rule_array, unsigned char *key_identifier,
                         unsigned char *random_number, unsigned char *verification_pattern);
void SECURITYAPI CSNBPEX(CSNB_FIRST_FOUR, unsigned char *key_identifier);
void SECURITYAPI CSNBRNG(CSNB_FIRST_FOUR, unsigned char *form, unsigned char *random_number);
void SECURITYAPI CSNBRNGL(CSNB_FIRST_FOUR, long *rule_array_count, unsigned char *rule_array, long *reserved_length,
                          unsigned char *reserved, long *random_number_length, unsigned char *random_number);

/* ---- data */

void SECURITYAPI CSNBDEC(CSNB_FIRST_FOUR, unsigned char *key_identifier, long *text_length, unsigned char *cipher_text,
                         unsigned char *initialization_vector, long *rule_array_count, unsigned char *rule_array,
                         unsigned char *chaining_vector, unsigned char *clear_text);
void SECURITYAPI CSNBENC(CSNB_FIRST_FOUR, unsigned char *key_identifier, long *text_length, unsigned char *clear_text,
                         unsigned char *initialization_vector, long *rule_array_count, unsigned char *rule_array,
                         long *pad_character, unsigned char *chaining_vector, unsigned char *cipher_text);
void SECURITYAPI CSNBMGN(CSNB_FIRST_FOUR, unsigned char *key_identifier, long *text_length, unsigned char *text,
                         long *rule_array_count, unsigned char *rule_array, unsigned char *chaining_vector, unsigned char *mac);
void SECURITYAPI CSNBMVR(CSNB_FIRST_FOUR, unsigned char *key_identifier, long *text_length, unsigned char *text,
                         long *rule_array_count, unsigned char *rule_array, unsigned char *chaining_vector, unsigned char *mac);

#ifdef __cplusplus
}
#endif

#endif
