/* What a key is: its length and what its control vector permits; and the key types that are made. docs/FORMATS.md has the bits. */
#ifndef CCA_PKCS11_KEYS_H
#define CCA_PKCS11_KEYS_H

enum use { ENCRYPTS = 1, DECRYPTS = 2, SIGNS = 4, VERIFIES = 8, WRAPS = 16, UNWRAPS = 32 };

struct key {
    int length; /* 8 or 16; 0 where nobody told */
    unsigned uses;
    int is_exportable;
};

/* Reads an internal or external token. 0 where its key is none that is shown: a key part, or one of another class. */
int key_of_token(const unsigned char *token, struct key *it);

/* The key type of a length that has all of the wanted uses and none of the unwanted ones, and of further ones as few as may be;
   where nothing is wanted, the one for data that has the most. Null where there is none. */
const char *key_type_with(int length, unsigned wanted, unsigned unwanted);

#endif
