/* Which slots there are: those that the variable CCA_PKCS11 names, or else the file /etc/cca/pkcs11.conf. A place is a socket of
   the front, or a folder of cca, and a role: PATH=ROLE. In the variable they have colons between them, in the file each is a
   line, and a line that begins with # is a comment. Behind the role, each after a comma: DES3 shows double-length keys as CKK_DES3, and
   AUDIT starts `cca audit` in a folder. */
#ifndef CCA_PKCS11_CONFIGURATION_H
#define CCA_PKCS11_CONFIGURATION_H

#include <p11-kit/pkcs11.h>

#define MOST_SLOTS 32

struct place {
    char path[1024];
    char role[9];
    int is_audited, shows_des3;
};

/* CKR_GENERAL_ERROR where a word or a line is none. */
CK_RV configuration_read(struct place places[MOST_SLOTS], CK_ULONG *count);

#define LONGEST_PROGRAM 4096

/* The program that is started in a folder, which may be another one than that of the caller: the one that the variable CCA names,
   or `cca` on the path. */
void configuration_program(char program[LONGEST_PROGRAM]);

#endif
