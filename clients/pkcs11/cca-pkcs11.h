/* What libcca-pkcs11.so has beside the mechanisms of PKCS#11: docs/PKCS11.md explains them. */
#ifndef CCA_PKCS11_H
#define CCA_PKCS11_H

#include <p11-kit/pkcs11.h>

/* ANSI X9.19 by a double-length key: a MAC of 4 bytes, without a parameter; and one of 4, 6 or 8 bytes, which a CK_ULONG says. */
#define CKM_CCA_X919_MAC (CKM_VENDOR_DEFINED | 0x43434101UL)
#define CKM_CCA_X919_MAC_GENERAL (CKM_VENDOR_DEFINED | 0x43434102UL)

/* C_WrapKey and C_UnwrapKey: the wrapped key is an external key token of 64 bytes. No parameter. */
#define CKM_CCA_EXTERNAL_TOKEN (CKM_VENDOR_DEFINED | 0x43434103UL)

#endif
