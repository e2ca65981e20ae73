/* What PKCS#11 says where cca refuses a request, or gives no reply. docs/PKCS11.md has the table. */
#ifndef CCA_PKCS11_ERRORS_H
#define CCA_PKCS11_ERRORS_H

#include "cca.h"

#include <p11-kit/pkcs11.h>

CK_RV error_of(const struct cca_result *it);

/* Whether this rule refused a request. */
int is_refused(const struct cca_result *it, int rule);

#endif
