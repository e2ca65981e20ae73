/* What table.c has, which is made from clients/verbs.json. */
#ifndef CCA_TABLE_H
#define CCA_TABLE_H

#include "cca.h"

/* A key type and its control vectors: of a single-length key, and of the left half of a double-length one. Zeros: the type
   doesn't have this length. */
struct cca_type {
    const char *name;
    unsigned char single[8], left[8];
};

/* All types; behind the last one stands one without a name. */
extern const struct cca_type cca_types[];

#endif
