/* What a refusal is called in linkd.h: its fault, where that has a name of its own, or else its status. */
#ifndef NAMES_H
#define NAMES_H

#include "linkd.h"

static inline const char *refusal_name(uint32_t status, uint32_t fault) {
    const char *name = linkd_fault_name(status, fault);
    if (name == NULL) name = linkd_status_name(status);
    return name == NULL ? "a status without a name" : name;
}

#endif
