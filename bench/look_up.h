/* A look-up in a plain array of links, which bench/seats.c measures beside seats. */
#ifndef LOOK_UP_H
#define LOOK_UP_H

#include "linkd.h"

/* What a link in the array comes to. */
static inline void look_up(const linkd_link *links, uint32_t site, uint32_t receiver, linkd_call_answer *answer) {
    const linkd_link *link = &links[site];
    const linkd_row *row = link->rows;
    if (link->kind != LINKD_DIRECT) {
        const linkd_row *end = row + link->count;
        while (row < end && row->receiver != receiver) row++;
        if (row == end) {
            *answer = (linkd_call_answer){LINKD_MISS, 0, 0};
            return;
        }
    }
    *answer = (linkd_call_answer){row->kind, row->class_number, row->value};
}

/* The same, in an object file of its own. */
void look_up_in(const linkd_link *links, uint32_t site, uint32_t receiver, linkd_call_answer *answer);

#endif
