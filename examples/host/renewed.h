/* What the hosts that renew share: the arrays of new numbers, installs, and the comparison of a linker with the fresh one. */
#ifndef RENEWED_H
#define RENEWED_H

#include "common.h"

enum { BATCH = 256 };

/* The receivers are null and each class, so the number of a class is less by one. */
static inline uint32_t receiver(uint32_t number) { return number == 0 ? LINKD_NULL : number - 1; }

static inline bool is_linked(linkd *of, uint32_t site) {
    linkd_link link;
    done(linkd_link_of(of, site, &link), "no link is told");
    return link.kind != LINKD_NONE;
}

/* Installs a batch without the sites that aren't ready. */
static inline void install(linkd *linker, uint32_t *batch, size_t count) {
    linkd_told told;
    uint32_t status = LINKD_DONE;
    while (count > 0 && (status = linkd_install(linker, batch, count, &told)) == LINKD_NOT_READY) {
        size_t at = 0;
        while (at < count && batch[at] != told.place) at++;
        must(at < count, REFUSED, "a site that isn't of the batch isn't ready", told.place);
        batch[at] = batch[--count];
    }
    if (count > 0) done(status, "a batch isn't installed");
}

/* Installs what is pending of the sites below this number. */
static inline void install_pending_of(linkd *linker, uint32_t sites) {
    uint32_t batch[BATCH];
    size_t count = 0;
    for (uint32_t site = 0; site < sites; site++) {
        if (!is_linked(linker, site)) batch[count++] = site;
        if (count == BATCH || site + 1 == sites) {
            install(linker, batch, count);
            count = 0;
        }
    }
}

static inline uint32_t *room(size_t count) { return memory(malloc((count + 1) * sizeof(uint32_t))); }

/* Room for the new numbers of all that the linker ever had, of which these are the counts. */
static inline linkd_numbers numbers_for(linkd *linker, linkd_count *count) {
    done(linkd_counts(linker, count), "no counts are told");
    return (linkd_numbers){room(count->loaders),    count->loaders,    room(count->classes),  count->classes, room(count->sites), count->sites,
                           room(count->call_sites), count->call_sites, room(count->switches), count->switches};
}

static inline void let_numbers_go(linkd_numbers *numbers) {
    free(numbers->loaders);
    free(numbers->classes);
    free(numbers->sites);
    free(numbers->call_sites);
    free(numbers->switches);
}

/* Whether the site that stays is linked in both, and answers the same in both for each receiver that stays, under the new numbers. */
static inline void compare_site(linkd *old, linkd *fresh, const linkd_numbers *numbers, uint32_t site) {
    must(is_linked(old, site) == is_linked(fresh, numbers->sites[site]), LOST_ANSWER, "a link didn't come over, of site", site);
    for (uint32_t number = 0; number <= numbers->class_capacity; number++) {
        uint32_t before = receiver(number), after = before == LINKD_NULL ? before : numbers->classes[before];
        linkd_call_answer answer, renewed;
        if (before != LINKD_NULL && after == LINKD_NO_NUMBER) continue;
        done(linkd_call(old, site, before, &answer), "no call is answered");
        done(linkd_call(fresh, numbers->sites[site], after, &renewed), "no call is answered");
        if (answer.kind == LINKD_RUN) answer.class_number = numbers->classes[answer.class_number];
        must(same_answer(&answer, &renewed), WRONG_ANSWER, "a fresh linker answers otherwise, of site", site);
    }
}

/* The sites that stay are numbered in order. Gives how many there are. */
static inline uint32_t compare_all(linkd *old, linkd *fresh, const linkd_numbers *numbers) {
    uint32_t staying = 0;
    for (uint32_t site = 0; site < numbers->site_capacity; site++) {
        if (numbers->sites[site] == LINKD_NO_NUMBER) continue;
        must(numbers->sites[site] == staying++, BAD_NUMBER, "a site has another number than the next one", site);
        compare_site(old, fresh, numbers, site);
    }
    return staying;
}

#endif
