/* What link.c and unload.c share. */
#ifndef LINKER_H
#define LINKER_H

#include "vm.h"
#include "linkd.h"

struct Reader {
    linkd_seat *seat;
    linkd_memo *memo;
    uint64_t seen; /* how many events the seat has seen */
    uint32_t missed;
};

struct SwitchPoint {
    uint32_t number;
    Object *object; /* its java.lang.invoke.SwitchPoint, which this doesn't keep */
    bool invalid, gone;
};

enum { MEMO_SETS = 1 << 14 };

extern linkd *linker;
extern Class **by_number; /* by the linker's numbers: classes and sites */
extern Site **by_site;
extern CallSite **call_sites; /* all that there are; of some the next collection lets go */
extern SwitchPoint **switch_points;
extern uint32_t call_site_count, switch_point_count;
extern uint64_t events;   /* that were accepted */
extern uint64_t must_see; /* a seat that has seen fewer may answer wrongly, and not just miss */

void fatal(const char *format, ...) __attribute__((noreturn, format(printf, 1, 2)));
void must(uint32_t status, const char *what);
linkd *new_linker(void);
void after_change(const linkd_told *told); /* what is kept of dropped links goes, and a stale seat has to be refreshed */
void drop(Site *site);

#endif
