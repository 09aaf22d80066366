/* What --stats prints at the end. */
#include "vm.h"
#include <time.h>

uint64_t now_ns(void) {
    struct timespec now;
    clock_gettime(CLOCK_MONOTONIC, &now);
    return (uint64_t)now.tv_sec * 1000000000u + (uint64_t)now.tv_nsec;
}

void add_counts(ThreadCounts *to, const ThreadCounts *from) {
    const uint64_t *values = (const uint64_t *)from;
    for (size_t i = 0; i < sizeof *from / sizeof *values; i++) ((uint64_t *)to)[i] += values[i];
}

static void number(FILE *to, const char *name, uint64_t value) { fprintf(to, "vm: %-34s %12llu\n", name, (unsigned long long)value); }

static void time_of(FILE *to, const char *name, uint64_t ns) { fprintf(to, "vm: %-34s %12.1f ms\n", name, (double)ns / 1e6); }

static void print_links(FILE *to) {
    static const char *const kinds[] = {[LINK_PLAIN] = "plain", [LINK_DIRECT] = "direct", [LINK_TABLE] = "table", [LINK_MEGA] = "megamorphic",
                                        [LINK_FAULT] = "fault"};
    for (int i = LINK_PLAIN; i <= LINK_FAULT; i++) {
        char name[64];
        snprintf(name, sizeof name, "  %s", kinds[i]);
        number(to, name, vm.counts.by_kind[i]);
        snprintf(name, sizeof name, "  calls at %s ones", kinds[i]);
        if (vm.check) number(to, name, vm.counts.threads.checked_by[i]);
    }
}

void print_stats(FILE *to) {
    const Counts *counts = &vm.counts;
    const ThreadCounts *threads = &counts->threads;
    number(to, "classes defined", counts->defined);
    number(to, "  made for lambdas", counts->lambdas);
    number(to, "  made for concatenations", counts->concatenations);
    number(to, "delegations", counts->delegations);
    number(to, "sites requested", counts->requests);
    number(to, "links installed", counts->installs);
    print_links(to);
    number(to, "installs that waited for a class", counts->waits);
    number(to, "links dropped", counts->dropped);
    number(to, "methods selected that no code calls", counts->selections);
    number(to, "references resolved", counts->resolutions);
    number(to, "call sites bound", counts->binds);
    number(to, "targets set", counts->targets);
    number(to, "switch points invalidated", counts->invalidations);
    number(to, "calls", threads->calls);
    number(to, "  that went into link.c", threads->slow);
    number(to, "  megamorphic", threads->mega);
    number(to, "  of them remembered", threads->mega_hits);
    number(to, "  of native methods", threads->natives);
    if (vm.use_seat) number(to, "misses at seats", threads->seat_misses);
    if (vm.use_seat) number(to, "refreshes of seats", threads->refreshes);
    if (vm.check) number(to, "calls compared, none differs", threads->checked);
    number(to, "collections", counts->collections);
    number(to, "bytes live after the last one", counts->live);
    number(to, "references cleared", counts->cleared);
    number(to, "loaders retired", counts->retired_loaders);
    number(to, "  with classes", counts->retired_classes);
    number(to, "call sites released", counts->released_call_sites);
    number(to, "switch points released", counts->released_switch_points);
    number(to, "renewals", counts->renewals);
    time_of(to, "definitions", counts->define_ns);
    time_of(to, "requests and installs", counts->link_ns);
    time_of(to, "collections, in all", counts->collect_ns);
    time_of(to, "  releases and retirements", counts->retire_ns);
    time_of(to, "  renewals", counts->renew_ns);
    time_of(to, "all in all", now_ns() - counts->start_ns);
}
