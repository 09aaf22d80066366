/* What goes: call sites, switch points and loaders that nothing reaches, and the numbers that have been used up. All of it happens at the end of
 * a collection, while the world is stopped. */
#include "linker.h"

/* ---- call sites and switch points */

/* After marking. The call site of an invokedynamic goes with the class in which that stands, one of java.lang.invoke when nothing reaches it:
 * an invokedynamic that is bound to it does. */
void find_dead_call_sites(void) {
    for (uint32_t i = 0; i < call_site_count; i++) {
        CallSite *one = call_sites[i];
        one->gone = one->loader == MOST_LOADERS ? !is_marked(one->object) : loaders[one->loader].dead;
    }
    for (uint32_t i = 0; i < switch_point_count; i++) switch_points[i]->gone = !is_marked(switch_points[i]->object);
}

static void forget_released(void) {
    uint32_t left = 0;
    for (uint32_t i = 0; i < call_site_count; i++)
        if (call_sites[i]->gone) free(call_sites[i]), vm.counts.released_call_sites++;
        else call_sites[left++] = call_sites[i];
    call_site_count = left;
    left = 0;
    for (uint32_t i = 0; i < switch_point_count; i++)
        if (switch_points[i]->gone) free(switch_points[i]), vm.counts.released_switch_points++;
        else switch_points[left++] = switch_points[i];
    switch_point_count = left;
}

static void release_dead(void) {
    linkd_told told;
    uint32_t *numbers = malloc((call_site_count + switch_point_count + 1) * sizeof *numbers);
    size_t sites = 0, switches = 0;
    for (uint32_t i = 0; i < call_site_count; i++)
        if (call_sites[i]->gone) numbers[sites++] = call_sites[i]->number;
    for (uint32_t i = 0; i < switch_point_count; i++)
        if (switch_points[i]->gone) numbers[sites + switches++] = switch_points[i]->number;
    if (sites + switches > 0) {
        must(linkd_release(linker, numbers, sites, numbers + sites, switches, &told), "release");
        after_change(&told);
        forget_released();
    }
    free(numbers);
}

/* ---- loaders */

static void site_gone(Site *site) {
    if (site->requested && site->link->kind != LINK_ARRAY && site->link->kind != LINK_POLYMORPHIC) by_site[site->number] = NULL;
    drop(site);
}

static void loader_gone(Loader *loader) {
    for (uint32_t i = 0; i < loader->class_count; i++) {
        Class *cls = loader->classes[i];
        for (uint16_t j = 0; j < cls->method_count; j++)
            for (uint32_t k = 0; k < cls->methods[j].site_count; k++) site_gone(&cls->methods[j].sites[k]);
        by_number[cls->number] = NULL;
        class_gone(cls);
    }
    vm.counts.retired_classes += loader->class_count;
    vm.counts.retired_loaders++;
    free(loader->classes), free(loader->recorded);
    memset(loader, 0, sizeof *loader);
}

/* All at once, since loaders that record each other hold each other. A loader that something holds that stays is left out, and tried again
 * at the next collection. */
static size_t retire(uint32_t *ids, size_t count) {
    linkd_told told;
    uint32_t *numbers = malloc((count + 1) * sizeof *numbers);
    while (count > 0) {
        for (size_t i = 0; i < count; i++) numbers[i] = loaders[ids[i]].number;
        uint32_t status = linkd_retire_all(linker, numbers, count, &told);
        if (status == LINKD_DONE) {
            after_change(&told);
            break;
        }
        if (status != LINKD_RETIRE) must(status, "retire");
        if (vm.trace) fprintf(stderr, "vm: a loader stays: %s\n", linkd_retire_fault_name(told.fault));
        size_t left = 0;
        for (size_t i = 0; i < count; i++)
            if (numbers[i] != told.number) ids[left++] = ids[i];
        count = left;
    }
    free(numbers);
    return count;
}

void link_retire_dead(void) {
    uint64_t start = now_ns();
    vm.counts.defined_since = 0;
    release_dead();
    uint32_t *ids = malloc(loader_count * sizeof *ids);
    size_t count = 0;
    for (uint32_t i = FIRST_OWN_LOADER; i < loader_count; i++)
        if (loaders[i].dead) ids[count++] = i;
    count = retire(ids, count);
    for (size_t i = 0; i < count; i++) loader_gone(&loaders[ids[i]]);
    while (loader_count > FIRST_OWN_LOADER && !loaders[loader_count - 1].used) loader_count--;
    free(ids);
    vm.counts.retire_ns += now_ns() - start;
}

/* The next event would pay for the retirement, too. */
void link_catch_up(void) {
    lock();
    must(linkd_catch_up(linker), "catch up");
    unlock();
}

/* ---- a renewal */

/* Of one kind: the most that there may be, how many there were, and how many would be there after a renewal. */
static bool is_short(uint32_t most, uint32_t all, uint32_t present) { return all >= most - most / 16 && present <= most - most / 8; }

/* Whether numbers of a kind are nearly used up, and a renewal brings back some. */
bool link_is_short(void) {
    linkd_count all, present;
    must(linkd_counts(linker, &all), "counts");
    present = (linkd_count){0, 0, 0, 0, 0};
    for (int i = 0; i < 2; i++) {
        bool any = is_short(vm.most_loaders, all.loaders, present.loaders) || is_short(vm.most_classes, all.classes, present.classes)
                || is_short(vm.most_sites, all.sites, present.sites) || is_short(vm.most_call_sites, all.call_sites, present.call_sites)
                || is_short(vm.most_switch_points, all.switches, present.switches);
        if (!any) return false;
        if (i == 0) must(linkd_counts_present(linker, &present), "counts"); /* which looks at each that there ever was */
    }
    return true;
}

static uint32_t *room(uint32_t count) { return malloc((count + 1) * sizeof(uint32_t)); }

static void renumber_loaders(const linkd_numbers *numbers) {
    memset(by_number, 0, vm.most_classes * sizeof *by_number);
    for (uint32_t i = 0; i < loader_count; i++) {
        Loader *loader = &loaders[i];
        if (!loader->used) continue;
        loader->number = numbers->loaders[loader->number];
        for (uint32_t j = 0; j < loader->class_count; j++) {
            Class *cls = loader->classes[j];
            cls->number = numbers->classes[cls->number];
            by_number[cls->number] = cls;
        }
    }
}

/* Numbers only become smaller, so each place is free by then. */
static void renumber_sites(const linkd_numbers *numbers) {
    for (size_t i = 0; i < numbers->site_capacity; i++) {
        Site *site = by_site[i];
        by_site[i] = NULL;
        if (!site) continue;
        if (numbers->sites[i] == LINKD_NO_NUMBER) fatal("a site that is kept isn't there after a renewal");
        site->number = numbers->sites[i];
        by_site[site->number] = site;
    }
    for (uint32_t i = 0; i < call_site_count; i++) call_sites[i]->number = numbers->call_sites[call_sites[i]->number];
    for (uint32_t i = 0; i < switch_point_count; i++) switch_points[i]->number = numbers->switches[switch_points[i]->number];
}

/* Each thread stands at a safepoint, so its seat and its memo go over here. */
static void renew_readers(void) {
    for (Thread *one = each_thread(NULL); one; one = each_thread(one)) {
        Reader *reader = one->reader;
        if (!reader) continue;
        must(linkd_seat_refresh(reader->seat, linker), "refresh");
        linkd_memo_close(reader->memo);
        must(linkd_memo_open(reader->memo, MEMO_SETS), "memo");
        reader->seen = events;
    }
}

void link_renew(void) {
    linkd_count counts;
    linkd_released released = {(uint32_t[]){0}, 0, (uint32_t[]){0}, 0}; /* linkd_release has taken all */
    uint64_t start = now_ns();
    must(linkd_counts(linker, &counts), "counts");
    linkd_numbers numbers = {room(counts.loaders), counts.loaders, room(counts.classes), counts.classes, room(counts.sites), counts.sites,
                             room(counts.call_sites), counts.call_sites, room(counts.switches), counts.switches};
    linkd *fresh = new_linker();
    must(linkd_renew(linker, fresh, vm.most_sites, &released, &numbers), "renew");
    renumber_loaders(&numbers);
    renumber_sites(&numbers);
    linkd_close(linker);
    free(linker);
    linker = fresh;
    RELEASE(must_see, ++events);
    renew_readers();
    free(numbers.loaders), free(numbers.classes), free(numbers.sites), free(numbers.call_sites), free(numbers.switches);
    vm.counts.renewals++;
    vm.counts.renew_ns += now_ns() - start;
}
