#include "agent.h"
#include "../host/names.h"
#include <inttypes.h>
#include <stdlib.h>
#include <string.h>

enum { INSTRUCTIONS = 4, KINDS = 7 };

static const char *const reasons[REASONS] = {
    [NO_CALLER] = "no caller",
    [NATIVE_CALLER] = "called by native code",
    [INITIALIZER] = "<clinit>",
    [BY_THE_MACHINE] = "by the machine itself: the caller's instruction names another method",
    [DYNAMIC] = "invokedynamic",
    [POLYMORPHIC] = "signature-polymorphic",
    [ARRAY_NAMED] = "an array type is named",
    [HIDDEN_CALLER] = "the caller's class is hidden",
    [HIDDEN_METHOD] = "the method's class is hidden",
    [HIDDEN_RECEIVER] = "the receiver's class is hidden",
    [ARRAY_RECEIVER] = "the receiver is an array",
    [NO_FILE] = "a class whose file wasn't seen",
    [REFUSED_CLASS] = "a class that the linker has refused",
    [REDEFINED] = "a class with other code since",
    [NOT_IN_FILE] = "a method that the class file hasn't",
    [SITES_FULL] = "all sites are taken",
    [REFUSED_SITE] = "a site that the linker has refused",
    [UNLINKED] = "unlinked: a class is missing in the linker",
    [NOT_TOLD] = "the machine or the linker doesn't tell",
    [NO_MEMORY] = "want of memory",
};

static const char *const instructions[INSTRUCTIONS] = {"invokevirtual", "invokespecial", "invokestatic", "invokeinterface"};
static const char *const kinds[KINDS] = {"pending", "fault", "plain", "direct", "virtual_table", "interface_table", "megamorphic"};

/* ---- what is counted at the end */

struct counts {
    uint32_t classes, waiting, loaders, gone, requested;
    size_t methods, places; /* that the agent keeps, also those of which no call is compared */
    uint32_t by_kind[KINDS], by_length[MOST_ROWS + 1], by_instruction[INSTRUCTIONS];
};

static void count_classes(struct counts *counts) {
    for (uint32_t i = 0; i < world.class_count; i++) {
        const struct class *class = world.classes[i];
        if (class == NULL) continue;
        if (class->number != NO_NUMBER) counts->classes++;
        if (class->waits) counts->waiting++;
        if (class->dropped > 0) keep_dropper(world.droppers, class->name, class->dropped);
    }
    for (uint32_t i = 0; i < world.loader_count; i++) {
        if (world.loaders[i]->gone) counts->gone++;
        else if (world.loaders[i]->number != NO_NUMBER) counts->loaders++;
    }
}

static void count_sites(struct counts *counts) {
    for (uint32_t number = 0; number < calls.site_count; number++) {
        linkd_link link;
        if (calls.sites[number] == NULL || linkd_link_of(world.linker, number, &link) != LINKD_DONE) continue;
        counts->requested++;
        counts->by_instruction[calls.sites[number]->named.opcode - 182]++;
        if ((size_t)link.kind >= KINDS) continue;
        counts->by_kind[link.kind]++;
        if (link.kind == LINKD_VIRTUAL_TABLE || link.kind == LINKD_INTERFACE_TABLE) counts->by_length[link.count]++;
    }
}

static struct counts count_all(void) {
    struct counts counts = {0};
    count_classes(&counts);
    count_sites(&counts);
    count_records(&counts.methods, &counts.places);
    return counts;
}

static uint64_t loaded(atomic_uint_fast64_t *count) { return atomic_load(count); }

/* Entries after the last one that was looked at aren't counted. */
static uint64_t entries(void) {
    uint64_t seen = loaded(&calls.entries);
    return seen < calls.most ? seen : calls.most;
}

/* ---- text */

static void tell_line(FILE *to, const char *name, uint64_t count, uint64_t all) {
    fprintf(to, "  %-72s %10" PRIu64, name, count);
    if (all > 0) fprintf(to, "  %5.1f %%", 100.0 * (double)count / (double)all);
    fputc('\n', to);
}

static void tell_sites(FILE *to, const struct counts *counts) {
    fprintf(to, "sites requested: %" PRIu32 "\n", counts->requested);
    for (int kind = 0; kind < KINDS; kind++) tell_line(to, kinds[kind], counts->by_kind[kind], counts->requested);
    for (uint32_t length = 0; length <= MOST_ROWS; length++) {
        char name[32];
        snprintf(name, sizeof name, "tables of length %" PRIu32, length);
        if (counts->by_length[length] > 0) tell_line(to, name, counts->by_length[length], counts->requested);
    }
    for (int i = 0; i < INSTRUCTIONS; i++) tell_line(to, instructions[i], counts->by_instruction[i], counts->requested);
}

static void tell_calls(FILE *to) {
    uint64_t all = entries();
    fprintf(to, "method entries: %" PRIu64 "\n", all);
    tell_line(to, "compared", loaded(&calls.compared), all);
    for (int why = COMPARED + 1; why < REASONS; why++) {
        if (loaded(&calls.left_out[why]) > 0) tell_line(to, reasons[why], loaded(&calls.left_out[why]), all);
    }
    fprintf(to, "misses at a seat: %" PRIu64 "\n", loaded(&calls.missed));
    fprintf(to, "differences: %" PRIu64 "\n", loaded(&calls.differences));
}

static void tell_retirements(FILE *to, const struct counts *counts) {
    const struct retired *retired = &world.retired;
    fprintf(to, "loaders retired: %" PRIu32 ", with classes %" PRIu32 ", sites %" PRIu32 "\n", retired->loaders, retired->classes,
            retired->sites);
    tell_line(to, "links dropped by retirements", retired->links, 0);
    tell_line(to, "of these, at sites that stay", retired->kept_links, 0);
    for (uint32_t fault = 0; fault < RETIRE_FAULTS; fault++) {
        const struct refused_retirements *refused = &world.refused_retirements[fault];
        if (refused->count == 0) continue;
        tell_line(to, refusal_name(LINKD_RETIRE, fault), refused->count, 0);
        fprintf(to, "    the last: %s is held by %s\n", refused->loader, refused->holder);
    }
    fprintf(to, "loaders that the machine has collected and that the linker has: %" PRIu32 "\n", counts->gone);
    for (uint32_t i = 0, told = 0; i < world.loader_count && told < MOST_TOLD; i++) {
        char name[HOLDER_LENGTH], holder[HOLDER_LENGTH];
        const struct loader *loader = world.loaders[i];
        if (!loader->gone) continue;
        name_loader(name, sizeof name, loader);
        name_holder(holder, sizeof holder, loader->fault, loader->place);
        fprintf(to, "    %s is held by %s\n", name, holder);
        told++;
    }
    fprintf(to, "kept by the agent: files %zu, methods %zu, places of calls %zu\n", world.files.count, counts->methods, counts->places);
}

/* Whether a site is to be told by itself, and its link. */
static bool told_alone(uint32_t number, const char *prefix, linkd_link *link) {
    const struct site *site = calls.sites[number];
    if (prefix == NULL || site == NULL || strncmp(site->of->name, prefix, strlen(prefix)) != 0) return false;
    return linkd_link_of(world.linker, number, link) == LINKD_DONE && (size_t)link->kind < KINDS;
}

static void tell_each_site(FILE *to, const char *prefix) {
    for (uint32_t number = 0; number < calls.site_count; number++) {
        linkd_link link;
        if (!told_alone(number, prefix, &link)) continue;
        const struct site *site = calls.sites[number];
        const struct method_text *in = &site->of->read.methods[site->method];
        const struct invocation *named = &site->named;
        fprintf(to, "%s.%.*s%.*s, pc %" PRIu32 ": %s %.*s.%.*s%.*s: %s, rows %" PRIu32 ", installed %" PRIu32 " times\n", site->of->name,
                (int)in->name.length, in->name.at, (int)in->type.length, in->type.at, site->pc, instructions[named->opcode - 182],
                (int)named->of.length, named->of.at, (int)named->name.length, named->name.at, (int)named->type.length, named->type.at,
                kinds[link.kind], link.count, site->installed);
    }
}

static void report_text(FILE *to, const struct counts *counts, const char *prefix) {
    fprintf(to, "linkd: classes %" PRIu32 ", loaders %" PRIu32 ", classes that wait for a parent %" PRIu32 "\n", counts->classes, counts->loaders,
            counts->waiting);
    for (uint32_t i = 0; i < world.refusal_count; i++)
        tell_line(to, refusal_name(world.refusals[i].status, world.refusals[i].fault), world.refusals[i].count, 0);
    tell_line(to, "classes of loaders without a number", world.loaderless, 0);
    tell_retirements(to, counts);
    tell_sites(to, counts);
    fprintf(to, "links dropped by later classes: %" PRIu64 "\n", world.dropped);
    for (int i = 0; i < MOST_TOLD && world.droppers[i].name != NULL; i++)
        tell_line(to, world.droppers[i].name, world.droppers[i].dropped, 0);
    tell_calls(to);
    tell_each_site(to, prefix);
}

/* ---- JSON */

/* Modified UTF-8 as a text of ASCII alone: each of its characters is a 16-bit unit, as JSON's escapes are. */
static void put_text(FILE *to, struct text from) {
    const uint8_t *at = from.at, *end = from.at + from.length;
    while (at < end) {
        uint32_t unit = *at++;
        if (unit >= 0xe0 && end - at >= 2) {
            unit = (unit & 0x0f) << 12 | (at[0] & 0x3fu) << 6 | (at[1] & 0x3fu);
            at += 2;
        } else if (unit >= 0xc0 && end - at >= 1) {
            unit = (unit & 0x1f) << 6 | (at[0] & 0x3fu);
            at += 1;
        }
        if (unit < 0x20 || unit > 0x7e || unit == '"' || unit == '\\') fprintf(to, "\\u%04" PRIx32, unit);
        else fputc((int)unit, to);
    }
}

static void put_string(FILE *to, const char *from) {
    fputc('"', to);
    put_text(to, text_of(from));
    fputc('"', to);
}

/* A method by its class, its name and its type, as "a/B.m()V". */
static void put_method(FILE *to, const char *key, struct text of, struct text name, struct text type) {
    fprintf(to, "\"%s\":\"", key);
    put_text(to, of);
    fputc('.', to);
    put_text(to, name);
    put_text(to, type);
    fputc('"', to);
}

static void put_count(FILE *to, bool *first, const char *name, uint64_t count) {
    if (!*first) fputc(',', to);
    *first = false;
    put_string(to, name);
    fprintf(to, ":%" PRIu64, count);
}

static void put_counts(FILE *to, const char *name, const char *const *names, const uint32_t *counts, int count) {
    bool first = true;
    fprintf(to, ",\"%s\":{", name);
    for (int i = 0; i < count; i++) put_count(to, &first, names[i], counts[i]);
    fputc('}', to);
}

static void put_lengths(FILE *to, const struct counts *counts) {
    bool first = true;
    fputs(",\"tables_by_length\":{", to);
    for (uint32_t length = 0; length <= MOST_ROWS; length++) {
        char name[16];
        snprintf(name, sizeof name, "%" PRIu32, length);
        if (counts->by_length[length] > 0) put_count(to, &first, name, counts->by_length[length]);
    }
    fputc('}', to);
}

static void put_refusals(FILE *to) {
    bool first = true;
    fputs(",\"refusals\":{", to);
    for (uint32_t i = 0; i < world.refusal_count; i++)
        put_count(to, &first, refusal_name(world.refusals[i].status, world.refusals[i].fault), world.refusals[i].count);
    fputc('}', to);
}

/* Two classes may have one name, so these are pairs. */
static void put_most(FILE *to) {
    fputs(",\"dropped_most\":[", to);
    for (int i = 0; i < MOST_TOLD && world.droppers[i].name != NULL; i++) {
        fputs(i == 0 ? "[" : ",[", to);
        put_string(to, world.droppers[i].name);
        fprintf(to, ",%" PRIu32 "]", world.droppers[i].dropped);
    }
    fputc(']', to);
}

/* A loader with what holds it. */
static void put_held(FILE *to, const char *loader, const char *holder) {
    fputc('[', to);
    put_string(to, loader);
    fputc(',', to);
    put_string(to, holder);
    fputc(']', to);
}

/* Of each reason how often, and the last one. */
static void put_refused_retirements(FILE *to) {
    bool first = true;
    fputs(",\"retirements_refused\":{", to);
    for (uint32_t fault = 0; fault < RETIRE_FAULTS; fault++) {
        const struct refused_retirements *refused = &world.refused_retirements[fault];
        if (refused->count == 0) continue;
        put_count(to, &first, refusal_name(LINKD_RETIRE, fault), refused->count);
    }
    fputs("},\"last_refused\":[", to);
    first = true;
    for (uint32_t fault = 0; fault < RETIRE_FAULTS; fault++) {
        const struct refused_retirements *refused = &world.refused_retirements[fault];
        if (refused->count == 0) continue;
        if (!first) fputc(',', to);
        first = false;
        put_held(to, refused->loader, refused->holder);
    }
    fputc(']', to);
}

static void put_waiting_loaders(FILE *to) {
    uint32_t told = 0;
    fputs(",\"held\":[", to);
    for (uint32_t i = 0; i < world.loader_count && told < MOST_TOLD; i++) {
        char name[HOLDER_LENGTH], holder[HOLDER_LENGTH];
        const struct loader *loader = world.loaders[i];
        if (!loader->gone) continue;
        name_loader(name, sizeof name, loader);
        name_holder(holder, sizeof holder, loader->fault, loader->place);
        if (told++ > 0) fputc(',', to);
        put_held(to, name, holder);
    }
    fputc(']', to);
}

static void put_retirements(FILE *to, const struct counts *counts) {
    const struct retired *retired = &world.retired;
    fprintf(to, ",\"retired_loaders\":%" PRIu32 ",\"retired_classes\":%" PRIu32 ",\"retired_sites\":%" PRIu32, retired->loaders,
            retired->classes, retired->sites);
    fprintf(to, ",\"retired_links\":%" PRIu64 ",\"retired_links_of_sites_that_stay\":%" PRIu64, retired->links, retired->kept_links);
    put_refused_retirements(to);
    fprintf(to, ",\"held_loaders\":%" PRIu32, counts->gone);
    put_waiting_loaders(to);
    fprintf(to, ",\"classes_without_loader\":%" PRIu32, world.loaderless);
    fprintf(to, ",\"kept_files\":%zu,\"kept_methods\":%zu,\"kept_places\":%zu", world.files.count, counts->methods, counts->places);
}

static void put_each_site(FILE *to, const char *prefix) {
    bool first = true;
    fputs(",\"each\":[", to);
    for (uint32_t number = 0; number < calls.site_count; number++) {
        linkd_link link;
        if (!told_alone(number, prefix, &link)) continue;
        const struct site *site = calls.sites[number];
        const struct method_text *in = &site->of->read.methods[site->method];
        fputs(first ? "{" : ",{", to);
        first = false;
        put_method(to, "in", text_of(site->of->name), in->name, in->type);
        fprintf(to, ",\"pc\":%" PRIu32 ",\"instruction\":\"%s\",", site->pc, instructions[site->named.opcode - 182]);
        put_method(to, "calls", site->named.of, site->named.name, site->named.type);
        fprintf(to, ",\"form\":\"%s\",\"rows\":%" PRIu32 ",\"installed\":%" PRIu32 "}", kinds[link.kind], link.count, site->installed);
    }
    fputc(']', to);
}

static void put_left_out(FILE *to) {
    bool first = true;
    fputs(",\"left_out\":{", to);
    for (int why = COMPARED + 1; why < REASONS; why++) {
        if (loaded(&calls.left_out[why]) > 0) put_count(to, &first, reasons[why], loaded(&calls.left_out[why]));
    }
    fputc('}', to);
}

static void report_json(FILE *to, const struct counts *counts, const char *prefix) {
    fprintf(to, "{\"classes\":%" PRIu32 ",\"loaders\":%" PRIu32 ",\"waiting\":%" PRIu32, counts->classes, counts->loaders, counts->waiting);
    put_refusals(to);
    put_retirements(to, counts);
    fprintf(to, ",\"sites\":%" PRIu32, counts->requested);
    put_counts(to, "forms", kinds, counts->by_kind, KINDS);
    put_lengths(to, counts);
    put_counts(to, "instructions", instructions, counts->by_instruction, INSTRUCTIONS);
    fprintf(to, ",\"dropped\":%" PRIu64, world.dropped);
    put_most(to);
    fprintf(to, ",\"entries\":%" PRIu64 ",\"compared\":%" PRIu64 ",\"misses\":%" PRIu64 ",\"differences\":%" PRIu64, entries(),
            loaded(&calls.compared), loaded(&calls.missed), loaded(&calls.differences));
    put_left_out(to);
    if (prefix != NULL) put_each_site(to, prefix);
    fputs("}\n", to);
}

void report(FILE *to, bool json, const char *prefix) {
    struct counts counts = count_all();
    if (json) report_json(to, &counts, prefix);
    else report_text(to, &counts, prefix);
}
