#include "agent.h"
#include <stdlib.h>

/* FNV-1a. */
uint64_t hash_bytes(const void *bytes, size_t length, uint64_t seed) {
    const uint8_t *at = bytes;
    uint64_t hash = UINT64_C(14695981039346656037) ^ seed;
    for (size_t i = 0; i < length; i++) hash = (hash ^ at[i]) * UINT64_C(1099511628211);
    return hash ^ hash >> 29;
}

/* The slot that has such an item, or the empty one where it belongs. */
static void **slot_of(const struct table *table, const void *probe) {
    size_t at = table->hash(probe) & (table->capacity - 1);
    while (table->slots[at] != NULL && !table->same(table->slots[at], probe)) at = (at + 1) & (table->capacity - 1);
    return &table->slots[at];
}

void *table_find(const struct table *table, const void *probe) {
    return table->capacity == 0 ? NULL : *slot_of(table, probe);
}

static bool grow(struct table *table) {
    struct table grown = *table;
    grown.capacity = table->capacity == 0 ? 1024 : table->capacity * 2;
    grown.slots = calloc(grown.capacity, sizeof *grown.slots);
    if (grown.slots == NULL) return false;
    for (size_t i = 0; i < table->capacity; i++) {
        if (table->slots[i] != NULL) *slot_of(&grown, table->slots[i]) = table->slots[i];
    }
    free(table->slots);
    *table = grown;
    return true;
}

bool table_add(struct table *table, void *item) {
    if (table->count * 2 >= table->capacity && !grow(table)) return false;
    *slot_of(table, item) = item;
    table->count++;
    return true;
}

/* Empties a slot, and moves those after it that were pushed on by it. */
static void take_out(struct table *table, size_t hole) {
    size_t mask = table->capacity - 1;
    for (size_t at = (hole + 1) & mask; table->slots[at] != NULL; at = (at + 1) & mask) {
        size_t home = table->hash(table->slots[at]) & mask;
        if (((at - home) & mask) < ((at - hole) & mask)) continue; /* it would stand before its home */
        table->slots[hole] = table->slots[at];
        hole = at;
    }
    table->slots[hole] = NULL;
    table->count--;
}

void table_sweep(struct table *table, bool (*let_go)(void *item)) {
    for (size_t i = 0; i < table->capacity; i++) {
        while (table->slots[i] != NULL && let_go(table->slots[i])) take_out(table, i);
    }
}
