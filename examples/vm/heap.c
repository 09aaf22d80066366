/* The heap. What lies between the objects that a collection has left are holes. A thread takes a piece of a hole at a time and allocates in
 * it without a lock; large objects are taken from large holes. */
#include "heap.h"
#include <pthread.h>
#include <sys/mman.h>

typedef struct Hole {
    char *at, *end;
} Hole;

enum { LEAST_HOLE = 32, PIECE = 32768, LARGE = 4096, LARGE_HOLE = 8192 };

Heap heap;
static pthread_mutex_t heap_lock = PTHREAD_MUTEX_INITIALIZER;
static Hole *holes;
static size_t hole_count, hole_room, hole_next;
static size_t *large, large_count, large_room; /* which holes have room for large objects */

static void *map(size_t size) {
    void *at = mmap(NULL, size, PROT_READ | PROT_WRITE, MAP_PRIVATE | MAP_ANONYMOUS | MAP_NORESERVE, -1, 0);
    if (at != MAP_FAILED) return at;
    fprintf(stderr, "vm: no memory for a heap of %zu MB\n", size >> 20);
    exit(3);
}

void heap_open(size_t size) {
    heap.start = heap.high = map(size);
    heap.limit = heap.start + size;
    heap.starts = map(size / 64 + 64);
    heap.marks = map(size / 64 + 64);
    heap_add_hole(heap.start, heap.limit);
}

void heap_no_holes(void) {
    hole_count = large_count = hole_next = 0;
    for (Thread *one = each_thread(NULL); one; one = each_thread(one)) one->free = one->free_end = NULL;
}

void heap_add_hole(char *at, char *end) {
    if (end - at < LEAST_HOLE) return;
    if (hole_count == hole_room) holes = realloc(holes, (hole_room = hole_room * 2 + 1024) * sizeof *holes);
    if (end - at >= LARGE_HOLE) {
        if (large_count == large_room) large = realloc(large, (large_room = large_room * 2 + 256) * sizeof *large);
        large[large_count++] = hole_count;
    }
    holes[hole_count++] = (Hole){at, end};
}

/* Under heap_lock: how much of what is taken was used before, and has to be cleared. */
static size_t used_before(char *at, size_t size) {
    size_t used = at >= heap.high ? 0 : at + size <= heap.high ? size : (size_t)(heap.high - at);
    if (at + size > heap.high) heap.high = at + size;
    return used;
}

static char *take_large(size_t size, size_t *used) {
    for (size_t i = 0; i < large_count; i++) {
        Hole *hole = &holes[large[i]];
        if (large[i] < hole_next || (size_t)(hole->end - hole->at) < size) continue;
        char *at = hole->at;
        if (hole->end == heap.limit) hole->at += size; /* so what was never used stays so */
        else at = hole->end -= size; /* from its end; pieces come from its beginning */
        *used = used_before(at, size);
        return at;
    }
    return NULL;
}

static bool take_piece(size_t size, size_t *used) {
    for (; hole_next < hole_count; hole_next++) {
        Hole *hole = &holes[hole_next];
        size_t room = (size_t)(hole->end - hole->at), piece = room > PIECE ? PIECE : room;
        if (piece < size || piece < LEAST_HOLE) continue;
        self->free = hole->at;
        self->free_end = hole->at += piece;
        *used = used_before(self->free, piece);
        return true;
    }
    return false;
}

/* NULL: it is full. */
static char *heap_take(size_t size) {
    size_t used = 0;
    if (size <= (size_t)(self->free_end - self->free)) return self->free += size, self->free - size;
    pthread_mutex_lock(&heap_lock);
    char *at = size >= LARGE ? take_large(size, &used) : NULL;
    bool piece = size < LARGE && take_piece(size, &used);
    pthread_mutex_unlock(&heap_lock);
    if (piece) {
        memset(self->free, 0, used);
        return self->free += size, self->free - size;
    }
    if (at) memset(at, 0, used);
    return at;
}

static Object *try_alloc(Class *cls, size_t size) {
    size = (size + 7) & ~(size_t)7;
    if (RELAXED(vm.stop)) safepoint();
    if (vm.collect_every && ++self->counts.allocations % vm.collect_every == 0) collect(false);
    char *at = heap_take(size);
    for (int i = 0; !at && i < 3 && vm.collects; i++) collect(i > 0), at = heap_take(size);
    if (!at) return NULL;
    Object *object = (Object *)at;
    object->cls = cls;
    size_t place = place_of(at);
    __atomic_fetch_or(&heap.starts[place / 64], UINT64_C(1) << place % 64, __ATOMIC_RELAXED);
    return object;
}

/* For what the machine can't do without. */
Object *alloc(Class *cls, size_t size) {
    Object *object = try_alloc(cls, size);
    if (object) return object;
    fprintf(stderr, "vm: the heap is full (%zu MB)\n", vm.heap_size >> 20);
    end_process(3);
}

Object *new_object(Class *cls) { return alloc(cls, cls->size); }

Object *new_array(Class *array, int32_t length) {
    if (length < 0) return throw_new("java/lang/NegativeArraySizeException", "%d", length).a;
    Object *object = try_alloc(array, HEADER + ((size_t)(uint32_t)length << array->shift));
    if (!object) return throw_new("java/lang/OutOfMemoryError", "Java heap space").a;
    object->length = (uint32_t)length;
    return object;
}

/* Of an array's type, as [B, whose class the boot loader finds. */
Object *new_array_of(const char *type, int32_t length) {
    if (type[2] == 0 && vm.arrays[(int)type[1]]) return new_array(vm.arrays[(int)type[1]], length);
    return new_array(class_of_type(type, strlen(type), BOOT_LOADER), length);
}
