/* Refuses growths of the program that it is preloaded into: what malloc, realloc, calloc, aligned_alloc and posix_memalign give to the
   program's own code. What the C library and the loader take for themselves is neither counted nor refused, which the address tells to
   which a call returns. Each of them but free of memory that is there.

       GROWTHS_AT=n      refuses the n-th growth, from 1
       GROWTHS_FROM=n    refuses the n-th and all after it
       GROWTHS_INTO=FILE the file gets how many growths there were, and how many were refused: two numbers of eight bytes

   It needs the GNU C library, for the names of its own functions. */
#define _GNU_SOURCE
#include <errno.h>
#include <fcntl.h>
#include <link.h>
#include <stdatomic.h>
#include <stdint.h>
#include <stdlib.h>
#include <sys/mman.h>
#include <unistd.h>

extern void *__libc_malloc(size_t size);
extern void *__libc_realloc(void *block, size_t size);
extern void *__libc_calloc(size_t count, size_t size);
extern void *__libc_memalign(size_t alignment, size_t size);

/* How many growths there were, and how many were refused. */
struct counts {
    _Atomic uint64_t growths;
    _Atomic uint64_t refused;
};

static struct counts unseen;
static struct counts *counts = &unseen;
static uint64_t refused_at, refused_from;

/* Where the program's own code lies. Nothing is counted before this is known. */
static uintptr_t code, code_end;

/* Whether the growth that returns to this address is refused. */
static int is_refused(const void *caller) {
    uintptr_t address = (uintptr_t)caller;
    if (address < code || address >= code_end)
        return 0;
    uint64_t n = atomic_fetch_add(&counts->growths, 1) + 1;
    if (n != refused_at && (refused_from == 0 || n < refused_from))
        return 0;
    atomic_fetch_add(&counts->refused, 1);
    errno = ENOMEM;
    return 1;
}

void *malloc(size_t size) {
    return is_refused(__builtin_return_address(0)) ? NULL : __libc_malloc(size);
}

void *realloc(void *block, size_t size) {
    return is_refused(__builtin_return_address(0)) ? NULL : __libc_realloc(block, size);
}

void *calloc(size_t count, size_t size) {
    return is_refused(__builtin_return_address(0)) ? NULL : __libc_calloc(count, size);
}

void *aligned_alloc(size_t alignment, size_t size) {
    return is_refused(__builtin_return_address(0)) ? NULL : __libc_memalign(alignment, size);
}

int posix_memalign(void **block, size_t alignment, size_t size) {
    void *made = is_refused(__builtin_return_address(0)) ? NULL : __libc_memalign(alignment, size);
    if (made == NULL)
        return ENOMEM;
    *block = made;
    return 0;
}

/* Finds the code of the first object, which is the program. */
static int find_code(struct dl_phdr_info *object, size_t size, void *unused) {
    (void)size, (void)unused;
    for (int i = 0; i < object->dlpi_phnum; i++) {
        const ElfW(Phdr) *part = &object->dlpi_phdr[i];
        if (part->p_type == PT_LOAD && (part->p_flags & PF_X)) {
            code = object->dlpi_addr + part->p_vaddr;
            code_end = code + part->p_memsz;
        }
    }
    return 1;
}

static uint64_t number(const char *name) {
    const char *text = getenv(name);
    return text == NULL ? 0 : strtoull(text, NULL, 10);
}

/* Lets the counts lie in the file, so that they are there however the program ends. */
static void count_into(const char *path) {
    int file = open(path, O_RDWR | O_CREAT | O_TRUNC, 0600);
    if (file < 0 || ftruncate(file, sizeof *counts) != 0)
        _exit(99);
    void *shared = mmap(NULL, sizeof *counts, PROT_READ | PROT_WRITE, MAP_SHARED, file, 0);
    if (shared == MAP_FAILED)
        _exit(99);
    counts = shared;
    close(file);
}

__attribute__((constructor)) static void start(void) {
    const char *path = getenv("GROWTHS_INTO");
    refused_at = number("GROWTHS_AT");
    refused_from = number("GROWTHS_FROM");
    if (path != NULL)
        count_into(path);
    dl_iterate_phdr(find_code, NULL);
}
