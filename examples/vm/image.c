/* The file lib/modules of a JDK, which has its classes (jdk.internal.jimage): a table, by a perfect hash of names, of where each lies. */
#include "vm.h"
#include <fcntl.h>
#include <sys/mman.h>
#include <sys/stat.h>
#include <unistd.h>

enum { MAGIC = 0xcafedada, HASH_MULTIPLIER = 0x01000193, HEADER_SIZE = 28 };
enum attribute { END, MODULE, PARENT, BASE, EXTENSION, OFFSET, COMPRESSED, UNCOMPRESSED, ATTRIBUTES };

typedef struct Image {
    const uint8_t *at;
    size_t size;
    uint32_t length; /* of the tables */
    const int32_t *redirect;
    const uint32_t *offsets;
    const uint8_t *locations, *resources;
    const char *strings;
} Image;

static Image image;

static uint32_t hash_name(const char *name, uint32_t seed) {
    for (; *name; name++) seed = (seed * HASH_MULTIPLIER) ^ (uint8_t)*name;
    return seed & 0x7fffffff;
}

static __attribute__((noreturn)) void refuse(const char *path, const char *why) {
    fprintf(stderr, "vm: %s: %s\n", path, why);
    exit(2);
}

void image_open(const char *java_home) {
    char path[4096];
    struct stat info;
    snprintf(path, sizeof path, "%s/lib/modules", java_home);
    int fd = open(path, O_RDONLY);
    if (fd < 0 || fstat(fd, &info)) refuse(path, "isn't there: set JAVA_HOME to a JDK 17");
    image.size = (size_t)info.st_size;
    image.at = mmap(NULL, image.size, PROT_READ, MAP_PRIVATE, fd, 0);
    close(fd);
    if (image.at == MAP_FAILED || image.size < HEADER_SIZE) refuse(path, "can't be read");
    const uint32_t *header = (const uint32_t *)image.at;
    if (header[0] != MAGIC) refuse(path, "is no image of this byte order");
    image.length = header[4];
    image.redirect = (const int32_t *)(image.at + HEADER_SIZE);
    image.offsets = (const uint32_t *)(image.redirect + image.length);
    image.locations = (const uint8_t *)(image.offsets + image.length);
    image.strings = (const char *)(image.locations + header[5]);
    image.resources = (const uint8_t *)image.strings + header[6];
}

static void read_location(const uint8_t *at, uint64_t *attributes) {
    memset(attributes, 0, ATTRIBUTES * sizeof *attributes);
    while (*at >> 3 != END) {
        int kind = *at >> 3, length = (*at & 7) + 1;
        at++;
        for (; length > 0; length--) attributes[kind] = attributes[kind] << 8 | *at++;
    }
}

/* The whole name is /module/parent/base.extension, without what is empty. */
static bool has_name(const uint64_t *attributes, const char *name) {
    static const struct { enum attribute which; const char *before, *after; } parts[] = {
        {MODULE, "/", "/"}, {PARENT, "", "/"}, {BASE, "", ""}, {EXTENSION, ".", ""}};
    for (int i = 0; i < 4; i++) {
        const char *text = image.strings + attributes[parts[i].which];
        if (!*text) continue;
        for (int piece = 0; piece < 3; piece++) {
            const char *one = piece == 0 ? parts[i].before : piece == 1 ? text : parts[i].after;
            size_t length = strlen(one);
            if (strncmp(name, one, length)) return false;
            name += length;
        }
    }
    return !*name;
}

static bool find(const char *name, Bytes *bytes) {
    uint64_t attributes[ATTRIBUTES];
    int32_t value = image.redirect[hash_name(name, HASH_MULTIPLIER) % image.length];
    if (value == 0) return false;
    uint32_t index = value < 0 ? (uint32_t)(-1 - value) : hash_name(name, (uint32_t)value) % image.length;
    read_location(image.locations + image.offsets[index], attributes);
    if (!has_name(attributes, name)) return false;
    if (attributes[COMPRESSED]) refuse(name, "is compressed");
    *bytes = (Bytes){image.resources + attributes[OFFSET], (uint32_t)attributes[UNCOMPRESSED]};
    return true;
}

/* The module that has classes in the package: a row is whether it has none, and its name. */
static const char *module_of(const char *class_name) {
    char name[1100];
    Bytes rows;
    const char *end = strrchr(class_name, '/');
    snprintf(name, sizeof name, "/packages/%.*s", end ? (int)(end - class_name) : 0, class_name);
    for (char *at = name + 10; *at; at++)
        if (*at == '/') *at = '.';
    if (!end || !find(name, &rows)) return NULL;
    for (uint32_t at = 0; at + 8 <= rows.length; at += 8) {
        uint32_t row[2];
        memcpy(row, rows.at + at, sizeof row);
        if (!row[0]) return image.strings + row[1];
    }
    return NULL;
}

Bytes image_bytes(void) { return (Bytes){image.at, (uint32_t)image.size}; }

bool image_find(const char *class_name, Bytes *file) {
    char name[2200];
    Bytes bytes;
    const char *module = strlen(class_name) < 1000 ? module_of(class_name) : NULL;
    snprintf(name, sizeof name, "/%s/%s.class", module ? module : "", class_name);
    if (!module || !find(name, &bytes)) return false;
    uint8_t *copy = malloc(bytes.length + 1);
    memcpy(copy, bytes.at, bytes.length);
    *file = (Bytes){copy, bytes.length};
    return true;
}
