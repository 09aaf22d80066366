/* Native methods of java.io: streams, random access and the file system. */
#include "vm.h"
#include <dirent.h>
#include <errno.h>
#include <fcntl.h>
#include <sys/stat.h>
#include <unistd.h>


static int fd_of(Object *stream) {
    Object *descriptor = get_field(stream, "fd", "Ljava/io/FileDescriptor;").a;
    return descriptor ? get_field(descriptor, "fd", "I").i : -1;
}

static void set_fd(Object *stream, int fd) { set_field(get_field(stream, "fd", "Ljava/io/FileDescriptor;").a, "fd", "I", of_int(fd)); }

static Slot io_error(void) { return throw_new("java/io/IOException", "%s", strerror(errno)); }

NATIVE(handle_of) { return of_long(-1); }
NATIVE(append_of) { int flags = fcntl(args[0].i, F_GETFL); return of_int(flags > 0 && (flags & O_APPEND)); }
NATIVE(close_fd) {
    int fd = get_field(args[0].a, "fd", "I").i;
    set_field(args[0].a, "fd", "I", of_int(-1));
    if (fd > 2) close(fd);
    return NOTHING;
}

static Slot open_file(Object *stream, Object *name, int flags) {
    const char *path = text_of(name);
    struct stat info;
    int fd = open(path, flags, 0666);
    if (fd >= 0 && !fstat(fd, &info) && S_ISDIR(info.st_mode)) close(fd), fd = -1, errno = EISDIR;
    if (fd < 0) return throw_new("java/io/FileNotFoundException", "%s (%s)", path, strerror(errno));
    set_fd(stream, fd);
    return NOTHING;
}

NATIVE(open_in) { return open_file(args[0].a, args[1].a, O_RDONLY); }
NATIVE(open_out) { return open_file(args[0].a, args[1].a, O_WRONLY | O_CREAT | (args[2].i ? O_APPEND : O_TRUNC)); }
NATIVE(open_random) {
    int mode = args[2].i;
    return open_file(args[0].a, args[1].a, mode & 1 ? O_RDONLY : O_RDWR | O_CREAT);
}

/* Objects don't move, and the arguments keep the array. */
static ssize_t read_safe(int fd, void *to, size_t length) {
    enter_safe();
    ssize_t got = read(fd, to, length);
    int error = errno;
    leave_safe();
    errno = error;
    return got;
}

NATIVE(read_bytes) {
    if (!args[1].a) return throw_null();
    if (args[2].i < 0 || args[3].i < 0 || (int64_t)args[2].i + args[3].i > args[1].a->length)
        return throw_new("java/lang/IndexOutOfBoundsException", NULL);
    ssize_t got = args[3].i ? read_safe(fd_of(args[0].a), DATA(args[1].a, char) + args[2].i, (size_t)args[3].i) : 0;
    if (got < 0) return io_error();
    return of_int(got == 0 && args[3].i ? -1 : (int32_t)got);
}

NATIVE(read_one) {
    uint8_t byte;
    ssize_t got = read_safe(fd_of(args[0].a), &byte, 1);
    return got < 0 ? io_error() : of_int(got ? byte : -1);
}

static Slot write_all(int fd, const char *at, size_t length) {
    while (length > 0) {
        ssize_t done = write(fd, at, length);
        if (done < 0) return io_error();
        at += done;
        length -= (size_t)done;
    }
    return NOTHING;
}

NATIVE(write_bytes) {
    if (!args[1].a) return throw_null();
    if (args[2].i < 0 || args[3].i < 0 || (int64_t)args[2].i + args[3].i > args[1].a->length)
        return throw_new("java/lang/IndexOutOfBoundsException", NULL);
    return write_all(fd_of(args[0].a), DATA(args[1].a, char) + args[2].i, (size_t)args[3].i);
}

NATIVE(write_one) { char byte = (char)args[1].i; return write_all(fd_of(args[0].a), &byte, 1); }
NATIVE(file_length) { struct stat info; return fstat(fd_of(args[0].a), &info) ? io_error() : of_long(info.st_size); }
NATIVE(file_position) { return of_long(lseek(fd_of(args[0].a), 0, SEEK_CUR)); }
NATIVE(file_seek) { lseek(fd_of(args[0].a), args[1].j, SEEK_SET); return NOTHING; }
NATIVE(file_skip) {
    off_t before = lseek(fd_of(args[0].a), 0, SEEK_CUR), after = lseek(fd_of(args[0].a), args[1].j, SEEK_CUR);
    return before < 0 || after < 0 ? io_error() : of_long(after - before);
}
NATIVE(file_available) {
    struct stat info;
    int fd = fd_of(args[0].a);
    if (fstat(fd, &info) || !S_ISREG(info.st_mode)) return of_int(0);
    return of_int((int32_t)(info.st_size - lseek(fd, 0, SEEK_CUR)));
}

/* ---- java.io.UnixFileSystem: args are the file system, a file or a path */

static const char *path_of(Object *file) { return text_of(get_field(file, "path", NULL).a); }

NATIVE(attributes) {
    struct stat info;
    if (stat(path_of(args[1].a), &info)) return of_int(0);
    return of_int(1 | (S_ISREG(info.st_mode) ? 2 : 0) | (S_ISDIR(info.st_mode) ? 4 : 0));
}
NATIVE(check_access) {
    int mode = (args[2].i & 4 ? R_OK : 0) | (args[2].i & 2 ? W_OK : 0) | (args[2].i & 1 ? X_OK : 0);
    return of_int(!access(path_of(args[1].a), mode));
}
NATIVE(last_modified) {
    struct stat info;
    if (stat(path_of(args[1].a), &info)) return of_long(0);
    return of_long(info.st_mtim.tv_sec * 1000 + info.st_mtim.tv_nsec / 1000000);
}
NATIVE(length_of) { struct stat info; return of_long(stat(path_of(args[1].a), &info) ? 0 : info.st_size); }
NATIVE(canonical) {
    char *path = realpath(text_of(args[1].a), NULL);
    return of_ref(path ? new_string(path) : args[1].a);
}
NATIVE(create_file) {
    int fd = open(text_of(args[1].a), O_RDWR | O_CREAT | O_EXCL, 0666);
    if (fd < 0) return errno == EEXIST ? of_int(0) : io_error();
    close(fd);
    return of_int(1);
}
NATIVE(delete_file) { return of_int(!remove(path_of(args[1].a))); }
NATIVE(make_folder) { return of_int(!mkdir(path_of(args[1].a), 0777)); }
NATIVE(rename_file) { return of_int(!rename(path_of(args[1].a), path_of(args[2].a))); }
NATIVE(list_folder) {
    DIR *folder = opendir(path_of(args[1].a));
    const char **names = NULL;
    int count = 0;
    if (!folder) return NOTHING;
    for (struct dirent *one; (one = readdir(folder));) {
        if (!strcmp(one->d_name, ".") || !strcmp(one->d_name, "..")) continue;
        names = realloc(names, (size_t)(count + 1) * sizeof *names);
        names[count++] = strdup(one->d_name);
    }
    closedir(folder);
    Object *list = new_array_of("[Ljava/lang/String;", count);
    for (int i = 0; i < count; i++) DATA(list, Object *)[i] = new_string(names[i]);
    free(names);
    return of_ref(list);
}

#define STREAM(cls) {cls, "readBytes", NULL, read_bytes}, {cls, "read0", NULL, read_one}
#define UNIX "java/io/UnixFileSystem"

const NativeRow file_natives[] = {
    {"java/io/FileDescriptor", "getHandle", NULL, handle_of}, {"java/io/FileDescriptor", "getAppend", NULL, append_of},
    {"java/io/FileDescriptor", "close0", NULL, close_fd}, {"java/io/FileDescriptor", "sync", NULL, native_nothing}, STREAM("java/io/FileInputStream"),
    STREAM("java/io/RandomAccessFile"), {"java/io/FileInputStream", "open0", NULL, open_in},
    {"java/io/FileInputStream", "length0", NULL, file_length}, {"java/io/FileInputStream", "position0", NULL, file_position},
    {"java/io/FileInputStream", "skip0", NULL, file_skip}, {"java/io/FileInputStream", "available0", NULL, file_available},
    {"java/io/FileOutputStream", "open0", NULL, open_out}, {"java/io/FileOutputStream", "write", "(IZ)V", write_one},
    {"java/io/FileOutputStream", "writeBytes", NULL, write_bytes}, {"java/io/RandomAccessFile", "open0", NULL, open_random},
    {"java/io/RandomAccessFile", "write0", NULL, write_one}, {"java/io/RandomAccessFile", "writeBytes", NULL, write_bytes},
    {"java/io/RandomAccessFile", "getFilePointer", NULL, file_position}, {"java/io/RandomAccessFile", "seek0", NULL, file_seek},
    {"java/io/RandomAccessFile", "length", NULL, file_length}, {UNIX, "getBooleanAttributes0", NULL, attributes},
    {UNIX, "checkAccess", NULL, check_access}, {UNIX, "getLastModifiedTime", NULL, last_modified}, {UNIX, "getLength", NULL, length_of},
    {UNIX, "canonicalize0", NULL, canonical}, {UNIX, "createFileExclusively", NULL, create_file}, {UNIX, "delete0", NULL, delete_file},
    {UNIX, "createDirectory", NULL, make_folder}, {UNIX, "rename0", NULL, rename_file},
    {UNIX, "list", "(Ljava/io/File;)[Ljava/lang/String;", list_folder},
    {NULL, NULL, NULL, NULL}};
