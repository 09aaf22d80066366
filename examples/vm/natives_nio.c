/* Native methods of sun.nio.fs and sun.nio.ch: as much as programs of files want. */
#include "vm.h"
#include <dirent.h>
#include <errno.h>
#include <fcntl.h>
#include <sys/stat.h>
#include <unistd.h>

static Slot io_error(void) { return throw_new("java/io/IOException", "%s", strerror(errno)); }

/* ---- sun.nio.fs.UnixNativeDispatcher: paths come as addresses of texts */

#define TEXT(index) ((const char *)(intptr_t)args[index].j)

static Slot unix_error(void) {
    Class *cls = boot_class("sun/nio/fs/UnixException");
    if (!init_class(cls)) return NOTHING;
    Object *made = new_object(cls);
    Slot list[2] = {of_ref(made), of_int(errno)};
    invoke(declared(cls, "<init>", "(I)V"), list, 2);
    return throw_object(made);
}

static Slot give_attributes(const struct stat *info, Object *to) {
    set_field(to, "st_mode", NULL, of_int((int32_t)info->st_mode));
    set_field(to, "st_ino", NULL, of_long((int64_t)info->st_ino));
    set_field(to, "st_dev", NULL, of_long((int64_t)info->st_dev));
    set_field(to, "st_rdev", NULL, of_long((int64_t)info->st_rdev));
    set_field(to, "st_nlink", NULL, of_int((int32_t)info->st_nlink));
    set_field(to, "st_uid", NULL, of_int((int32_t)info->st_uid));
    set_field(to, "st_gid", NULL, of_int((int32_t)info->st_gid));
    set_field(to, "st_size", NULL, of_long(info->st_size));
    set_field(to, "st_atime_sec", NULL, of_long(info->st_atim.tv_sec));
    set_field(to, "st_atime_nsec", NULL, of_long(info->st_atim.tv_nsec));
    set_field(to, "st_mtime_sec", NULL, of_long(info->st_mtim.tv_sec));
    set_field(to, "st_mtime_nsec", NULL, of_long(info->st_mtim.tv_nsec));
    set_field(to, "st_ctime_sec", NULL, of_long(info->st_ctim.tv_sec));
    set_field(to, "st_ctime_nsec", NULL, of_long(info->st_ctim.tv_nsec));
    return NOTHING;
}

static Object *bytes_of(const char *text) {
    Object *bytes = new_array(vm.arrays['B'], (int32_t)strlen(text));
    memcpy(DATA(bytes, char), text, strlen(text));
    return bytes;
}

NATIVE(nio_stat) { struct stat info; return stat(TEXT(0), &info) ? unix_error() : give_attributes(&info, args[2].a); }
NATIVE(nio_lstat) { struct stat info; return lstat(TEXT(0), &info) ? unix_error() : give_attributes(&info, args[2].a); }
NATIVE(nio_fstat) { struct stat info; return fstat(args[0].i, &info) ? unix_error() : give_attributes(&info, args[1].a); }
NATIVE(nio_stat1) { struct stat info; return of_int(stat(TEXT(0), &info) ? 0 : (int32_t)info.st_mode); }
NATIVE(nio_exists) { return of_int(!access(TEXT(0), F_OK)); }
NATIVE(nio_access) { return access(TEXT(0), args[2].i) ? unix_error() : NOTHING; }
NATIVE(nio_cwd) { char path[4096]; return getcwd(path, sizeof path) ? of_ref(bytes_of(path)) : unix_error(); }
NATIVE(nio_open) { int fd = open(TEXT(0), args[2].i, args[3].i); return fd < 0 ? unix_error() : of_int(fd); }
NATIVE(nio_close) { close(args[0].i); return NOTHING; }
NATIVE(nio_mkdir) { return mkdir(TEXT(0), (mode_t)args[2].i) ? unix_error() : NOTHING; }
NATIVE(nio_unlink) { return unlink(TEXT(0)) ? unix_error() : NOTHING; }
NATIVE(nio_rmdir) { return rmdir(TEXT(0)) ? unix_error() : NOTHING; }
NATIVE(nio_rename) { return rename(TEXT(0), TEXT(2)) ? unix_error() : NOTHING; }
NATIVE(nio_realpath) { char *path = realpath(TEXT(0), NULL); return path ? of_ref(bytes_of(path)) : unix_error(); }
NATIVE(nio_opendir) { DIR *folder = opendir(TEXT(0)); return folder ? of_long((int64_t)(intptr_t)folder) : unix_error(); }
NATIVE(nio_closedir) { closedir((DIR *)(intptr_t)args[0].j); return NOTHING; }
NATIVE(nio_readdir) {
    struct dirent *one = readdir((DIR *)(intptr_t)args[0].j);
    return of_ref(one ? bytes_of(one->d_name) : NULL);
}
NATIVE(nio_error_text) { return of_ref(bytes_of(strerror(args[0].i))); }
NATIVE(nio_init) { return of_int(0); }

/* ---- sun.nio.ch: a descriptor, an address, a length */

static int raw_fd(Object *descriptor) { return get_field(descriptor, "fd", "I").i; }
NATIVE(ch_read) {
    ssize_t got = read(raw_fd(args[0].a), (void *)(intptr_t)args[1].j, (size_t)args[3].i);
    return got < 0 ? io_error() : of_int(got == 0 ? -1 : (int32_t)got);
}
NATIVE(ch_write) {
    ssize_t put = write(raw_fd(args[0].a), (void *)(intptr_t)args[1].j, (size_t)args[3].i);
    return put < 0 ? io_error() : of_int((int32_t)put);
}
NATIVE(ch_size) { struct stat info; return fstat(raw_fd(args[0].a), &info) ? io_error() : of_long(info.st_size); }
NATIVE(ch_seek) { return of_long(args[1].j < 0 ? lseek(raw_fd(args[0].a), 0, SEEK_CUR) : lseek(raw_fd(args[0].a), args[1].j, SEEK_SET)); }
NATIVE(ch_close) { close(raw_fd(args[0].a)); return NOTHING; }
NATIVE(ch_close_int) { close(args[0].i); return NOTHING; }
NATIVE(ch_set_fd) { set_field(args[0].a, "fd", "I", args[1]); return NOTHING; }
NATIVE(ch_fd) { return get_field(args[0].a, "fd", "I"); }
NATIVE(ch_zero) { return of_int(0); }
NATIVE(ch_iov) { return of_int(16); }
NATIVE(ch_thread) { return of_long(0); }

#define NIO "sun/nio/fs/UnixNativeDispatcher"

const NativeRow nio_natives[] = {
    {NIO, "init", NULL, nio_init}, {NIO, "stat0", NULL, nio_stat}, {NIO, "lstat0", NULL, nio_lstat}, {NIO, "fstat", NULL, nio_fstat},
    {NIO, "stat1", NULL, nio_stat1}, {NIO, "exists0", NULL, nio_exists}, {NIO, "access0", NULL, nio_access}, {NIO, "getcwd", NULL, nio_cwd},
    {NIO, "open0", NULL, nio_open}, {NIO, "close0", NULL, nio_close}, {NIO, "mkdir0", NULL, nio_mkdir}, {NIO, "unlink0", NULL, nio_unlink},
    {NIO, "rmdir0", NULL, nio_rmdir}, {NIO, "rename0", NULL, nio_rename}, {NIO, "realpath0", NULL, nio_realpath},
    {NIO, "opendir0", NULL, nio_opendir}, {NIO, "closedir", NULL, nio_closedir}, {NIO, "readdir", NULL, nio_readdir},
    {NIO, "strerror", NULL, nio_error_text}, {"sun/nio/fs/LinuxNativeDispatcher", "init", NULL, nio_init},
    {"sun/nio/ch/FileDispatcherImpl", "read0", NULL, ch_read}, {"sun/nio/ch/FileDispatcherImpl", "write0", NULL, ch_write},
    {"sun/nio/ch/FileDispatcherImpl", "size0", NULL, ch_size}, {"sun/nio/ch/FileDispatcherImpl", "seek0", NULL, ch_seek},
    {"sun/nio/ch/FileDispatcherImpl", "close0", NULL, ch_close}, {"sun/nio/ch/FileDispatcherImpl", "closeIntFD", NULL, ch_close_int},
    {"sun/nio/ch/FileDispatcherImpl", "setDirect0", NULL, ch_zero}, {"sun/nio/ch/FileDispatcherImpl", "truncate0", NULL, ch_zero},
    {"sun/nio/ch/FileDispatcherImpl", "force0", NULL, ch_zero}, {"sun/nio/ch/IOUtil", "setfdVal", NULL, ch_set_fd},
    {"sun/nio/ch/IOUtil", "fdVal", NULL, ch_fd}, {"sun/nio/ch/IOUtil", "iovMax", NULL, ch_iov}, {"sun/nio/ch/IOUtil", "initIDs", NULL, ch_zero},
    {"sun/nio/ch/FileChannelImpl", "initIDs", NULL, ch_thread}, {"sun/nio/ch/FileChannelImpl", "maxDirectTransferSize0", NULL, ch_iov},
    {"sun/nio/ch/NativeThread", "current", NULL, ch_thread}, {"sun/nio/ch/NativeThread", "signal", NULL, ch_zero},
    {NULL, NULL, NULL, NULL}};
