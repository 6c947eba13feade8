/* Preloaded into a command. It makes the files that stand for nodes look like devices, and keeps itself in the programs
   that the command runs. The launcher says which node a file is (NODE_REQUEST), so no state is stored that a fork or a
   thread could break. A node's descriptor is its file's, so the kernel follows it through dup, fork and exec, and reads
   and writes go to the file. Everything else goes to the C library. None of this is proved. */
#define _GNU_SOURCE
#include "wire.h"
#include <dirent.h>
#include <dlfcn.h>
#include <errno.h>
#include <fcntl.h>
#include <linux/fs.h>
#include <spawn.h>
#include <stdarg.h>
#include <sys/stat.h>
#include <sys/sysmacros.h>
#include <sys/uio.h>
#include <unistd.h>

/* The C library's own call. */
#define NEXT(name)                                                                                                     \
    ({                                                                                                                 \
        static __typeof__(name) *next;                                                                                 \
        if (!next)                                                                                                     \
            next = (__typeof__(name) *)dlsym(RTLD_NEXT, #name);                                                        \
        next;                                                                                                          \
    })

/* The calls that replace those of the C library are visible from outside. SAME gives a call a second name, or its name
   to one of these whose words are others than the C library declares. (The compiler would believe that a path is never
   NULL, as is declared there, and that nothing calls what SAME alone names.) */
#define PUBLIC __attribute__((visibility("default")))
#define NAMED __attribute__((noipa, used)) static
#define SAME(name, as) __asm__(".globl " #name "\n.type " #name ", @function\n.set " #name ", " #as)

/* Each of these calls has a second name that ends with 64. */
static_assert(sizeof(struct stat) == sizeof(struct stat64) && O_LARGEFILE == 0, "files have 64-bit sizes");
__asm__(".irp name, stat, lstat, fstat, fstatat, __xstat, __lxstat, __fxstat, __fxstatat, readdir,"
        "pread, pwrite, pwritev, lseek, fallocate\n"
        ".globl \\name\\()64\n.type \\name\\()64, @function\n.set \\name\\()64, \\name\n.endr");

static struct stat dev; /* of /dev, where nodes are files */

__attribute__((constructor)) static void begin(void) { NEXT(fstatat)(AT_FDCWD, "/dev", &dev, 0); }

static int fails_by(int number) {
    errno = number;
    return -1;
}

/* Returns the kind of a node, 0 if a file is none, or -1 with ENXIO if its device is gone. (It is in /dev, or has no
   name any more.) */
static int look_at(int file, const struct stat *about, struct node *node) {
    int before = errno, result;
    if (!S_ISREG(about->st_mode) || (about->st_dev != dev.st_dev && about->st_nlink != 0))
        return 0;
    while ((result = NEXT(ioctl)(file, NODE_REQUEST, node)) < 0 && errno == EINTR)
        continue;
    if (result < 0 && errno == ENXIO)
        return -1;
    errno = before;
    return result == 0 ? node->kind : 0;
}

/* A shell gives its terminal back to the group that had it, even to one outside of the sandbox, which has no number. */
PUBLIC int tcsetpgrp(int file, pid_t group) {
    return NEXT(tcsetpgrp)(file, group) == 0 || (errno == ESRCH && group == 0) ? 0 : -1;
}

/* ---- calls that describe a file */

/* Describes a file as the device for which it stands, if it is a node, and returns what the call returns. */
static int describe(int file, struct stat *about) {
    struct node node;
    int kind = look_at(file, about, &node);
    if (kind <= 0)
        return kind;
    about->st_mode = (about->st_mode & 07777 & ~READ_ONLY) | (kind == 'b' ? S_IFBLK : S_IFCHR);
    about->st_rdev = makedev(major_of(node.kind), minor_of(node.kind, node.controller, node.number));
    about->st_size = about->st_blocks = 0;
    about->st_nlink = 1;
    return 0;
}

PUBLIC int fstat(int file, struct stat *about) { return NEXT(fstat)(file, about) < 0 ? -1 : describe(file, about); }

NAMED int describe_place(int directory, const char *path, struct stat *about, int flags) {
    if (flags & AT_EMPTY_PATH && (!path || !*path) && directory != AT_FDCWD)
        return fstat(directory, about);
    int result = NEXT(fstatat)(directory, path, about, flags), follows = flags & AT_SYMLINK_NOFOLLOW ? O_NOFOLLOW : 0;
    if (result == 0 && about->st_dev == dev.st_dev && about->st_mode == LOST_NODE)
        return fails_by(ENXIO);
    if (result < 0 || !S_ISREG(about->st_mode) || about->st_dev != dev.st_dev)
        return result;
    int file = NEXT(openat)(directory, path, O_PATH | O_CLOEXEC | follows);
    if (file < 0)
        return -1;
    result = describe(file, about);
    close(file);
    return result;
}
SAME(fstatat, describe_place);

PUBLIC int stat(const char *path, struct stat *about) { return describe_place(AT_FDCWD, path, about, 0); }
PUBLIC int lstat(const char *path, struct stat *about) { return fstatat(AT_FDCWD, path, about, AT_SYMLINK_NOFOLLOW); }

PUBLIC int statx(int directory, const char *path, int flags, unsigned mask, struct statx *about) {
    struct stat basic;
    int result = NEXT(statx)(directory, path, flags, mask | STATX_TYPE, about);
    if (result < 0 || (!S_ISREG(about->stx_mode) && !S_ISSOCK(about->stx_mode)))
        return result;
    if (fstatat(directory, path, &basic, flags & (AT_EMPTY_PATH | AT_SYMLINK_NOFOLLOW)) < 0)
        return -1;
    about->stx_mode = (uint16_t)basic.st_mode;
    about->stx_rdev_major = major(basic.st_rdev);
    about->stx_rdev_minor = minor(basic.st_rdev);
    about->stx_size = (uint64_t)basic.st_size;
    about->stx_blocks = (uint64_t)basic.st_blocks;
    about->stx_nlink = (uint32_t)basic.st_nlink;
    return 0;
}

/* Calls of programs that were built for older versions of the C library. */
PUBLIC int __xstat(int version, const char *path, struct stat *about) { return (void)version, stat(path, about); }
PUBLIC int __lxstat(int version, const char *path, struct stat *about) { return (void)version, lstat(path, about); }
PUBLIC int __fxstat(int version, int file, struct stat *about) { return (void)version, fstat(file, about); }
PUBLIC int __fxstatat(int version, int directory, const char *path, struct stat *about, int flags) {
    return (void)version, fstatat(directory, path, about, flags);
}

/* (the entry of a folder says that a node is a file, while `stat` says that it is a device) */
PUBLIC struct dirent *readdir(DIR *directory) {
    struct dirent *entry = NEXT(readdir)(directory);
    struct stat about;
    if (entry && entry->d_type == DT_REG && NEXT(fstat)(dirfd(directory), &about) == 0 &&
        about.st_dev == dev.st_dev)
        entry->d_type = DT_UNKNOWN;
    return entry;
}

/* ---- calls that write: a namespace's block device doesn't grow, so a write stops at its end, and a write after the
   end finds no space; a character device takes no bytes */

/* Returns the same, with what the file is. (The number of the last block device's file is stored. No other file gets
   it.) */
static int kind_of(int file, struct stat *about) {
    static _Atomic ino_t known;
    struct node node;
    if (NEXT(fstat)(file, about) < 0)
        return 0;
    int is_known = about->st_dev == dev.st_dev && about->st_ino == known;
    int kind = is_known ? 'b' : look_at(file, about, &node);
    if (kind == 'b' && about->st_dev == dev.st_dev)
        known = about->st_ino;
    return kind;
}

/* Writes to a node what is before its end: all pieces, or a part of the first one, because a write may be short. (The
   place -1 is the offset. If F_SETFL has set O_APPEND, the kernel would write past the end. Linux takes direct writes
   of whole blocks, whose memory is at multiples of 4.) */
static ssize_t write_node(int kind, int file, const struct stat *about, const struct iovec *pieces, int count, off_t at,
                          int flags) {
    int how = fcntl(file, F_GETFL);
    unsigned block;
    if (kind < 0)
        return -1;
    /* (that of a character device is open for reading, and at the greatest offset if it was opened for writing) */
    int is_writable = kind == 'b' ? (how & O_ACCMODE) != O_RDONLY : NEXT(lseek)(file, 0, SEEK_CUR) == INT64_MAX;
    if (!is_writable)
        return fails_by(EBADF);
    if (kind != 'b' || about->st_mode & READ_ONLY)
        return fails_by(kind == 'b' ? EPERM : EINVAL);
    while (count > 1 && pieces->iov_len == 0)
        pieces++, count--;
    off_t from = how & O_APPEND ? about->st_size : at < 0 ? NEXT(lseek)(file, 0, SEEK_CUR) : at;
    off_t room = about->st_size - from;
    size_t length = 0, bits = (size_t)from;
    for (int place = 0; place < count; place++) {
        length += pieces[place].iov_len;
        bits |= pieces[place].iov_len | (uintptr_t)pieces[place].iov_base % 4;
    }
    if (length > 0 && room <= 0)
        return fails_by(ENOSPC);
    if (length > 0 && how & O_DIRECT && NEXT(ioctl)(file, BLKSSZGET, &block) == 0 && bits % block)
        return fails_by(EINVAL);
    struct iovec piece = *pieces;
    if (length <= (size_t)room)
        return NEXT(pwritev2)(file, pieces, count, at, flags);
    if (piece.iov_len > (size_t)room)
        piece.iov_len = (size_t)room;
    return NEXT(pwritev2)(file, &piece, 1, at, flags);
}

/* A call that writes these pieces, of which there is at least one. */
#define WRITES(name, parameters, pieces, count, at, flags, ...) \
    PUBLIC ssize_t name parameters { \
        struct stat about; \
        int kind = (count) < 1 || (at) < -1 ? 0 : kind_of(file, &about); \
        return kind == 0 ? NEXT(name)(__VA_ARGS__) : write_node(kind, file, &about, pieces, count, at, flags); \
    }
#define PIECE &(struct iovec){(void *)from, size}

WRITES(write, (int file, const void *from, size_t size), PIECE, 1, -1, 0, file, from, size)
WRITES(pwrite, (int file, const void *from, size_t size, off_t at), PIECE, 1, at < 0 ? -2 : at, 0, file, from, size, at)
WRITES(writev, (int file, const struct iovec *pieces, int count), pieces, count, -1, 0, file, pieces, count)
WRITES(pwritev, (int file, const struct iovec *pieces, int count, off_t at), pieces, count, at < 0 ? -2 : at, 0, file,
       pieces, count, at)
WRITES(pwritev2, (int file, const struct iovec *pieces, int count, off_t at, int flags), pieces, count, at, flags, file,
       pieces, count, at, flags)
SAME(pwritev64v2, pwritev2);

/* A call that reads. A character device has nothing to read, which is told only if nothing was read, because others are
   not to wait for this. */
#define READS(name, parameters, ...) \
    PUBLIC ssize_t name parameters { \
        struct stat about; \
        ssize_t count = NEXT(name)(__VA_ARGS__); \
        int kind = count == 0 ? kind_of(file, &about) : 0; \
        return kind == 'c' || kind == 'g' ? fails_by(EINVAL) : count; \
    }

READS(read, (int file, void *into, size_t size), file, into, size)
READS(__read_chk, (int file, void *into, size_t size, size_t room), file, into, size, room)
READS(pread, (int file, void *into, size_t size, off_t at), file, into, size, at)
READS(readv, (int file, const struct iovec *pieces, int number), file, pieces, number)

/* ---- other calls on a block device */

/* It has no places after its end, and no holes; a character device has none at all. */
PUBLIC off_t lseek(int file, off_t by, int from) {
    struct stat about;
    int kind = by > 0 || from != SEEK_SET ? kind_of(file, &about) : 0;
    if (kind == 'c' || kind == 'g')
        return fails_by(ESPIPE);
    off_t start = kind != 'b' || from == SEEK_SET ? 0 : from == SEEK_CUR ? NEXT(lseek)(file, 0, from) : about.st_size;
    if (kind == 'b' && (from > SEEK_END || (by > 0 && by > about.st_size - start)))
        return fails_by(EINVAL);
    return NEXT(lseek)(file, by, from);
}

/* If it has no data any more, because its controller was pulled out, nothing that was written is safe. */
#define SYNCS(name) \
    PUBLIC int name(int file) { \
        struct stat about; \
        int kind = kind_of(file, &about); \
        int is_safe = kind == 0 || (kind == 'b' && about.st_size > 0); \
        return is_safe ? NEXT(name)(file) : kind < 0 ? -1 : fails_by(kind == 'b' ? EIO : EINVAL); \
    }

SYNCS(fsync)
SYNCS(fdatasync)

/* It allocates nothing, and the launcher makes the zeros. (It also answers posix_fallocate.) */
PUBLIC int fallocate(int file, int mode, off_t from, off_t size) {
    const int punched = FALLOC_FL_PUNCH_HOLE | FALLOC_FL_KEEP_SIZE, kept = mode & FALLOC_FL_KEEP_SIZE;
    struct stat about;
    if (kind_of(file, &about) != 'b' || from < 0 || size <= 0)
        return NEXT(fallocate)(file, mode, from, size);
    if (mode != punched && mode != (FALLOC_FL_ZERO_RANGE | kept))
        return fails_by(EOPNOTSUPP);
    if (kept && size > about.st_size - from)
        size = about.st_size - from;
    return ioctl(file, BLKZEROOUT, (const uint64_t[]){(uint64_t)from, (uint64_t)size});
}

/* The launcher answers the ioctls of nodes (calls.c). If a signal came before it took one, nothing was done. Linux
   wouldn't interrupt it, so it is made again. Others would be answered as those of a file, as those of any file are. */
NAMED int answer(int file, unsigned long request, void *argument) {
    unsigned type = request >> 8 & 0xff;
    int is_answered = type == NVME_TYPE || type == BLOCK_TYPE || (uint32_t)request == GEOMETRY_REQUEST, result;
    int is_of_any = request == FIONBIO || request == FIOCLEX || request == FIONCLEX || request == FIOASYNC;
    struct stat about;
    if (!is_answered && !is_of_any && kind_of(file, &about) > 0)
        return fails_by(ENOTTY);
    while ((result = NEXT(ioctl)(file, request, argument)) < 0 && errno == EINTR && is_answered)
        continue;
    if (result < 0 && errno == OVERDUE && type == NVME_TYPE)
        errno = EINTR;
    return result;
}
SAME(ioctl, answer);

/* ---- calls that run programs: if the environment was replaced or emptied, the library is added to it again. All of it
   is on the stack, so a child that shares its parent's memory doesn't change that memory. */

#define PRELOAD "LD_PRELOAD="
#define LIBRARY MODEL_FOLDER "/library.so"

/* Counts the variables of an environment, and finds what it has preloaded. */
static size_t count_of(char *const *environment, const char **preloaded) {
    size_t count = 0;
    *preloaded = "";
    for (; environment && environment[count]; count++)
        if (strncmp(environment[count], PRELOAD, strlen(PRELOAD)) == 0)
            *preloaded = environment[count] + strlen(PRELOAD);
    return count;
}

/* Copies an environment, with the library before all other preloaded libraries. */
static void keep(char *const *from, const char *before, char **kept, char *preload) {
    sprintf(preload, PRELOAD "%s%s", strstr(before, LIBRARY) ? "" : LIBRARY ":", before);
    for (; from && *from; from++)
        if (strncmp(*from, PRELOAD, strlen(PRELOAD)) != 0)
            *kept++ = *from;
    *kept++ = preload;
    *kept = NULL;
}

#define KEEP(kept, from) \
    const char *before; \
    char *kept[count_of(from, &before) + 2], preload[sizeof PRELOAD + sizeof LIBRARY + strlen(before)]; \
    keep(from, before, kept, preload)

/* A call that goes to the C library with an environment that is kept. */
#define KEEPS(name, parameters, ...) \
    PUBLIC int name parameters { \
        KEEP(kept, environment); \
        return NEXT(name)(__VA_ARGS__); \
    }

KEEPS(execve, (const char *path, char *const words[], char *const environment[]), path, words, kept)
KEEPS(execvpe, (const char *file, char *const words[], char *const environment[]), file, words, kept)
KEEPS(fexecve, (int file, char *const words[], char *const environment[]), file, words, kept)
KEEPS(execveat, (int at, const char *path, char *const words[], char *const environment[], int flags), at, path, words,
      kept, flags)
KEEPS(posix_spawn, (pid_t *child, const char *path, const posix_spawn_file_actions_t *actions,
      const posix_spawnattr_t *how, char *const words[], char *const environment[]), child, path, actions, how, words,
      kept)
KEEPS(posix_spawnp, (pid_t *child, const char *file, const posix_spawn_file_actions_t *actions,
      const posix_spawnattr_t *how, char *const words[], char *const environment[]), child, file, actions, how, words,
      kept)
PUBLIC int execv(const char *path, char *const words[]) { return execve(path, words, environ); }
PUBLIC int execvp(const char *file, char *const words[]) { return execvpe(file, words, environ); }

/* A call whose words come one after another, with NULL at the end. One of them also takes the environment. */
#define TAKES(name, call, environment) \
    PUBLIC int name(const char *path, const char *first, ...) { \
        va_list rest; \
        size_t count = 1; \
        va_start(rest, first); \
        while (va_arg(rest, char *)) \
            count++; \
        va_end(rest); \
        char *words[count + 1]; \
        words[0] = (char *)first; \
        va_start(rest, first); \
        for (size_t at = 1; at <= count; at++) \
            words[at] = va_arg(rest, char *); \
        char *const *given = environment; \
        va_end(rest); \
        return call(path, words, given); \
    }

TAKES(execl, execve, environ)
TAKES(execlp, execvpe, environ)
TAKES(execle, execve, va_arg(rest, char *const *))

/* (programs that these calls run have the environment of this process) */
static void keep_here(void) {
    KEEP(kept, environ);
    setenv("LD_PRELOAD", preload + strlen(PRELOAD), 1);
}

PUBLIC int system(const char *line) { return keep_here(), NEXT(system)(line); }
PUBLIC FILE *popen(const char *line, const char *mode) { return keep_here(), NEXT(popen)(line, mode); }
