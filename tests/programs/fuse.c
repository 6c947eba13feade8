/* Mounts a file system of its own (FUSE) in a folder, and serves it until it is killed. It has the files that were made
   in it, and others that are told below. Before each answer, it opens a file outside for writing:
       fuse FOLDER FILE
   `hangs` never answers what is asked of it, and `memory` isn't readable until the end. Whoever asks for the owner of
   the folder hears of a user without a number, after which nobody may make files there, and whoever asks what file
   system this is hears nothing. The process that serves prints `ready`. */
#define _GNU_SOURCE
#include <errno.h>
#include <fcntl.h>
#include <linux/fuse.h>
#include <stdio.h>
#include <stdlib.h>
#include <string.h>
#include <sys/mount.h>
#include <sys/stat.h>
#include <sys/uio.h>
#include <unistd.h>

enum { MOST_FILES = 1000, ROOM = 1 << 18, TOP = 1, HANGS = 2, MEMORY = 3, FIRST = 4, WITHOUT_NUMBER = 54321 };

static char names[MOST_FILES][64];
static unsigned count = FIRST;
static int channel;

static void answer(uint64_t number, int error, const void *data, size_t size) {
    struct fuse_out_header header = {(uint32_t)(sizeof header + size), error, number};
    const struct iovec parts[] = {{&header, sizeof header}, {(void *)data, size}};
    (void)!writev(channel, parts, 2);
}

static struct fuse_attr about(uint64_t node) {
    return (struct fuse_attr){.ino = node,
                              .mode = node == TOP ? S_IFDIR | 0777 : S_IFREG | 0666,
                              .nlink = 1,
                              .uid = node == TOP ? WITHOUT_NUMBER : 0,
                              .size = node == MEMORY ? 1 << 20 : 0,
                              .blksize = 4096};
}

static uint64_t find(const char *name) {
    for (unsigned at = HANGS; at < count; at++)
        if (strcmp(names[at], name) == 0)
            return at;
    return 0;
}

static struct fuse_entry_out entry(uint64_t node) {
    return (struct fuse_entry_out){.nodeid = node, .attr = about(node)};
}

static void make(uint64_t number, const char *name) {
    struct {
        struct fuse_entry_out entry;
        struct fuse_open_out opened;
    } made = {.opened = {.fh = 1}};
    uint64_t node = find(name) ? find(name) : count;
    if (node == MOST_FILES)
        return answer(number, -ENOSPC, NULL, 0);
    if (node == count)
        snprintf(names[count++], sizeof names[0], "%s", name);
    made.entry = entry(node);
    answer(number, 0, &made, sizeof made);
}

/* Answers a request. (Those without an answer are left out.) */
static void serve(const struct fuse_in_header *in, const void *data) {
    const struct fuse_init_out init = {.major = 7, .minor = 31, .max_write = 65536, .max_readahead = 4096};
    const struct fuse_attr_out attributes = {.attr = about(in->nodeid)};
    const struct fuse_open_out opened = {.fh = 1};
    struct fuse_entry_out found;
    switch (in->opcode) {
    case FUSE_INIT:
        return answer(in->unique, 0, &init, sizeof init);
    case FUSE_GETATTR:
    case FUSE_SETATTR:
        return answer(in->unique, 0, &attributes, sizeof attributes);
    case FUSE_LOOKUP:
        found = entry(find(data));
        if (found.nodeid != HANGS)
            answer(in->unique, found.nodeid ? 0 : -ENOENT, &found, found.nodeid ? sizeof found : 0);
        return;
    case FUSE_CREATE:
        return make(in->unique, (const char *)data + sizeof(struct fuse_create_in));
    case FUSE_OPEN:
    case FUSE_OPENDIR:
        return answer(in->unique, 0, &opened, sizeof opened);
    case FUSE_WRITE:
        return answer(in->unique, 0, &(struct fuse_write_out){.size = ((const struct fuse_write_in *)data)->size},
                      sizeof(struct fuse_write_out));
    case FUSE_READ:
        if (in->nodeid != MEMORY)
            answer(in->unique, 0, NULL, 0);
        return;
    case FUSE_FLUSH:
    case FUSE_RELEASE:
    case FUSE_RELEASEDIR:
    case FUSE_FSYNC:
    case FUSE_ACCESS:
        return answer(in->unique, 0, NULL, 0);
    case FUSE_STATFS:
    case FUSE_FORGET:
    case FUSE_BATCH_FORGET:
    case FUSE_INTERRUPT:
        return;
    default:
        answer(in->unique, -ENOSYS, NULL, 0);
    }
}

int main(int words, char **arguments) {
    static char room[ROOM] __attribute__((aligned(8)));
    char options[128];
    strcpy(names[HANGS], "hangs");
    strcpy(names[MEMORY], "memory");
    channel = words == 3 ? open("/dev/fuse", O_RDWR | O_CLOEXEC) : -1;
    snprintf(options, sizeof options, "fd=%d,rootmode=40000,user_id=%u,group_id=%u", channel, getuid(), getgid());
    if (channel < 0 || mount("fuse", arguments[1], "fuse", MS_NOSUID | MS_NODEV, options) < 0) {
        perror("fuse");
        return 1;
    }
    pid_t server = fork();
    if (server != 0)
        return server < 0;
    dprintf(STDOUT_FILENO, "ready\n");
    for (;;) {
        ssize_t length = read(channel, room, sizeof room);
        if (length < 0 && errno != EINTR && errno != ENOENT && errno != EAGAIN)
            return 0;
        int file = open(arguments[2], O_WRONLY | O_APPEND);
        if (file >= 0)
            close(file);
        if (length >= (ssize_t)sizeof(struct fuse_in_header))
            serve((const struct fuse_in_header *)room, room + sizeof(struct fuse_in_header));
    }
}
