/* The answers to calls that open files, change lengths or reach the caller's process group, and the tables of all calls
   that the filter (filter.c) decides about. Others than those on nodes, on files of /sys and on the group go to the
   kernel. None of this is proved. */
#include "launcher.h"
#include <dirent.h>
#include <linux/openat2.h>
#include <sched.h>
#include <sys/resource.h>
#include <sys/syscall.h>

/* ---- calls that open a file */

/* Whether a file of a procfs sets what is outside: the priority of the caller's session, or the machine's network. (Its
   mount may be a part of a procfs, which the caller's list of mounts tells. If it isn't in this list, files of the
   kernel are known by their numbers.) */
static int sets_outside(const struct call *call, int file, const char *link) {
    const unsigned first_of_kernel = 0xf0000000;
    char path[2 * PATH_MAX + 2], name[PATH_MAX], part[PATH_MAX] = "", *line = NULL;
    unsigned long long number = 0;
    size_t room = 0;
    const struct statx about = known_about(file, "");
    if (!is_in_proc(file))
        return 0;
    snprintf(path, sizeof path, "/proc/%d/mountinfo", call->process);
    FILE *mounts = fopen(path, "re");
    while (mounts && number != about.stx_mnt_id && getline(&line, &room, mounts) > 0)
        sscanf(line, "%llu %*d %*s %4095s", &number, part);
    free(line);
    if (mounts)
        fclose(mounts);
    read_link(link, name);
    snprintf(path, sizeof path, "%s%s/", part, name);
    return strstr(path, "/net/") || strstr(path, "/autogroup/") ||
           (number != about.stx_mnt_id && about.stx_ino >= first_of_kernel);
}

/* Resets a controller, or looks for its namespaces, because such a file of it is opened for writing. What is then
   written goes nowhere. */
static int open_attribute(const char *place, uint64_t flags) {
    unsigned controller;
    char name[PATH_MAX], what[16] = "";
    read_link(place, name);
    if (sscanf(name, "/sys/devices/pci%*x:%*x/%*[^/]/nvme/nvme%u/%15[a-z]_controller", &controller, what) != 2 ||
        (flags & O_ACCMODE) != O_WRONLY || faccessat(AT_FDCWD, place, W_OK, AT_EACCESS) < 0)
        return -EACCES;
    int result = ask_controller(controller, strcmp(what, "reset") == 0 ? KIND_RESET : KIND_SCAN, 1);
    if (result < 0)
        return result;
    int file = open("/dev/null", O_WRONLY | O_CLOEXEC);
    return file < 0 ? -errno : file;
}

/* Opens a character device, if the caller may open it so, but for reading, so that nobody writes to its file. (From the
   greatest offset, reads fail with EINVAL, as they should.) */
static int open_character(const char *place, uint64_t flags) {
    int as_asked = flags & O_DIRECT ? (errno = EINVAL, -1) : open(place, (int)flags | O_CLOEXEC, 0);
    int file = as_asked < 0 ? -1 : open(place, O_RDONLY | ((int)flags & O_NONBLOCK) | O_CLOEXEC);
    int error = errno;
    close(as_asked);
    lseek(file, INT64_MAX, SEEK_SET);
    return file < 0 ? -error : file;
}

/* Claims a block device for a file that is opened with O_EXCL, and returns 0, or an error's number as a negative one.
   (The file then has a lock of a byte after all data as long as it is open, and no other file may have one; of two that
   get theirs at once, maybe neither has claimed the device.) */
static int claim(const struct call *call, int file) {
    struct flock byte = {.l_start = (off_t)1 << 62 | call->node.controller, .l_len = 1};
    byte.l_type = (fcntl(file, F_GETFL) & O_ACCMODE) == O_RDONLY ? F_RDLCK : F_WRLCK;
    if (fcntl(file, F_OFD_SETLK, &byte) < 0)
        return -EBUSY;
    byte.l_type = F_WRLCK;
    return fcntl(file, F_OFD_GETLK, &byte) == 0 && byte.l_type == F_UNLCK ? 0 : -EBUSY;
}

/* Opens a node as the caller could, but doesn't truncate it. (Linux 6.6 and later open files in memory for direct
   access. The library tells by this flag which writes fail. With O_TMPFILE, the C library wants a mode.) */
static int open_node(const struct call *call, const char *place, uint64_t flags) {
    const int left_out = O_CREAT | O_EXCL | O_TRUNC | O_NOFOLLOW | O_APPEND;
    const int changed = O_TRUNC | O_DIRECT | O_EXCL | O_APPEND;
    if (call->node.kind != 'b')
        return open_character(place, flags & ~left_out);
    if (!(flags & changed))
        return NOT_OURS;
    int file = open(place, ((int)flags & ~left_out) | O_CLOEXEC, 0);
    if (file < 0 && errno == EINVAL && flags & O_DIRECT)
        file = open(place, ((int)flags & ~(left_out | O_DIRECT)) | O_CLOEXEC, 0);
    if (file < 0)
        return -errno;
    int result = flags & O_EXCL ? claim(call, file) : 0;
    if (result == 0)
        return file;
    close(file);
    return result;
}

/* Answers a call that opens a file that was found, or that changes its length. The model's files of /sys can't be
   opened for writing, even by root, and a node isn't truncated. */
static int open_found(struct call *call, int file, uint64_t flags, int is_length) {
    char place[64], name[PATH_MAX];
    const struct statx about = known_about(file, "");
    snprintf(place, sizeof place, "/proc/self/fd/%d", file);
    if (about.stx_ino == 0 || S_ISDIR(about.stx_mode))
        return NOT_OURS;
    if (system_of(&about) == number_of(OF_SYS))
        return (flags & (O_ACCMODE | O_TRUNC)) == O_RDONLY ? NOT_OURS : open_attribute(place, flags);
    if (!S_ISREG(about.stx_mode))
        return NOT_OURS;
    if (system_of(&about) != number_of(OF_DEV))
        return sets_outside(call, file, place) ? -EACCES : NOT_OURS;
    read_link(place, name);
    if (strncmp(name, "/dev/", 5) != 0 || !read_name(name + 5, &call->node))
        return NOT_OURS;
    return is_length ? -EINVAL : open_node(call, place, flags);
}

/* Gives the process of a call a descriptor of a file, and returns that, or an error's number. (The file is closed here
   before the process goes on, so that its claim ends when the process closes it.) */
static int give_file(const struct call *call, int file, uint64_t flags) {
    struct seccomp_notif_addfd added = {
        .id = call->id, .srcfd = (uint32_t)file, .newfd_flags = (uint32_t)flags & O_CLOEXEC};
    int result = ioctl(call_listener, SECCOMP_IOCTL_NOTIF_ADDFD, &added);
    result = result < 0 ? -errno : result;
    close(file);
    return result;
}

/* Looks for the file at a path, from a folder. */
static int find_and_open(struct call *call, int folder, uint64_t path, const struct open_how *how, int is_length) {
    char text[PATH_MAX];
    if (copy_text(call, path, text) < 0 || how->flags & O_PATH)
        return NOT_OURS;
    int is_new = (how->flags & (O_CREAT | O_EXCL)) == (O_CREAT | O_EXCL);
    int file = is_new ? -1 : look_up(call, folder, text, how);
    if (file < 0 && how->flags & O_CREAT && !may_create(call, folder, text))
        return -EACCES;
    int result = file < 0 ? NOT_OURS : open_found(call, file, how->flags, is_length);
    close(file);
    return result < 0 ? result : give_file(call, result, how->flags);
}

static int answer_open(struct call *call, const __u64 *words) {
    return find_and_open(call, AT_FDCWD, words[0], &(struct open_how){.flags = (uint32_t)words[1]}, 0);
}

static int answer_openat(struct call *call, const __u64 *words) {
    return find_and_open(call, (int)words[0], words[1], &(struct open_how){.flags = (uint32_t)words[2]}, 0);
}

static int answer_creat(struct call *call, const __u64 *words) {
    return find_and_open(call, AT_FDCWD, words[0], &(struct open_how){.flags = O_WRONLY | O_CREAT | O_TRUNC}, 0);
}

/* (Linux refuses some structures, whatever the path) */
static int answer_openat2(struct call *call, const __u64 *words) {
    unsigned char room[PATH_MAX];
    struct open_how how;
    if (words[3] < sizeof how || words[3] > sizeof room || copy_in(call, words[2], room, words[3]) < 0 ||
        (syscall(SYS_openat2, -1, "", room, words[3]), errno != ENOENT))
        return NOT_OURS;
    memcpy(&how, room, sizeof how);
    return find_and_open(call, (int)words[0], words[1], &how, 0);
}

/* (what is opened for reading and writing acts on nothing) */
static int answer_truncate(struct call *call, const __u64 *words) {
    return find_and_open(call, AT_FDCWD, words[0], &(struct open_how){.flags = O_RDWR}, 1);
}

/* ---- calls that Linux refuses for a node, by its descriptor */

static int refuse_node(struct call *call, __u64 file, int error) {
    call->file = (int)file;
    return find_node(call) && !call->is_path ? error : NOT_OURS;
}

static int answer_ftruncate(struct call *call, const __u64 *words) { return refuse_node(call, words[0], -EINVAL); }
static int answer_splice(struct call *call, const __u64 *words) { return refuse_node(call, words[2], -EINVAL); }

static int answer_fallocate(struct call *call, const __u64 *words) {
    int is_hole = (words[1] & (FALLOC_FL_PUNCH_HOLE | FALLOC_FL_ZERO_RANGE)) != 0;
    return is_hole ? NOT_OURS : refuse_node(call, words[0], -ENODEV);
}

/* ---- calls to the caller's process group, if that began outside of the sandbox */

/* Returns the group of a process, which is 0 if the group began outside, or -1 if this can't be told, or if the
   launcher is the parent of the process, whose group will then be another one. */
static int group_of(pid_t process) {
    char text[512];
    int parent, group;
    const char *behind = strrchr(read_about(process, "stat", text, sizeof text), ')');
    return behind && sscanf(behind, ") %*c %d %d", &parent, &group) == 2 && parent > 1 ? group : -1;
}

/* Does to all processes of the caller's group that are in the sandbox what a call would do to the group. Its words are
   the number of a group, which is 0 for this one (in the 32 bits that Linux reads), and a value. */
static int to_group(const struct call *call, const __u64 *words, int (*act)(pid_t process, int value)) {
    int group = (int)words[0] == 0 ? group_of(call->process) : 1, result = -ESRCH;
    DIR *entries = group == 0 ? opendir("/proc") : NULL;
    struct dirent *entry;
    if (!entries)
        return group > 0 ? NOT_OURS : -EAGAIN;
    while ((entry = readdir(entries))) {
        pid_t process = atoi(entry->d_name);
        if (process <= 1 || group_of(process) != 0)
            continue;
        int error = act(process, (int)words[1]) < 0 ? -errno : 0;
        result = result == 0 ? 0 : error;
    }
    closedir(entries);
    return result;
}

static int set_priority(pid_t process, int value) { return setpriority(PRIO_PROCESS, (id_t)process, value); }

enum { ONE = 1, GROUP = 2 }; /* (of ioprio_set) */
static int set_io(pid_t process, int value) { return (int)syscall(SYS_ioprio_set, ONE, process, value); }

/* (a group with a number here has no process outside) */
static int answer_kill(struct call *call, const __u64 *words) { return to_group(call, words, kill); }
static int answer_priority(struct call *call, const __u64 *words) { return to_group(call, words + 1, set_priority); }
static int answer_io_priority(struct call *call, const __u64 *words) { return to_group(call, words + 1, set_io); }

/* ---- the tables */

enum { CHANGES = O_WRONLY | O_RDWR | O_TRUNC | O_DIRECT | O_EXCL, TO_GROUP = 4 };
enum { ANSWER = SECCOMP_RET_USER_NOTIF };
#define ERROR(number) (SECCOMP_RET_ERRNO | (number))

const struct decided_call decided_calls[] = {
#include "decided.h"
    {.action = 0}};

/* (the next header gives the same names the numbers that programs of 32 bits use) */
#include <asm/unistd_32.h>
const struct decided_call old_decided_calls[] = {
#include "decided.h"
    {.action = 0}};
