/* The launcher's nodes: the files that stand for controllers and namespaces, which follow the answers of the devices,
   and the data of namespaces, which no device stores. The file with a namespace's data is its node, under the name of
   each controller to which it is attached. At first it is a hole as long as the namespace, in the memory of /dev. None
   of this is proved. */
#include "launcher.h"
#include <grp.h>
#include <sys/inotify.h>

enum { MOST_NAME = 40 };

static const struct group *disk; /* to which root's block devices belong, as on Linux */

/* Whether each controller shows the namespace with an NSID. */
static unsigned char (*shown)[MOST_NSID + 1];

struct device *device_of(unsigned controller) {
    struct device *device = devices;
    while (controller >= device->first + device->count)
        device++;
    return device;
}

static struct volume *volume_at(unsigned controller, uint32_t nsid) { return &device_of(controller)->volumes[nsid]; }

struct volume *volume_of(const struct node *node) { return volume_at(node->controller, node->nsid); }

int is_shown(unsigned controller, uint32_t nsid) { return shown[controller][nsid]; }

/* (it may change meanwhile) */
int read_volume(const struct node *node, struct volume *volume) {
    const struct volume *now = volume_of(node);
    *volume = *now;
    return volume->power != 0 && __atomic_load_n(&now->power, __ATOMIC_SEQ_CST) == volume->power;
}

/* ---- names */

static void print_path(char path[MOST_NAME], char kind, unsigned controller, unsigned number) {
    int length = snprintf(path, MOST_NAME, "/dev/%s%u", kind == 'g' ? "ng" : "nvme", controller);
    if (number != 0)
        snprintf(path + length, MOST_NAME - (size_t)length, "n%u", number);
}

/* Prints the path of a node, and returns whether it is there. (What the command has put there is another file.) */
static int find_node_at(char path[MOST_NAME], char kind, unsigned controller, uint32_t nsid) {
    const struct volume *volume = volume_at(controller, nsid);
    struct stat about;
    print_path(path, kind, controller, volume->number);
    return lstat(path, &about) == 0 &&
           (kind == 'c' || about.st_ino == (kind == 'b' ? volume->inode : volume->generic_inode));
}

int find_namespace(struct node *node) {
    node->nsid = device_of(node->controller)->named[node->number];
    return node->nsid != 0 && is_shown(node->controller, node->nsid);
}

/* (the kernel adds a word to the name of a file that was removed) */
int read_name(const char *name, struct node *node) {
    char path[MOST_NAME], *const own = path + strlen("/dev/");
    const struct device *last = devices + device_count - 1;
    *node = (struct node){.kind = name[0] == 'n' && name[1] == 'g' ? 'g' : 'c'};
    int count = sscanf(name, node->kind == 'g' ? "ng%un%u" : "nvme%un%u", &node->controller, &node->number);
    if (count < 1 || (count < 2 && node->kind == 'g') || node->controller >= last->first + last->count ||
        node->number > MOST_NSID)
        return NO_NODE;
    node->kind = count == 2 && node->kind == 'c' ? 'b' : node->kind;
    print_path(path, node->kind, node->controller, node->number);
    int is_there = find_namespace(node) || node->number == 0;
    if (strcmp(name, own) == 0)
        return is_there ? IS_NODE : NO_NODE;
    return strcmp(name, strcat(own, " (deleted)")) == 0 ? WAS_NODE : NO_NODE;
}

/* ---- numbers: that of a node that has gone isn't free as long as a process has its file open */

static struct volume gone[MOST_NSID + 1]; /* the files that the last nodes of each number had (in a keeper) */

/* Whether no process has a file open that has gone, which is then closed here too. (The kernel gives a lease of such a
   one alone.) */
static int is_closed(int *file) {
    if (*file > 0 && fcntl(*file, F_SETLEASE, F_WRLCK) == 0) {
        close(*file);
        *file = 0;
    }
    return *file <= 0;
}

/* Gives a namespace that comes the lowest number of its subsystem that is free. */
static void take_number(unsigned controller, uint32_t nsid) {
    struct volume *volume = volume_at(controller, nsid);
    uint16_t *nsids = device_of(controller)->named;
    for (unsigned number = 1; volume->number == 0 && number <= MOST_NSID; number++)
        if (nsids[number] == 0 && is_closed(&gone[number].file) && is_closed(&gone[number].generic)) {
            nsids[number] = (uint16_t)nsid;
            volume->number = number;
        }
    if (volume->number == 0)
        cannot("/dev: a namespace can't have nodes, because others that have gone are open");
}

/* ---- data */

/* Returns the length of a namespace's data, which is no greater than a file can be, and 0 if it isn't known. */
static off_t length_of(const struct volume *volume) {
    uint64_t most = (uint64_t)INT64_MAX >> volume->power, blocks = volume->power != 0 ? volume->blocks : 0;
    return (off_t)((blocks < most ? blocks : most) << volume->power);
}

/* (by its path, because a process that began before the file was made doesn't have it) */
int open_data(const struct node *node) {
    char path[MOST_NAME];
    if (!is_shown(node->controller, node->nsid) || !find_node_at(path, 'b', node->controller, node->nsid))
        return -1;
    return open(path, O_RDWR | O_NOFOLLOW | O_NONBLOCK | O_CLOEXEC);
}

static void set_length(const struct volume *volume) {
    if (volume->file > 0 && ftruncate(volume->file, length_of(volume)) < 0)
        cannot("/dev");
}

/* Moves data to another file, piece by piece. */
static void move_data(int from, int to) {
    static unsigned char piece[1 << 18];
    off_t at = 0;
    ssize_t count = 0;
    while ((at = lseek(from, at + count, SEEK_DATA)) >= 0) {
        count = pread(from, piece, sizeof piece, at);
        if (count <= 0 || fallocate(from, FALLOC_FL_PUNCH_HOLE | FALLOC_FL_KEEP_SIZE, at, count) < 0 ||
            pwrite(to, piece, (size_t)count, at) != count)
            break;
    }
}

/* Makes a file, which has no name until there are nodes. */
static int make_file(mode_t mode, ino_t *inode) {
    struct stat about = {.st_ino = 0};
    int file = open("/dev", O_TMPFILE | O_RDWR | O_CLOEXEC, mode);
    if (file < 0 || fstat(file, &about) < 0 ||
        (mode & S_IRGRP && disk && fchown(file, (uid_t)-1, disk->gr_gid) < 0 && errno != EPERM && errno != EINVAL))
        cannot("/dev");
    *inode = about.st_ino;
    return file;
}

/* Makes the files of a namespace. */
static void make_files(struct volume *volume) {
    volume->file = make_file(0660, &volume->inode);
    volume->generic = make_file(0600, &volume->generic_inode);
    volume->is_read_only = 0;
}

/* Leaves the files of a namespace without nodes, and moves its data to another one, because a file that lost all of its
   names gets none again. Who has the old one open finds its end at once. (The kernel gives a lease to an owner.) */
static void leave_files(unsigned controller, uint32_t nsid) {
    struct volume *volume = volume_at(controller, nsid), *left = &gone[volume->number];
    device_of(controller)->named[volume->number] = 0;
    *left = *volume;
    volume->file = volume->generic = 0;
    volume->number = 0;
    if (volume->power != 0) {
        make_files(volume);
        move_data(left->file, volume->file);
    }
    left->power = 0;
    set_length(left);
    if (geteuid() == 0 && (fchown(left->file, 0, (gid_t)-1) < 0 || fchown(left->generic, 0, (gid_t)-1) < 0))
        cannot("/dev");
}

/* ---- nodes */

/* Shows a namespace. (A node is another name of its file; what has the name of one is left alone.) */
static void put(unsigned controller, uint32_t nsid) {
    struct volume *volume = volume_at(controller, nsid);
    char path[MOST_NAME], file[32];
    if (volume->file <= 0)
        make_files(volume);
    set_length(volume);
    shown[controller][nsid] = 1;
    show(BLOCK, controller, nsid);
    show(GENERIC, controller, nsid);
    for (const char *kind = "gb"; *kind; kind++) {
        print_path(path, *kind, controller, volume->number);
        snprintf(file, sizeof file, "/proc/self/fd/%d", *kind == 'b' ? volume->file : volume->generic);
        if (linkat(AT_FDCWD, file, AT_FDCWD, path, AT_SYMLINK_FOLLOW) < 0)
            cannot(path);
    }
}

static void hide_namespace(unsigned controller, uint32_t nsid) {
    const struct device *device = device_of(controller);
    char path[MOST_NAME];
    for (const char *kind = "gb"; *kind; kind++)
        if (find_node_at(path, *kind, controller, nsid))
            unlink(path);
    hide(GENERIC, controller, nsid);
    hide(BLOCK, controller, nsid);
    shown[controller][nsid] = 0;
    for (unsigned at = device->first; at < device->first + device->count; at++)
        if (is_shown(at, nsid))
            return;
    leave_files(controller, nsid);
}

void lose_nodes(const struct device *device) {
    char path[MOST_NAME];
    for (unsigned controller = device->first; controller < device->first + device->count; controller++)
        for (uint32_t nsid = 0; nsid <= MOST_NSID; nsid++)
            for (const char *kind = nsid == 0 ? "c" : is_shown(controller, nsid) ? "gb" : ""; *kind; kind++)
                if (find_node_at(path, *kind, controller, nsid) && unlink(path) == 0 && mknod(path, LOST_NODE, 0) < 0)
                    cannot(path);
}

/* ---- what the devices tell */

/* What is asked of a controller: an opcode, or a kind of request that isn't an entry, times KIND. */
enum { KIND = 0x100, HEALTH_LOG = 127 << 16 | 0x02 };

/* Sends a request, and returns the length of the data that came, or -1. */
static int ask(unsigned controller, unsigned what, uint32_t nsid, uint32_t dword, void *data) {
    struct device *device = device_of(controller);
    struct request_header header = {.controller = (uint16_t)(controller - device->first),
                                    .kind = (uint16_t)(what / KIND),
                                    .length = IDENTIFY_BYTES};
    struct answer_header answer;
    header.entry[0] = (unsigned char)what;
    put_dword(header.entry + 4, nsid);
    put_dword(header.entry + 40, dword);
    return exchange(device, &header, data, &answer) == 0 && answer.status == 0 ? (int)answer.length : -1;
}

int identify(unsigned controller, uint32_t nsid, uint32_t cns, void *data) {
    return ask(controller, OPCODE_IDENTIFY, nsid, cns, data);
}

/* Finds out how long a namespace is, if this isn't known. */
static void measure(unsigned controller, uint32_t nsid) {
    unsigned char data[IDENTIFY_BYTES];
    struct volume *volume = volume_at(controller, nsid);
    if (volume->power != 0 || identify(controller, nsid, CNS_NAMESPACE, data) < 0)
        return;
    const unsigned char *format = data + 128 + 4 * (data[26] & 15);
    /* (as on Linux, a block device has no data between which there is metadata) */
    int is_mixed = data[26] & 16 && number_at(format, 2) != 0;
    volume->blocks = is_mixed ? 0 : number_at(data, 8);
    if (format[2] >= 9 && format[2] < 32)
        __atomic_store_n(&volume->power, format[2], __ATOMIC_SEQ_CST);
}

int list_active(unsigned controller, unsigned char is_active[MOST_NSID + 1]) {
    unsigned char list[IDENTIFY_BYTES];
    memset(is_active, 0, MOST_NSID + 1);
    int length = ask(controller, KIND * KIND_LIST, 0, 0, list);
    for (int at = 0; at < length; at += 4)
        is_active[number_at(list + at, 4) % (MOST_NSID + 1)] = 1;
    return length;
}

/* Gives a number to a namespace that comes to a controller. (If it has one without being known, its nodes are those of
   a namespace that was deleted.) */
static void come(unsigned controller, uint32_t nsid) {
    const struct device *device = device_of(controller);
    const struct volume *volume = volume_at(controller, nsid);
    for (unsigned at = device->first; at < device->first + device->count; at++)
        if (volume->power == 0 && is_shown(at, nsid))
            hide_namespace(at, nsid);
    measure(controller, nsid);
    if (volume->power != 0)
        take_number(controller, nsid);
}

/* Has the namespaces of a controller come and go. (As on Linux, one that comes has its number before those with a lower
   NSID go that follow the last one that is there.) */
static void come_and_go(unsigned controller, const unsigned char is_active[MOST_NSID + 1]) {
    for (uint32_t nsid = 1; nsid <= MOST_NSID; nsid++) {
        int goes = !is_active[nsid] && is_shown(controller, nsid);
        const unsigned char *next = memchr(is_active + nsid, 1, MOST_NSID + 1 - nsid);
        if (next && (goes || is_active[nsid]))
            come(controller, (uint32_t)(next - is_active));
        if (goes)
            hide_namespace(controller, nsid);
    }
}

/* (namespaces with one NSID are shown together, because their files of /sys have texts in common) */
static void scan(unsigned first, unsigned count) {
    static unsigned char is_active[MOST_CONTROLLERS][MOST_NSID + 1];
    for (unsigned controller = first; controller < first + count; controller++)
        if (list_active(controller, is_active[controller]) < 0)
            return;
    for (unsigned controller = first; controller < first + count; controller++)
        come_and_go(controller, is_active[controller]);
    for (uint32_t nsid = 1; nsid <= MOST_NSID; nsid++)
        for (unsigned controller = first; controller < first + count; controller++)
            if (is_active[controller][nsid] && !is_shown(controller, nsid) && volume_at(controller, nsid)->number != 0)
                put(controller, nsid);
    list_blocks();
}

/* Removes the data of a namespace that no longer exists, even for processes that have it open. (Its nodes stay until
   it is found that it has gone.) */
static void forget_namespace(unsigned controller, uint32_t nsid) {
    struct volume *volume = volume_at(controller, nsid);
    __atomic_store_n(&volume->power, 0, __ATOMIC_SEQ_CST);
    set_length(volume);
}

/* Shows a namespace as it is since it was formatted or made read-only. (The library sees by the mode of the file
   whether it may write.) */
static void show_anew(unsigned controller, uint32_t nsid) {
    const struct device *device = device_of(controller);
    const struct volume *volume = volume_at(controller, nsid);
    struct stat about;
    if (volume->file > 0 &&
        (fstat(volume->file, &about) < 0 ||
         fchmod(volume->file, (about.st_mode & 0777) | (volume->is_read_only ? READ_ONLY : 0)) < 0))
        cannot("/dev");
    for (unsigned at = device->first; at < device->first + device->count; at++)
        if (is_shown(at, nsid))
            show(BLOCK, at, nsid);
}

/* Clears the data of a formatted namespace, and makes it as long as the new format requires. */
static void clear_namespace(unsigned controller, uint32_t nsid) {
    const struct volume *volume = volume_at(controller, nsid);
    if (volume->power == 0)
        return;
    forget_namespace(controller, nsid);
    measure(controller, nsid);
    set_length(volume);
    show_anew(controller, nsid);
    list_blocks();
}

/* (a command for all namespaces formats those that are active on the controller) */
void look_for_changes(struct device *device, const struct request_header *request, const struct answer_header *answer) {
    const uint32_t nsid = (uint32_t)number_at(request->entry + 4, 4);
    const unsigned opcode = request->kind == KIND_ENTRY ? request->entry[0] : 0;
    const unsigned controller = device->first + request->controller;
    const int deletes = opcode == OPCODE_MANAGEMENT && request->entry[40] & 15;
    unsigned char is_active[MOST_NSID + 1] = {0};
    if (answer->outcome != 0 || answer->status != 0)
        return;
    if (opcode == OPCODE_FORMAT && nsid == EVERY_NSID)
        list_active(controller, is_active);
    if (request->kind == KIND_RESET)
        note_reset(controller);
    for (uint32_t at = 1; at <= MOST_NSID; at++)
        if (deletes && (at == nsid || nsid == EVERY_NSID))
            forget_namespace(controller, at);
        else if (opcode == OPCODE_FORMAT && (at == nsid || is_active[at]))
            clear_namespace(controller, at);
    if (request->kind == KIND_RESET || (!nodes_wait && (opcode == OPCODE_MANAGEMENT || opcode == OPCODE_ATTACHMENT)))
        scan(device->first, device->count);
}

/* ---- controllers */

/* (first the files that describe the controllers) */
void make_nodes(void) {
    const struct device *last = devices + device_count - 1;
    unsigned char log[IDENTIFY_BYTES];
    char path[MOST_NAME];
    disk = geteuid() == 0 ? getgrnam("disk") : NULL;
    shown = share(MOST_CONTROLLERS * sizeof *shown);
    for (unsigned at = 0; at < last->first + last->count; at++) {
        if (identify(at, 0, CNS_CONTROLLER, identities[at]) < 0)
            fail("the device does not answer as it should");
        for (enum part part = at == 0 ? TOP : SUBSYSTEM; part <= CONTROLLER; part++)
            show(part, at, 0);
        print_path(path, 'c', at, 0);
        if (mknod(path, S_IFREG | 0600, 0) < 0)
            cannot(path);
        if (ask(at, OPCODE_GET_LOG, EVERY_NSID, HEALTH_LOG, log) >= 0)
            show_health(at, log);
    }
    scan(0, last->first + last->count);
}

static int watcher; /* tells this keeper which nodes were written */

int watch_nodes(void) {
    watcher = inotify_init1(IN_CLOEXEC | IN_NONBLOCK);
    if (watcher < 0 || inotify_add_watch(watcher, "/dev", IN_CLOSE_WRITE) < 0)
        fail_by_errno("changes of nodes can't be watched (inotify)");
    return watcher;
}

/* Restores the length of a namespace's data, and tells what made it longer by a node that it has. */
static void repair(const struct device *device, uint32_t nsid) {
    const struct volume *volume = volume_at(device->first, nsid);
    unsigned controller = device->first;
    struct stat about;
    if (volume->file <= 0 || fstat(volume->file, &about) < 0 || about.st_size == length_of(volume))
        return;
    while (!is_shown(controller, nsid) && controller < device->first + device->count - 1)
        controller++;
    if (about.st_size > length_of(volume) && takes_line(STDERR_FILENO))
        fprintf(stderr, "nvme-model: /dev/nvme%un%u: what was written past the end is cut off; Linux would have "
                "refused it\n", controller, volume->number);
    set_length(volume);
}

/* (programs write what the library doesn't see, and close a file then) */
void repair_files(const struct device *device) {
    char events[4096];
    while (read(watcher, events, sizeof events) > 0)
        continue;
    for (uint32_t nsid = 1; nsid <= MOST_NSID; nsid++)
        repair(device, nsid);
}

int serve_keeper(struct device *device, const struct request_header *request) {
    if (request->kind == KIND_SCAN)
        scan(request->controller, request->length);
    else if (request->kind == KIND_SHOW)
        show_anew(device->first, request->length);
    else
        return NOT_OURS;
    return 0;
}
