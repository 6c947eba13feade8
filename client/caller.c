/* The process that made a call, as a helper sees it: its identity, its memory, and what its paths lead to. All of this
   may take as long as that process lets it. None of this is proved. */
#include "launcher.h"
#include <grp.h>
#include <linux/capability.h>
#include <linux/magic.h>
#include <linux/openat2.h>
#include <sys/statfs.h>
#include <sys/syscall.h>
#include <sys/sysmacros.h>
#include <sys/uio.h>

/* ---- its identity */

enum { NOBODY = 65534, MOST_GROUPS = 65536, NO_USER = -1 };

/* What a process may do with files. */
struct identity {
    uint64_t rights; /* its capabilities, unless these are those of another user namespace */
    size_t count;    /* of its groups */
    uid_t user;
    gid_t group, groups[MOST_GROUPS];
};

static struct identity taken = {.user = NO_USER}; /* the identity that this helper has taken */

/* Opens what the kernel tells about a process, or what it has open. */
static int open_about(pid_t process, const char *name, int flags) {
    char path[64];
    snprintf(path, sizeof path, "/proc/%d/%s", process, name);
    return open(path, flags | O_CLOEXEC);
}

const char *read_about(pid_t process, const char *name, char *text, size_t room) {
    int file = open_about(process, name, O_RDONLY);
    ssize_t length = read(file, text, room - 1);
    close(file);
    text[length < 0 ? 0 : length] = '\0';
    return text;
}

/* Whether a process is in this user namespace, whose link in /proc has a text of its own. */
static int has_own_users(pid_t process) {
    static char own[PATH_MAX];
    char path[64], its[PATH_MAX];
    snprintf(path, sizeof path, "/proc/%d/ns/user", process);
    read_link(path, its);
    if (!*own)
        read_link("/proc/self/ns/user", own);
    return *its && strcmp(its, own) == 0;
}

/* (the owner of a process's folder in /proc is root if the process changed its user) */
static int read_identity(pid_t process, struct identity *identity) {
    static char text[1 << 20];
    char *end;
    read_about(process, "status", text, sizeof text);
    const char *users = strstr(text, "\nUid:"), *groups = strstr(text, "\nGroups:"),
               *rights = strstr(text, "\nCapEff:");
    identity->count = 0;
    if (!users || !groups || !rights ||
        sscanf(users, " Uid: %*u %*u %*u %u Gid: %*u %*u %*u %u", &identity->user, &identity->group) != 2)
        return 0;
    for (const char *at = groups + strlen("\nGroups:"); identity->count < MOST_GROUPS; at = end) {
        unsigned long number = strtoul(at, &end, 10);
        if (end == at)
            break;
        identity->groups[identity->count++] = (gid_t)number;
    }
    identity->rights = strtoull(rights + strlen("\nCapEff:"), NULL, 16);
    if (identity->rights != 0 && !has_own_users(process))
        identity->rights = 0;
    return 1;
}

/* (A group without a number here gives no rights here. Where no process may change its groups, this one has them; and
   if it doesn't have the group itself, the kernel lets it read nothing of the caller's.) */
static int take_groups(const struct identity *identity) {
    static gid_t known[MOST_GROUPS];
    size_t count = 0;
    int is_taken = setgroups(identity->count, identity->groups) == 0 || errno == EPERM;
    for (size_t at = 0; at < identity->count && !is_taken; at++)
        if (identity->groups[at] != NOBODY)
            known[count++] = identity->groups[at];
    if (!is_taken && setgroups(count, known) < 0)
        return -1;
    return setresgid(identity->group, identity->group, NO_USER) == 0 || identity->group == NOBODY ? 0 : -1;
}

/* Has these rights in effect, as far as the sandbox gives them, and the one to look at each process. */
static int use_rights(uint64_t wanted) {
    struct __user_cap_header_struct version = {_LINUX_CAPABILITY_VERSION_3, 0};
    struct __user_cap_data_struct rights[2] = {{0}};
    syscall(SYS_capget, &version, rights);
    wanted |= 1ULL << CAP_SYS_PTRACE;
    for (unsigned at = 0; at < 2; at++)
        rights[at].effective = rights[at].permitted & (uint32_t)(wanted >> 32 * at);
    return (int)syscall(SYS_capset, &version, rights);
}

static int be_root(void) { return use_rights(UINT64_MAX) < 0 || setresuid(NO_USER, 0, NO_USER) < 0 ? -1 : 0; }

/* (the kernel takes the rights of whoever is no longer root) */
static int be(const struct identity *identity, uid_t real) {
    return setresuid(real, identity->user, NO_USER) < 0 || use_rights(identity->rights) < 0 ? -1 : 0;
}

int act_as_caller(const struct call *call) {
    static int is_root = -1;
    static struct identity wanted;
    if (is_root < 0)
        is_root = geteuid() == 0;
    if (!is_root)
        return 1;
    if (!read_identity(call->process, &wanted))
        return 0;
    if (memcmp(&taken, &wanted, offsetof(struct identity, groups) + wanted.count * sizeof *wanted.groups) == 0)
        return 1;
    taken.user = NO_USER;
    if (be_root() < 0 || take_groups(&wanted) < 0 || be(&wanted, wanted.user) < 0)
        return 0;
    taken = wanted;
    return 1;
}

/* (a root without rights isn't it) */
int is_administrator(void) {
    return taken.user == (uid_t)NO_USER || (taken.user == 0 && taken.rights != 0);
}

int open_own_data(const struct call *call) {
    int is_other = taken.user != (uid_t)NO_USER;
    if (is_other && be_root() < 0)
        return -1;
    int file = open_data(&call->node);
    if (is_other && be(&taken, NO_USER) < 0)
        _exit(FAILED);
    return file;
}

/* ---- its memory */

/* (a process that is gone may have left its number to another one) */
static int copy(const struct call *call, uint64_t there, void *here, size_t size, __typeof__(process_vm_readv) *move) {
    struct iovec ours = {here, size}, theirs = {(void *)(uintptr_t)there, size};
    if (size > 0 && (!is_alive(call->id) || move(call->process, &ours, 1, &theirs, 1, 0) != (ssize_t)size))
        return -EFAULT;
    return 0;
}

int copy_in(const struct call *call, uint64_t from, void *into, size_t size) {
    return copy(call, from, into, size, process_vm_readv);
}

int copy_out(const struct call *call, uint64_t into, const void *from, size_t size) {
    return copy(call, into, (void *)from, size, process_vm_writev);
}

/* (what is behind the text is copied to the end of its page, because the next page may not be there) */
int copy_text(const struct call *call, uint64_t from, char into[PATH_MAX]) {
    size_t part = PATH_MAX - from % PATH_MAX;
    int result = copy_in(call, from, into, part);
    if (result == 0 && !memchr(into, '\0', part))
        result = copy_in(call, from + part, into + part, PATH_MAX - part);
    return result == 0 && memchr(into, '\0', PATH_MAX) ? 0 : -EFAULT;
}

/* ---- its paths */

enum { MOST_LINKS = 40, TOP_OF_PROC = 1, PROC_BLOCK = 1024, ROOM = 2 * PATH_MAX };

/* Opens what /proc/self or /proc/thread-self is for a process, by its numbers in the command's namespace. */
static int open_self(const struct call *call, int proc, int is_thread) {
    char text[8192], path[64], group[16], thread[16];
    read_about(call->process, "status", text, sizeof text);
    const char *numbers = strstr(text, "\nNStgid:");
    if (!numbers || sscanf(numbers, " NStgid: %*u %15s%*[^N]NSpid: %*u %15s", group, thread) != 2)
        return -1;
    snprintf(path, sizeof path, is_thread ? "%s/task/%s" : "%s", group, thread);
    return openat(proc, path, O_PATH | O_CLOEXEC);
}

/* Follows a link of the folder `at`, and returns what it leads to, or puts its text before the rest of the path and
   returns the folder where this begins. Links of /proc other than those at its top can't be read as texts. */
static int follow(const struct call *call, int at, const char *name, uint64_t resolve, char left[ROOM], char **rest) {
    char text[ROOM];
    int is_proc = is_in_proc(at), is_top = is_proc && known_about(at, "").stx_ino == TOP_OF_PROC;
    if (is_top && (strcmp(name, "self") == 0 || strcmp(name, "thread-self") == 0))
        return open_self(call, at, *name == 't');
    if (is_proc && !is_top)
        return resolve & ~(uint64_t)RESOLVE_CACHED ? -1 : openat(at, name, O_PATH | O_CLOEXEC);
    const char *slash = *rest ? "/" : "";
    ssize_t length = readlinkat(at, name, text, PATH_MAX - 1);
    if (length < 0 || snprintf(text + length, ROOM - (size_t)length, "%s%s", slash, *rest ?: "") >= ROOM - length)
        return -1;
    *rest = strcpy(left, text);
    return *left == '/' ? open_about(call->process, "root", O_PATH) : fcntl(at, F_DUPFD_CLOEXEC, 0);
}

/* (a server isn't asked, because what it tells may change what the caller may do) */
struct statx known_about(int from, const char *path) {
    struct statx about = {.stx_ino = 0};
    statx(from, path, AT_EMPTY_PATH | AT_STATX_DONT_SYNC, STATX_BASIC_STATS | STATX_MNT_ID, &about);
    return about;
}

dev_t system_of(const struct statx *about) { return makedev(about->stx_dev_major, about->stx_dev_minor); }

/* (a server that has blocks of another size isn't asked what it is) */
int is_in_proc(int file) {
    struct statfs system;
    return known_about(file, "").stx_blksize == PROC_BLOCK && fstatfs(file, &system) == 0 &&
           system.f_type == PROC_SUPER_MAGIC;
}

static struct statx root_of(pid_t process) {
    char path[64];
    snprintf(path, sizeof path, "/proc/%d/root", process);
    return known_about(AT_FDCWD, path);
}

static int are_same(const struct statx *one, const struct statx *other) {
    return one->stx_mnt_id == other->stx_mnt_id && one->stx_ino == other->stx_ino;
}

/* Follows a path from a folder, which is closed, part by part, as the caller would: another process can't have the
   kernel do so, because nothing is at /proc/self for it, and because it has another root if the caller has one of its
   own. */
static int walk(const struct call *call, int at, const char *path, const struct open_how *how,
                const struct statx *root) {
    char left[ROOM], *rest = strcpy(left, path), *name;
    int is_folder = 0;
    unsigned links = 0;
    while (at >= 0 && (name = strsep(&rest, "/"))) {
        const struct statx about = known_about(at, "");
        int before = at, is_top = strcmp(name, "..") == 0 && are_same(&about, root);
        is_folder = !*name;
        if (is_folder)
            continue;
        at = openat(before, is_top ? "." : name, O_PATH | O_NOFOLLOW | O_CLOEXEC);
        if (at >= 0 && (rest || !(how->flags & O_NOFOLLOW)) && S_ISLNK(known_about(at, "").stx_mode)) {
            close(at);
            at = links++ < MOST_LINKS ? follow(call, before, name, how->resolve, left, &rest) : -1;
        }
        close(before);
    }
    if (at < 0 || !is_folder || S_ISDIR(known_about(at, "").stx_mode))
        return at;
    close(at);
    return -1;
}

/* (the kernel resolves a path if its process has the command's root folder, but for links that only the process can
   follow) */
int look_up(const struct call *call, int directory, const char *path, const struct open_how *given) {
    static struct statx of_command;
    const struct statx root = root_of(call->process);
    const struct open_how how = {.flags = O_PATH | O_CLOEXEC | (given->flags & (O_NOFOLLOW | O_DIRECTORY)),
                                 .resolve = given->resolve | RESOLVE_NO_MAGICLINKS};
    const int is_below = (given->resolve & (RESOLVE_BENEATH | RESOLVE_IN_ROOT)) != 0;
    const char *left = is_below ? path : path + strspn(path, "/");
    char folder[32];
    snprintf(folder, sizeof folder, directory == AT_FDCWD ? "cwd" : "fd/%d", directory);
    of_command = of_command.stx_ino == 0 ? root_of(process_one) : of_command;
    int start = open_about(call->process, *path == '/' && !is_below ? "root" : folder, O_PATH), file = -1;
    int can_start = start >= 0 && root.stx_ino != 0 && of_command.stx_ino != 0 && *path;
    int is_same = are_same(&root, &of_command);
    if (can_start && is_same)
        file = (int)syscall(SYS_openat2, start, *left ? left : ".", &how, sizeof how);
    if (can_start && file < 0 && (!is_same || errno == ENOENT || (errno == ELOOP && given->resolve == 0)))
        return walk(call, start, left, given, &root);
    close(start);
    return file;
}
