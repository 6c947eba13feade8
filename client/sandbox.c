/* The part of the launcher that runs outside of the sandbox. It composes the arguments of bubblewrap (bwrap), which
   makes the sandbox, and becomes it. bwrap starts the launcher again inside, with the rights of the command and no
   others. None of this is proved. */
#include "launcher.h"
#include <glob.h>
#include <libgen.h>
#include <sched.h>
#include <stdarg.h>
#include <sys/mman.h>
#include <sys/mount.h>
#include <sys/param.h>

/* Parts of the machine's /sys that the command sees, read-only. */
static const char shown[] = "/sys/{devices/{system,virtual/{net,dmi}},fs/cgroup,kernel/mm,class/{net,dmi}}";

/* What root may do in the sandbox: all that files need, and to become another user. */
static const char rights[] = "--cap-drop ALL --cap-add CAP_CHOWN --cap-add CAP_DAC_OVERRIDE --cap-add CAP_FOWNER"
                             " --cap-add CAP_FSETID --cap-add CAP_KILL --cap-add CAP_SETGID --cap-add CAP_SETUID"
                             " --cap-add CAP_AUDIT_WRITE";

/* What the launcher may do besides: make the command's namespace, before anything else is started, and look at each
   process of the sandbox. (Where the kernel has Yama, no other process but its parent could.) */
static const char own_rights[] = "--cap-add CAP_SYS_ADMIN --cap-add CAP_SETPCAP --cap-add CAP_SYS_PTRACE";

/* Returns the paths that a pattern fits, and NULL after the last one. */
static char **find(const char *pattern) {
    static char *none[1];
    glob_t found;
    int result = glob(pattern, GLOB_BRACE, NULL, &found);
    if (result != 0 && result != GLOB_NOMATCH)
        fail("out of memory");
    return result == 0 ? found.gl_pathv : none;
}

/* ---- the arguments of bwrap, which this process becomes, so that nothing here needs to be closed or freed */

static char **words;
static unsigned word_count;

static void add(const char *word) {
    if (!(words = reallocarray(words, word_count + 2, sizeof *words)) || !(words[word_count++] = strdup(word)))
        fail("out of memory");
    words[word_count] = NULL;
}

/* Adds the words of a text. */
__attribute__((format(printf, 1, 2))) static void add_words(const char *format, ...) {
    char text[2048];
    va_list values;
    va_start(values, format);
    vsnprintf(text, sizeof text, format, values);
    va_end(values);
    for (char *word = strtok(text, " "); word; word = strtok(NULL, " "))
        add(word);
}

/* Binds a file or folder to another, or the same, place. */
static void bind_to(const char *option, const char *from, const char *to) {
    add(option);
    add(from);
    add(to);
}

/* Binds a file or folder to a place whose folders every user can search. (bwrap would make them for its user alone.) */
static void add_below(const char *option, const char *path) {
    char folder[PATH_MAX];
    snprintf(folder, sizeof folder, "%s", path);
    add_words("--perms 0755 --dir");
    add(dirname(folder));
    bind_to(option, path, path);
}

/* A line of the kernel's list of mounts. */
struct mount {
    unsigned number[2]; /* of the file system */
    unsigned long long identifier;
    char *root, *path; /* what is mounted of the file system, and where, or NULL after the last mount */
    char *options, kind[64]; /* the kind of file system, between blanks */
};

/* Reads all mounts at once, so that the list doesn't grow while more are made, and replaces the octal numbers in their
   paths. */
static struct mount *read_mounts(void) {
    struct mount *mounts = NULL, *mount;
    char *line = NULL;
    unsigned byte;
    size_t room = 0, count = 0;
    FILE *file = fopen("/proc/self/mountinfo", "re");
    for (; file && getline(&line, &room, file) > 0; mount[1].path = NULL) {
        const char *behind = strstr(line, " - ");
        if (!(mounts = reallocarray(mounts, count + 2, sizeof *mounts)))
            fail("out of memory");
        mount = mounts + count++;
        if (!behind || sscanf(line, "%llu %*d %u:%u %ms %ms %ms", &mount->identifier, mount->number,
                              mount->number + 1, &mount->root, &mount->path, &mount->options) != 6)
            fail("/proc/self/mountinfo can't be read");
        snprintf(mount->kind, sizeof mount->kind, "%.*s ", 1 + (int)strcspn(behind + 3, " "), behind + 2);
        for (char *at = mount->path; (at = strchr(at, '\\')) && sscanf(at + 1, "%3o", &byte) == 1; at++) {
            *at = (char)byte;
            memmove(at + 1, at + 4, strlen(at + 4) + 1);
        }
    }
    if (!mounts || !feof(file) || fclose(file) != 0)
        fail_by_errno("/proc/self/mountinfo");
    return mounts;
}

/* Adds what can be written in /proc besides processes, as far as the caller sees it, and read-only. The command's /proc
   gets it from there. (The kernel lets a user mount another /proc only if nothing covers a part of the first one.) */
static void add_settings(void) {
    char **from = find("/proc/[!0-9]*"), to[PATH_MAX];
    struct stat about;
    if (!*from)
        fail("/proc can't be read");
    add_words("--perms 0755 --dir " SETTINGS);
    for (; *from; from++) {
        snprintf(to, sizeof to, SETTINGS "%s", *from + strlen("/proc"));
        if (lstat(*from, &about) == 0 && !S_ISLNK(about.st_mode) && (S_ISDIR(about.st_mode) || about.st_mode & 0222))
            bind_to("--ro-bind-try", *from, to);
    }
}

/* Whether a path is that of a folder, or below it. */
static int is_in(const char *folder, const char *path) {
    size_t length = folder[1] ? strlen(folder) : 0;
    return strncmp(folder, path, length) == 0 && (path[length] == '/' || path[length] == '\0');
}

int is_replaced(const char *path) { return is_in("/dev", path) || is_in("/proc", path) || is_in("/sys", path); }

/* The limit of the model's files that describe nodes, if that of the data is less. (Few namespaces need less.) */
enum { LEAST_ROOM = 64 << 20 };

/* Adds folders of /run of the sandbox's own, if the machine has them: of udev, and of blkid, which remembers there what
   it has seen of nodes. (bwrap would make a folder that isn't there in the machine.) */
static void add_run(void) {
    for (char **own = find("/run/{udev,blkid}"); *own; own++)
        add_words("--size %llu --perms 0755 --tmpfs %s", MAX(options.limit, LEAST_ROOM), *own);
}

/* Looks at a path without asking a server, which might not answer. */
static int look_at(const char *path, struct statx *about) {
    return statx(AT_FDCWD, path, AT_SYMLINK_NOFOLLOW | AT_NO_AUTOMOUNT | AT_STATX_DONT_SYNC,
                 STATX_MNT_ID | STATX_UID | STATX_TYPE, about);
}

/* Finds the mount that the machine's /dev is in, with its place in that file system. (In a root folder that isn't a
   mount, there may be none.) */
static struct mount find_dev(const struct mount *mount) {
    struct statx about;
    must(look_at("/dev", &about), "/dev");
    while (mount->path && mount->identifier != about.stx_mnt_id)
        mount++;
    struct mount dev = mount->path ? *mount : (struct mount){.root = ""};
    if (dev.path && !dev.path[1] && asprintf(&dev.root, "%s/dev", dev.root[1] ? dev.root : "") < 0)
        fail("out of memory");
    return dev;
}

/* Adds the machine's mounts, which bwrap makes nodev. One that isn't a file system of files, and another view of /dev,
   or of what it is in, are read-only. If it may have pipes, which could be written nevertheless, something else is in
   its place, as the command's own /proc is in that of another one, whose links lead outside. (A mount that another one
   covers isn't seen.) */
static void add_mounts(void) {
    static const char with_pipes[] = " devtmpfs rpc_pipefs ";
    const struct mount *mount = read_mounts(), dev = find_dev(mount);
    struct statx about;
    bind_to("--bind", "/", "/");
    add_run();
    for (; mount->path; mount++) {
        int is_view = memcmp(mount->number, dev.number, sizeof dev.number) == 0 &&
                      (is_in(mount->root, dev.root) || is_in(dev.root, mount->root));
        if (strcmp(mount->path, "/") == 0 || is_replaced(mount->path) || (holds_files(mount->kind) && !is_view) ||
            look_at(mount->path, &about) < 0 || about.stx_mnt_id != mount->identifier)
            continue;
        int has_pipes = strstr(with_pipes, mount->kind) != NULL;
        if (S_ISDIR(about.stx_mode) && (has_pipes || strcmp(mount->kind, " proc ") == 0)) {
            add_words(has_pipes ? "--size 4096 --perms 0555 --tmpfs" : "--proc");
            add(mount->path);
        } else
            bind_to("--ro-bind", has_pipes ? "/dev/null" : mount->path, mount->path);
    }
}

/* Adds a /dev with the nodes that each command has, terminals of its own, and the caller's. (bwrap makes terminals only
   in a whole /dev, which is then covered, and calls what it makes /newroot.) */
static void add_dev(void) {
    add_words("--size %llu --tmpfs /dev --dev /dev/mqueue", options.limit);
    add_words("--dev-bind-try /proc/self/root/newroot/dev/mqueue/pts /dev/pts --symlink pts/ptmx /dev/ptmx");
    add_words("--symlink /proc/self/fd /dev/fd --symlink fd/0 /dev/stdin --symlink fd/1 /dev/stdout");
    add_words("--symlink fd/2 /dev/stderr --mqueue /dev/mqueue --size %llu --perms 1777 --tmpfs /dev/shm",
              options.limit);
    for (char **node = find("/dev/{null,zero,full,random,urandom,tty}"); *node; node++)
        bind_to("--dev-bind-try", *node, *node);
    const char *terminal = ttyname(STDIN_FILENO) ?: ttyname(STDOUT_FILENO) ?: ttyname(ERRORS);
    if (terminal)
        bind_to("--dev-bind-try", terminal, "/dev/console");
    for (unsigned at = 0; at < options.added_count; at++)
        add_below("--dev-bind", find_device(options.added[at]));
}

/* Adds a /sys with what tools read of the machine, among it its network interfaces, and the command's own /proc. */
static void add_sys(void) {
    add_words("--size %llu --perms 0755 --tmpfs /sys --perms 0755 --dir /sys/fs --perms 0755 --dir " MODEL_FOLDER,
              MAX(options.limit, LEAST_ROOM));
    for (char **part = find(shown); *part; part++)
        add_below("--ro-bind-try", *part);
    for (char **interface = find("/sys/class/net/*"); *interface; interface++) {
        char *path = realpath(*interface, NULL);
        if (path && is_in("/sys/devices", path) && !is_in("/sys/devices/virtual", path))
            add_below("--ro-bind-try", path);
    }
    add_settings();
    add_words("--proc /proc");
}

/* Adds a copy of a program, of the library or of what stands for sudo, with permissions for every user. */
static void add_part(int file, const char *to) {
    add_words("--perms 0555 --ro-bind-data %d", file);
    add(to);
}

static void add_file(const char *from, const char *to) { add_part(must(open(from, O_RDONLY), from), to); }

/* What stands for sudo. */
extern const char stand_in[], stand_in_end[];
__asm__(".section .rodata\nstand_in: .incbin \"sudo.sh\"\nstand_in_end:\n.previous");

static void add_stand_in(const char *to) {
    const size_t size = (size_t)(stand_in_end - stand_in);
    int file = must(memfd_create("sudo", 0), "sudo");
    if (pwrite(file, stand_in, size, 0) != (ssize_t)size)
        fail_by_errno("sudo");
    add_part(file, to);
}

/* Makes a user root in a namespace of its own, in which nobody else has a number, with a stand-in for sudo, whose files
   have no owner there that it would accept. */
static void add_root(void) {
    const char *real = realpath("/usr/bin/sudo", NULL);
    add_words("--unshare-user --uid 0 --gid 0");
    add_stand_in(MODEL_FOLDER "/bin/sudo");
    if (real)
        add_stand_in(real);
}

static void compose(const char *library, const char *program) {
    add("bwrap");
    add_mounts();
    add_dev();
    add_sys();
    add_file("/proc/self/exe", MODEL_FOLDER "/launcher");
    add_file(library, MODEL_FOLDER "/library.so");
    add_file(program, MODEL_FOLDER "/device");
    if (options.is_root && geteuid() != 0)
        add_root();
    add_words("--unshare-pid --as-pid-1 --unshare-ipc --die-with-parent --chdir / %s %s -- " MODEL_FOLDER
              "/launcher " INSIDE, options.is_root || geteuid() == 0 ? rights : "", own_rights);
}

/* ---- the sandbox */

/* Writes what the user namespace needs: "deny", or that a user or group, and no other, is the same one there. */
static void write_map(const char *path, const char *format, unsigned number) {
    int file = must(open(path, O_WRONLY | O_CLOEXEC), path);
    must(dprintf(file, format, number, number), path);
}

/* Becomes bwrap, which starts the launcher with its word, in a place where the machine's later mounts aren't
   seen. (The mounts that bwrap makes follow those that it finds, and a mount that came later wouldn't be nodev.) */
void enter_sandbox(const char *library, const char *program) {
    unsigned user = geteuid(), group = getegid();
    if (unshare(CLONE_NEWNS) < 0) {
        must(unshare(CLONE_NEWUSER | CLONE_NEWNS), "no namespace can be made");
        write_map("/proc/self/setgroups", "deny", 0);
        write_map("/proc/self/uid_map", "%u %u 1", user);
        write_map("/proc/self/gid_map", "%u %u 1", group);
    }
    must(mount(NULL, "/", NULL, MS_REC | MS_PRIVATE, NULL), "mounts can't be private");
    compose(library, program);
    execvp(words[0], words);
    if (errno == ENOENT)
        _exit(NOT_FOUND);
    fail_by_errno(words[0]);
}

/* ---- what is checked inside, because bwrap leaves a mount as it is that it can't reach */

/* Whether a mount can be reached: no, because another one hides it or others close a folder above it; yes; or as soon
   as its user, who closed a folder, opens it. */
enum reach { HIDDEN, REACHED, CLOSED };

static enum reach reach_of(const struct mount *mount) {
    struct statx about;
    char *path = mount->path;
    if (look_at(path, &about) == 0)
        return about.stx_mask & STATX_MNT_ID && about.stx_mnt_id != mount->identifier ? HIDDEN : REACHED;
    for (char *end; errno == EACCES && (end = strrchr(path, '/')) && end != path && look_at(path, &about) < 0;)
        *end = '\0';
    int is_own = errno == EACCES && look_at(path, &about) == 0 && (about.stx_uid == geteuid() || geteuid() == 0);
    return is_own ? CLOSED : HIDDEN;
}

/* Whether a path is that of a file system that bwrap makes in /dev. */
static int is_made(const char *path) {
    return strcmp(path, "/dev") == 0 || strcmp(path, "/dev/pts") == 0 || strcmp(path, "/dev/shm") == 0 ||
           strcmp(path, "/dev/mqueue") == 0;
}

/* (bwrap makes no mount nodev, read-only or another /proc that it can't reach; and what it binds in /dev may be another
   file since it was looked at) */
void check_mounts(void) {
    for (const struct mount *mount = read_mounts(); mount->path; mount++) {
        if (is_in("/dev", mount->path) && !is_made(mount->path) && reach_of(mount) == REACHED)
            check_node(mount->path);
        enum reach reach = is_replaced(mount->path) ? HIDDEN : reach_of(mount);
        int is_left = reach == CLOSED && !holds_files(mount->kind) && strncmp(mount->options, "ro", 2) != 0;
        if (reach != HIDDEN && (is_left || !strstr(mount->options, ",nodev")))
            fail("%s is a mount of this machine that can't be kept from the command", mount->path);
    }
}

/* ---- what the command sees of processes */

static void mount_proc(const char *path) {
    char **from = find(SETTINGS "/*"), to[5 * PATH_MAX];
    if (!*from)
        fail(SETTINGS " can't be read");
    must(mount("proc", path, "proc", MS_NOSUID | MS_NODEV | MS_NOEXEC, NULL), path);
    for (; *from; from++) {
        snprintf(to, sizeof to, "%s%s", path, *from + strlen(SETTINGS));
        must(mount(*from, to, NULL, MS_BIND | MS_REC, NULL), to);
    }
}

/* (parts of /proc are mounts as well; and the launcher goes on to write to /sys, where this namespace isn't) */
void show_own_processes(void) {
    must(mount(NULL, "/sys", NULL, MS_REMOUNT | MS_BIND | MS_RDONLY | MS_NOSUID | MS_NODEV, NULL), "/sys");
    for (const struct mount *found = read_mounts(); found->path; found++)
        if (strcmp(found->kind, " proc ") == 0 && strcmp(found->root, "/") == 0 && reach_of(found) == REACHED)
            mount_proc(found->path);
}
