/* The names that nobody makes, removes or gives to something else: all in the model's /sys, and those of its nodes in
   /dev. None of this is proved. */
#include "launcher.h"
#include <libgen.h>
#include <linux/openat2.h>
#include <sys/syscall.h>

/* What a name is: one that nobody keeps, or that of a node, of a file in /sys or of the kernel's log. */
enum place { NOT_KEPT, OF_NODE, IN_SYS, OF_LOG };

/* Finds the folder of a name as the caller would, and returns what the name is, and whether it is there. */
static enum place find_place(const struct call *call, int directory, char *path, int *is_there) {
    char copy[PATH_MAX];
    enum place place = NOT_KEPT;
    struct node node;
    const char *folder = dirname(strcpy(copy, path)), *name = basename(path);
    int file = look_up(call, directory, folder, &(struct open_how){.flags = O_PATH | O_DIRECTORY});
    const struct statx about = known_about(file, ""), dev = known_about(AT_FDCWD, "/dev");
    if (file >= 0 && system_of(&about) == number_of(OF_SYS))
        place = IN_SYS;
    else if (system_of(&about) == system_of(&dev) && about.stx_ino == dev.stx_ino)
        place = read_name(name, &node) == IS_NODE ? OF_NODE : strcmp(name, "kmsg") == 0 ? OF_LOG : NOT_KEPT;
    *is_there = place != NOT_KEPT && faccessat(file, name, F_OK, AT_SYMLINK_NOFOLLOW | AT_EACCESS) == 0;
    close(file);
    return place;
}

int may_create(const struct call *call, int directory, char *path) {
    int is_there;
    enum place place = find_place(call, directory, path, &is_there);
    return is_there || place == NOT_KEPT || place == OF_NODE;
}

/* Refuses what would make or remove a name that is kept, with the error for one that is there, or isn't. */
static int refuse_name(const struct call *call, int error, __u64 directory, __u64 at) {
    char path[PATH_MAX];
    int is_there;
    enum place place = copy_text(call, at, path) < 0 ? NOT_KEPT : find_place(call, (int)directory, path, &is_there);
    if (place == NOT_KEPT || place == OF_LOG)
        return NOT_OURS;
    if (is_there == (error == EEXIST))
        return -error;
    return geteuid() == 0 ? -EPERM : -EACCES;
}

int answer_unlink(struct call *call, const __u64 *words) { return refuse_name(call, ENOENT, AT_FDCWD, words[0]); }
int answer_unlinkat(struct call *call, const __u64 *words) { return refuse_name(call, ENOENT, words[0], words[1]); }
int answer_mkdir(struct call *call, const __u64 *words) { return refuse_name(call, EEXIST, AT_FDCWD, words[0]); }
int answer_mkdirat(struct call *call, const __u64 *words) { return refuse_name(call, EEXIST, words[0], words[1]); }
int answer_link(struct call *call, const __u64 *words) { return refuse_name(call, EEXIST, AT_FDCWD, words[1]); }
int answer_symlinkat(struct call *call, const __u64 *words) { return refuse_name(call, EEXIST, words[1], words[2]); }
int answer_linkat(struct call *call, const __u64 *words) { return refuse_name(call, EEXIST, words[2], words[3]); }

int answer_renameat(struct call *call, const __u64 *words) {
    int result = refuse_name(call, ENOENT, words[0], words[1]);
    int replaced = refuse_name(call, EEXIST, words[2], words[3]);
    return result != NOT_OURS || replaced != -EEXIST ? result : geteuid() == 0 ? -EPERM : -EACCES;
}

int answer_rename(struct call *call, const __u64 *words) {
    return answer_renameat(call, (const __u64[]){AT_FDCWD, words[0], AT_FDCWD, words[1]});
}
