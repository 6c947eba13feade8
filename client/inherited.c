/* What comes into the sandbox from outside: the standard streams, other open files, and devices. Each is on a list of
   what may come, and all else is refused or closed. None of this is proved. */
#include "launcher.h"
#include <sys/statfs.h>
#include <sys/sysmacros.h>

/* Lists of devices, by a major with each minor that is meant, or with none if all are. The nodes of the machine that
   each command has are null, zero, full, random, urandom and tty. */
static const char always[] = " 1:3 1:5 1:7 1:8 1:9 5:0 ";

/* What --device may add: terminals, video, sound, serial ports and so on, and /dev/net/tun, /dev/fuse, /dev/kvm,
   vhost-net and vhost-vsock. None of them leads to storage or types for the user. */
static const char added[] = " 4: 5: 29: 81: 108: 116: 136: 166: 188: 195: 204: 226: 229:"
                            " 10:200 10:229 10:232 10:238 10:241 ";

/* The terminals: consoles and serial ports (4), the slaves of older (3) and of today's pseudoterminals (136 to 143),
   and more serial ports and consoles of virtual machines. The console (5, 1) is one too, but not a master (5, 2). */
static const char terminals[] = " 3: 4: 5:1 136: 137: 138: 139: 140: 141: 142: 143: 166: 188: 204: 229: ";

/* The file systems that hold files, and can be written as outside: names, and then the numbers of their kind, which
   autofs and nsfs lack, because they have no files of the machine. All others, such as a second sysfs, are read-only.
   */
static const char file_systems[] =
    " 9p 0x1021997 afs 0x5346414f 0x6b414653 aufs 0x61756673 autofs nsfs bcachefs 0xca451a4e btrfs 0x9123683e "
    "ceph 0xc36400 cifs smb3 smbfs 0xff534d42 0xfe534d42 0x517b coda 0x73757245 cramfs 0x28cd3d45 ecryptfs 0xf15f "
    "erofs 0xe0f5e1e2 exfat 0x2011bab0 ext2 ext3 ext4 0xef53 f2fs 0xf2f52010 fuse fuseblk virtiofs 0x65735546 "
    "gfs2 0x1161970 hfs 0x4244 hfsplus 0x482b hpfs 0xf995e849 iso9660 0x9660 jfs 0x3153464a lustre 0xbd00bd0 "
    "minix 0x137f 0x138f 0x2468 0x2478 0x4d5a msdos vfat 0x4d44 nfs nfs4 0x6969 nilfs2 0x3434 "
    "ntfs 0x5346544e ntfs3 0x7366746e ocfs2 0x7461636f overlay 0x794c7630 ramfs 0x858458f6 reiserfs 0x52654973 "
    "romfs 0x7275 squashfs 0x73717368 tmpfs 0x1021994 udf 0x15013346 vboxsf 0x786f4256 xfs 0x58465342 zfs 0x2fc12fc1 ";

int holds_files(const char *kind) { return strstr(file_systems, kind) || strncmp(kind, " fuse.", 6) == 0; }

static int is_in(const char *list, dev_t device) {
    char of_all[16], of_one[32];
    snprintf(of_all, sizeof of_all, " %u: ", major(device));
    snprintf(of_one, sizeof of_one, " %u:%u ", major(device), minor(device));
    return strstr(list, of_all) || strstr(list, of_one);
}

char *find_device(const char *path) {
    char *whole = realpath(path, NULL);
    struct stat about;
    if (!whole || stat(whole, &about) < 0)
        fail_by_errno(path);
    if (strncmp(whole, "/dev/", 5) != 0 || !S_ISCHR(about.st_mode) || !is_in(added, about.st_rdev))
        fail("--device %s: this isn't a character device that is known to lead to no storage", path);
    return whole;
}

void check_node(const char *path) {
    struct stat about;
    int is_device = stat(path, &about) == 0 && S_ISCHR(about.st_mode);
    if (!is_device || !(is_in(always, about.st_rdev) || is_in(added, about.st_rdev) || is_in(terminals, about.st_rdev)))
        fail("%s isn't the device that it was before the sandbox was made", path);
}

/* ---- open files */

static int is_in_files(int file) {
    struct statfs about;
    char number[16];
    snprintf(number, sizeof number, " 0x%x ", fstatfs(file, &about) == 0 ? (unsigned)about.f_type : 0);
    return strstr(file_systems, number) != NULL;
}

/* Returns why an open file may not come into the sandbox, or NULL. (The entries of a folder may be nodes.) */
static const char *why_not(int file) {
    struct stat about;
    if (fcntl(file, F_GETFL) & O_PATH)
        return "was opened as a path alone (O_PATH)";
    if (fstat(file, &about) < 0)
        return strerror(errno);
    mode_t kind = about.st_mode & S_IFMT;
    if (kind == S_IFIFO || kind == S_IFSOCK || (kind == S_IFREG && is_in_files(file)) ||
        (kind == S_IFCHR && (is_in(always, about.st_rdev) || (is_in(terminals, about.st_rdev) && isatty(file)))))
        return NULL;
    if (kind == S_IFCHR || kind == S_IFBLK)
        return "is a device of this machine";
    if (kind == S_IFDIR)
        return "is a folder";
    return "leads to the kernel or to a process of this machine, or is in a file system that isn't known to hold files";
}

void check_file(int file, const char *name) {
    const char *reason = why_not(file);
    if (reason)
        fail("%s %s", name, reason);
}

/* (no message is written where it may not go) */
void check_streams(void) {
    static const char *const names[] = {"standard input", "standard output"};
    if (fcntl(STDERR_FILENO, F_GETFD) >= 0 && why_not(STDERR_FILENO))
        exit(FAILED);
    for (int file = STDOUT_FILENO; file >= 0; file--)
        if (fcntl(file, F_GETFD) >= 0)
            check_file(file, names[file]);
}

/* (a closed stream has no flags, which is -1, and one that was closed outside is /dev/null as a path alone) */
void hold_streams(void) {
    for (int file = 0; file <= STDERR_FILENO; file++)
        if (fcntl(file, F_GETFL) & O_PATH)
            keep_as(file, open("/dev/null", O_PATH | O_NOFOLLOW), "/dev/null");
}
