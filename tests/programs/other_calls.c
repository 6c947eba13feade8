/* Uses a node by calls that other programs seldom make, among them those of programs that were built for older versions
   of the C library, and then runs `test` without an environment. */
#define _GNU_SOURCE
#include <dlfcn.h>
#include <errno.h>
#include <fcntl.h>
#include <stdio.h>
#include <sys/mman.h>
#include <sys/stat.h>
#include <sys/uio.h>
#include <unistd.h>

/* A call that nothing can be linked to any more. */
#define OLD(name, ...) ((int (*)(__VA_ARGS__))dlsym(RTLD_DEFAULT, name))

/* Returns how many of the older calls find a block device. */
static int describe_as_before(const char *path, int file) {
    int found = 0;
    const char *const names[] = {"__xstat", "__lxstat", "__xstat64", "__lxstat64"};
    for (unsigned at = 0; at < 4; at++) {
        struct stat about = {0};
        found += OLD(names[at], int, const char *, struct stat *)(1, path, &about) == 0 && S_ISBLK(about.st_mode);
    }
    for (int is_64 = 0; is_64 < 2; is_64++) {
        struct stat one = {0}, other = {0};
        OLD(is_64 ? "__fxstat64" : "__fxstat", int, int, struct stat *)(1, file, &one);
        OLD(is_64 ? "__fxstatat64" : "__fxstatat", int, int, const char *, struct stat *, int)
        (1, AT_FDCWD, path, &other, 0);
        found += S_ISBLK(one.st_mode) + S_ISBLK(other.st_mode);
    }
    return found;
}

/* Returns how many calls that check the place of a write or the size of a buffer do what they do for a file. */
static int write_and_read(const char *path) {
    char text[4] = "", part[2] = "";
    const struct iovec to[] = {{text, 2}, {part, 2}}, from[] = {{"ab", 2}, {"cd", 2}};
    int file = OLD("__open_2", const char *, int)(path, O_RDWR), plain = memfd_create("plain", 0), done = 0;
    done += pwritev(file, from, 2, 200) == 4 && pwritev2(file, from, 2, 202, 0) == 4;
    done += preadv(file, to, 2, 200) == 4 && text[1] == 'b' && part[0] == 'a';
    lseek(file, 200, SEEK_SET);
    done += readv(file, to, 1) == 2 && writev(file, from, 1) == 2;
    done += OLD("__openat_2", int, const char *, int)(AT_FDCWD, path, O_RDONLY) > 0;
    ssize_t (*checked)(int, void *, size_t, size_t) = (__typeof__(checked))dlsym(RTLD_DEFAULT, "__read_chk");
    done += checked(file, text, 2, sizeof text) == 2;
    done += lseek(file, 0, SEEK_END) > 0 && checked(file, text, 2, sizeof text) == 0;
    done += checked(open("/dev/nvme0", O_RDWR), text, 2, sizeof text) == -1 && errno == EINVAL;
    done += pwritev(plain, from, 2, 0) == 4 && pwritev2(plain, from, 2, 0, 0) == 4;
    done += writev(file, from, 0) == 0 && pwritev(file, from, 0, 0) == 0 && pwritev2(file, from, 0, 0, 0) == 0;
    done += pwritev(file, from, 1, -5) == -1 && errno == EINVAL;
    done += pwritev2(file, from, 1, -5, 0) == -1 && errno == EINVAL;
    return done;
}

int main(int count, char **words) {
    struct stat about;
    struct statx more;
    char text[5] = "", *no = count > 9 ? words[9] : NULL, *test[] = {"/usr/bin/test", "-b", "/dev/nvme0n2", NULL};
    int file = open("/dev/nvme0n2", O_RDWR);
    printf("%d ", fstatat(file, no, &about, AT_EMPTY_PATH) == 0 && S_ISBLK(about.st_mode));
    printf("%d ", statx(file, no, AT_EMPTY_PATH, STATX_TYPE, &more) == 0 && S_ISBLK(more.stx_mode));
    printf("%d ", fstatat(file, "", &about, AT_EMPTY_PATH) == 0 && S_ISBLK(about.st_mode));
    printf("%d ", fstatat(AT_FDCWD, "", &about, AT_EMPTY_PATH) == 0 && S_ISDIR(about.st_mode));
    printf("%d ", fstatat(AT_FDCWD, "/dev/nvme0", &about, AT_EMPTY_PATH) == 0 && S_ISCHR(about.st_mode));
    printf("%d ", fstatat(AT_FDCWD, no, &about, 0) == -1 && errno == EFAULT);
    int is_done = pwrite(file, "data", 4, 100) == 4 && freopen("/dev/nvme0n2", "w", stdin) != NULL;
    printf("%d %d %s\n", is_done, (int)pread(file, text, 4, 100), text);
    printf("%d %d\n", describe_as_before("/dev/nvme0n2", file), write_and_read("/dev/nvme0n2"));
    fflush(stdout);
    return execve(test[0], test, (char **)no);
}
