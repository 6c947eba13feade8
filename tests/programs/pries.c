/* Tries to reach into other processes, and prints each way that works: pries PROCESS.. */
#define _GNU_SOURCE
#include <errno.h>
#include <fcntl.h>
#include <linux/kcmp.h>
#include <sched.h>
#include <stdio.h>
#include <stdlib.h>
#include <string.h>
#include <sys/mman.h>
#include <sys/ptrace.h>
#include <sys/syscall.h>
#include <sys/uio.h>
#include <sys/wait.h>
#include <unistd.h>

static const char *const files[] = {"mem", "maps", "smaps", "environ", "auxv", "syscall", "stack", "pagemap", "io",
                                    "personality", "fd/0", "fd/1", "fd/2", "fd/3", "fdinfo/0", "root/etc/passwd",
                                    "cwd/etc/passwd", "exe", "ns/mnt", "ns/pid", "ns/user", "fd/0/etc/passwd",
                                    "fd/0/dev/nvme0n1", "root/dev/nvme0n1"};

static void tell(const char *process, const char *way, int works) {
    if (works)
        printf("%s: %s\n", process, way);
}

/* Whether a file can be opened, and read as far as it holds something that can be read. (Some files in /proc look at
   rights only then.) */
static int opens(const char *path, int mode) {
    char byte;
    int file = open(path, mode | O_NOCTTY | O_NONBLOCK);
    if (file < 0)
        return 0;
    int is_read = read(file, &byte, 1) >= 0 || (errno != EPERM && errno != EACCES);
    close(file);
    return is_read;
}

static void try_files(const char *process) {
    char path[256], link[256];
    for (unsigned at = 0; at < sizeof files / sizeof *files; at++) {
        snprintf(path, sizeof path, "/proc/%s/%s", process, files[at]);
        tell(process, path, readlink(path, link, sizeof link) >= 0);
        tell(process, path, opens(path, O_RDONLY) || opens(path, O_RDWR));
        snprintf(path, sizeof path, "/proc/%s/task/%s/%s", process, process, files[at]);
        tell(process, path, opens(path, O_RDONLY));
    }
}

static void try_calls(const char *process) {
    char here[8] = "";
    pid_t number = atoi(process);
    struct iovec ours = {here, sizeof here}, theirs = {(void *)0x400000, sizeof here};
    tell(process, "attach", ptrace(PTRACE_ATTACH, number, 0, 0) == 0);
    tell(process, "seize", ptrace(PTRACE_SEIZE, number, 0, 0) == 0);
    /* (a process that may be read, without memory at that place, answers EFAULT) */
    tell(process, "read", process_vm_readv(number, &ours, 1, &theirs, 1, 0) >= 0 || errno == EFAULT);
    tell(process, "write", process_vm_writev(number, &ours, 1, &theirs, 1, 0) >= 0 || errno == EFAULT);
    tell(process, "compare", syscall(SYS_kcmp, number, getpid(), KCMP_FILE, 0, 0) >= 0);
    tell(process, "move pages", syscall(SYS_move_pages, number, 0, NULL, NULL, NULL, 0) == 0);
    int handle = (int)syscall(SYS_pidfd_open, number, 0);
    for (int file = 0; file < 220; file++)
        tell(process, "take a file", syscall(SYS_pidfd_getfd, handle, file, 0) >= 0);
    tell(process, "enter", setns(handle, CLONE_NEWNS) == 0 || setns(handle, CLONE_NEWUSER) == 0);
    tell(process, "advise", syscall(SYS_process_madvise, handle, &theirs, 1, MADV_COLD, 0) >= 0);
}

/* (in a user namespace of its own, a process has all rights) */
int main(int count, char **arguments) {
    setbuf(stdout, NULL);
    for (int more = 0; more < 2; more++) {
        if (more == 1 && unshare(CLONE_NEWUSER) < 0)
            break;
        for (int at = 1; at < count; at++) {
            try_files(arguments[at]);
            try_calls(arguments[at]);
        }
    }
    puts("end");
    return 0;
}
