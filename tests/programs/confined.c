/* Becomes as confined as the launcher or a device (client/filter.c), and prints which of the calls that could reach
   more it can still make: confined launcher|device. As a device it then becomes another program, and tries again. */
#define _GNU_SOURCE
#include "launcher.h"
#include <errno.h>
#include <fcntl.h>
#include <sched.h>
#include <signal.h>
#include <sys/prctl.h>
#include <sys/syscall.h>
#include <sys/wait.h>
#include <unistd.h>

const struct decided_call decided_calls[1], old_decided_calls[1];

void fail(const char *format, ...) { _exit(printf("%s\n", format) > 0); }
void fail_by_errno(const char *what) { fail("%s", what); }
int must(int result, const char *what) { return result < 0 ? (fail("%s", what), 0) : result; }

/* (each has an argument that it would refuse itself) */
static const struct {
    const char *name;
    int number;
    long first, second;
} calls_of_both[] = {{"execveat", SYS_execveat, -1, 0},
                     {"ptrace", SYS_ptrace, -1, 0},
                     {"mount", SYS_mount, 0, 0},
                     {"umount", SYS_umount2, 0, 0},
                     {"fsopen", SYS_fsopen, 0, 0},
                     {"fsmount", SYS_fsmount, -1, 0},
                     {"move_mount", SYS_move_mount, -1, 0},
                     {"open_tree", SYS_open_tree, -1, 0},
                     {"mount_setattr", SYS_mount_setattr, -1, 0},
                     {"pivot_root", SYS_pivot_root, 0, 0},
                     {"chroot", SYS_chroot, 0, 0},
                     {"unshare", SYS_unshare, CLONE_NEWUSER, 0},
                     {"setns", SYS_setns, -1, 0},
                     {"clone of a namespace", SYS_clone, CLONE_NEWUSER | SIGCHLD, 0},
                     {"clone3", SYS_clone3, 0, 0},
                     {"pidfd_getfd", SYS_pidfd_getfd, -1, 0},
                     {"open_by_handle_at", SYS_open_by_handle_at, -1, 0},
                     {"io_uring_setup", SYS_io_uring_setup, 1, 0},
                     {"bpf", SYS_bpf, -1, 0},
                     {"perf_event_open", SYS_perf_event_open, 0, 0},
                     {"userfaultfd", SYS_userfaultfd, -1, 0},
                     {"kexec_load", SYS_kexec_load, 0, 0},
                     {"init_module", SYS_init_module, 0, 0},
                     {"finit_module", SYS_finit_module, -1, 0},
                     {"add_key", SYS_add_key, 0, 0},
                     {"request_key", SYS_request_key, 0, 0},
                     {"keyctl", SYS_keyctl, 0, -3},
                     {"socket", SYS_socket, 1, 1},
                     {"connect", SYS_connect, -1, 0},
                     {"ioctl of typing", SYS_ioctl, 0, TIOCSTI},
                     {"ioctl of a terminal", SYS_ioctl, 0, TIOCSCTTY},
                     {"prctl of tracing", SYS_prctl, PR_SET_DUMPABLE, 1},
                     {"prctl of a filter", SYS_prctl, PR_SET_SECCOMP, 2},
                     {"personality", SYS_personality, 0xffffffff, 0},
                     {"quotactl", SYS_quotactl, -1, 0},
                     {"swapon", SYS_swapon, 0, 0},
                     {"reboot", SYS_reboot, 0, 0},
                     {"acct", SYS_acct, 1, 0},
                     {"a call of x32", 0x40000000 | SYS_getpid, 0, 0}},
  calls_of_devices[] = {{"a file to write", SYS_openat, AT_FDCWD, (long)"/dev/null"},
                        {"a file to write by open", SYS_open, (long)"/dev/null", O_WRONLY},
                        {"another's limits", SYS_prlimit64, 1, 0},
                        {"kill", SYS_kill, -1, 0},
                        {"process_vm_readv", SYS_process_vm_readv, -1, 0},
                        {"setuid", SYS_setuid, -1, 0},
                        {"unlink", SYS_unlink, 0, 0},
                        {"dup", SYS_dup, -1, 0},
                        {"clone", SYS_clone, SIGCHLD, 0}};

static void try(const char *name, int number, long first, long second, long third) {
    errno = 0;
    long result = syscall(number, first, second, third, 0L, 0L, 0L);
    if (result == 0 && (number == SYS_clone))
        _exit(0);
    if (result != -1 || errno != ENOSYS)
        printf("%s: %s\n", name, strerror(errno));
}

/* Tries a call of old programs, in a process that ends if the kernel has none. */
static void try_old(void) {
    pid_t child = fork();
    if (child == 0) {
        long result;
        __asm__ volatile("int $0x80" : "=a"(result) : "a"(20L) : "r8", "r9", "r10", "r11", "memory"); /* getpid */
        _exit(result != -ENOSYS);
    }
    int how;
    if (waitpid(child, &how, 0) == child && WIFEXITED(how) && WEXITSTATUS(how) != 0)
        puts("a call of 32 bits");
}

int main(int count, char **arguments) {
    int is_again = count > 1 && strcmp(arguments[1], "again") == 0;
    int is_device = is_again || (count > 1 && strcmp(arguments[1], "device") == 0);
    setbuf(stdout, NULL);
    if (!is_device)
        confine_launcher();
    else if (!is_again && confine_device() < 0)
        fail_by_errno("confine_device");
    for (unsigned at = 0; at < sizeof calls_of_both / sizeof *calls_of_both; at++)
        try(calls_of_both[at].name, calls_of_both[at].number, calls_of_both[at].first, calls_of_both[at].second, 0);
    for (unsigned at = 0; is_device && at < sizeof calls_of_devices / sizeof *calls_of_devices; at++)
        try(calls_of_devices[at].name, calls_of_devices[at].number, calls_of_devices[at].first,
            calls_of_devices[at].second, O_WRONLY);
    if (!is_device) {
        try("execve", SYS_execve, 0, 0, 0);
        try_old();
    }
    puts("end");
    if (is_device && !is_again)
        execl(arguments[0], arguments[0], "again", (char *)NULL);
    return is_device && !is_again;
}
