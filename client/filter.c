/* Filters of calls (seccomp), made of tables. That of the command's processes, which they inherit, is in opens.c. Those
   of the launcher and of the devices allow the calls that they make, so that nobody who leads one of them astray
   reaches more. None of this is proved. */
#include "launcher.h"
#include <linux/audit.h>
#include <linux/filter.h>
#include <sched.h>
#include <sys/prctl.h>
#include <sys/syscall.h>

/* (of Linux 5.19: a call that the launcher has received is interrupted only by what kills the process) */
#ifndef SECCOMP_FILTER_FLAG_WAIT_KILLABLE_RECV
#define SECCOMP_FILTER_FLAG_WAIT_KILLABLE_RECV (1UL << 5)
#endif

enum { ALLOW = SECCOMP_RET_ALLOW, MISSING = SECCOMP_RET_ERRNO | ENOSYS, X32_BIT = 0x40000000 };

int call_listener = -1;

static struct sock_filter filter[BPF_MAXINSNS]; /* (five times as many as the tables need) */
static unsigned short filter_length;

/* Adds an instruction, and to a test how many are left out if it fails. */
static void add(unsigned code, size_t value, uint8_t left_out) {
    filter[filter_length++] = (struct sock_filter){.code = (uint16_t)code, .jf = left_out, .k = (uint32_t)value};
}

static void load(size_t at) { add(BPF_LD | BPF_W | BPF_ABS, at, 0); }

/* Adds a table, whose rows are tried one after another. (Of an argument, 32 bits are tested. The kernel doesn't run a
   filter for a call that this allows by the number alone.) */
static void add_rows(const struct decided_call *row) {
    static const uint32_t masks[] = {
        [EQUALS] = UINT32_MAX, [HAS_BITS] = UINT32_MAX, [HAS_TYPE] = _IOC_TYPEMASK << _IOC_TYPESHIFT};
    for (; row->action; row++)
        for (const short *number = row->numbers; number == row->numbers || *number != 0; number++) {
            if (row->is_of_root && geteuid() != 0)
                break;
            add(BPF_JMP | BPF_JEQ | BPF_K, (size_t)*number, row->test.kind == ALWAYS ? 2 : 5);
            if (row->test.kind != ALWAYS) {
                load(offsetof(struct seccomp_data, args) + 8 * row->test.argument);
                add(BPF_ALU | BPF_AND | BPF_K, masks[row->test.kind], 0);
                add(BPF_JMP | (row->test.kind == HAS_BITS ? BPF_JSET : BPF_JEQ) | BPF_K, row->test.value, 1);
            }
            add(BPF_RET | BPF_K, row->action, 0);
            load(offsetof(struct seccomp_data, nr));
        }
}

/* Adds what is decided about the calls of an architecture, by two tables and otherwise, and jumps over this for
   others. (Programs of x32 have the same as those of 64 bits, but other numbers.) */
static void add_calls(uint32_t architecture, const struct decided_call *rows, const struct decided_call *others,
                      uint32_t otherwise) {
    load(offsetof(struct seccomp_data, arch));
    add(BPF_JMP | BPF_JEQ | BPF_K, architecture, 1);
    add(BPF_JMP | BPF_JA, 1, 0);
    struct sock_filter *const jump = filter + filter_length;
    add(BPF_JMP | BPF_JA, 0, 0);
    load(offsetof(struct seccomp_data, nr));
    add(BPF_JMP | BPF_JGE | BPF_K, X32_BIT, 1);
    add(BPF_RET | BPF_K, MISSING, 0);
    add_rows(rows);
    add_rows(others);
    add(BPF_RET | BPF_K, otherwise, 0);
    jump->k = (uint32_t)(filter + filter_length - jump - 1);
}

/* Has the filter hold for this process, and returns its listener, if the flags ask for one, or -1. */
static int install(unsigned long flags) {
    add(BPF_RET | BPF_K, MISSING, 0);
    const struct sock_fprog code = {filter_length, filter};
    if (prctl(PR_SET_NO_NEW_PRIVS, 1, 0, 0, 0) < 0)
        return -1;
    return (int)syscall(SYS_seccomp, SECCOMP_SET_MODE_FILTER, flags, &code);
}

void filter_calls(void) {
    static const struct decided_call none[1];
    add_calls(AUDIT_ARCH_X86_64, decided_calls, none, ALLOW);
    add_calls(AUDIT_ARCH_I386, old_decided_calls, none, ALLOW);
    call_listener = install(SECCOMP_FILTER_FLAG_NEW_LISTENER | SECCOMP_FILTER_FLAG_WAIT_KILLABLE_RECV);
    if (call_listener < 0)
        fail("calls can't be answered here (Linux 5.19 or later is needed): %s", strerror(errno));
}

/* ---- the launcher and the devices */

/* What glibc (2.34 to 2.43) and the address sanitizer call in every program. This table and the next one have what the
   functions call that the programs use, in each of these versions. (With SECCOMP_RET_KILL_PROCESS in place of ENOSYS,
   whatever is missing ends the tests.) */
static const struct decided_call common_calls[] = {
    {{SYS_read, SYS_readv, SYS_pread64, SYS_write, SYS_writev, SYS_pwrite64, SYS_close, SYS_lseek, SYS_fcntl,
      SYS_stat, SYS_lstat, SYS_fstat, SYS_newfstatat, SYS_statx, SYS_access, SYS_faccessat, SYS_faccessat2,
      SYS_readlink, SYS_readlinkat, SYS_mmap, SYS_munmap, SYS_mremap, SYS_mprotect, SYS_madvise, SYS_brk,
      SYS_rt_sigaction, SYS_rt_sigprocmask, SYS_rt_sigreturn, SYS_sigaltstack, SYS_restart_syscall, SYS_tgkill,
      SYS_futex, SYS_set_robust_list, SYS_set_tid_address, SYS_rseq, SYS_membarrier, SYS_arch_prctl, SYS_sched_yield,
      SYS_sched_getaffinity, SYS_getcpu, SYS_nanosleep, SYS_clock_nanosleep, SYS_clock_gettime, SYS_clock_getres,
      SYS_gettimeofday, SYS_time, SYS_getrandom, SYS_getpid, SYS_gettid, SYS_getuid, SYS_geteuid, SYS_getgid,
      SYS_getegid, SYS_getrlimit, SYS_getrusage, SYS_uname, SYS_sysinfo, SYS_exit, SYS_exit_group},
     .action = ALLOW},
    {.action = 0}};

/* The flags of clone by which a process gets other namespaces. */
enum { NAMESPACES = CLONE_NEWNS | CLONE_NEWCGROUP | CLONE_NEWUTS | CLONE_NEWIPC | CLONE_NEWUSER | CLONE_NEWPID |
                    CLONE_NEWNET };

/* What the launcher and its helpers call besides, once the command runs: with the files of the sandbox; with processes,
   such as those that made calls; and to wait. Their ioctls are those for calls that were handed over, and by which
   stdio looks for a terminal (the last one in glibc 2.42). */
static const struct decided_call launcher_calls[] = {
    {{SYS_clone}, .action = MISSING, .test = {HAS_BITS, 0, NAMESPACES}},
    {{SYS_open, SYS_openat, SYS_openat2, SYS_getdents64, SYS_mkdir, SYS_mkdirat, SYS_mknod, SYS_mknodat, SYS_linkat,
      SYS_symlinkat, SYS_unlink, SYS_unlinkat, SYS_rmdir, SYS_ftruncate, SYS_fallocate, SYS_fchmod, SYS_fchown,
      SYS_statfs, SYS_fstatfs, SYS_inotify_init1, SYS_inotify_add_watch,
      SYS_process_vm_readv, SYS_process_vm_writev, SYS_fork, SYS_clone, SYS_wait4, SYS_waitid, SYS_kill,
      SYS_setpriority, SYS_ioprio_set, SYS_setsid, SYS_setgroups, SYS_setresuid, SYS_setresgid, SYS_capget, SYS_capset,
      SYS_poll, SYS_ppoll, SYS_signalfd4, SYS_eventfd2},
     .action = ALLOW},
    {{SYS_ioctl}, .action = ALLOW, .test = {EQUALS, 1, SECCOMP_IOCTL_NOTIF_RECV}},
    {{SYS_ioctl}, .action = ALLOW, .test = {EQUALS, 1, SECCOMP_IOCTL_NOTIF_SEND}},
    {{SYS_ioctl}, .action = ALLOW, .test = {EQUALS, 1, SECCOMP_IOCTL_NOTIF_ID_VALID}},
    {{SYS_ioctl}, .action = ALLOW, .test = {EQUALS, 1, SECCOMP_IOCTL_NOTIF_ADDFD}},
    {{SYS_ioctl}, .action = ALLOW, .test = {EQUALS, 1, TCGETS}},
    {{SYS_ioctl}, .action = ALLOW, .test = {EQUALS, 1, 0x802c542a}},
    {{SYS_prctl}, .action = ALLOW, .test = {EQUALS, 0, 0x53564d41 /* PR_SET_VMA */}},
    {.action = 0}};

/* A device opens files to read them, when it starts, and changes limits of its own alone. It becomes its program under
   this filter, which can't see whether it becomes another one. */
enum { CHANGES = O_WRONLY | O_RDWR | O_CREAT | O_TRUNC };
static const struct decided_call device_calls[] = {
    {{SYS_open}, .action = MISSING, .test = {HAS_BITS, 1, CHANGES}},
    {{SYS_openat}, .action = MISSING, .test = {HAS_BITS, 2, CHANGES}},
    {{SYS_prlimit64}, .action = ALLOW, .test = {EQUALS, 0, 0}},
    {{SYS_execve, SYS_open, SYS_openat}, .action = ALLOW},
    {.action = 0}};

/* Allows what is in such a table and in every program, but not by the numbers of other architectures. */
static int confine(const struct decided_call *rows) {
    filter_length = 0;
    add_calls(AUDIT_ARCH_X86_64, rows, common_calls, MISSING);
    return install(0);
}

void confine_launcher(void) { must(confine(launcher_calls), "the launcher's calls can't be limited"); }

int confine_device(void) { return confine(device_calls); }
