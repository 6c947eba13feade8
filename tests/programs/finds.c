/* Tries all process numbers up to one, apart from process 1, its parent and itself, and prints each call that finds a
   process: finds MOST */
#define _GNU_SOURCE
#include <errno.h>
#include <signal.h>
#include <stdio.h>
#include <stdlib.h>
#include <sys/ptrace.h>
#include <sys/resource.h>
#include <sys/syscall.h>
#include <sys/uio.h>
#include <unistd.h>

static void tell(long process, const char *call, long result) {
    if (result >= 0 || (errno != ESRCH && errno != ENOENT))
        printf("%ld: %s\n", process, call);
}

/* (what could change a process has an argument that it refuses, or changes nothing) */
static void try(long process) {
    char path[32], here[8];
    unsigned long no_processor = 0;
    struct iovec ours = {here, sizeof here}, theirs = {here, sizeof here};
    struct rlimit limit;
    snprintf(path, sizeof path, "/proc/%ld", process);
    tell(process, path, access(path, F_OK));
    tell(process, "kill", syscall(SYS_kill, process, 0));
    tell(process, "kill of its group", syscall(SYS_kill, -process, 0));
    tell(process, "tkill", syscall(SYS_tkill, process, 0));
    tell(process, "prlimit", syscall(SYS_prlimit64, process, RLIMIT_NOFILE, NULL, &limit));
    tell(process, "sched_setaffinity", syscall(SYS_sched_setaffinity, process, sizeof no_processor, &no_processor));
    tell(process, "process_vm_readv", syscall(SYS_process_vm_readv, process, &ours, 1L, &theirs, 1L, 0L));
    tell(process, "pidfd_open", syscall(SYS_pidfd_open, process, 0));
    tell(process, "ptrace", syscall(SYS_ptrace, PTRACE_SEIZE, process, 1L, 0L));
    tell(process, "ioprio_set", syscall(SYS_ioprio_set, 1L, process, 0L));
    tell(process, "setpriority", setpriority(PRIO_PROCESS, (id_t)process, getpriority(PRIO_PROCESS, 0)));
    tell(process, "getsid", syscall(SYS_getsid, process));
}

int main(int count, char **words) {
    for (long process = 2; process <= atol(words[count - 1]); process++)
        if (process != getpid() && process != getppid())
            try(process);
    return puts("end") < 0;
}
