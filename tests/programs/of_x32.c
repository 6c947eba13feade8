/* Prints whether a call of x32 is refused by a filter that this process inherited. (A kernel may have no such calls. A
   second filter asks for a tracer, which counts less than a refusal, and is heard before the kernel looks.) */
#define _GNU_SOURCE
#include <linux/filter.h>
#include <linux/seccomp.h>
#include <signal.h>
#include <stddef.h>
#include <stdio.h>
#include <sys/prctl.h>
#include <sys/ptrace.h>
#include <sys/syscall.h>
#include <sys/wait.h>
#include <unistd.h>

enum { X32_BIT = 0x40000000 };

static void make_call(void) {
    static struct sock_filter lines[] = {
        BPF_STMT(BPF_LD | BPF_W | BPF_ABS, offsetof(struct seccomp_data, nr)),
        BPF_JUMP(BPF_JMP | BPF_JGE | BPF_K, X32_BIT, 0, 1), BPF_STMT(BPF_RET | BPF_K, SECCOMP_RET_TRACE),
        BPF_STMT(BPF_RET | BPF_K, SECCOMP_RET_ALLOW)};
    static const struct sock_fprog filter = {sizeof lines / sizeof *lines, lines};
    ptrace(PTRACE_TRACEME, 0, NULL, NULL);
    raise(SIGSTOP);
    prctl(PR_SET_NO_NEW_PRIVS, 1, 0, 0, 0);
    if (prctl(PR_SET_SECCOMP, SECCOMP_MODE_FILTER, &filter) < 0)
        _exit(1);
    syscall(X32_BIT | SYS_getpid);
    _exit(0);
}

int main(void) {
    int how;
    pid_t child = fork();
    if (child == 0)
        make_call();
    waitpid(child, &how, 0);
    ptrace(PTRACE_SETOPTIONS, child, NULL, PTRACE_O_TRACESECCOMP | PTRACE_O_EXITKILL);
    ptrace(PTRACE_CONT, child, NULL, NULL);
    waitpid(child, &how, 0);
    return puts(how == 0 ? "refused" : WIFSTOPPED(how) ? "not refused" : "no filter could be added") < 0;
}
