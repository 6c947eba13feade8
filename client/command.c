/* The command, in a namespace of processes of its own, where no number names the launcher, its helpers or the devices.
   Process 1 there is started before all of these, and shares no memory and no file with them. It has the command's
   rights and filter, starts the process that becomes the command, reaps, and ends as the command ends. Then the kernel
   ends all other processes there. None of this is proved. */
#include "launcher.h"
#include <linux/capability.h>
#include <pthread.h>
#include <sys/prctl.h>
#include <sys/syscall.h>
#include <sys/uio.h>
#include <sys/wait.h>

pid_t process_one;

/* The call that the process that becomes the command makes first, and that is answered when it may begin. */
static union notice begun;

/* Gives up the rights with which the namespace is made, and others. No program that is started later has other rights
   than those that are left. */
static void drop_rights(uint32_t others) {
    struct __user_cap_header_struct version = {_LINUX_CAPABILITY_VERSION_3, 0};
    struct __user_cap_data_struct rights[2] = {{0}};
    syscall(SYS_capget, &version, rights);
    rights[0].permitted &= ~(1U << CAP_SYS_ADMIN | 1U << CAP_SETPCAP | others);
    for (unsigned right = 0; prctl(PR_CAPBSET_READ, right) >= 0; right++)
        if (!(rights[right / 32].permitted >> right % 32 & 1))
            prctl(PR_CAPBSET_DROP, right);
    for (unsigned at = 0; at < 2; at++)
        rights[at].effective = rights[at].inheritable = rights[at].permitted;
    must((int)syscall(SYS_capset, &version, rights), "rights can't be dropped");
}

/* Is process 1 while the command runs. */
__attribute__((noreturn)) static void be_first(pid_t command) {
    int how;
    pid_t process;
    setsid();
    close_range(0, ~0U, 0);
    prctl(PR_SET_NAME, "init");
    /* (no search for a name finds this process) */
    strcpy(memset(program_invocation_name, '\0', strlen(MODEL_FOLDER "/launcher") + sizeof INSIDE), "init");
    while ((process = waitpid(-1, &how, WUNTRACED)) != command || WIFSTOPPED(how))
        if (process == command)
            ioctl(-1, STOPPED_REQUEST);
    _exit(WIFEXITED(how) ? WEXITSTATUS(how) : 128 + WTERMSIG(how));
}

/* Sets a variable of the environment to one text, a colon and another, or to the first one if there is no other. */
static void set_both(const char *name, const char *one, const char *other) {
    char *whole;
    if (asprintf(&whole, "%s%s%s", one, other ? ":" : "", other ? other : "") < 0 || setenv(name, whole, 1) < 0) {
        fputs("nvme-model: out of memory\n", stderr);
        _exit(FAILED);
    }
}

/* (a stream that is closed for the command is one that can't be used) */
__attribute__((noreturn)) static void become(char **arguments) {
    set_both("LD_PRELOAD", MODEL_FOLDER "/library.so", getenv("LD_PRELOAD"));
    /* (the address sanitizer wants to be the first library, and udev that /sys is a file system of the kernel) */
    set_both("ASAN_OPTIONS", "verify_asan_link_order=0", getenv("ASAN_OPTIONS"));
    setenv("SYSTEMD_DEVICE_VERIFY_SYSFS", "0", 1);
    /* (blkid would make this folder, which is the machine's, to remember what it has seen) */
    if (access("/run/blkid", F_OK) < 0)
        setenv("BLKID_FILE", "/dev/null", 1);
    if (access(MODEL_FOLDER "/bin", F_OK) == 0 && getenv("PATH"))
        set_both("PATH", MODEL_FOLDER "/bin", getenv("PATH"));
    /* (Debian has nvme where an ordinary user's PATH doesn't lead) */
    if (getenv("PATH") && !strstr(getenv("PATH"), "/usr/sbin"))
        set_both("PATH", getenv("PATH"), "/usr/sbin:/sbin");
    for (int file = 0; file <= STDERR_FILENO; file++)
        if (fcntl(file, F_GETFL) & O_PATH)
            fcntl(file, F_SETFD, FD_CLOEXEC);
    execvp(arguments[0], arguments);
    int is_found = errno != ENOENT && errno != ENOTDIR, is_nvme = !is_found && strcmp(arguments[0], "nvme") == 0;
    fprintf(stderr, "nvme-model: %s: %s%s\n", arguments[0], strerror(errno),
            is_nvme ? ": install the package nvme-cli" : "");
    _exit(is_found ? NOT_EXECUTABLE : NOT_FOUND);
}

/* Begins as process 1. (Somebody who traced this process could keep it from ending.) */
__attribute__((noreturn)) static void begin(char **arguments) {
    prctl(PR_SET_DUMPABLE, 0);
    show_own_processes();
    drop_rights(1U << CAP_SYS_PTRACE);
    pid_t command = must(fork(), "fork");
    if (command > 0)
        be_first(command);
    restore_errors();
    if (close_range(STDERR_FILENO + 1, ~0U, 0) < 0 || ioctl(-1, NODE_REQUEST) < 0)
        _exit(FAILED);
    sigprocmask(SIG_SETMASK, &blocked, NULL);
    become(arguments);
}

/* Starts process 1 of the namespace. (The filter holds for this thread and for the processes that it starts, and not
   for the launcher.) */
static void *start_first(void *arguments) {
    filter_calls();
    process_one = must((pid_t)syscall(SYS_clone, CLONE_NEWPID | CLONE_NEWNS | SIGCHLD, NULL, NULL, NULL, 0L),
                 "the command can't have a namespace of processes");
    if (process_one == 0)
        begin(arguments);
    return NULL;
}

pid_t start_command(char **arguments, int ends) {
    pthread_t starter;
    struct iovec own = {&starter, 1};
    /* (a container may forbid it, and no call could be answered) */
    if (process_vm_readv(getpid(), &own, 1, &own, 1, 0) != 1)
        fail_by_errno("the memory of processes can't be read");
    errno = pthread_create(&starter, NULL, start_first, arguments);
    if (errno != 0 || pthread_join(starter, NULL) != 0)
        fail_by_errno("the command can't be started");
    drop_rights(0);
    if (await_files((const int[]){call_listener, ends}, 2, -1) != 1 || !receive_call(&begun))
        exit(NO_SANDBOX); /* (the other process said why) */
    return (pid_t)begun.got.pid;
}

void release_command(void) { finish_call(&begun, 0); }
