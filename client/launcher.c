/* Runs a command whose NVMe commands are answered by device programs, one for each subsystem file. The launcher first
   starts bubblewrap, which makes a sandbox and starts the launcher again inside (sandbox.c), as process 1, while this
   process passes signals on. There it starts the devices behind sockets (device.c), makes the nodes and the files of
   /sys (nodes.c, sysfs.c), runs the command with the library preloaded, and has its calls answered (helpers.c,
   calls.c). It ends when the command ends, with its status, and everything in the sandbox ends with it. None of this is
   proved. */
#include "launcher.h"
#include "usage.h"
#include <libgen.h>
#include <poll.h>
#include <stdarg.h>
#include <sys/resource.h>
#include <sys/signalfd.h>
#include <sys/socket.h>
#include <sys/wait.h>

struct device *devices;
unsigned device_count;

static pid_t command;
static int status;                     /* of the command, or of the launcher inside, once it has ended */
static int status_of_failure = FAILED; /* its status then */
static sigset_t watched;               /* the signals that are passed on, and that of an ended process */
static char here[PATH_MAX];            /* the current folder */
sigset_t blocked;
static char library_path[PATH_MAX + 32], program_path[PATH_MAX + 32]; /* outside */

/* Has no keeper report that a device has ended, when all end. */
static void lose_devices(void) {
    for (struct device *device = devices; device < devices + device_count; device++)
        device->state = LOST;
}

void fail(const char *format, ...) {
    char text[2 * PATH_MAX];
    va_list values;
    va_start(values, format);
    vsnprintf(text, sizeof text, format, values);
    va_end(values);
    if (takes_line(STDERR_FILENO))
        fprintf(stderr, "nvme-model: %s\n", text);
    if (command > 0)
        kill(command, SIGTERM);
    lose_devices();
    exit(status_of_failure);
}

void fail_by_errno(const char *what) { fail("%s: %s", what, strerror(errno)); }

int must(int result, const char *what) {
    if (result < 0)
        fail_by_errno(what);
    return result;
}

void cannot(const char *path) {
    if (command == 0)
        fail_by_errno(path);
    fprintf(stderr, "nvme-model: %s: %s\n", path, strerror(errno));
}

void await_room(int file) {
    struct pollfd either[] = {{.fd = command > 0 ? -1 : OUTSIDE, .events = POLLIN}, {.fd = file, .events = POLLOUT}};
    unsigned char number;
    while (poll(either, 2, -1) > 0 && either[0].revents && read(OUTSIDE, &number, 1) == 1)
        if (number != SIGCONT)
            exit(128 + number);
}

const char *last_line(FILE *said, const char *writer) {
    static char line[2 * PATH_MAX + 20];
    while (said && fgets(line, sizeof line, said))
        continue;
    line[strcspn(line, "\n")] = '\0';
    return line + (strncmp(line, writer, strlen(writer)) == 0 ? strlen(writer) : 0);
}

/* Finds out which processes of the launcher have ended. */
static void reap(void) {
    int how;
    pid_t ended;
    while ((ended = waitpid(-1, &how, WNOHANG)) > 0) {
        note_end(ended);
        if (ended == process_one)
            status = WIFEXITED(how) ? WEXITSTATUS(how) : 128 + WTERMSIG(how);
    }
}

static int is_stopped(void) {
    char text[512];
    const char *behind = strrchr(read_about(command, "stat", text, sizeof text), ')');
    return behind && strncmp(behind, ") T", 3) == 0;
}

int report_stop(void) { return is_stopped() && write(OUTSIDE, "\1", 1) < 0 ? -errno : 0; }

/* Lets the command begin, and has calls answered until it ends. Passes on signals that came to the process outside,
   without which nothing goes on. */
static void run_command(int ends) {
    struct signalfd_siginfo signal;
    unsigned char number;
    release_command();
    for (status = -1; status < 0;) {
        unsigned ready = await_signals(ends, OUTSIDE);
        if (ready & 1 && read(ends, &signal, sizeof signal) > 0)
            reap();
        ssize_t count = ready & 2 ? read(OUTSIDE, &number, 1) : -1;
        if (count == 0)
            fail("the process outside has ended");
        /* (what continues its group continues it too, unless it has a group of its own) */
        if (count > 0 && (number != SIGCONT || is_stopped()))
            kill(command, number);
    }
}

/* Blocks the signals that are received one by one, those that a socket of a lost device, a limit of the sizes of files
   and a lease cause, and those by which a terminal stops processes, because this one stops only after the command. */
static void block_signals(void) {
    static const int numbers[] = {SIGCHLD, SIGINT, SIGTERM, SIGHUP, SIGQUIT, SIGUSR1, SIGUSR2, SIGCONT},
                     others[] = {SIGPIPE, SIGXFSZ, SIGIO, SIGTSTP, SIGTTIN, SIGTTOU};
    sigemptyset(&watched);
    for (unsigned at = 0; at < sizeof numbers / sizeof *numbers; at++)
        sigaddset(&watched, numbers[at]);
    sigset_t all = watched;
    for (unsigned at = 0; at < sizeof others / sizeof *others; at++)
        sigaddset(&all, others[at]);
    sigprocmask(SIG_BLOCK, &all, NULL);
}

/* Finds the library and a program, which are in ../lib/nvme-model beside the launcher's folder. */
static void find_parts(const char *name) {
    char folder[PATH_MAX];
    read_link("/proc/self/exe", folder);
    const char *top = dirname(dirname(folder));
    snprintf(library_path, sizeof library_path, "%s/lib/nvme-model/library.so", top);
    snprintf(program_path, sizeof program_path, "%s/lib/nvme-model/%s", top, name);
}

/* Fails by a limit with which the launcher can't begin. */
static void check_limit(__rlimit_resource_t which, rlim_t least, const char *name) {
    struct rlimit limit;
    if (getrlimit(which, &limit) < 0 || limit.rlim_cur >= least)
        return;
    signal(SIGXFSZ, SIG_IGN); /* (the message may go to a file) */
    fail("the limit of %s is %ju, and at least %ju are needed", name, (uintmax_t)limit.rlim_cur, (uintmax_t)least);
}

void keep_as(int number, int file, const char *name) {
    must(dup2(must(file, name), number), name);
    if (file != number)
        close(file);
}

/* Opens a file of an option, as the caller sees it, with a number of its own. */
static void open_as(int number, const char *path, int flags) {
    keep_as(number, open(path, flags | O_NOCTTY, 0666), path);
    check_file(number, path);
}

static void open_files(void) {
    keep_as(HERE, open(".", O_PATH), ".");
    keep_as(WORDS, open("/proc/self/cmdline", O_RDONLY), "/proc/self/cmdline");
    for (unsigned at = 0; at < options.subsystem_count; at++)
        open_as(FILES + (int)at, options.subsystems[at], O_RDONLY);
    if (!options.trace_file)
        return;
    open_as(TRACE_TO, options.trace_file, O_WRONLY | O_CREAT);
    if (ftruncate(TRACE_TO, 0) < 0 && errno != EINVAL)
        fail_by_errno(options.trace_file);
}

/* Runs the command in the sandbox, with the devices. */
static int run(char **arguments) {
    struct rlimit files;
    block_signals(); /* (bwrap lets some through) */
    const int ends = must(signalfd(-1, &watched, SFD_CLOEXEC | SFD_NONBLOCK), "signalfd");
    list_devices();
    list_blocks();
    status_of_failure = NO_SANDBOX;
    pid_t started = start_command(arguments, ends);
    status_of_failure = FAILED;
    restore_errors();
    must((int)write(OUTSIDE, "", 1), "the process outside");
    umask(0);
    devices = share(MOST_DEVICES * sizeof *devices);
    /* (each namespace has its data in an open file) */
    getrlimit(RLIMIT_NOFILE, &files);
    files.rlim_cur = files.rlim_max;
    setrlimit(RLIMIT_NOFILE, &files);
    for (unsigned at = 0; at == 0 || at < options.subsystem_count; at++)
        start_device(options.subsystem_count > 0 ? FILES + (int)at : -1, options.subsystems[at]);
    make_nodes();
    command = started; /* (from now on, what can't be made doesn't end it) */
    confine_launcher();
    begin_helpers();
    run_command(ends);
    lose_devices();
    report_rules();
    return status;
}

/* Takes the words that the process outside was started with. (bwrap takes no more than 9,000 itself.) */
static char **take_words(int *count) {
    FILE *from = fdopen(WORDS, "r");
    char **words = NULL, *word = NULL;
    *count = 0;
    for (size_t room = 0; from && getdelim(&word, &room, '\0', from) > 0; room = 0, word = NULL) {
        if (!(words = reallocarray(words, (size_t)*count + 2, sizeof *words)))
            fail("out of memory");
        words[(*count)++] = word;
        words[*count] = NULL;
    }
    if (!words || !feof(from) || fclose(from) != 0)
        fail_by_errno("the words of the command");
    return words;
}

void restore_errors(void) {
    keep_as(STDERR_FILENO, ERRORS, "standard error");
    hold_streams();
}

/* Takes what the process outside handed on. This process is the first one of its kind, so all others end with it. */
static void begin_inside(void) {
    struct stat about, outside = {.st_dev = 0};
    if (read(OUTSIDE, &blocked, sizeof blocked) != sizeof blocked || read(OUTSIDE, here, sizeof here) <= 0)
        fail_by_errno("the process outside");
    check_mounts();
    /* (the folder is another one if a mount covers it, and /dev, /sys and /proc always are) */
    fstat(HERE, &outside);
    if (chdir(here) < 0 || stat(".", &about) < 0 ||
        (!is_replaced(here) && (about.st_dev != outside.st_dev || about.st_ino != outside.st_ino)))
        fail("the folder %s isn't there for the command: run it from another one", here);
    must(close_range(STDERR_FILENO + 1, WORDS, 0), "close_range");
    must(close_range(FILES + options.subsystem_count, ~0U, 0), "close_range");
}

/* Stops, and this process's group as by a key, because the command has stopped. When they go on in the foreground, the
   terminal is again that of the command's own group, if this had it. */
static void stop_too(void) {
    char text[8192];
    int terminal = open("/dev/tty", O_RDONLY | O_CLOEXEC), outer, inner;
    pid_t group = tcgetpgrp(terminal);
    const char *numbers = strstr(read_about(group, "status", text, sizeof text), "\nNSpid:");
    int is_own = numbers && sscanf(numbers, " NSpid: %d %d", &outer, &inner) == 2;
    if (terminal >= 0) {
        kill(0, SIGTSTP);
        raise(SIGSTOP);
    }
    if (is_own && tcgetpgrp(terminal) == getpgrp())
        tcsetpgrp(terminal, group);
    close(terminal);
}

/* Passes the signals that come to this process on to the launcher, which ends when the command does, and returns
   whether that was started. What is typed reaches the command anyway, if it is there. If the command stops, this
   process does too, unless it is to go on by now. */
static int await_launcher(pid_t launcher, int channel) {
    const int signals = must(signalfd(-1, &watched, SFD_CLOEXEC | SFD_NONBLOCK), "signalfd");
    struct signalfd_siginfo signal;
    int how, has_begun = 0;
    for (;;) {
        unsigned char has_stopped = 0;
        await_files((const int[]){signals, channel}, 2, -1);
        ssize_t length = recv(channel, &has_stopped, 1, MSG_DONTWAIT);
        has_begun |= length > 0;
        channel = length == 0 ? -1 : channel;
        while (read(signals, &signal, sizeof signal) > 0) {
            unsigned char number = (unsigned char)signal.ssi_signo;
            if (number == SIGCHLD && waitpid(launcher, &how, WNOHANG) == launcher) {
                status = WIFEXITED(how) ? WEXITSTATUS(how) : 128 + WTERMSIG(how);
                return has_begun || recv(channel, &number, 1, MSG_DONTWAIT) > 0;
            }
            has_stopped &= number != SIGCONT;
            int is_typed = signal.ssi_code == SI_KERNEL && (number == SIGINT || number == SIGQUIT);
            if (number != SIGCHLD && !(is_typed && has_begun))
                send(channel, &number, 1, MSG_DONTWAIT | MSG_NOSIGNAL);
        }
        if (has_stopped)
            stop_too();
    }
}

/* Runs the launcher in another process, in a sandbox. If the command wasn't started, returns the last line that tells
   why, or else NULL. */
static const char *run_launcher(void) {
    int ends[2], reasons[2];
    must(socketpair(AF_UNIX, SOCK_SEQPACKET | SOCK_CLOEXEC, 0, ends), "socketpair");
    must(pipe2(reasons, O_CLOEXEC | O_NONBLOCK), "pipe");
    if (write(ends[0], &blocked, sizeof blocked) < 0 || write(ends[0], here, sizeof here) < 0)
        fail_by_errno("socket");
    pid_t process = must(fork(), "fork");
    if (process == 0) {
        close(ends[0]);
        keep_as(OUTSIDE, ends[1], "socket");
        keep_as(ERRORS, dup(STDERR_FILENO), "standard error");
        keep_as(STDERR_FILENO, reasons[1], "pipe");
        status_of_failure = NO_SANDBOX;
        enter_sandbox(library_path, program_path);
    }
    close(ends[1]);
    close(reasons[1]);
    return await_launcher(process, ends[0]) ? NULL : last_line(fdopen(reasons[0], "r"), "nvme-model: ");
}

/* Returns why no sandbox could be made, by the last line of bwrap. */
static const char *why_no_sandbox(const char *line) {
    if (status == NOT_FOUND)
        return "the program bwrap is missing: install the package bubblewrap";
    if (strstr(line, "Unknown option"))
        return "bwrap is older than 0.8: install a newer bubblewrap";
    return *line ? line : "bwrap ended without a reason";
}

/* Makes the sandbox and runs the command there. */
static int begin_outside(void) {
    must(access(library_path, R_OK), library_path);
    must(access(program_path, X_OK), program_path);
    for (unsigned at = 0; at < options.added_count; at++)
        find_device(options.added[at]);
    if (!getcwd(here, sizeof here))
        fail("the current folder can't be told: run the command from another one");
    block_signals();
    const char *line = run_launcher();
    if (!line || (status == FAILED && !*line)) /* (it has said why) */
        return status;
    if (status == FAILED)
        fail("%s", line);
    fail("no sandbox can be made: %s; --vm runs the command on a kernel of its own, in a virtual machine",
         why_no_sandbox(line));
}

int main(int count, char **arguments) {
    int is_inside = getpid() == 1 && count == 2 && strcmp(arguments[1], INSIDE) == 0;
    if (is_inside)
        arguments = take_words(&count);
    else {
        int is_qemu = count > 1 && (strcmp(arguments[1], "--qemu") == 0 || strcmp(arguments[1], "--vfio-user") == 0);
        int is_vm = count > 1 && strcmp(arguments[1], "--vm") == 0;
        if (!is_qemu && !is_vm)
            check_streams();
        if (!is_vm)
            hold_streams();
        if (is_qemu && count == 3 && strcmp(arguments[2], "--help") == 0)
            exit(fputs(qemu_usage, stdout) >= 0 && fflush(stdout) == 0 ? 0 : FAILED);
        if (is_qemu || is_vm) {
            find_parts(is_vm ? "vm.py" : "qemu");
            execv(program_path, arguments);
            must(-1, is_vm && access(program_path, F_OK) == 0 ? "--vm needs python3 (apt install python3)" : program_path);
        }
        must(close_range(STDERR_FILENO + 1, ~0U, CLOSE_RANGE_CLOEXEC), "close_range");
    }
    arguments[0] = "nvme-model";
    options.limit = (uint64_t)sysconf(_SC_PHYS_PAGES) * (uint64_t)sysconf(_SC_PAGESIZE) / 4;
    int at = read_options(count, arguments);
    signal(SIGCHLD, SIG_DFL);
    if (is_inside) {
        begin_inside();
        return run(arguments + at);
    }
    sigprocmask(SIG_BLOCK, NULL, &blocked);
    check_limit(RLIMIT_NOFILE, 256, "open files (ulimit -n)");
    check_limit(RLIMIT_FSIZE, 1 << 20, "the bytes of a file (ulimit -f)");
    open_files();
    find_parts("nvme_device");
    return begin_outside();
}
