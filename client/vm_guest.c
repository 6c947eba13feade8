/* Process 1 of the machine of `nvme-model --vm`, which vm.py outside starts. Its root folder is that of the machine
   outside, below an overlay in memory. A second process keeps the command: it passes streams and signals on, and tells
   how the command ended. None of this is proved. */
#define _GNU_SOURCE
#include <errno.h>
#include <fcntl.h>
#include <glob.h>
#include <pthread.h>
#include <pty.h>
#include <signal.h>
#include <stdint.h>
#include <stdio.h>
#include <stdlib.h>
#include <string.h>
#include <sys/ioctl.h>
#include <sys/mount.h>
#include <sys/stat.h>
#include <sys/syscall.h>
#include <sys/sysmacros.h>
#include <sys/utsname.h>
#include <sys/wait.h>
#include <termios.h>
#include <unistd.h>

enum { FAILED = 72, NOT_EXECUTABLE = 126, NOT_FOUND = 127 };

/* What the ports of a virtio-serial device carry. Each stream of the command goes in frames, which have their length
   before them; an empty one is its end. */
enum port { INPUT, OUTPUT, ERRORS, TERMINAL, MESSAGES, PORTS };
struct frame { uint32_t length; char bytes[32 * 1024 - sizeof(uint32_t)]; };

/* A message of the machine says that the command has begun; that a signal has stopped it, or that it ended, with the
   status of waitpid; that nobody reads the stream of a port any more; or that it lives. One to the machine has a signal
   for the command, or for its group; the terminal's size; that a stopped command continues, and whether the terminal's
   keys are its own; that nobody reads a stream; a question whether it lives; or that it may end. */
enum kind { BEGUN, STOPPED, ENDED, UNREAD, ALIVE, SIGNAL, SIGNAL_GROUP, SIZE, CONTINUE, FINISH };
struct message { uint32_t kind, value; };

/* How the command begins. (Errors may go where the output goes. The terminal's mode is the kernel's struct termios.) */
enum stream { CLOSED, NOTHING, PIPE, ON_TERMINAL, AS_OUTPUT };
static struct begin {
    uint32_t streams[3], has_terminal, is_in_front, mask;
    struct winsize size;
    uint32_t mode[9];
} begin;

/* A stream that a thread copies to a port, or from it. */
struct flow { enum port port; int stream; _Atomic int is_unread; };

extern char **environ;
static int ports[PORTS];
static int master = -1, slave = -1; /* the two ends of the command's terminal */
static pid_t command;
static _Atomic int is_stopped;
static struct flow flows[3], screen, keys;
static const int ignored[] = {SIGHUP, SIGPIPE, SIGTTOU}; /* by the process that keeps the command */

/* Ends the machine at once: a shutdown would wait for each drive. */
__attribute__((noreturn)) static void end_machine(void) {
    int request = open("/proc/sysrq-trigger", O_WRONLY);
    tcdrain(STDERR_FILENO);
    while (write(request, "b", 1) == 1)
        sleep(1);
    _exit(FAILED);
}

/* Says on the console why there is no command. The host shows the last line of it. */
__attribute__((noreturn)) static void refuse(const char *what) {
    fprintf(stderr, "\nnvme-model: the machine: %s: %s\n", what, strerror(errno));
    end_machine();
}

/* ---- ports and streams: a thread copies each, so that none holds up another one */

/* These two return whether all of it was written or read. */
static int write_all(int to, const void *bytes, size_t count) {
    ssize_t written = 0;
    for (const char *next = bytes, *end = next + count; next < end && written >= 0; next += written)
        written = write(to, next, (size_t)(end - next));
    return written >= 0;
}

static int read_all(int from, void *bytes, size_t count) {
    ssize_t got = 1;
    for (char *next = bytes, *end = next + count; next < end && got > 0; next += got)
        got = read(from, next, (size_t)(end - next));
    return got > 0;
}

static void tell(enum kind kind, uint32_t value) {
    write_all(ports[MESSAGES], &(struct message){kind, value}, sizeof(struct message));
}

static void *copy_to_port(void *argument) {
    struct flow *flow = argument;
    struct frame frame = {.length = 1};
    while (frame.length > 0) {
        ssize_t got = flow->is_unread ? 0 : read(flow->stream, frame.bytes, sizeof frame.bytes);
        frame.length = got > 0 ? (uint32_t)got : 0;
        write_all(ports[flow->port], &frame, sizeof frame.length + frame.length);
    }
    close(flow->stream);
    return NULL;
}

/* (what comes for a stream that nobody reads is dropped) */
static void *copy_from_port(void *argument) {
    struct flow *flow = argument;
    struct frame frame;
    while (read_all(ports[flow->port], &frame.length, sizeof frame.length) && frame.length > 0 &&
           read_all(ports[flow->port], frame.bytes, frame.length))
        if (!flow->is_unread && !write_all(flow->stream, frame.bytes, frame.length)) {
            flow->is_unread = 1;
            tell(UNREAD, flow->port);
        }
    close(flow->stream);
    return NULL;
}

static void start(void *copy(void *), void *argument) {
    pthread_t thread;
    if (pthread_create(&thread, NULL, copy, argument) != 0)
        refuse("a thread");
}

static void start_flow(struct flow *flow, enum port port, int stream, void *copy(void *)) {
    flow->port = port;
    flow->stream = stream;
    start(copy, flow);
}

/* ---- the machine's beginning */

static void attach(const char *what, const char *where, const char *kind, unsigned long flags, const char *how) {
    mkdir(where, 0755);
    if (mount(what, where, kind, flags, how) < 0)
        refuse(where);
}

static void load(const char *path) {
    int file = open(path, O_RDONLY | O_CLOEXEC);
    if (syscall(SYS_finit_module, file, "", 0) < 0 && errno != EEXIST && errno != ENODEV)
        refuse("its modules aren't those of its kernel");
    close(file);
    unlink(path);
}

/* Loads the modules that the host has put there, in order. The driver of drives is bound to none yet: vm_guest.sh binds
   it to one after another. */
static void load_modules(void) {
    char path[32];
    for (int number = 0; snprintf(path, sizeof path, "/module%d", number), access(path, F_OK) == 0; number++)
        load(path);
    if (access("/drives", F_OK) == 0) {
        int file = open("/sys/bus/pci/drivers_autoprobe", O_WRONLY | O_CLOEXEC);
        dprintf(file, "0");
        close(file);
        load("/drives");
    }
}

/* Opens the ports, which appear soon after their driver has been loaded. */
static void open_ports(void) {
    char pattern[32];
    glob_t found;
    for (int port = 0; port < PORTS; port++) {
        snprintf(pattern, sizeof pattern, "/dev/vport*p%d", port + 1);
        while (glob(pattern, 0, NULL, &found) != 0 || (ports[port] = open(*found.gl_pathv, O_RDWR | O_CLOEXEC)) < 0)
            usleep(10000);
    }
}

/* Returns the texts of a first file, each of which ends with a zero byte, or with the file. */
static char **texts_of(const char *path) {
    FILE *file = fopen(path, "re");
    char **texts = NULL;
    size_t count = 0, size;
    if (!file)
        refuse(path);
    do {
        texts = realloc(texts, (count + 1) * sizeof *texts);
        texts[count] = NULL;
        size = 0;
    } while (getdelim(&texts[count++], &size, '\0', file) >= 0);
    texts[count - 1] = NULL;
    fclose(file);
    return texts;
}

/* Makes the nodes whose first use loads a module, such as loop-control. */
static void make_nodes(void) {
    struct utsname kernel;
    char line[256], name[101], path[128], kind;
    unsigned major, minor;
    uname(&kernel);
    snprintf(line, sizeof line, "/lib/modules/%s/modules.devname", kernel.release);
    FILE *file = fopen(line, "re");
    while (file && fgets(line, sizeof line, file))
        if (sscanf(line, "%*s %100s %c%u:%u", name, &kind, &major, &minor) == 4) {
            snprintf(path, sizeof path, "/dev/%s", name);
            char *end = strrchr(path, '/');
            *end = '\0';
            mkdir(path, 0755);
            *end = '/';
            mknod(path, (kind == 'b' ? S_IFBLK : S_IFCHR) | 0600, makedev(major, minor));
        }
    if (file)
        fclose(file);
}

/* Makes the root folder, and has a script do the rest. It says on the console what it can't do. */
static void make_root(const char *script, const char *settings) {
    setenv("settings", settings, 1);
    setenv("PATH", "/usr/local/sbin:/usr/local/bin:/usr/sbin:/usr/bin:/sbin:/bin", 1);
    attach("root", "/host", "9p", MS_RDONLY | MS_NOATIME,
           "trans=virtio,version=9p2000.L,msize=507904,access=any,cache=loose");
    attach("memory", "/memory", "tmpfs", 0, "size=75%");
    mkdir("/memory/files", 0755);
    mkdir("/memory/work", 0755);
    attach("files", "/root", "overlay", MS_NOATIME, "lowerdir=/host,upperdir=/memory/files,workdir=/memory/work");
    attach("/proc", "/root/proc", NULL, MS_MOVE, NULL);
    attach("/sys", "/root/sys", NULL, MS_MOVE, NULL);
    attach("/dev", "/root/dev", NULL, MS_MOVE, NULL);
    if (chdir("/root") < 0 || mount(".", "/", NULL, MS_MOVE, NULL) < 0 || chroot(".") < 0)
        refuse("its root folder");
    attach("run", "/run", "tmpfs", MS_NOSUID | MS_NODEV, "mode=755");
    attach("pts", "/dev/pts", "devpts", 0, "gid=5,mode=620,ptmxmode=666");
    attach("shm", "/dev/shm", "tmpfs", MS_NOSUID | MS_NODEV, "mode=1777");
    attach("mqueue", "/dev/mqueue", "mqueue", 0, NULL);
    attach("cgroup2", "/sys/fs/cgroup", "cgroup2", 0, NULL);
    if (symlink("/proc/self/fd", "/dev/fd") < 0 || symlink("fd/0", "/dev/stdin") < 0 ||
        symlink("fd/1", "/dev/stdout") < 0 || symlink("fd/2", "/dev/stderr") < 0)
        refuse("its streams");
    if (system(script) != 0)
        end_machine();
    make_nodes();
}

/* ---- the command */

/* Becomes the command. */
__attribute__((noreturn)) static void become(char **words, const int streams[3]) {
    char *path = getenv("PATH") ?: "/usr/local/bin:/usr/bin:/bin";
    if (!strstr(path, "/sbin") && asprintf(&path, "%s:/usr/local/sbin:/usr/sbin:/sbin", path) >= 0)
        setenv("PATH", path, 1);
    setpgid(0, 0);
    if (begin.is_in_front)
        tcsetpgrp(slave, getpid());
    for (int stream = 0; stream < 3; stream++)
        if (dup2(streams[stream], stream) < 0)
            close(stream);
    for (unsigned at = 0; at < sizeof ignored / sizeof *ignored; at++)
        signal(ignored[at], SIG_DFL);
    umask(begin.mask);
    execvp(*words, words);
    dprintf(STDERR_FILENO, "nvme-model: %s: %s\n", *words, strerror(errno));
    _exit(errno == ENOENT ? NOT_FOUND : NOT_EXECUTABLE);
}

/* Starts the command, with pipes where its streams outside are no terminal. */
static void start_command(char **words) {
    int theirs[3], ours[3], pair[2];
    for (int stream = 0; stream < 3; stream++) {
        int is_pipe = begin.streams[stream] == PIPE && pipe2(pair, O_CLOEXEC) == 0;
        theirs[stream] = is_pipe                                ? pair[stream != 0]
                         : begin.streams[stream] == ON_TERMINAL ? slave
                         : begin.streams[stream] == NOTHING     ? open("/dev/null", O_RDWR | O_CLOEXEC)
                         : begin.streams[stream] == AS_OUTPUT   ? theirs[OUTPUT]
                                                                : -1;
        ours[stream] = is_pipe ? pair[stream == 0] : -1;
    }
    command = fork();
    if (command == 0)
        become(words, theirs);
    setpgid(command, command);
    tell(BEGUN, 0);
    for (int stream = 0; stream < 3; stream++)
        if (ours[stream] >= 0) {
            close(theirs[stream]);
            start_flow(flows + stream, (enum port)stream, ours[stream], stream == 0 ? copy_from_port : copy_to_port);
        }
}

/* Waits until the command has ended, ends all other processes, and has what was written go to the drives, which may
   take half a minute. */
static void *wait_for_command(void *nothing) {
    int how;
    while (waitpid(command, &how, WUNTRACED) == command && WIFSTOPPED(how)) {
        is_stopped = 1;
        tell(STOPPED, (uint32_t)WSTOPSIG(how));
    }
    kill(-1, SIGKILL);
    close(slave);
    pid_t writer = fork();
    if (writer == 0)
        _exit((sync(), 0));
    for (int tenths = 0; tenths < 300 && waitpid(writer, NULL, WNOHANG) == 0; tenths++)
        usleep(100000);
    tell(ENDED, (uint32_t)how);
    return nothing;
}

static void obey(struct message message) {
    struct winsize size = {(unsigned short)message.value, (unsigned short)(message.value >> 16), 0, 0};
    if (message.kind == SIGNAL || message.kind == SIGNAL_GROUP)
        kill(message.kind == SIGNAL ? command : -command, (int)message.value);
    else if (message.kind == SIZE)
        ioctl(master, TIOCSWINSZ, &size);
    else if (message.kind == UNREAD && message.value <= ERRORS)
        flows[message.value].is_unread = 1;
    else if (message.kind == ALIVE)
        tell(ALIVE, 0);
    else if (message.kind == CONTINUE && is_stopped) {
        is_stopped = 0;
        tcsetpgrp(slave, message.value ? command : getpgrp());
        kill(-command, SIGCONT);
    }
}

/* (if another process of a pipeline outside has the terminal, it changes what is written) */
static void open_terminal(void) {
    enum { OUTPUT_FLAGS = 1 };
    if (!begin.is_in_front)
        begin.mode[OUTPUT_FLAGS] &= ~(uint32_t)OPOST;
    if (openpty(&master, &slave, NULL, NULL, &begin.size) < 0)
        return;
    ioctl(slave, TCSETS, begin.mode);
    ioctl(slave, TIOCSCTTY, 0);
    fcntl(slave, F_SETFD, FD_CLOEXEC);
    fcntl(master, F_SETFD, FD_CLOEXEC);
    start_flow(&keys, TERMINAL, master, copy_from_port);
    start_flow(&screen, TERMINAL, master, copy_to_port);
}

__attribute__((noreturn)) static void keep_command(char **words) {
    struct message message;
    setsid();
    for (unsigned at = 0; at < sizeof ignored / sizeof *ignored; at++)
        signal(ignored[at], SIG_IGN);
    if (begin.has_terminal)
        open_terminal();
    start_command(words);
    start(wait_for_command, NULL);
    while (read_all(ports[MESSAGES], &message, sizeof message) && message.kind != FINISH)
        obey(message);
    _exit(0);
}

int main(void) {
    attach("proc", "/proc", "proc", 0, NULL);
    attach("sys", "/sys", "sysfs", 0, NULL);
    attach("dev", "/dev", "devtmpfs", 0, NULL);
    int console = open("/dev/console", O_RDWR | O_CLOEXEC);
    for (int stream = 0; stream < 3; stream++)
        dup2(console, stream);
    load_modules();
    open_ports();
    tell(ALIVE, 0);
    int file = open("/begin", O_RDONLY | O_CLOEXEC);
    char **words = texts_of("/words"), **variables = texts_of("/variables"), **place = texts_of("/place");
    if (!read_all(file, &begin, sizeof begin))
        refuse("its first files");
    make_root(*texts_of("/setup"), *texts_of("/settings"));
    if (sethostname(place[0], strlen(place[0])) < 0)
        refuse("its name");
    if (chdir(place[1]) < 0)
        refuse("the current folder");
    environ = variables;
    pid_t keeper = fork();
    if (keeper == 0)
        keep_command(words);
    while (wait(NULL) != keeper)
        continue;
    end_machine();
}
