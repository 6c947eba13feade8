/* Gives the controllers of the proved library to virtual machines: to QEMU, which it starts, or to clients of vfio-user
   that come and go. None of this is proved. */
#define _GNU_SOURCE
#include "function.h"
#include "usage.h"
#include <getopt.h>
#include <pthread.h>
#include <sys/eventfd.h>
#include <sys/prctl.h>
#include <sys/resource.h>
#include <sys/stat.h>
#include <sys/un.h>
#include <sys/wait.h>

/* Statuses, and what there may be at most. */
enum { NOT_EXECUTABLE = 126, NOT_FOUND = 127, MOST_FILE = 1 << 20, MOST_GIBIBYTES = 64, MOST_WAITING = 4 };

static int is_server, has_summary, has_msix; /* the values of the options */
static const char *paths[MOST_FUNCTIONS], *memory = "128M", *folder_of_data;
static unsigned path_count, function_count;
struct function functions[MOST_FUNCTIONS];
static struct subsystem subsystems[MOST_FUNCTIONS];
static unsigned long long most_data;
static int ways[MOST_FUNCTIONS], noted; /* QEMU's ways to the sockets, and an event counter of signals */
static char folder[100], *sockets;      /* for QEMU's sockets, and how the paths of all begin */
static pid_t qemu;
static _Atomic int ending; /* the signal that ends this process */
static sigset_t former_mask, watched;

static struct sockaddr_un address_of(const char *path, unsigned number) {
    struct sockaddr_un made = {.sun_family = AF_UNIX};
    if (snprintf(made.sun_path, sizeof made.sun_path, "%s%u", path, number) >= (int)sizeof made.sun_path)
        errx(FAILED, "%s: the path is too long for a socket", path);
    return made;
}

/* Removes the names of the sockets, once. (Later, they may be names of something else.) */
static void remove_sockets(void) {
    for (unsigned at = 0; sockets && at < function_count; at++)
        if (functions[at].listener >= 0)
            unlink(address_of(sockets, at).sun_path);
    if (sockets && !is_server)
        rmdir(folder);
    sockets = NULL;
}

/* Ends this process by a signal, whose number is positive. */
static int end_now(int number) {
    remove_sockets();
    pthread_sigmask(SIG_SETMASK, &former_mask, NULL);
    return raise(number);
}

/* Waits for signals: that a child has ended, or one that ends this process, which has a second to end by itself,
   because a client can make a turn as long as it likes. (Beside QEMU, those of the terminal's keys are QEMU's.) */
static void *wait_for_signals(void *unused) {
    int number;
    do {
        sigwait(&watched, &number);
        ending = number == SIGCHLD || (!is_server && (number == SIGINT || number == SIGQUIT)) ? 0 : number;
        eventfd_write(noted, 1);
    } while (!ending);
    sleep(1);
    end_now(number);
    return unused;
}

/* Serves until QEMU has ended and nothing that it sent is left, and returns its status as a shell does, or until a
   signal ends this process, and returns minus its number. */
static int serve_all(void) {
    struct pollfd awaited[1 + 2 * MOST_FUNCTIONS] = {{noted, POLLIN, 0}};
    eventfd_t times;
    int how = 0, has_ended = 0;
    while (!ending) {
        unsigned wait = has_ended ? 0 : -1u;
        for (unsigned at = 0; at < function_count; at++)
            wait = serve_client(functions + at, awaited + 1 + 2 * at, wait);
        int ready = poll(awaited, 1 + 2 * function_count, (int)wait);
        if (ready <= 0 && has_ended)
            return WIFEXITED(how) ? WEXITSTATUS(how) : 128 + WTERMSIG(how);
        if (awaited[0].revents && eventfd_read(noted, &times) == 0 && !is_server)
            has_ended |= waitpid(qemu, &how, WNOHANG) != 0;
    }
    return -ending;
}

/* Chooses the protocol that QEMU has. (If it can't be run, running it tells why.) */
static const struct protocol *choose(char **options) {
    static char said[MOST_FILE];
    int has_kvm = 0;
    for (; *options; options++) {
        if (strcmp(*options, "-daemonize") == 0 || strcmp(*options, "--daemonize") == 0)
            errx(FAILED, "%s: QEMU needs this program all the time, so start nvme-model --vfio-user first", *options);
        has_kvm |= strstr(*options, "kvm") != NULL;
    }
    FILE *output = popen("(qemu-system-x86_64 -version; qemu-system-x86_64 -device help) 2> /dev/null", "re");
    said[output ? fread(said, 1, sizeof said - 1, output) : 0] = '\0';
    if (output)
        pclose(output);
    const char *version = strstr(said, "version ");
    if (!*said || strstr(said, "vfio-user-pci"))
        return &vfio_user;
    if (!strstr(said, "x-pci-proxy-dev"))
        errx(FAILED, "this QEMU has no vfio-user-pci: install QEMU 10.1 or later");
    if (!has_kvm && version && strtod(version + strlen("version "), NULL) > 8.15)
        errx(FAILED, "without KVM, x-pci-proxy-dev ends this QEMU: install QEMU 10.1 or later, for vfio-user-pci");
    return &proxy;
}

/* Becomes QEMU, with options that put functions and shared memory into its machine. It ends with the parent. */
static void run_qemu(char **options, unsigned count, pid_t parent) {
    char *first[] = {"qemu-system-x86_64", "-machine", "q35,memory-backend=nvme-model-ram", "-object", NULL};
    char *arguments[sizeof first / sizeof *first + 2 * MOST_FUNCTIONS + count + 1];
    char **next = mempcpy(arguments, first, sizeof first);
    const char *device = "{\"driver\":\"vfio-user-pci\",\"id\":\"nvme-model-%u\",\"socket\":{\"type\":\"unix\","
                         "\"path\":\"%s\"}}";
    int length = asprintf(next - 1, "memory-backend-memfd,id=nvme-model-ram,share=on,size=%s", memory);
    for (unsigned at = 0; length >= 0 && at < function_count; at++) {
        struct sockaddr_un way = address_of("/proc/self/fd/", (unsigned)ways[at]);
        int end = functions[at].protocol == &proxy ? socket(AF_UNIX, SOCK_STREAM, 0) : -1;
        *next++ = "-device";
        if (end < 0)
            length = asprintf(next++, device, at, way.sun_path);
        else if ((length = connect(end, &way, sizeof way)) == 0)
            length = asprintf(next++, "x-pci-proxy-dev,fd=%d", end);
    }
    memcpy(next, options, (count + 1) * sizeof *options);
    sigprocmask(SIG_SETMASK, &former_mask, NULL);
    if (length >= 0 && prctl(PR_SET_PDEATHSIG, SIGKILL) == 0 && getppid() == parent)
        execvp(*arguments, arguments);
    err(errno == ENOENT ? NOT_FOUND : NOT_EXECUTABLE, "%s", *arguments);
}

/* Has a thread wait for signals, except for those that would end this process but were ignored. */
static void watch_signals(void) {
    static const int numbers[] = {SIGCHLD, SIGTERM, SIGHUP, SIGINT, SIGQUIT};
    struct sigaction former;
    pthread_t thread;
    signal(SIGCHLD, SIG_DFL);
    for (unsigned at = 0; at < sizeof numbers / sizeof *numbers; at++)
        if (sigaction(numbers[at], NULL, &former) == 0 && former.sa_handler != SIG_IGN)
            sigaddset(&watched, numbers[at]);
    sigprocmask(SIG_BLOCK, &watched, &former_mask);
    noted = eventfd(0, EFD_CLOEXEC | EFD_NONBLOCK);
    if (pthread_create(&thread, NULL, wait_for_signals, NULL) != 0)
        errx(FAILED, "a thread could not be started");
}

/* Opens two machines of a subsystem: that of a file, or the demonstration subsystem. */
static void open_machines(const char *path, nvme_machine *machines[2]) {
    static unsigned char bytes[MOST_FILE + 1];
    char fault[512] = "";
    FILE *file = path ? fopen(path, "re") : NULL;
    size_t length = file ? fread(bytes, 1, sizeof bytes, file) : 0;
    errno = length > MOST_FILE ? EFBIG : errno;
    if (path && (!file || ferror(file) || length > MOST_FILE || fclose(file) != 0))
        err(FAILED, "%s", path);
    for (nvme_machine **at = machines; at < machines + 2; at++)
        if (path ? nvme_machine_open(bytes, length, at, fault, sizeof fault) : nvme_machine_demo(at))
            errx(FAILED, "%s", *fault ? fault : "out of memory");
}

/* Makes a function for each controller of a subsystem, and the data of its namespaces. Another machine is asked what
   hosts want at first, because controllers count commands. */
static void make_functions(const char *path, unsigned place, const struct protocol *protocol) {
    nvme_machine *opened[2];
    struct subsystem *subsystem = subsystems + place;
    open_machines(path, opened);
    *subsystem = (struct subsystem){*opened, place, functions + function_count, nvme_machine_controllers(*opened), {}};
    for (uint16_t number = 0; number < subsystem->count; number++, function_count++) {
        if (function_count == MOST_FUNCTIONS)
            errx(FAILED, "there are more than %d controllers", MOST_FUNCTIONS);
        functions[function_count] = (struct function){protocol, subsystem, *opened, number,
            protocol == &vfio_user && (has_msix || !is_server) ? VECTORS : 0, .socket = -1, .listener = -1,
            .drive.saved_wish = wish_at_start(opened[1], number), .to_receiver = -1,
            .counters = {[0 ... COUNTERS - 1] = -1}, .files.at = {[0 ... MOST_FILES - 1] = -1}};
        nvme_machine_identify(*opened, number, functions[function_count].identity);
        reset(functions + function_count);
    }
    nvme_machine_close(opened[1]);
    look_at_namespaces(subsystem->functions, AT_START, 0);
}

/* Makes the sockets. A socket at which nobody listens is replaced, and no other file. (A connection to one that isn't a
   socket is refused in the same way.) QEMU's sockets have names only until there are other ways to them, so that none
   are left if this process is killed. */
static void make_sockets(void) {
    const char *place = getenv("TMPDIR");
    snprintf(folder, sizeof folder - 1, "%s/nvme-model.XXXXXX", place && *place ? place : "/tmp");
    if (!is_server && !mkdtemp(folder))
        err(FAILED, "%s", folder);
    sockets = is_server ? sockets : strcat(folder, "/");
    for (unsigned number = 0; number < function_count; number++) {
        struct sockaddr_un at = address_of(sockets, number);
        int made = socket(AF_UNIX, SOCK_STREAM | SOCK_CLOEXEC | SOCK_NONBLOCK, 0);
        struct stat about;
        if (connect(made, &at, sizeof at) < 0 && errno == ECONNREFUSED && lstat(at.sun_path, &about) == 0 &&
            S_ISSOCK(about.st_mode))
            unlink(at.sun_path);
        if (bind(made, &at, sizeof at) < 0 || listen(made, MOST_WAITING) < 0)
            err(FAILED, "%s", at.sun_path);
        functions[number].listener = made;
        if (is_server)
            dprintf(STDOUT_FILENO, "%s\n", at.sun_path);
        else
            ways[number] = open(at.sun_path, O_PATH);
    }
    if (!is_server)
        remove_sockets();
}

/* Prints how many commands each controller has had, and its error log. */
static void tell_summary(void) {
    uint64_t refusals, commands;
    uint8_t entry[64];
    for (unsigned at = 0; at < function_count; at++) {
        nvme_machine_counts(functions[at].machine, functions[at].number, &refusals, &commands);
        warnx("controller %u: commands %ju, refused %ju", at, commands, refusals);
        for (size_t log = 0; nvme_machine_log_entry(functions[at].machine, functions[at].number, log, entry); log++)
            warnx("error %ju: command %ju, status 0x%jx, location 0x%jx, NSID 0x%jx", number_at(entry, 8),
                  number_at(entry + 10, 2), number_at(entry + 12, 2) >> 1, number_at(entry + 14, 2),
                  number_at(entry + 24, 4));
    }
}

/* Shows how the options are used, after the value of an option that doesn't take it. */
static void show_usage(FILE *to) {
    if (optarg)
        warnx("%s: the option doesn't take this, or not once more", optarg);
    fputs(qemu_usage, to);
    exit(fflush(to) == 0 && to == stdout ? 0 : FAILED);
}

/* Reads a number of bytes, or one with K, M or G. Returns whether it is one. */
static int read_size(const char *text, unsigned long long *size) {
    char unit = 0, rest;
    int count = *text >= '0' && *text <= '9' ? sscanf(text, "%12llu%c%c", size, &unit, &rest) : 0;
    const char *found = strchr("KMG", unit);
    int is_over = __builtin_mul_overflow(*size, 1ull << (found && unit ? 10 * (found - "KMG" + 1) : 0), size);
    *size += *size == 0;
    return !is_over && (count == 1 || (count == 2 && found));
}

static unsigned read_options(int count, char **arguments) {
    static const struct option options[] = {{"qemu", no_argument, &is_server, 0},
                                            {"vfio-user", no_argument, &is_server, 1},
                                            {"subsystem", required_argument, NULL, 's'},
                                            {"memory", required_argument, NULL, 'm'},
                                            {"socket", required_argument, NULL, 'p'},
                                            {"data", required_argument, NULL, 'd'},
                                            {"data-limit", required_argument, NULL, 'l'},
                                            {"msix", no_argument, &has_msix, 1},
                                            {"summary", no_argument, &has_summary, 1},
                                            {"help", no_argument, NULL, 'h'},
                                            {0}};
    unsigned long long size = 0;
    for (int option; (option = getopt_long(count, arguments, "+", options, NULL)) != -1;) {
        if (option == 's' && path_count < MOST_FUNCTIONS)
            paths[path_count++] = optarg;
        else if (option == 'm' && read_size(optarg, &size) && size >> 20 > 0 && (size - 1) >> 30 < MOST_GIBIBYTES)
            memory = optarg;
        else if (option == 'p')
            sockets = optarg;
        else if (option == 'd')
            folder_of_data = optarg;
        else if (option == 'l' && read_size(optarg, &most_data))
            continue;
        else if (option != 0)
            show_usage(option == 'h' ? stdout : stderr);
    }
    const char *reason = is_server && !sockets   ? "--vfio-user needs --socket PATH"
                         : sockets && !is_server ? "--socket goes with --vfio-user"
                         : optind == count       ? NULL
                         : is_server             ? "--vfio-user runs nothing"
                         : strcmp(arguments[optind - 1], "--") != 0 ? "QEMU's options come after --" : NULL;
    if (reason) {
        warnx("%s%s%s", optind < count ? arguments[optind] : "", optind < count ? ": " : "", reason);
        show_usage(stderr);
    }
    return (unsigned)optind;
}

int main(int count, char **arguments) {
    struct rlimit files;
    arguments[0] = program_invocation_short_name = "nvme-model";
    unsigned at = read_options(count, arguments);
    const struct protocol *protocol = is_server ? &vfio_user : choose(arguments + at);
    prepare_interrupts();
    watch_signals();
    if (getrlimit(RLIMIT_NOFILE, &files) == 0)
        setrlimit(RLIMIT_NOFILE, &(struct rlimit){files.rlim_max, files.rlim_max});
    reserve_memory();
    prepare_data(folder_of_data, most_data);
    for (unsigned path = 0; path < path_count || path == 0; path++)
        make_functions(paths[path], path, protocol);
    atexit(remove_sockets);
    make_sockets();
    for (unsigned path = 0; path < path_count || path == 0; path++)
        look_at_namespaces(subsystems[path].functions, AFTER_START, 0);
    pid_t self = getpid();
    if (!is_server && (qemu = fork()) == 0)
        run_qemu(arguments + at, (unsigned)count - at, self);
    if (qemu < 0)
        err(FAILED, "fork");
    int status = serve_all();
    if (has_summary)
        tell_summary();
    return status >= 0 ? status : end_now(-status);
}
