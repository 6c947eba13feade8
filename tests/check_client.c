/* The other part of the check: many processes at once, calls that can't be carried out, processes that are killed,
   nodes and their descriptors, and a device that is gone. */
#define _GNU_SOURCE
#include "check.h"
#include "wire.h"
#include <dirent.h>
#include <errno.h>
#include <fcntl.h>
#include <linux/fs.h>
#include <linux/nvme_ioctl.h>
#include <pthread.h>
#include <signal.h>
#include <stdio.h>
#include <stdlib.h>
#include <string.h>
#include <sys/ioctl.h>
#include <sys/stat.h>
#include <sys/time.h>
#include <sys/wait.h>
#include <time.h>
#include <unistd.h>

/* ---- eight processes at once, and then eight threads: each must see its own answers and no others */

enum { WORKERS = 8, ROUNDS = 150 };

static int works(unsigned worker, unsigned round, unsigned char *data, uint64_t *result) {
    struct command command = {IDENTIFY, 0, 1, PAGE, 0, 0, 0, data};
    int file = files[worker == 1];
    memset(data, UNTOUCHED, MOST_DATA);
    switch (worker) {
    case 0:
    case 1:
        return send_command(file, &command, result) == 0 && data[5] == '0' + worker;
    case 2:
        command.length = MOST_DATA;
        return send_command(file, &command, result) == 0 && data[5] == '0' && data[MOST_DATA - 1] == 0;
    case 3:
        command.cdw10 = 0;
        command.nsid = 3;
        return send_command(file, &command, result) == 0 && number(data, 0, 8) == 9;
    case 4:
        command.cdw10 = 2;
        command.nsid = 1;
        return send_command(file, &command, result) == 0 && data[0] == 3 && all_are(data, 1, PAGE, 0);
    case 5:
        command.cdw10 = 0;
        command.nsid = 5;
        return send_command(file, &command, result) == INVALID_NAMESPACE && all_are(data, 0, PAGE, 0);
    case 6:
        command = (struct command){0xc1, 0, 0, MOST_DATA, 0, 0, 0, data};
        return send_command(file, &command, result) == INVALID_OPCODE;
    default:
        command = set_feature(0, 8, round, 0);
        if (send_command(file, &command, result) != 0)
            return 0;
        command = get_feature(0, 8, 0);
        return send_command(file, &command, result) == 0 && *result == round;
    }
}

static void *work(void *told) {
    unsigned worker = *(unsigned *)told, bad = 0;
    uint64_t result;
    unsigned char *data = malloc(MOST_DATA);
    for (unsigned round = 0; round < ROUNDS; round++)
        bad += !data || !works(worker, round, data, &result);
    free(data);
    *(unsigned *)told = bad;
    return NULL;
}

void try_many(void) {
    unsigned bad[WORKERS];
    pthread_t threads[WORKERS];
    for (unsigned worker = 0; worker < WORKERS; worker++) {
        bad[worker] = worker;
        if (fork() == 0) {
            work(bad + worker);
            _exit(bad[worker] != 0);
        }
    }
    for (unsigned worker = 0; worker < WORKERS; worker++) {
        int how;
        wait(&how);
        must(how == 0, "a process of %u at once sees its own answers", WORKERS);
    }
    for (unsigned worker = 0; worker < WORKERS; worker++)
        pthread_create(threads + worker, NULL, work, bad + worker);
    for (unsigned worker = 0; worker < WORKERS; worker++) {
        pthread_join(threads[worker], NULL);
        must(bad[worker] == 0, "thread %u of %u at once: %u answers are another's", worker, WORKERS, bad[worker]);
    }
}

/* ---- calls that can't be carried out, and those that a signal interrupts */

static double seconds(void) {
    struct timespec now;
    clock_gettime(CLOCK_MONOTONIC, &now);
    return (double)now.tv_sec + (double)now.tv_nsec / 1e9;
}

/* Has the test, which can name the processes that serve this one, send the device a signal, or wait until so many calls
   wait for it (a negative number) or no call is answered (0). */
static void ask_test(int number) {
    char byte;
    FILE *asks = fopen(getenv("ASKS"), "w");
    must(asks && fprintf(asks, "%d\n", number) > 0 && fclose(asks) == 0, "a signal is asked for");
    int answers = open(getenv("ANSWERS"), O_RDONLY);
    must(answers >= 0 && read(answers, &byte, 1) == 1, "it is done");
    close(answers);
}

/* Requests that come while the device is busy are carried out in this order. Each creates a namespace. */
static void try_order(void) {
    static const int wanted[] = {2, 4, 0};
    pid_t children[3];
    ask_test(SIGSTOP);
    for (int at = 0; at < 3; at++) {
        struct command made = create(18, 18, 0, 0, 0);
        uint64_t result = 0;
        children[at] = fork();
        if (children[at] == 0) {
            int status = send_command(files[0], &made, &result);
            _exit(status == 0 ? (int)result : 0);
        }
        ask_test(-1 - at);
    }
    ask_test(SIGCONT);
    for (unsigned at = 0; at < 3; at++) {
        int how;
        must(waitpid(children[at], &how, 0) == children[at] && WEXITSTATUS(how) == wanted[at],
             "request %u has its turn", at);
    }
}

/* Addresses that aren't there are told, and nothing is carried out. */
static void try_addresses(void) {
    static const unsigned long requests[] = {NVME_IOCTL_ADMIN_CMD, NVME_IOCTL_ADMIN64_CMD};
    static const unsigned char fixed[PAGE];
    uint64_t result = 0, range[2] = {0, 512};
    int block = open("/dev/nvme0n2", O_RDONLY), other = open("/dev/nvme0n2", O_RDWR);
    for (unsigned at = 0; at < 2; at++)
        for (unsigned to = 0; to < 2; to++) {
            errno = 0;
            must(ioctl(files[0], requests[at], to ? (void *)8 : NULL) == -1 && errno == EFAULT,
                 "a bad address is told");
        }
    struct command made = create(18, 18, 0, 0, 0), read = identify(1, 0);
    made.data = read.data = (void *)8;
    must(send_command(files[0], &made, &result) == -1 && errno == EFAULT, "so is that of data that is sent");
    must(send_command(files[0], &read, &result) == -1 && errno == EFAULT, "and of data that is received");
    for (unsigned flags = 1; flags < 256; flags <<= 1) {
        struct command fused = identify(1, 0);
        fused.flags = (uint8_t)flags;
        must(send_command(files[0], &fused, &result) == -1 && errno == EINVAL, "flags that aren't 0 are refused");
    }
    read.data = (void *)fixed;
    must(send_command(files[0], &read, &result) == -1 && errno == EFAULT, "also if that is read-only");
    must(ioctl(block, NVME_IOCTL_SUBMIT_IO, 8) == -1 && errno == EFAULT, "and that of an older command");
    must(ioctl(block, BLKGETSIZE64, 8) == -1 && errno == EFAULT, "and of a number");
    must(ioctl(block, BLKDISCARD, range) == -1 && errno == EBADF, "a file for reading isn't discarded");
    must(ioctl(other, BLKDISCARD, 8) == -1 && errno == EFAULT, "nor is a range discarded that isn't there");
    must(ioctl(-1, NVME_IOCTL_ID) == -1 && errno == EBADF, "a file that isn't open is told");
    done(0, identify(0x10, 0), 0);
    is_list(2, (uint32_t[]){1, 3});
    close(block);
    close(other);
}

static volatile unsigned interruptions;
static void interrupt(int number) { interruptions += number != 0; }

/* A call that a signal interrupts is carried out once. */
static void try_signals(int flags) {
    struct sigaction action = {.sa_handler = interrupt, .sa_flags = flags}, before;
    struct itimerval often = {{0, 300}, {0, 300}}, never = {{0, 0}, {0, 0}};
    unsigned bad = 0;
    sigaction(SIGALRM, &action, &before);
    interruptions = 0;
    setitimer(ITIMER_REAL, &often, NULL);
    for (unsigned round = 0; round < 200; round++) {
        uint64_t result = 0;
        struct command made = create(18, 18, 0, 0, 0);
        bad += send_command(files[0], &made, &result) != 0 || result != 2;
        struct command gone = delete(2);
        bad += send_command(files[0], &gone, &result) != 0;
    }
    setitimer(ITIMER_REAL, &never, NULL);
    sigaction(SIGALRM, &before, NULL);
    must(interruptions > 20, "%u signals came", interruptions);
    must(bad == 0, "%u calls that signals interrupted were not carried out once", bad);
}

void try_broken(void) {
    try_addresses();
    try_signals(0);
    try_signals(SA_RESTART);
    try_order();
    done(0, identify(0x10, 0), 0);
    is_list(4, (uint32_t[]){1, 2, 3, 4});
}

/* A process is killed at any time while it creates and deletes a namespace. The namespace then exists or it doesn't. */
void try_killed(void) {
    for (unsigned round = 0; round < 40; round++) {
        uint64_t result;
        pid_t child = fork();
        while (child == 0) {
            struct command made = create(18, 18, 0, 0, 0), gone = delete(2);
            made.length = MOST_DATA;
            send_command(files[0], &made, &result);
            send_command(files[0], &gone, &result);
        }
        nanosleep(&(struct timespec){.tv_nsec = 1000000L * (1 + round / 3)}, NULL);
        kill(child, SIGKILL);
        waitpid(child, NULL, 0);
        ask_test(0); /* (its last request may still be executed) */
        done(0, identify(0x10, 0), 0);
        int is_made = number(common, 4, 4) == 2;
        is_list(is_made ? 3 : 2, is_made ? (uint32_t[]){1, 2, 3} : (uint32_t[]){1, 3});
        struct command gone = delete(2);
        must(send_command(files[0], &gone, &result) == (is_made ? 0 : INVALID_FIELD), "and the namespace is deleted");
    }
}

/* ---- nodes and their descriptors */

int answers(int file, char serial) {
    uint64_t result;
    struct command command = identify(1, 0);
    return send_command(file, &command, &result) == 0 && common[5] == serial;
}

static void is_device(const char *path, mode_t type) {
    struct stat about, plain;
    must(stat(path, &about) == 0 && lstat(path, &plain) == 0 && about.st_mode == plain.st_mode &&
             (about.st_mode & S_IFMT) == type && about.st_rdev != 0 && about.st_size == 0, "%s is a device", path);
}

static void try_names(void) {
    static const char *const none[] = {"nvme2",     "nvme0n3", "nvme1n1",   "nvme0n0",           "nvme00", "nvme0n03",
                                       "nvme0n1p1", "nvme0x",  "nvme70000", "nvme0n99999999999", "nvme0n", "ng0n3"};
    struct stat about;
    char path[64];
    for (unsigned at = 0; at < sizeof none / sizeof *none; at++) {
        snprintf(path, sizeof path, "/dev/%s", none[at]);
        must(open(path, O_RDONLY) == -1 && errno == ENOENT, "%s can't be opened", path);
        must(stat(path, &about) == -1 && errno == ENOENT, "%s can't be described", path);
        must(access(path, F_OK) == -1 && errno == ENOENT, "%s isn't there", path);
    }
    is_device("/dev/nvme0", S_IFCHR);
    is_device("/dev/ng0n1", S_IFCHR);
    is_device("/dev/nvme0n2", S_IFBLK);
    is_device("/dev/../dev//nvme0n2", S_IFBLK);
    is_device("/dev/null", S_IFCHR);
    must(access("/dev/nvme0", R_OK | W_OK) == 0, "a controller may be read and written");
    must(access("/dev/nvme0", X_OK) == -1 && errno == EACCES, "a controller may not be executed");
    must(access("/sys/class/nvme/nvme1/nvme1n1", F_OK) == -1, "a namespace that is not attached has no folder");
    done(0, attachment(0, 1, 1, 1, 0), 0);
    must(access("/dev/nvme1n1", F_OK) == 0 && access("/dev/ng1n1", F_OK) == 0, "an attached namespace has nodes");
    must(access("/sys/class/nvme/nvme1/nvme1n1/size", F_OK) == 0, "and so is its folder");
    done(0, attachment(1, 1, 1, 1, 0), 0);
    must(access("/dev/nvme1n1", F_OK) == -1 && access("/dev/ng1n1", F_OK) == -1, "they are gone once it is detached");
    must(access("/sys/class/nvme/nvme1/nvme1n1", F_OK) == -1, "and so is its folder");
    must(chdir("/dev") == 0 && stat("nvme0n2", &about) == 0 && S_ISBLK(about.st_mode), "a node is found from /dev");
}

static void try_requests(void) {
    int file = open("/dev/nvme0n2", O_RDWR), other = open("/dev/null", O_RDWR), size = 0;
    int generic = open("/dev/ng0n2", O_RDWR);
    uint64_t bytes = 0;
    char text[8] = "written", read_back[8];
    must(ioctl(file, NVME_IOCTL_ID) == 3 && ioctl(generic, NVME_IOCTL_ID) == 3, "a namespace tells its NSID");
    must(ioctl(file, BLKSSZGET, &size) == 0 && size == 512, "a namespace tells the size of a block");
    must(ioctl(file, BLKGETSIZE64, &bytes) == 0 && bytes == 4608, "a namespace tells its size");
    must(ioctl(file, BLKBSZSET, &size) == 0 && ioctl(file, BLKRRPART) == 0, "what format asks for is done");
    must(ioctl(file, NVME_IOCTL_RESET) == -1 && errno == ENOTTY, "a namespace can't be reset");
    must(answers(file, '0') && answers(generic, '0'), "commands go to a namespace's controller");
    must(pread(file, read_back, 8, 4600) == 8 && all_are((unsigned char *)read_back, 0, 8, 0), "it is zeros at first");
    must(pwrite(file, text, 8, 4604) == 4 && pwrite(file, text, 8, 4608) == -1 && errno == ENOSPC, "it has an end");
    must(pread(file, read_back, 8, 4604) == 4 && memcmp(read_back, text, 4) == 0, "what was written is read");
    must(write(files[0], text, 8) == -1 && errno == EINVAL && write(generic, text, 8) == -1, "others take no data");
    must(ioctl(files[0], NVME_IOCTL_ID) == -1 && errno == ENOTTY, "a controller has no NSID");
    must(ioctl(files[0], BLKGETSIZE64, &bytes) == -1 && errno == ENOTTY, "a controller has no size");
    must(ioctl(files[0], NVME_IOCTL_RESCAN) == 0, "a controller is scanned");
    must(ioctl(files[0], FIONREAD, &size) == -1 && errno == ENOTTY, "other requests aren't known");
    must(!answers(other, '0') && errno == ENOTTY, "no command goes to another device");
    close(file);
    close(other);
    close(generic);
}

/* Returns whether a program that is run with this descriptor can use it. */
static int is_handed_on(int file) {
    char text[16];
    int how;
    snprintf(text, sizeof text, "%d", file);
    if (fork() == 0) {
        execl("/proc/self/exe", "check", "descriptor", text, (char *)NULL);
        _exit(3);
    }
    wait(&how);
    return WIFEXITED(how) && WEXITSTATUS(how) == 0;
}

static void try_descriptors(void) {
    struct stat about;
    int file = open("/dev/nvme1", O_RDWR), closing = open("/dev/nvme1", O_RDWR | O_CLOEXEC);
    int copy = dup(file), high = fcntl(file, F_DUPFD, 900);
    must(is_handed_on(file) && is_handed_on(copy) && is_handed_on(high), "descriptors are handed on by exec");
    must(!is_handed_on(closing), "one that is to be closed is not");
    close(file);
    must(answers(copy, '1') && answers(high, '1'), "copies stay when the first is closed");
    must(fstat(high, &about) == 0 && S_ISCHR(about.st_mode), "a copy is described");
    must(open("/dev/null", O_RDWR) == file && !answers(file, '1'), "a number that is used again is no node's");
    must(dup2(copy, file) == file && answers(file, '1'), "a node takes the place of another file");
    must(openat(AT_FDCWD, "/dev/nvme0n2", O_RDONLY | O_CREAT | O_EXCL, 0600) == -1 && errno == EEXIST,
         "a node can't be made");
    pid_t child = fork();
    if (child == 0) {
        close(copy);
        _exit(!answers(file, '1'));
    }
    int how;
    waitpid(child, &how, 0);
    must(how == 0 && answers(copy, '1'), "a process and its child use a descriptor");
}

void try_nodes(void) {
    try_names();
    try_requests();
    try_descriptors();
}

/* After the device is gone, each call reports this, and so does a call that is waiting for its answer. */
void try_gone(void) {
    uint64_t result;
    struct stat about;
    int how, block = open("/dev/nvme0n1", O_RDWR);
    double begun = seconds();
    struct command command = identify(1, 0);
    ask_test(SIGSTOP);
    pid_t child = fork();
    if (child == 0)
        _exit(send_command(files[0], &command, &result) != -1 || errno != ENXIO);
    ask_test(-1);
    ask_test(SIGKILL);
    waitpid(child, &how, 0);
    must(how == 0, "an ioctl that waits for its answer tells that the device is gone");
    must(send_command(files[0], &command, &result) == -1 && errno == ENXIO, "so does a later one");
    must(open("/dev/nvme0", O_RDWR) == -1 && errno == ENXIO, "and open");
    must(stat("/dev/nvme0", &about) == -1 && errno == ENXIO, "and stat");
    must(open("/dev/nvme0n1", O_RDWR) == -1 && errno == ENXIO, "of a namespace too");
    must(ioctl(files[0], NVME_IOCTL_RESET) == -1 && errno == ENXIO, "and a reset");
    must(pwrite(block, "x", 1, 0) == -1 && errno == ENXIO, "and a write");
    must(fsync(block) == -1 && errno == ENXIO && fdatasync(block) == -1 && errno == ENXIO, "and what waits for one");
    must(seconds() - begun < 600, "none of them waits");
}
