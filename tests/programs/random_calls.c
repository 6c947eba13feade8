/* Makes random calls of the kinds that the launcher answers, with addresses, texts, flags and structures of all kinds,
   in many processes: random_calls SEED PROCESSES FOLDER */
#define _GNU_SOURCE
#include <fcntl.h>
#include <linux/nvme_ioctl.h>
#include <stdint.h>
#include <stdio.h>
#include <stdlib.h>
#include <string.h>
#include <sys/ioctl.h>
#include <sys/mman.h>
#include <sys/syscall.h>
#include <sys/wait.h>
#include <unistd.h>

enum { CALLS = 12, AT_ONCE = 24, PAGE = 4096, OPENAT2 = 437 };

static uint64_t state;
static unsigned char *pages; /* two that are there, and one that isn't */
static unsigned char large[1 << 21];
static char place[PAGE];

static uint64_t any(uint64_t most) {
    state = state * 6364136223846793005u + 1442695040888963407u;
    return (state >> 33) % most;
}

/* Returns an address with at least so much room, one with less, or none. */
static unsigned char *address(size_t size) {
    switch (any(10)) {
    case 0:
        return pages + 2 * PAGE - any(size + 1);
    case 1:
        return (unsigned char *)(uintptr_t)(any(2) ? 0 : any(1u << 20) << any(40));
    case 2:
        return pages + 2 * PAGE - size;
    default:
        return large + any(1 << 20);
    }
}

static int is_there(const unsigned char *at, size_t size) {
    return (at >= pages && at + size <= pages + 2 * PAGE) || (at >= large && at + size <= large + sizeof large);
}

/* Puts a path at an address if it is there, and returns the address. */
static unsigned char *path(void) {
    static const char *const paths[] = {"/dev/nvme0",
                                        "/dev/nvme0n1",
                                        "/dev/nvme0n2",
                                        "/dev/ng0n1",
                                        "/dev/nvme1",
                                        "//dev/../dev/nvme0n2",
                                        "nvme0n2",
                                        "..",
                                        "",
                                        "/proc/self/fd/3",
                                        "/proc//self/fd/4",
                                        "self/fd/3",
                                        "/dev/fd/3",
                                        "/dev/stdin",
                                        "/proc/self/fd/99999999999999999999",
                                        "/proc/self/cwd/nvme0n1",
                                        "/proc/self/root/dev/nvme0",
                                        "/proc/thread-self/fd/3/x",
                                        "/proc/self/exe",
                                        "/proc/1/fd/0",
                                        "/sys/block/nvme0n1/ro",
                                        "/sys/class/nvme/nvme0/reset_controller",
                                        "/sys/class/nvme/nvme1/rescan_controller",
                                        "/sys/bus/pci/rescan",
                                        "/sys/devices/a/b/nvme/nvme4294967295/rescan_controller",
                                        "/sys/devices/a/b/nvme/nvme0/x",
                                        "/sys"};
    char text[2 * PAGE];
    size_t chosen = any(sizeof paths / sizeof *paths + 3);
    if (chosen < sizeof paths / sizeof *paths)
        strcpy(text, paths[chosen]);
    else
        snprintf(text, sizeof text, "%s/%0*d", place, (int)any(chosen % 2 ? 300 : 4200), 0);
    size_t size = strlen(text) + any(2);
    unsigned char *at = address(size);
    if (is_there(at, size))
        memcpy(at, text, size);
    return at;
}

static unsigned flags(void) {
    static const unsigned some[] = {O_WRONLY,   O_RDWR, O_TRUNC,     O_DIRECT,  O_CREAT,    O_EXCL,
                                    O_NOFOLLOW, O_PATH, O_DIRECTORY, O_CLOEXEC, O_NONBLOCK, O_APPEND};
    unsigned found = any(3) ? O_WRONLY : O_RDWR;
    while (any(3))
        found |= some[any(sizeof some / sizeof *some)];
    return any(20) ? found : (unsigned)(any(1u << 31) << 1);
}

static void open_any(void) {
    uint64_t how[4] = {any(40) ? flags() : any(1u << 31) << any(33), any(4) ? 0 : any(01777), any(3) ? 0 : 1u << any(8),
                       0};
    unsigned char *at = address(sizeof how);
    int folder = any(4) ? AT_FDCWD : (int)any(6) - 1;
    if (is_there(at, sizeof how))
        memcpy(at, how, sizeof how);
    switch (any(6)) {
    case 0:
        syscall(SYS_open, path(), flags(), 0600);
        break;
    case 1:
        syscall(SYS_openat, folder, path(), flags(), 0600);
        break;
    case 2:
        syscall(SYS_creat, path(), 0600);
        break;
    case 3:
        syscall(SYS_truncate, path(), any(9000));
        break;
    default:
        syscall(OPENAT2, folder, path(), at, any(4) ? 24 : any(5000));
    }
}

static void ask_any(void) {
    static const unsigned requests[] = {NVME_IOCTL_ID,
                                        NVME_IOCTL_ADMIN_CMD,
                                        NVME_IOCTL_SUBMIT_IO,
                                        NVME_IOCTL_IO_CMD,
                                        NVME_IOCTL_RESET,
                                        NVME_IOCTL_RESCAN,
                                        NVME_IOCTL_ADMIN64_CMD,
                                        NVME_IOCTL_IO64_CMD,
                                        0xc0204ef0,
                                        0x80081272,
                                        0x1260,
                                        0x1268,
                                        0x1277,
                                        0x127f,
                                        0x301,
                                        0x5401};
    static const uint8_t opcodes[] = {0x00, 0x01, 0x02, 0x05, 0x06, 0x08, 0x09, 0x0a, 0x0c, 0x0d, 0x15, 0x80};
    struct nvme_passthru_cmd64 command = {.opcode = any(4) ? opcodes[any(sizeof opcodes)] : (uint8_t)any(256),
                                          .nsid = (uint32_t)(any(3) ? any(4) : any(1u << 31) << 1)};
    static const uint32_t lengths[] = {0, 1, 512, 4096, 4097, 65536, 1 << 20, (1 << 20) + 1, 0xffffffff};
    command.data_len = lengths[any(sizeof lengths / sizeof *lengths)];
    command.addr = (uintptr_t)address(command.data_len < 1 << 20 ? command.data_len : 0);
    command.cdw10 = (uint32_t)(any(2) ? any(5) : any(1u << 31) << 1);
    command.cdw11 = (uint32_t)any(3);
    command.cdw12 = (uint32_t)(any(2) ? any(16) : any(1u << 31));
    unsigned char *at = address(sizeof command);
    if (is_there(at, sizeof command))
        memcpy(at, &command, sizeof command);
    unsigned request = requests[any(sizeof requests / sizeof *requests)];
    syscall(SYS_ioctl, any(20) ? (int)any(4) + 3 : -1, any(9) ? request : ('N' << 8 | any(256) | any(1u << 14) << 16),
            at);
}

static void call_any(void) {
    switch (any(8)) {
    case 0:
        syscall(SYS_ftruncate, (int)any(5) + 3, any(9000));
        break;
    case 1:
        syscall(SYS_fallocate, (int)any(5) + 3, any(128), any(9000), any(9000));
        break;
    case 2:
        syscall(SYS_sendfile, (int)any(5) + 3, (int)any(5) + 3, NULL, any(9000));
        break;
    case 3:
    case 4:
    case 5:
        open_any();
        break;
    default:
        ask_any();
    }
}

int main(int count, char **words) {
    static const char *const files[] = {"/dev/nvme0", "/dev/nvme0n1", "/dev/ng0n2", "/dev/null"};
    unsigned processes = count > 3 ? (unsigned)atoi(words[2]) : 0;
    snprintf(place, sizeof place, "%s", count > 3 ? words[3] : "/tmp");
    pages = mmap(NULL, 3 * PAGE, PROT_READ | PROT_WRITE, MAP_PRIVATE | MAP_ANONYMOUS, -1, 0);
    if (pages == MAP_FAILED || munmap(pages + 2 * PAGE, PAGE) < 0 || chdir("/dev") < 0)
        return 1;
    for (unsigned at = 0; at < sizeof files / sizeof *files; at++)
        open(files[at], O_RDWR);
    for (unsigned number = 0; number < processes; number++) {
        if (number >= AT_ONCE)
            wait(NULL);
        if (fork() == 0) {
            state = (uint64_t)atoi(words[1]) << 32 | number;
            alarm(20);
            for (unsigned call = 0; call < CALLS; call++)
                call_any();
            _exit(0);
        }
    }
    while (wait(NULL) > 0)
        continue;
    puts("end");
    return 0;
}
