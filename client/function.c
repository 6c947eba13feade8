/* A controller as a PCI function: its configuration space, registers, rings and interrupts. A guest's writes come here,
   so no number in them is trusted. None of this is proved. */
#define _GNU_SOURCE
#include "function.h"
#include <linux/aio_abi.h>
#include <sys/syscall.h>
#include <sys/uio.h>
#include <time.h>

/* Registers of the configuration space, of which those of MSI, MSI-X and PCI Express are bytes, and their bits. */
enum { COMMAND = 4, STATUS = 6, CAPABILITY = 0x34, MSI = 0x40, EXPRESS = 0x60, MSIX = 0xa0 };
enum { MSI_CONTROL = MSI + 2, MSIX_CONTROL = MSIX + 3, DEVICE_CONTROL = EXPRESS + 9 };
enum { IS_MASTER = 1 << 2, HAS_NO_PIN = 1 << 2, IS_WAITING = 1 << 3, BY_MSI = 1, BY_MSIX = 0x80, RESETS = 0x80 };
/* After how many milliseconds the pin is raised again if no completion was taken, and the kernel's queue of events. */
enum { PIN_WAIT = 10, MOST_EVENTS = 64 };
/* How many entries of I/O queues are taken at once, bits of the status, and those that tell of a shutdown. */
enum { MOST_ENTRIES = 8, IS_FATAL = 2, IS_SHUT_DOWN = 2 << 2, NOTICES = 3 << 14 };

/* The configuration after a reset: QEMU's own numbers, class 010802h, INTA, and the capabilities of one message (MSI),
   of an integrated endpoint of PCI Express that can be reset and, at the end, of as many messages as there are vectors,
   with a table and pending bits at 2000h and 3000h (MSI-X). */
static const unsigned char config_at_reset[CONFIG_SIZE] = {
    [0] = 0x36, 0x1b, 0x10, [STATUS] = 0x10, [8] = 2, 2, 8, 1, [0x2c] = 0xf4, 0x1a, 0, 0x11, [0x3d] = 1,
    [MSI] = 5, EXPRESS, 0x80, [EXPRESS] = 0x10, 0, 0x92, [EXPRESS + 5] = 0x80, [EXPRESS + 7] = 0x10,
    [MSIX] = 0x11, MSI, VECTORS - 1, [MSIX + 5] = 0x20, [MSIX + 9] = 0x30};
/* The bits that can be written: of Command, the BAR, the interrupt line, the messages, and what errors are told. */
static const unsigned char config_mask[CONFIG_SIZE] = {
    [COMMAND] = 6, 4, [0x11] = 0xc0, 255, 255, [0x3c] = 255, [MSI_CONTROL] = 1, [0x44] = 0xfc, [0x45 ... 0x4d] = 255,
    [DEVICE_CONTROL - 1] = 15, [MSIX_CONTROL] = 0xc0};

/* Returns whether a descriptor is an event counter. (This process writes nothing else for a client.) */
int is_counter(int file) {
    char path[40], name[40] = "";
    snprintf(path, sizeof path, "/proc/self/fd/%d", file);
    return readlink(path, name, sizeof name - 1) > 0 && strcmp(name, "anon_inode:[eventfd]") == 0;
}

static aio_context_t events;

void prepare_interrupts(void) {
    if (syscall(SYS_io_setup, MOST_EVENTS, &events) < 0)
        err(FAILED, "io_setup");
}

/* Puts an event counter, or none (-1), in the place of the former one. A message that found none is sent then. */
void set_counter(struct function *function, unsigned number, int *file) {
    close(function->counters[number]);
    function->counters[number] = *file;
    *file = -1;
    function->mask = number == PIN ? UNMASKED : function->mask;
    function->drive.due |= number < VECTORS ? waiting_vectors(function) & (uint64_t)1 << number : 0;
}

/* Returns in how many milliseconds the pin is to be raised because completions wait, or -1. If that is now, the pin is
   masked. Each access of the guest to a register lowers and unmasks it, even before its processor has seen it. So it is
   raised again once the guest has taken completions, or else after a while. */
static int raise_pin(struct function *function) {
    const unsigned char *config = function->config;
    int is_off = config[COMMAND + 1] & HAS_NO_PIN || config[MSI_CONTROL] & BY_MSI || config[MSIX_CONTROL] & BY_MSIX;
    int has_message = function->counters[0] >= 0, is_masked = function->mask != UNMASKED;
    struct timespec time;
    if (function->counters[PIN] < 0 || has_message || is_off || is_masked || !waiting_vectors(function))
        return -1;
    clock_gettime(CLOCK_MONOTONIC, &time);
    int64_t now = time.tv_sec * 1000 + time.tv_nsec / 1000000, left = function->raised_at + PIN_WAIT - now;
    if (left > 0 && !function->has_taken)
        return (int)left;
    function->mask = BY_RAISE;
    function->has_taken = 0;
    function->raised_at = now;
    return 0;
}

/* Takes bytes that were served out of the client's socket, and adds 1 to an event counter unless it is -1, by one call
   for both: the kernel does so at the end of an asynchronous read. Unlike a write to the counter, this never waits,
   whatever the other process made of it. */
static void take_and_add(const struct function *function, uint32_t served, int counter) {
    static unsigned char taken[MOST_MESSAGE];
    struct io_event ended[MOST_EVENTS];
    struct iocb reading = {.aio_lio_opcode = IOCB_CMD_PREAD, .aio_fildes = (uint32_t)function->socket,
                           .aio_buf = (uintptr_t)taken, .aio_nbytes = served,
                           .aio_flags = IOCB_FLAG_RESFD, .aio_resfd = (uint32_t)counter};
    if (counter < 0 && served > 0)
        recv(function->socket, taken, served, 0);
    while (counter >= 0 && syscall(SYS_io_submit, events, 1L, (struct iocb *[]){&reading}) < 0 && errno == EAGAIN)
        syscall(SYS_io_getevents, events, 0L, (long)MOST_EVENTS, ended, NULL);
}

/* Sends the interrupts that are due, and takes bytes that were served out of the client's socket. Returns in how many
   milliseconds the pin is to be raised, or -1u. */
unsigned interrupt(struct function *function, uint32_t served) {
    int wait = raise_pin(function);
    function->seen -= served;
    for (; function->drive.due; function->drive.due &= function->drive.due - 1, served = 0)
        take_and_add(function, served, function->counters[__builtin_ctzll(function->drive.due)]);
    take_and_add(function, served, wait == 0 ? function->counters[PIN] : -1);
    return wait > 0 ? (unsigned)wait : -1u;
}

/* Reads an event counter, without waiting, and sets it to 0. Returns whether it was more. */
static int take_back(int counter) {
    uint64_t count;
    return preadv2(counter, &(struct iovec){&count, sizeof count}, 1, -1, RWF_NOWAIT) == sizeof count;
}

/* The other process has seen the pin's interrupt. */
void see_interrupt(struct function *function) {
    take_back(function->counters[SEEN]);
    function->mask = UNMASKED;
}

/* Reads a register. (A drive has what the host told of a shutdown, which is over at once.) */
uint32_t read_register(const struct function *function, uint32_t offset) {
    uint32_t value = nvme_machine_read32(function->machine, function->number, offset), notice = function->drive.notice;
    if (offset == NVME_CC)
        return value | notice;
    if (offset != NVME_CSTS)
        return value;
    return value | (function->drive.has_failed ? IS_FATAL : 0) | (notice && notice != NOTICES ? IS_SHUT_DOWN : 0);
}

/* Takes waiting entries of the guest's queues, if the function may access the guest's memory: of I/O queues several,
   because then an interrupt tells of all of them. */
void take_turn(struct function *function) {
    function->has_more = 0;
    if (!(function->config[COMMAND] & IS_MASTER) || function->drive.has_failed)
        return;
    tell_changes(function);
    int has_more = take_command(function), count = 0;
    while (count < MOST_ENTRIES && take_entry(function))
        count++;
    function->has_more |= has_more || count == MOST_ENTRIES;
}

static void write_register(struct function *function, uint32_t offset, uint32_t value) {
    int was_ready = read_register(function, NVME_CSTS) & IS_READY;
    nvme_machine_write32(function->machine, function->number, offset, value);
    if (offset == NVME_CC && (!(value & 1) || !was_ready))
        reset_drive(function);
    if (offset == NVME_CC)
        function->drive.notice = value & NOTICES;
    else
        ring(function, offset, value);
    int may_take = offset == NVME_CC || (offset > NVME_TAIL_DOORBELL && offset % 8 == NVME_HEAD_DOORBELL % 8);
    function->has_taken |= may_take;
    // (a raise that nobody has read yet would be an interrupt without a completion)
    if (may_take && !waiting_vectors(function) && function->mask == BY_RAISE && take_back(function->counters[PIN]))
        function->mask = UNMASKED;
}

/* Reads or writes the configuration or registers, of those only whole dwords. Returns whether they exist. (After a
   write, the function may have an entry to take, or memory to take it from.) */
int use(struct function *function, int is_config, uint64_t offset, uint64_t count, unsigned char *bytes, int is_write) {
    uint64_t size = is_config ? CONFIG_SIZE : BAR_SIZE, end = function->vectors > 0 ? CONFIG_SIZE : MSIX;
    if (count == 0 || count > size || offset > size - count)
        return 0;
    for (uint32_t at = offset; at < offset + count; at++, bytes++)
        if (is_config && is_write && at == DEVICE_CONTROL && *bytes & RESETS)
            reset(function);
        else if (is_config && is_write)
            function->config[at] ^= (function->config[at] ^ *bytes) & (at < end ? config_mask[at] : 0);
        else if (is_config)
            *bytes = function->config[at] | (at == STATUS && waiting_vectors(function) ? IS_WAITING : 0);
        else if (!is_write)
            *bytes = read_register(function, at - at % 4) >> at % 4 * 8;
        else if ((offset | count | at) % 4 == 0)
            write_register(function, at, number_at(bytes, 4));
    take_turn(function);
    return 1;
}

/* Resets a function, and clears CC: first EN, then the fields that can change only while EN is 0. */
void reset(struct function *function) {
    memcpy(function->config, config_at_reset, function->vectors > 0 ? CONFIG_SIZE : MSIX);
    function->config[CAPABILITY] = function->vectors > 0 ? MSIX : MSI;
    if (function->protocol == &proxy)
        function->config[STATUS] = function->config[CAPABILITY] = 0;
    write_register(function, NVME_CC, 0);
    write_register(function, NVME_CC, 0);
    function->mask = UNMASKED;
}
