/* Tests the client: sends ioctls to /dev/nvme0 and /dev/nvme1 of the demonstration subsystem, and checks each answer.
   ./nvme-model runs it, each time over a new subsystem:
       check commands | wide | lengths | many | broken | killed | nodes | gone
   This file checks the answers to commands, and check_client.c how the client works. The status is 0 if everything is
   as expected. */
#define _GNU_SOURCE
#include "check.h"
#include "wire.h"
#include <errno.h>
#include <fcntl.h>
#include <linux/nvme_ioctl.h>
#include <stdarg.h>
#include <stdio.h>
#include <stdlib.h>
#include <string.h>
#include <sys/ioctl.h>

unsigned char common[MOST_DATA + 1];
int files[2];
static int is_wide;  /* whether commands have results of 64 bits */
static unsigned tried, wrong;

/* What was sent to each controller, as its error log reports it. */
static unsigned commands[2], refusals[2], last_status[2], last_identifier[2], last_nsid[2];
/* How many commands the launcher has sent by itself, to look for nodes, and how many changes made it look. */
static unsigned own[2], changes;

void must(int is_so, const char *format, ...) {
    va_list values;
    tried++;
    if (is_so)
        return;
    wrong++;
    va_start(values, format);
    fputs("check: not so: ", stderr);
    vfprintf(stderr, format, values);
    fputc('\n', stderr);
    va_end(values);
}

uint64_t number(const unsigned char *data, unsigned at, unsigned bytes) {
    uint64_t value = 0;
    while (bytes-- > 0)
        value = value << 8 | data[at + bytes];
    return value;
}

int all_are(const unsigned char *data, size_t from, size_t to, unsigned char byte) {
    while (from < to && data[from] == byte)
        from++;
    return from == to;
}

int send_command(int file, const struct command *command, uint64_t *result) {
    struct nvme_passthru_cmd64 wide = {0};
    struct nvme_passthru_cmd given = {
        .opcode = command->opcode, .flags = command->flags, .nsid = command->nsid, .cdw10 = command->cdw10,
        .cdw11 = command->cdw11, .cdw12 = command->cdw12, .data_len = command->length,
        .addr = (uintptr_t)(command->data ? command->data : common), .result = EVERY};
    if (!is_wide) {
        int value = ioctl(file, NVME_IOCTL_ADMIN_CMD, &given);
        *result = given.result;
        return value;
    }
    memcpy(&wide, &given, offsetof(struct nvme_passthru_cmd, result));
    wide.result = UINT64_MAX;
    int value = ioctl(file, NVME_IOCTL_ADMIN64_CMD, &wide);
    *result = wide.result;
    return value;
}

/* Sends a command to a controller. Its completion must have this status and dword 0. */
static void told(unsigned controller, struct command command, int status, uint32_t dword_0) {
    uint64_t result;
    int value = send_command(files[controller], &command, &result);
    must(value == status && result == dword_0,
         "nvme%u: opcode %02xh, NSID %xh, dwords %xh and %xh, %u bytes: status %xh, dword 0 %xh; it was %xh, %llxh",
         controller, command.opcode, command.nsid, command.cdw10, command.cdw11, command.length, status, dword_0, value,
         (unsigned long long)result);
    changes += status == 0 &&
               (command.opcode == MANAGEMENT || command.opcode == ATTACHMENT || command.opcode == FORMAT);
    if (status > 0) {
        refusals[controller]++;
        last_status[controller] = (unsigned)status;
        last_identifier[controller] = commands[controller];
        last_nsid[controller] = command.nsid;
    }
    commands[controller]++;
}

void done(unsigned controller, struct command command, uint32_t dword_0) {
    told(controller, command, 0, dword_0);
}

static void refused(unsigned controller, struct command command, int status) {
    told(controller, command, status, 0);
}

/* ---- commands with a page of data */

struct command identify(uint32_t cns, uint32_t nsid) {
    memset(common, UNTOUCHED, PAGE);
    return (struct command){IDENTIFY, nsid, cns, PAGE, 0, 0, 0, NULL};
}

struct command create(uint64_t nsze, uint64_t ncap, unsigned char flbas, unsigned char dps, unsigned char nmic) {
    memset(common, 0, PAGE);
    for (unsigned at = 0; at < 8; at++) {
        common[at] = (unsigned char)(nsze >> 8 * at);
        common[8 + at] = (unsigned char)(ncap >> 8 * at);
    }
    common[26] = flbas;
    common[29] = dps;
    common[30] = nmic;
    return (struct command){MANAGEMENT, 0, 0, PAGE, 0, 0, 0, NULL};
}

struct command attachment(int detaches, uint32_t nsid, unsigned count, unsigned first, unsigned second) {
    memset(common, 0, PAGE);
    const unsigned parts[] = {count, first, second};
    for (unsigned at = 0; at < 3; at++) {
        common[2 * at] = (unsigned char)parts[at];
        common[2 * at + 1] = (unsigned char)(parts[at] >> 8);
    }
    return (struct command){ATTACHMENT, nsid, (uint32_t)detaches, PAGE, 0, 0, 0, NULL};
}

/* ---- commands without data, and logs */

struct command delete(uint32_t nsid) {
    return (struct command){MANAGEMENT, nsid, 1, 0, 0, 0, 0, NULL};
}

static struct command format(uint32_t nsid, uint32_t cdw10) {
    return (struct command){FORMAT, nsid, cdw10, 0, 0, 0, 0, NULL};
}

struct command get_feature(uint32_t nsid, uint32_t identifier, uint32_t selector) {
    return (struct command){GET_FEATURES, nsid, selector << 8 | identifier, 0, 0, 0, 0, NULL};
}

struct command set_feature(uint32_t nsid, uint32_t identifier, uint32_t value, uint32_t saves) {
    return (struct command){SET_FEATURES, nsid, saves << 31 | identifier, 0, value, 0, 0, NULL};
}

static struct command get_log(uint32_t nsid, uint32_t identifier, uint32_t bytes, uint32_t offset) {
    uint32_t dwords = bytes / 4 - 1;
    memset(common, UNTOUCHED, bytes);
    return (struct command){GET_LOG, nsid, dwords << 16 | identifier, bytes, dwords >> 16, offset, 0, NULL};
}

/* ---- checks of the common buffer */

static void is_number(unsigned at, unsigned bytes, uint64_t value) {
    must(number(common, at, bytes) == value, "byte %u holds %llu, not %llu", at, (unsigned long long)value,
         (unsigned long long)number(common, at, bytes));
}

/* (a text is padded with spaces or with zeros) */
static void is_text(unsigned at, size_t bytes, const char *text, unsigned char filling) {
    size_t length = strlen(text);
    must(memcmp(common + at, text, length) == 0 && all_are(common, at + length, at + bytes, filling),
         "byte %u begins the text %s", at, text);
}

void is_list(unsigned count, const uint32_t *ids) {
    for (unsigned at = 0; at < count; at++)
        is_number(4 * at, 4, ids[at]);
    must(all_are(common, 4 * count, PAGE, 0), "a list of %u ends with zeros", count);
}

/* Checks that the newest entry of a controller's error log is its last refusal. */
static void is_booked(unsigned controller, uint64_t specific) {
    done(controller, get_log(EVERY, 1, 64, 0), 0);
    is_number(0, 8, refusals[controller]);
    is_number(8, 2, 0);
    unsigned now = (unsigned)number(common, 10, 2) - last_identifier[controller];
    must(now >= own[controller] && now >= 1 && now <= 7 + 4 * changes,
         "after %u changes the launcher sent %u commands of its own, and now %u", changes, own[controller], now);
    own[controller] = now;
    must(number(common, 12, 2) >> 1 == last_status[controller], "the log has the status %xh, not %llxh",
         last_status[controller], (unsigned long long)number(common, 12, 2) >> 1);
    is_number(14, 2, 0xffff);
    is_number(24, 4, last_nsid[controller]);
    is_number(32, 8, specific);
}

/* Each field of a command reaches the controller, and its answer comes back. (What controllers answer is proved.) */
static void try_passed(void) {
    done(0, identify(0, 3), 0);
    is_number(0, 8, 9);
    done(1, identify(1, 0), 0);
    is_text(4, 20, "S1", ' ');
    done(0, set_feature(EVERY, 6, 0, 1), 0);
    done(0, get_feature(0, 6, 0), 0);
    done(0, get_feature(0, 6, 1), 1);
    done(0, set_feature(0, 6, 1, 0), 0);
    must(ioctl(files[0], NVME_IOCTL_RESET) == 0, "a controller is reset");
    done(0, get_feature(0, 6, 0), 0);
    refused(1, identify(0x11, EVERY), INVALID_NAMESPACE);
    is_booked(1, 0);
    refused(0, get_log(EVERY, 2, 512, 516), INVALID_FIELD);
    refused(0, (struct command){0xff, 1, 0, 0, 0, 0, 0, NULL}, INVALID_OPCODE);
    is_booked(0, 0);
    done(0, get_log(0, 1, 256, 64), 0);
    is_number(0, 8, refusals[0] - 1);
    done(0, get_log(EVERY, 1, 131072, 0), 0);
    refused(0, create(18424, 18424, 0, 0, 0), INSUFFICIENT_CAPACITY);
    is_booked(0, 9433088);
    done(0, create(18, 18, 0, 0, 0), 2);
    done(0, attachment(0, 2, 1, 0, 0), 0);
    refused(0, attachment(0, 2, 1, 0, 0), ALREADY_ATTACHED);
    done(0, format(2, 1), 0);
    done(0, identify(0, 2), 0);
    is_number(0, 8, 2);
    done(0, delete(EVERY), 0);
    done(0, identify(0x10, 0), 0);
    is_list(0, NULL);
}

/* Sends a command that the launcher answers itself, with this status and these bytes, and zeros after them. */
static void supplied(unsigned controller, struct command command, int status, const char *bytes, size_t count) {
    uint64_t result;
    int value = send_command(files[controller], &command, &result);
    must(value == status && result == 0, "opcode %02xh, NSID %xh, dword 10 %xh: status %xh; it was %xh", command.opcode,
         command.nsid, command.cdw10, status, value);
    must(memcmp(common, bytes, count) == 0 && all_are(common, count, command.length, 0), "and %zu bytes of data",
         count);
}

static void try_supplied(void) {
    enum { DESCRIPTORS = 0x03, ATTACHED = 0x12, CONTROLLERS = 0x13, FROM_ONE = 1 << 16 };
    enum { FIRMWARE = 0x03, CHANGED = 0x04, NO_FIELD = 0x4002, NO_NAMESPACE = 0x400b };
    done(0, create(18, 18, 0, 0, 1), 1);
    done(0, attachment(0, 1, 1, 1, 0), 0);
    supplied(0, identify(CONTROLLERS, 0), 0, "\2\0\0\0\1", 5);
    supplied(1, identify(CONTROLLERS | FROM_ONE, 0), 0, "\1\0\1", 3);
    supplied(1, identify(CONTROLLERS | 2 << 16, 7), 0, "", 0);
    supplied(0, identify(ATTACHED, 1), 0, "\1\0\1", 3);
    supplied(0, identify(ATTACHED | 2 << 16, 1), 0, "", 0);
    supplied(1, identify(DESCRIPTORS, 1), 0, "\4\1", 2);
    supplied(0, identify(DESCRIPTORS, 1), NO_FIELD, "", 0);
    for (uint32_t cns = DESCRIPTORS; cns <= ATTACHED; cns += ATTACHED - DESCRIPTORS) {
        supplied(0, identify(cns, 0), NO_NAMESPACE, "", 0);
        supplied(0, identify(cns, 2), NO_FIELD, "", 0);
        supplied(0, identify(cns, 5), NO_NAMESPACE, "", 0);
        supplied(0, identify(cns, EVERY), cns == ATTACHED ? NO_FIELD : NO_NAMESPACE, "", 0);
    }
    done(0, attachment(0, 1, 1, 0, 0), 0);
    supplied(1, identify(ATTACHED, 1), 0, "\2\0\0\0\1", 5);
    supplied(0, get_log(EVERY, FIRMWARE, 512, 0), 0, "\1\0\0\0\0\0\0\0001.0     ", 16);
    supplied(0, get_log(0, FIRMWARE, 4, 8), 0, "1.0 ", 4);
    supplied(0, get_log(0, FIRMWARE, 1024, 512), 0, "", 0);
    supplied(0, get_log(0, FIRMWARE, 8, 2), NO_FIELD, "", 0);
    supplied(0, get_log(0, FIRMWARE, 8, 516), NO_FIELD, "", 0);
    supplied(0, get_log(1, FIRMWARE, 8, 0), NO_FIELD, "", 0);
    supplied(1, get_log(EVERY, CHANGED, 4096, 0), 0, "", 0);
}

static void try_commands(void) {
    try_passed();
    try_supplied();
}

/* Checks data from the controller: as many of these bytes as fit, then zeros, and nothing past the end of the room. */
static void comes(struct command command, int status, const unsigned char *bytes, size_t count) {
    memset(common, UNTOUCHED, sizeof common);
    told(0, command, status, 0);
    size_t length = command.length, most = count < length ? count : length;
    must(memcmp(common, bytes, most) == 0, "%zu of %zu bytes come", most, count);
    must(all_are(common, most, length, 0), "zeros come behind them, %zu in all", length);
    must(all_are(common, length, sizeof common, UNTOUCHED), "nothing comes behind %zu bytes", length);
}

/* Checks that no data is transferred. */
static void stays(struct command command, int status) {
    memset(common, UNTOUCHED, sizeof common);
    told(0, command, status, 0);
    must(all_are(common, 0, sizeof common, UNTOUCHED), "no data come of opcode %02xh", command.opcode);
}

/* Checks data from the host: as many bytes as there are, and zeros after them. */
static void try_sent(uint32_t length) {
    struct command attach = attachment(0, 1, 1, 1, 0), detach = attachment(1, 1, 1, 1, 0);
    attach.length = detach.length = length;
    /* (one byte is the count of a list, whose first identifier is then 0: the namespace exists already) */
    int status = length == 0 ? INVALID_LIST : length == 1 ? ALREADY_ATTACHED : 0;
    told(1, attach, status, 0);
    if (status == 0)
        told(1, detach, 0, 0);
    struct command made = create(18, 18, 0, 0, 0);
    made.length = length;
    status = length == 0 ? INVALID_FIELD : length == 1 ? NO_THIN_PROVISIONING : 0;
    told(0, made, status, status == 0 ? 2 : 0);
    if (status == 0)
        done(0, delete(2), 0);
}

static void try_lengths(void) {
    static const uint32_t lengths[] = {0, 1, PAGE - 1, PAGE, PAGE + 1, MOST_DATA};
    unsigned char controller[PAGE], health[512] = {0};
    done(0, identify(1, 0), 0);
    memcpy(controller, common, PAGE);
    for (unsigned at = 0; at < sizeof lengths / sizeof *lengths; at++) {
        uint32_t length = lengths[at];
        health[176] = (unsigned char)refusals[0];
        comes((struct command){IDENTIFY, 0, 1, length, 0, 0, 0, NULL}, 0, controller, PAGE);
        comes((struct command){GET_LOG, 0, 127 << 16 | 2, length, 0, 0, 0, NULL}, 0, health, sizeof health);
        comes((struct command){IDENTIFY, 5, 0, length, 0, 0, 0, NULL}, INVALID_NAMESPACE, controller, 0);
        comes((struct command){0xc2, 0, 0, length, 0, 0, 0, NULL}, INVALID_OPCODE, controller, 0);
        stays((struct command){0xc0, 0, 0, length, 0, 0, 0, NULL}, INVALID_OPCODE);
        stays((struct command){0xc1, 0, 0, length, 0, 0, 0, NULL}, INVALID_OPCODE);
        stays((struct command){0xc3, 0, 0, length, 0, 0, 0, NULL}, INVALID_OPCODE);
        stays((struct command){FORMAT, 1, 0, length, 0, 0, 0, NULL}, 0);
        try_sent(length);
    }
    struct command too_long = {IDENTIFY, 0, 1, MOST_DATA + 1, 0, 0, 0, NULL};
    struct command nowhere = {MANAGEMENT, 0, 0, PAGE, 0, 0, 0, (void *)1};
    uint64_t result;
    must(send_command(files[0], &too_long, &result) == -1 && errno == EINVAL, "too much data is an invalid argument");
    must(send_command(files[0], &nowhere, &result) == -1 && errno == EFAULT, "data that isn't there is a bad address");
    is_booked(0, 0);
}

int main(int count, char **arguments) {
    static const struct {
        const char *name;
        void (*part)(void);
    } parts[] = {{"commands", try_commands}, {"wide", try_commands},   {"lengths", try_lengths}, {"many", try_many},
                 {"broken", try_broken},     {"killed", try_killed},   {"nodes", try_nodes},     {"gone", try_gone}};
    if (count == 3 && strcmp(arguments[1], "descriptor") == 0)
        return !answers(atoi(arguments[2]), '1');
    files[0] = open("/dev/nvme0", O_RDWR);
    files[1] = open("/dev/nvme1", O_RDWR);
    must(files[0] >= 0 && files[1] >= 0, "both controllers can be opened: %s", strerror(errno));
    for (unsigned at = 0; count == 2 && wrong == 0 && at < sizeof parts / sizeof *parts; at++)
        if (strcmp(arguments[1], parts[at].name) == 0) {
            is_wide = strcmp(arguments[1], "wide") == 0;
            parts[at].part();
        }
    must(tried > 1, "there is a part of this name");
    return wrong != 0;
}
