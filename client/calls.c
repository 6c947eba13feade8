/* The ioctls of nodes, and what helpers (helpers.c) do with a call that a filter handed over (filter.c). Programs
   inherit this filter, and helpers answer from the memory of the process, as Linux does, so static programs, and those
   that make system calls themselves, are answered too. A result is that of the call, or an error's number as a negative
   one. None of this is proved. */
#include "launcher.h"
#include <linux/audit.h>
#include <linux/blkpg.h>
#include <linux/blkzoned.h>
#include <linux/fs.h>
#include <linux/hdreg.h>
#include <linux/nvme_ioctl.h>

/* The two lowest bits of an opcode give the direction of its data. */
enum { TO_DEVICE = 1, FROM_DEVICE = 2 };

dev_t number_of(int is_sys) {
    static dev_t numbers[2];
    struct stat about;
    if (numbers[is_sys] == 0 && stat(is_sys ? "/sys" : "/dev", &about) == 0)
        numbers[is_sys] = about.st_dev;
    return numbers[is_sys];
}

void read_link(const char *link, char name[PATH_MAX]) {
    ssize_t length = readlink(link, name, PATH_MAX - 1);
    name[length < 0 ? 0 : length] = '\0';
}

/* (the mode of a link to an open file says how it was opened) */
int find_node(struct call *call) {
    char link[64], name[PATH_MAX];
    struct stat how;
    snprintf(link, sizeof link, "/proc/%d/fd/%d", call->process, call->file);
    read_link(link, name);
    if (strncmp(name, "/dev/", 5) != 0 || lstat(link, &how) < 0)
        return 0;
    const struct statx about = known_about(AT_FDCWD, link);
    if (!S_ISREG(about.stx_mode) || system_of(&about) != number_of(OF_DEV))
        return 0;
    call->is_writable = (how.st_mode & S_IWUSR) != 0;
    call->is_path = (how.st_mode & (S_IRUSR | S_IWUSR)) == 0;
    int found = read_name(name + strlen("/dev/"), &call->node);
    call->is_gone = found == WAS_NODE;
    return found;
}

/* ---- ioctls of nodes */

/* Sends an entry unchanged. Returns the status, and stores dword 0 of the completion. (Data that is received is read
   too, so that a bad address is told before the command is carried out.) */
static int admin(const struct call *call, const struct nvme_passthru_cmd *given, uint64_t *dword_0) {
    void *data = own_data();
    uint32_t length = given->opcode & (TO_DEVICE | FROM_DEVICE) && given->addr ? given->data_len : 0;
    struct request_header header = {.controller = (uint16_t)call->node.controller, .length = length};
    const uint32_t dwords[] = {given->cdw10, given->cdw11, given->cdw12, given->cdw13, given->cdw14, given->cdw15};
    header.entry[0] = given->opcode;
    memcpy(header.entry + 4, &given->nsid, 3 * sizeof given->nsid);
    memcpy(header.entry + 40, dwords, sizeof dwords);
    if (given->flags || given->data_len > MOST_DATA)
        return -EINVAL;
    if (copy_in(call, given->addr, data, length) < 0)
        return -EFAULT;
    int status = follow_rules(call, 0, given);
    if (status != 0)
        return status;
    const struct answer_header *answer = ask_keeper(&header);
    if (!answer || answer->outcome != ANSWERED)
        return -ENXIO;
    *dword_0 = answer->dword_0;
    return copy_out(call, given->addr, data, answer->length) < 0 ? -EFAULT : answer->status & 0x7fff;
}

/* Finds the only namespace of a controller, to whose node a command was sent. */
static int find_only_namespace(struct node *node) {
    unsigned count = 0;
    for (uint32_t nsid = 1; nsid <= MOST_NSID; nsid++)
        if (is_shown(node->controller, nsid)) {
            node->nsid = nsid;
            count++;
        }
    return count == 1 ? 0 : count == 0 ? -ENOTTY : -EINVAL;
}

/* Executes a command, and stores its result. Its two forms differ only in this, which comes after the other fields in
   both. */
static int execute(struct call *call, int is_io, int is_wide) {
    size_t place = is_wide ? offsetof(struct nvme_passthru_cmd64, result) : offsetof(struct nvme_passthru_cmd, result);
    struct nvme_passthru_cmd given;
    uint64_t result = 0;
    int found = is_io && call->node.kind == 'c' ? find_only_namespace(&call->node) : 0;
    if (found < 0 || !is_administrator())
        return found < 0 ? found : -EACCES;
    if (copy_in(call, call->argument, &given, sizeof given) < 0)
        return -EFAULT;
    int status = is_io ? io(call, &given) : admin(call, &given, &result);
    if (status >= 0 && copy_out(call, call->argument + place, &result, is_wide ? 8 : 4) < 0)
        return -EFAULT;
    return status;
}

/* Discards blocks, which are then zeros. */
static int discard(const struct call *call, uint64_t size, uint64_t block) {
    const int punched = FALLOC_FL_PUNCH_HOLE | FALLOC_FL_KEEP_SIZE;
    uint64_t range[2];
    if (!call->is_writable)
        return -EBADF;
    if (call->request == BLKSECDISCARD)
        return -EOPNOTSUPP;
    if (copy_in(call, call->argument, range, sizeof range) < 0)
        return -EFAULT;
    if ((range[0] | range[1]) % block || range[1] == 0 || range[0] > size || range[1] > size - range[0])
        return -EINVAL;
    if (volume_of(&call->node)->is_read_only)
        return -EPERM;
    int file = open_own_data(call);
    int result = file < 0 ? -ENXIO : fallocate(file, punched, (off_t)range[0], (off_t)range[1]) < 0 ? -errno : 0;
    close(file);
    return result;
}

/* Sets whether a block device can be written. */
static int set_read_only(const struct call *call) {
    uint32_t number = 0;
    if (copy_in(call, call->argument, &number, sizeof number) < 0)
        return -EFAULT;
    volume_of(&call->node)->is_read_only = number != 0;
    return ask_controller(call->node.controller, KIND_SHOW, call->node.nsid);
}

/* The numbers of a block device that ioctls report, as Linux does for a device with one queue. */
enum number { BYTES, SECTORS, OF_BLOCK, OF_BUFFER, READ_AHEAD, IS_READ_ONLY, MOST_SECTORS, ZERO, REPORTED };

static const struct report {
    uint32_t request, bytes; /* (0: those of a word) */
    enum number number;
} reports[] = {{BLKGETSIZE64, 8, BYTES},    {BLKGETSIZE, 0, SECTORS},      {BLKSSZGET, 4, OF_BLOCK},
               {BLKPBSZGET, 4, OF_BLOCK},   {BLKIOMIN, 4, OF_BLOCK},       {BLKIOOPT, 4, OF_BLOCK},
               {BLKBSZGET, 4, OF_BUFFER},   {BLKRAGET, 0, READ_AHEAD},     {BLKFRAGET, 0, READ_AHEAD},
               {BLKROGET, 4, IS_READ_ONLY}, {BLKSECTGET, 2, MOST_SECTORS}, {BLKALIGNOFF, 4, ZERO},
               {BLKROTATIONAL, 2, ZERO},    {BLKDISCARDZEROES, 4, ZERO},   {BLKGETZONESZ, 4, ZERO},
               {BLKGETNRZONES, 4, ZERO}};

/* (a few requests of 32-bit programs have the size of their words) */
static uint32_t request_of(const struct call *call) {
    uint32_t nr = _IOC_NR(call->request), is_sized = call->is_old && _IOC_SIZE(call->request) == 4;
    return call->request + (is_sized && nr >= 112 && nr <= 114 ? 4u << _IOC_SIZESHIFT : 0);
}

/* Returns 0 for a size that a buffer may have. (There is no buffer, so that this has no effect.) */
static int check_buffer(const struct call *call) {
    uint32_t size = 0, block = 1u << volume_of(&call->node)->power;
    if (copy_in(call, call->argument, &size, sizeof size) < 0)
        return -EFAULT;
    return size < block || size > (block > 4096 ? block : 4096) || size & (size - 1) ? -EINVAL : 0;
}

/* Returns 0 if there are no partitions to read because there is no data, as after a format. */
static int read_partitions(const struct call *call) {
    int file = open_own_data(call), is_empty = file >= 0 && lseek(file, 0, SEEK_DATA) < 0;
    close(file);
    return is_empty ? 0 : -EINVAL;
}

/* What the administrator alone may do to a block device: what does it, or else its result. (It has no partitions, and
   nothing that reads ahead.) */
static const struct change {
    uint32_t request;
    int (*make)(const struct call *call);
    int result;
} changes[] = {{BLKROSET, set_read_only, 0}, {BLKBSZSET, check_buffer, 0}, {BLKRRPART, read_partitions, 0},
               {BLKPG, NULL, -EINVAL},       {BLKFLSBUF, NULL, 0},      {BLKRASET, NULL, -ENOTTY},
               {BLKFRASET, NULL, -ENOTTY},   {BLKTRACESTOP, NULL, -EINVAL}};

/* Reports a number of a block device, in its size, or changes the device. */
static int of_block_device(const struct call *call) {
    struct volume volume;
    if (!read_volume(&call->node, &volume))
        return -ENXIO;
    const uint64_t block = 1ULL << volume.power, size = volume.blocks << volume.power;
    uint64_t buffer = block;
    while (buffer < 4096 && !(size & buffer))
        buffer *= 2;
    const uint64_t numbers[REPORTED] = {[BYTES] = size,
                                        [SECTORS] = size / 512,
                                        [OF_BLOCK] = block,
                                        [OF_BUFFER] = buffer,
                                        [READ_AHEAD] = 256,
                                        [IS_READ_ONLY] = (uint64_t)volume.is_read_only,
                                        [MOST_SECTORS] = most_sectors(call->node.controller)};
    const uint64_t cylinders[2] = {64 | 32 << 8 | (size >> 20 & 0xffff) << 16};
    const uint32_t word = call->is_old ? 4 : 8, request = request_of(call);
    for (const struct report *row = reports; row < reports + sizeof reports / sizeof *reports; row++)
        if (row->request == request)
            return copy_out(call, call->argument, &numbers[row->number], row->bytes ?: word);
    for (const struct change *row = changes; row < changes + sizeof changes / sizeof *changes; row++)
        if (row->request == request)
            return !is_administrator() ? -EACCES : row->make ? row->make(call) : row->result;
    switch (request) {
    case HDIO_GETGEO:
        return copy_out(call, call->argument, cylinders, 2 * word);
    case BLKDISCARD:
    case BLKZEROOUT:
    case BLKSECDISCARD:
        return discard(call, size, block);
    default:
        return -ENOTTY;
    }
}

static int carry_out_ioctl(struct call *call) {
    char kind = call->node.kind;
    struct device *device = device_of(call->node.controller);
    if (call->is_path && call->request != NODE_REQUEST)
        return -EBADF;
    if (device->state == LOST)
        return -ENXIO;
    if (call->is_gone && call->request != NODE_REQUEST)
        return -ENODEV;
    switch (call->request) {
    case NODE_REQUEST:
        return copy_out(call, call->argument, &call->node, sizeof call->node);
    case NVME_IOCTL_ADMIN_CMD:
    case NVME_IOCTL_ADMIN64_CMD:
        return execute(call, 0, call->request == NVME_IOCTL_ADMIN64_CMD);
    case NVME_IOCTL_ID:
        return kind == 'c' ? -ENOTTY : (int)call->node.nsid;
    case NVME_IOCTL_RESCAN:
    case NVME_IOCTL_RESET:
    case NVME_IOCTL_SUBSYS_RESET:
        if (kind == 'c' && !is_administrator())
            return -EACCES;
        if (kind != 'c' || call->request == NVME_IOCTL_SUBSYS_RESET)
            return -ENOTTY;
        return ask_controller(call->node.controller, call->request == NVME_IOCTL_RESET ? KIND_RESET : KIND_SCAN, 1);
    case NVME_IOCTL_IO_CMD:
        return execute(call, 1, 0);
    case NVME_IOCTL_IO64_CMD:
        return kind == 'c' ? -ENOTTY : execute(call, 1, 1);
    case NVME_IOCTL_SUBMIT_IO:
        return kind == 'c' ? -ENOTTY : submit_io(call);
    default:
        return kind == 'b' ? of_block_device(call) : -ENOTTY;
    }
}

int answer_ioctl(struct call *call, const __u64 *words) {
    call->file = (int)words[0];
    call->request = (uint32_t)words[1];
    call->argument = words[2];
    if (call->request == STOPPED_REQUEST && call->process == process_one)
        return report_stop();
    return find_node(call) ? carry_out_ioctl(call) : NOT_OURS;
}

/* ---- what a helper and the launcher do with a call */

int receive_call(union notice *notice) {
    memset(notice, 0, sizeof *notice);
    return ioctl(call_listener, SECCOMP_IOCTL_NOTIF_RECV, &notice->got) == 0;
}

int is_alive(uint64_t id) { return ioctl(call_listener, SECCOMP_IOCTL_NOTIF_ID_VALID, &id) == 0; }

void finish_call(const union notice *notice, int result) {
    int is_ours = result != NOT_OURS;
    struct seccomp_notif_resp answer = {.id = notice->got.id,
                                        .flags = is_ours ? 0 : SECCOMP_USER_NOTIF_FLAG_CONTINUE,
                                        .error = is_ours && result < 0 ? result : 0,
                                        .val = result > 0 ? result : 0};
    ioctl(call_listener, SECCOMP_IOCTL_NOTIF_SEND, &answer);
}

/* Finds who answers a call. */
static answering *answer_of(const struct decided_call *row, int call) {
    for (;; row++)
        for (const short *number = row->numbers; row->answer && *number != 0; number++)
            if (*number == call)
                return row->answer;
}

/* (a process that is gone by now may have left its number to another one) */
void answer_call(const union notice *notice) {
    const struct seccomp_data *data = &notice->got.data;
    struct call call = {
        .id = notice->got.id, .process = (pid_t)notice->got.pid, .is_old = data->arch != AUDIT_ARCH_X86_64};
    answering *answer = answer_of(call.is_old ? old_decided_calls : decided_calls, data->nr);
    finish_call(notice, act_as_caller(&call) && is_alive(call.id) ? answer(&call, data->args) : -EAGAIN);
}
