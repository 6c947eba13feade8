/* Commands that the launcher carries out in the controllers' place, with the statuses of a drive. No proof speaks about
   them. */
#include "launcher.h"
#include "supplied.h"
#include <linux/nvme_ioctl.h>

/* ---- I/O commands, over the data of a namespace */

enum { FLUSH = 0x00, WRITE = 0x01, READ = 0x02, COMPARE = 0x05, WRITE_ZEROES = 0x08, DATASET = 0x09, VERIFY = 0x0c };

/* Statuses, with the bit Do Not Retry. */
enum { INVALID_OPCODE = 0x4001, OUT_OF_RANGE = 0x4080, NO_CAPACITY = 0x4081, DIFFERS = 0x4285 };

/* What a dataset management command deallocates: up to 256 ranges of 16 bytes. */
enum { RANGE_BYTES = 16, MOST_RANGES = 256, DEALLOCATES = 4 };

static uint64_t first_of(const unsigned char *range) { return number_at(range + 8, 8); }
static uint64_t count_of(const unsigned char *range) { return number_at(range + 4, 4); }

static int is_within(const struct volume *data, uint64_t first, uint64_t count) {
    return first <= data->blocks && count <= data->blocks - first;
}

static int clear(const struct volume *data, uint64_t first, uint64_t count) {
    int how = FALLOC_FL_PUNCH_HOLE | FALLOC_FL_KEEP_SIZE, power = (int)data->power;
    if (!is_within(data, first, count))
        return OUT_OF_RANGE;
    if (count > 0 && fallocate(data->file, how, (off_t)(first << power), (off_t)(count << power)) < 0)
        return -errno;
    return DONE;
}

/* Deallocates ranges of blocks, all or none. */
static int deallocate(const struct call *call, const struct volume *data, const struct nvme_passthru_cmd *given) {
    unsigned char ranges[MOST_RANGES][RANGE_BYTES];
    uint32_t count = (given->cdw10 & 0xff) + 1;
    int status = DONE;
    if (given->data_len < count * RANGE_BYTES)
        return INVALID_FIELD;
    if (copy_in(call, given->addr, ranges, count * RANGE_BYTES) < 0)
        return -EFAULT;
    for (uint32_t at = 0; at < count; at++)
        if (!is_within(data, first_of(ranges[at]), count_of(ranges[at])))
            return OUT_OF_RANGE;
    for (uint32_t at = 0; at < count && status == DONE && given->cdw11 & DEALLOCATES; at++)
        status = clear(data, first_of(ranges[at]), count_of(ranges[at]));
    return status;
}

/* Reads, writes or compares blocks. */
static int transfer(const struct call *call, const struct volume *data, const struct nvme_passthru_cmd *given,
                    uint64_t first, size_t size) {
    static unsigned char stored[MOST_DATA];
    unsigned char *bytes = own_data();
    off_t at = (off_t)(first << data->power);
    if (given->opcode != READ && copy_in(call, given->addr, bytes, size) < 0)
        return -EFAULT;
    if (given->opcode == WRITE)
        return pwrite(data->file, bytes, size, at) == (ssize_t)size ? DONE : NO_CAPACITY;
    if (pread(data->file, stored, size, at) != (ssize_t)size)
        return INVALID_NAMESPACE;
    if (given->opcode == COMPARE)
        return memcmp(bytes, stored, size) == 0 ? DONE : DIFFERS;
    return copy_out(call, given->addr, stored, size);
}

static int carry_out_io(const struct call *call, const struct volume *data, const struct nvme_passthru_cmd *given) {
    uint64_t first = (uint64_t)given->cdw11 << 32 | given->cdw10, count = (given->cdw12 & 0xffff) + 1;
    uint64_t size = count << data->power;
    switch (given->opcode) {
    case FLUSH:
        return DONE;
    case DATASET:
        return deallocate(call, data, given);
    case WRITE_ZEROES:
        return clear(data, first, count);
    case VERIFY:
        return is_within(data, first, count) ? DONE : OUT_OF_RANGE;
    case READ:
    case WRITE:
    case COMPARE:
        if (size > MOST_DATA || given->data_len < size)
            return INVALID_FIELD;
        return is_within(data, first, count) ? transfer(call, data, given, first, size) : OUT_OF_RANGE;
    default:
        return INVALID_OPCODE;
    }
}

int io(const struct call *call, const struct nvme_passthru_cmd *given) {
    struct volume data;
    const uint32_t most = 512 * most_sectors(call->node.controller);
    if (given->flags || given->nsid != call->node.nsid || (given->addr && given->data_len > most))
        return -EINVAL;
    int status = follow_rules(call, 1, given);
    if (status != 0)
        return status;
    data.file = read_volume(&call->node, &data) ? open_own_data(call) : -1;
    if (data.file < 0)
        return INVALID_NAMESPACE;
    status = carry_out_io(call, &data, given);
    close(data.file);
    return status;
}

/* (the older form, for one kind of command, becomes the newer one) */
int submit_io(const struct call *call) {
    struct nvme_user_io old;
    struct volume data;
    if (copy_in(call, call->argument, &old, sizeof old) < 0)
        return -EFAULT;
    if (old.flags || (old.opcode != READ && old.opcode != WRITE && old.opcode != COMPARE))
        return -EINVAL;
    const unsigned power = read_volume(&call->node, &data) ? data.power : 0;
    const struct nvme_passthru_cmd given = {.opcode = old.opcode,
                                            .nsid = call->node.nsid,
                                            .addr = old.addr,
                                            .data_len = (old.nblocks + 1u) << power,
                                            .cdw10 = (uint32_t)old.slba,
                                            .cdw11 = (uint32_t)(old.slba >> 32),
                                            .cdw12 = old.nblocks};
    return io(call, &given);
}

/* ---- admin commands of drives with namespace management that the controllers don't have, which a keeper answers from
   what these say */

enum { CNS_ALLOCATED = 0x11 };

const unsigned char *identity_of(unsigned controller) { return identities[controller]; }

int read_namespace(unsigned controller, uint32_t nsid, int is_active, unsigned char page[IDENTIFY_BYTES]) {
    return identify(controller, nsid, is_active ? CNS_NAMESPACE : CNS_ALLOCATED, page) >= 0;
}

int is_attached(unsigned controller, uint32_t nsid) {
    unsigned char is_active[MOST_NSID + 1];
    return list_active(controller, is_active) >= 0 && is_active[nsid];
}

/* (since its nodes were looked for) */
void find_changes(unsigned controller, unsigned char has_changed[MOST_NSID + 1]) {
    list_active(controller, has_changed);
    for (uint32_t nsid = 1; nsid <= MOST_NSID; nsid++)
        has_changed[nsid] ^= (unsigned char)is_shown(controller, nsid);
}

int supply(struct device *device, const struct request_header *request, void *data, struct answer_header *answer) {
    const struct asked asked = {device->first, device->count, device->first + request->controller};
    unsigned char page[IDENTIFY_BYTES];
    int status = request->kind == KIND_ENTRY ? supplied(&asked, request->entry, page) : NOT_SUPPLIED;
    if (status == NOT_SUPPLIED)
        return 0;
    *answer = (struct answer_header){.status = (uint16_t)status, .length = request->length};
    memset(data, 0, request->length);
    if (status == DONE)
        memcpy(data, page, request->length < sizeof page ? request->length : sizeof page);
    return 1;
}
