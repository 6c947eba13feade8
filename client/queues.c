/* The queues of a drive, whose slots the library alone reads and writes. An entry of an I/O queue is taken by a proved
   turn over the data of its namespace. None of this is proved. */
#include "function.h"
#include "nvme_records.h"

enum { MDTS = 77 /* of Identify Controller */ };

uint32_t page_size(const struct function *function) {
    return SMALL_PAGE << (read_register(function, NVME_CC) >> 7 & 15);
}

/* Removes all queues, and creates the admin queues if the controller has them. */
void reset_drive(struct function *function) {
    struct drive *drive = &function->drive;
    struct drive new = {.counts = DEFAULT_COUNTS, .completions[0].vector = 1};
    uint32_t depths = read_register(function, NVME_AQA);
    uint64_t base = nvme_machine_read64(function->machine, function->number, NVME_ASQ);
    memcpy(new.is_active, drive->is_active, sizeof new.is_active);
    new.wants_changes = new.saved_wish = drive->saved_wish;
    if (read_register(function, NVME_CSTS) & IS_READY) {
        nvme_submission_queue_make(&new.submissions[0].queue, 0, base, (depths & 0xfff) + 1);
        base = nvme_machine_read64(function->machine, function->number, NVME_ACQ);
        nvme_completion_queue_make(&new.completions[0].queue, base, (depths >> 16 & 0xfff) + 1);
    }
    *drive = new;
}

/* Writes a doorbell. The library ignores a value that its queue can't have, and one without a queue, as the controller
   does those of its own. */
void ring(struct function *function, uint32_t offset, uint32_t value) {
    uint32_t doorbell = (offset - NVME_TAIL_DOORBELL) / 4, id = doorbell / 2;
    struct drive *drive = &function->drive;
    if (offset < NVME_TAIL_DOORBELL || id > MOST_QUEUES)
        return;
    if (doorbell % 2 == 0)
        nvme_submission_queue_tail(&drive->submissions[id].queue, value);
    else
        nvme_completion_queue_head(&drive->completions[id].queue, value);
}

/* Returns the vectors, as bits, of the interrupts for completions that wait. */
uint64_t waiting_vectors(const struct function *function) {
    uint64_t found = 0;
    for (const struct completions *at = function->drive.completions, *last = at + MOST_QUEUES; at <= last; at++)
        found |= at->queue.posted != at->queue.told ? at->vector : 0;
    return found;
}

/* Returns the part of the data that an entry names, or nothing if it isn't there or longer than any transfer. */
static nvme_range part_of(const struct volume *volume, const unsigned char *entry) {
    uint64_t first = number_at(entry + 40, 8), count = number_at(entry + 48, 2) + 1;
    uint64_t blocks = volume->size / volume->block_size;
    if (first > blocks || count > blocks - first || count * volume->block_size > MOST_DATA)
        return (nvme_range){0, 0};
    return (nvme_range){first * volume->block_size, count * volume->block_size};
}

/* Clears what an entry deallocates or zeroes, by holes in the file. Returns whether that is all that it does. */
static int clear(struct volume *volume, const nvme_blocks *blocks, const unsigned char *entry,
                 const struct memory *memory) {
    nvme_range ranges[256];
    if (entry[0] != NVME_IO_WRITE_ZEROES && entry[0] != NVME_IO_DATASET_MANAGEMENT)
        return 0;
    int count = nvme_blocks_zeroing(blocks, entry, memory->bytes, memory->pages, memory->page, ranges);
    int is_done = count >= 0;
    for (int at = 0; at < count && is_done; at++)
        is_done = set_zeros(volume, ranges + at);
    return is_done;
}

/* Lets the library take an entry over the data of its namespace, with memory for what is written. Returns whether that
   could be done. */
static int turn_over(struct function *function, struct volume *volume, struct submissions *from,
                     struct completions *to, const unsigned char *entry, const struct memory *memory) {
    nvme_range part = part_of(volume, entry);
    int reads = entry[0] == NVME_IO_READ || entry[0] == NVME_IO_COMPARE, writes = entry[0] == NVME_IO_WRITE;
    nvme_blocks blocks = {volume->bytes, volume->size, (uint32_t)number_at(entry + 4, 4), volume->block_size,
                          (uint64_t)SMALL_PAGE << function->identity[MDTS], writes && !reserve(volume, &part)};
    if (clear(volume, &blocks, entry, memory))
        return nvme_queue_complete(&from->queue, &to->queue, memory->bytes, memory->pages, memory->page,
                                   (nvme_answer){0}) == 1;
    blocks.data = begin_use(volume, reads ? &part : NULL);
    int status = nvme_queue_turn(&from->queue, &to->queue, memory->bytes, memory->pages, memory->page, &blocks);
    return end_use() && status >= 0;
}

/* Takes the next entry of a queue. Returns whether there was one. */
static int take_from(struct function *function, struct submissions *from) {
    struct completions *to = function->drive.completions + from->completions;
    const struct memory memory = lend(function, from);
    unsigned char entry[ENTRY_BYTES];
    int is_taken = nvme_queue_next(&from->queue, &to->queue, memory.bytes, memory.pages, memory.page, entry);
    if (is_taken == 0)
        return 0;
    uint64_t nsid = is_taken > 0 ? number_at(entry + 4, 4) : 0;
    struct volume *volume = function->subsystem->volumes + (nsid <= MOST_NSID ? nsid : 0);
    if (is_taken > 0 && nsid <= MOST_NSID && function->drive.is_active[nsid] && volume->bytes)
        is_taken = turn_over(function, volume, from, to, entry, &memory);
    else if (is_taken > 0)
        is_taken = nvme_queue_turn(&from->queue, &to->queue, memory.bytes, memory.pages, memory.page, NULL) >= 0;
    if (is_taken <= 0) {
        function->drive.has_failed = 1;
        return 0;
    }
    give_back();
    function->drive.due |= to->vector;
    return 1;
}

/* Takes an entry of the I/O queues, by turns. Returns whether there was one. */
int take_entry(struct function *function) {
    struct drive *drive = &function->drive;
    for (unsigned count = 0; count < MOST_QUEUES && !drive->has_failed; count++) {
        drive->next = drive->next % MOST_QUEUES + 1;
        struct submissions *from = drive->submissions + drive->next;
        if (from->queue.fetched != from->queue.rung && take_from(function, from))
            return 1;
    }
    return 0;
}
