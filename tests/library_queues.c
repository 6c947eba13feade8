/* Tests the calls of nvme_controller.h for entries that a program answers, and for I/O queues and their blocks: what
 * they promise about the memory, and the mistakes that callers can make. Prints what fails, and at the end the number
 * of checks. */
#include <nvme_controller.h>
#include <nvme_records.h>

#include <stdio.h>
#include <stdlib.h>
#include <string.h>
#include <sys/mman.h>

enum { PAGE = 4096, PAGES = 16, SIZE = PAGES * PAGE, BLOCK = 512, BLOCKS = 8, NO_RETRY = NVME_STATUS_DO_NOT_RETRY };
/* Where things lie in the host's memory. */
enum { ADMIN_COMPLETIONS = 1 * PAGE, DATA = 2 * PAGE, SUBMISSIONS = 4 * PAGE, COMPLETIONS = 5 * PAGE };

static unsigned checks, failures;

#define CHECK(holds) check(holds, #holds, __LINE__)

static void check(int holds, const char *what, int line) {
    checks++;
    if (!holds) {
        failures++;
        printf("line %d: %s\n", line, what);
    }
}

/* Returns bytes between two pages that can't be accessed, and that end at the second one. */
static uint8_t *guarded(size_t size) {
    size_t whole = (size + PAGE - 1) / PAGE * PAGE;
    uint8_t *all = mmap(NULL, whole + 2 * PAGE, PROT_READ | PROT_WRITE, MAP_PRIVATE | MAP_ANONYMOUS, -1, 0);
    if (all == MAP_FAILED || mprotect(all, PAGE, PROT_NONE) != 0 ||
        mprotect(all + PAGE + whole, PAGE, PROT_NONE) != 0) {
        perror("guarded");
        exit(3);
    }
    return all + PAGE + whole - size;
}

static struct nvme_completion_entry completion_at(const uint8_t *memory, uint64_t queue, unsigned slot) {
    struct nvme_completion_entry completion;
    memcpy(&completion, memory + queue + slot * sizeof completion, sizeof completion);
    return completion;
}

static void put(uint8_t *memory, uint64_t queue, unsigned slot, struct nvme_submission_entry entry) {
    memcpy(memory + queue + slot * sizeof entry, &entry, sizeof entry);
}

/* ---- entries of an admin queue */

static nvme_machine *machine;
static uint8_t *memory, before[SIZE];

/* Opens a machine whose controller 0 is ready with queues of four entries, of which two wait: an unknown opcode, and
 * Identify Controller. */
static void open_with_entries(void) {
    CHECK(nvme_machine_demo(&machine) == 0);
    memory = guarded(SIZE);
    nvme_machine_write32(machine, 0, NVME_AQA, 0x00030003);
    nvme_machine_write64(machine, 0, NVME_ACQ, ADMIN_COMPLETIONS);
    nvme_machine_write32(machine, 0, NVME_CC, 0x00460001);
    put(memory, 0, 0, (struct nvme_submission_entry){.opcode = NVME_QUEUE_CREATE_COMPLETION, .cid = 7, .cdw15 = 9});
    put(memory, 0, 1, (struct nvme_submission_entry){
        .opcode = NVME_OPCODE_IDENTIFY, .cid = 8, .prp1 = DATA, .cdw10 = NVME_IDENTIFY_CONTROLLER});
    nvme_machine_write32(machine, 0, NVME_TAIL_DOORBELL, 2);
}

static int has_counted(uint64_t refusals, uint64_t commands) {
    uint64_t found[2];
    nvme_machine_counts(machine, 0, found, found + 1);
    return found[0] == refusals && found[1] == commands;
}

/* The entry is shown as often as one likes. It is completed in the queues' order, and the controller knows nothing of
 * it, but goes on with the next one. */
static void completed(void) {
    struct nvme_submission_entry entry;
    nvme_answer answer = {0x12345678, 99, NVME_STATUS_INVALID_FIELD_IN_COMMAND | NO_RETRY};
    open_with_entries();
    memcpy(before, memory, SIZE);
    for (int time = 0; time < 3; time++) {
        memset(&entry, 'x', sizeof entry);
        CHECK(nvme_machine_next(machine, 0, memory, PAGES, PAGE, (uint8_t *)&entry) == 1);
        CHECK(memcmp(&entry, memory, sizeof entry) == 0 && entry.cdw15 == 9);
    }
    CHECK(memcmp(before, memory, SIZE) == 0 && has_counted(0, 0));
    CHECK(nvme_machine_complete(machine, 0, memory, PAGES, PAGE, answer) == 1);
    struct nvme_completion_entry completion = completion_at(memory, ADMIN_COMPLETIONS, 0);
    CHECK(completion.command_specific == 0x12345678 && completion.cid == 7 && completion.sq_head == 1);
    CHECK(completion.sq_identifier == 0 && completion.status_and_phase == ((NO_RETRY | 2) << 1 | 1));
    memset(memory + ADMIN_COMPLETIONS, 0, 16);
    CHECK(memcmp(before, memory, SIZE) == 0 && has_counted(0, 0));
    CHECK(nvme_machine_log_entry(machine, 0, 0, (uint8_t *)&entry) == 0);
    CHECK(nvme_machine_turn(machine, 0, memory, PAGES, PAGE, 9) == 1 && has_counted(0, 1));
    completion = completion_at(memory, ADMIN_COMPLETIONS, 1);
    CHECK(completion.cid == 8 && completion.sq_head == 2 && completion.status_and_phase == 1);
    CHECK(nvme_machine_next(machine, 0, memory, PAGES, PAGE, (uint8_t *)&entry) == 0);
    CHECK(nvme_machine_complete(machine, 0, memory, PAGES, PAGE, answer) == 0);
    nvme_machine_close(machine);
}

/* An entry is held, and its completion comes after that of the next one. */
static void held(void) {
    struct nvme_submission_entry entry;
    nvme_answer answer = {5, 7, 0};
    open_with_entries();
    CHECK(nvme_machine_fetch(machine, 0, memory, PAGES, PAGE, (uint8_t *)&entry) == 1 && entry.cid == 7);
    CHECK(nvme_machine_next(machine, 0, memory, PAGES, PAGE, (uint8_t *)&entry) == 1 && entry.cid == 8);
    CHECK(nvme_machine_turn(machine, 0, memory, PAGES, PAGE, 9) == 1);
    CHECK(nvme_machine_post(machine, 0, memory, PAGES, PAGE, answer) == 1);
    struct nvme_completion_entry completion = completion_at(memory, ADMIN_COMPLETIONS, 1);
    CHECK(completion_at(memory, ADMIN_COMPLETIONS, 0).cid == 8 && completion.cid == 7);
    CHECK(completion.command_specific == 5 && completion.sq_head == 2 && completion.status_and_phase == 1);
    /* of four slots, one stays free */
    CHECK(nvme_machine_post(machine, 0, memory, PAGES, PAGE, answer) == 1);
    memcpy(before, memory, SIZE);
    CHECK(nvme_machine_post(machine, 0, memory, PAGES, PAGE, answer) == 0 && memcmp(before, memory, SIZE) == 0);
    put(memory, 0, 2, (struct nvme_submission_entry){.opcode = 1, .cid = 9});
    nvme_machine_write32(machine, 0, NVME_TAIL_DOORBELL, 3);
    CHECK(nvme_machine_next(machine, 0, memory, PAGES, PAGE, (uint8_t *)&entry) == 0);
    CHECK(nvme_machine_fetch(machine, 0, memory, PAGES, PAGE, (uint8_t *)&entry) == 0);
    nvme_machine_write32(machine, 0, NVME_HEAD_DOORBELL, 3);
    CHECK(nvme_machine_next(machine, 0, memory, PAGES, PAGE, (uint8_t *)&entry) == 1 && entry.cid == 9);
    CHECK(nvme_machine_complete(machine, 0, memory, PAGES, PAGE, answer) == 1);
    CHECK(completion_at(memory, ADMIN_COMPLETIONS, 3).cid == 9);
    CHECK(nvme_machine_post(machine, 0, memory, PAGES, PAGE, answer) == 1);
    CHECK(completion_at(memory, ADMIN_COMPLETIONS, 0).status_and_phase == 0);
    nvme_machine_close(machine);
}

/* Calls that can't do anything leave everything as it is: no machine, no such controller, no such memory, another page
 * size than the controller's, a memory without a slot, and a controller that isn't ready. */
static void refused(void) {
    static const struct {
        size_t pages;
        uint32_t page_size;
    } rows[] = {{PAGES, 0}, {PAGES, 4095}, {PAGES / 2, 8192}, {1, PAGE}, {0, PAGE}, {SIZE_MAX, PAGE}};
    uint8_t entry[64], same[64];
    nvme_answer answer = {0, 7, 0};
    memset(entry, 'x', sizeof entry);
    memcpy(same, entry, sizeof entry);
    open_with_entries();
    memcpy(before, memory, SIZE);
    for (size_t row = 0; row < sizeof rows / sizeof rows[0]; row++) {
        size_t pages = rows[row].pages;
        uint32_t page_size = rows[row].page_size;
        CHECK(nvme_machine_next(machine, 0, memory, pages, page_size, entry) == 0);
        CHECK(nvme_machine_fetch(machine, 0, memory, pages, page_size, entry) == 0);
        CHECK(nvme_machine_complete(machine, 0, memory, pages, page_size, answer) == 0);
        CHECK(nvme_machine_post(machine, 0, memory, pages, page_size, answer) == 0);
    }
    nvme_machine *machines[] = {NULL, machine, machine};
    for (int row = 0; row < 3; row++) {
        uint16_t ctrl = row == 1 ? 2 : 1; /* (controller 1 isn't ready) */
        CHECK(nvme_machine_next(machines[row], ctrl, memory, PAGES, PAGE, entry) == 0);
        CHECK(nvme_machine_fetch(machines[row], ctrl, memory, PAGES, PAGE, entry) == 0);
        CHECK(nvme_machine_complete(machines[row], ctrl, memory, PAGES, PAGE, answer) == 0);
        CHECK(nvme_machine_post(machines[row], ctrl, memory, PAGES, PAGE, answer) == 0);
    }
    CHECK(nvme_machine_next(machine, 0, NULL, 1, PAGE, entry) == 0 && memcmp(entry, same, 64) == 0);
    CHECK(memcmp(before, memory, SIZE) == 0);
    CHECK(nvme_machine_read32(machine, 0, NVME_CSTS) == 1);
    CHECK(nvme_machine_turn(machine, 0, memory, PAGES, PAGE, 9) == 2);
    nvme_machine_close(machine);
}

/* Data goes where the entry's data pointer says, or nowhere. */
static void written(void) {
    struct nvme_submission_entry entry = {.prp1 = DATA + PAGE - 4, .prp2 = 8 * PAGE};
    const uint8_t *bytes = (const uint8_t *)&entry;
    memory = guarded(SIZE);
    memset(memory, 0xa5, SIZE);
    memcpy(before, memory, SIZE);
    CHECK(nvme_entry_write(bytes, memory, PAGES, PAGE, (const uint8_t *)"abcdefgh", 8) == 0);
    CHECK(memcmp(memory + DATA + PAGE - 4, "abcd", 4) == 0 && memcmp(memory + 8 * PAGE, "efgh", 4) == 0);
    memset(memory + DATA + PAGE - 4, 0xa5, 4);
    memset(memory + 8 * PAGE, 0xa5, 4);
    CHECK(memcmp(before, memory, SIZE) == 0);
    entry.prp2 = SIZE;
    CHECK(nvme_entry_write(bytes, memory, PAGES, PAGE, bytes, 8) == (NVME_STATUS_DATA_TRANSFER_ERROR | NO_RETRY));
    entry.prp2 = 8 * PAGE + 1;
    CHECK(nvme_entry_write(bytes, memory, PAGES, PAGE, bytes, 8) == (NVME_STATUS_PRP_OFFSET_INVALID | NO_RETRY));
    CHECK(nvme_entry_write(bytes, memory, PAGES, PAGE, bytes, 4) == 0);
    CHECK(nvme_entry_write(bytes, NULL, 0, PAGE, bytes, 0) == 0);
    memset(memory + DATA + PAGE - 4, 0xa5, 4);
    CHECK(nvme_entry_write(bytes, memory, PAGES, 1, bytes, 4) == (NVME_STATUS_DATA_TRANSFER_ERROR | NO_RETRY));
    CHECK(nvme_entry_write(bytes, memory, PAGES, PAGE, NULL, 4) == (NVME_STATUS_DATA_TRANSFER_ERROR | NO_RETRY));
    static const uint8_t much[(1 << 20) + 1];
    CHECK(nvme_entry_write(bytes, memory, PAGES, PAGE, much, sizeof much) ==
          (NVME_STATUS_DATA_TRANSFER_ERROR | NO_RETRY));
    CHECK(memcmp(before, memory, SIZE) == 0);
}

/* What Identify returns is that which a controller writes for the command, without a command. */
static void asked(void) {
    uint8_t page[4096];
    open_with_entries();
    CHECK(nvme_machine_turn(machine, 0, memory, PAGES, PAGE, 2) == 2);
    CHECK(nvme_machine_identify(machine, 0, page) == 1 && memcmp(page, memory + DATA, 4096) == 0);
    CHECK(nvme_machine_identify(machine, 2, page) == 0 && nvme_machine_identify(NULL, 0, page) == 0);
    static const struct {
        uint32_t nsid;
        int is_active, found, is_blank;
    } rows[] = {{1, 0, 1, 0}, {1, 1, 1, 0}, {4, 0, 1, 1}, {4, 1, 1, 1}, {0, 0, 0, 0},
                {5, 0, 0, 0}, {0, 1, 0, 0}, {NVME_EVERY_NAMESPACE, 0, 0, 0}};
    for (size_t row = 0; row < sizeof rows / sizeof rows[0]; row++) {
        static const uint8_t blank[4096];
        memset(page, 'x', sizeof page);
        CHECK(nvme_machine_namespace(machine, 0, rows[row].nsid, rows[row].is_active, page) == rows[row].found);
        CHECK(!rows[row].found || (memcmp(page, blank, 4096) == 0) == rows[row].is_blank);
        CHECK(rows[row].found || (page[0] == 'x' && page[4095] == 'x'));
    }
    CHECK(nvme_machine_namespace(machine, 2, 1, 0, page) == 0 && nvme_machine_namespace(NULL, 0, 1, 0, page) == 0);
    CHECK(has_counted(1, 2));
    nvme_machine_close(machine);
}

/* ---- I/O queues */

static nvme_submission_queue submissions;
static nvme_completion_queue completions;

/* Doorbells over all values, beside the rule in plain words: a tail names a slot, and a head is reached by freeing
 * posted slots. */
static void doorbells(void) {
    nvme_submission_queue queue = {1, 2, 3, 4, 5};
    CHECK(nvme_submission_queue_make(&queue, 6, 7, 1) == 0 && nvme_submission_queue_make(&queue, 6, 7, 4097) == 0);
    CHECK(queue.base == 1 && queue.depth == 2 && queue.sqid == 3 && queue.fetched == 4 && queue.rung == 5);
    CHECK(nvme_submission_queue_make(&queue, 6, 7, 65538) == 0 && nvme_submission_queue_make(&queue, 6, 7, 4096) == 1);
    CHECK(nvme_completion_queue_make(&completions, 7, 0) == 0 && nvme_completion_queue_make(&completions, 7, 2) == 1);
    for (unsigned depth = 2; depth < 6; depth++) {
        for (unsigned fetched = 0; fetched < 2 * depth; fetched++) {
            for (uint32_t tail = 0; tail < 8; tail++) {
                nvme_submission_queue one = {0, (uint16_t)depth, 1, (uint16_t)fetched, (uint16_t)fetched};
                CHECK(nvme_submission_queue_tail(&one, tail) == (tail < depth));
                unsigned waiting = tail < depth ? (tail + 2 * depth - fetched) % depth : 0;
                CHECK(nvme_submission_queue_waiting(&one) == waiting && one.fetched == fetched);
                for (unsigned posted = 0; posted < depth; posted++) {
                    nvme_completion_queue other = {0, (uint16_t)depth, (uint16_t)((fetched + posted) % (2 * depth)),
                                                   (uint16_t)fetched, 0};
                    CHECK(nvme_completion_queue_waiting(&other) == posted);
                    unsigned freed = (tail + 2 * depth - fetched) % depth;
                    int is_reached = tail < depth && freed <= posted;
                    CHECK(nvme_completion_queue_head(&other, tail) == is_reached);
                    CHECK(nvme_completion_queue_waiting(&other) == (is_reached ? posted - freed : posted));
                }
            }
        }
    }
    nvme_submission_queue wrong[] = {
        {0, 0, 1, 0, 0}, {0, 1, 1, 0, 0}, {0, 4097, 1, 0, 0}, {0, 4, 1, 8, 0}, {0, 4, 1, 0, 4}};
    for (size_t row = 0; row < sizeof wrong / sizeof wrong[0]; row++) {
        nvme_submission_queue same = wrong[row];
        nvme_completion_queue other = {0, same.depth, same.rung, same.fetched, 0}, as = other;
        CHECK(nvme_submission_queue_tail(wrong + row, 0) == 0 && nvme_submission_queue_waiting(wrong + row) == 0);
        CHECK(memcmp(&same, wrong + row, sizeof same) == 0);
        CHECK(nvme_completion_queue_head(&other, 0) == 0 && nvme_completion_queue_waiting(&other) == 0);
        CHECK(memcmp(&as, &other, sizeof as) == 0);
    }
}

static nvme_blocks blocks;

static void make_queues(void) {
    memory = guarded(SIZE);
    blocks = (nvme_blocks){guarded(BLOCKS * BLOCK), BLOCKS * BLOCK, 3, BLOCK, 2 * PAGE, 0};
    CHECK(nvme_submission_queue_make(&submissions, 5, SUBMISSIONS, 4) == 1);
    CHECK(nvme_completion_queue_make(&completions, COMPLETIONS, 4) == 1);
}

/* Sends an entry, and returns the status of its turn, or -1. Its completion is checked and collected. */
static int turn(struct nvme_submission_entry entry, const nvme_blocks *lent) {
    static uint16_t cid;
    unsigned slot = submissions.fetched % submissions.depth, number = completions.posted;
    entry.cid = ++cid;
    put(memory, SUBMISSIONS, slot, entry);
    CHECK(nvme_submission_queue_tail(&submissions, (slot + 1) % submissions.depth) == 1);
    int status = nvme_queue_turn(&submissions, &completions, memory, PAGES, PAGE, lent);
    struct nvme_completion_entry completion = completion_at(memory, COMPLETIONS, number % completions.depth);
    CHECK(completion.cid == cid && completion.sq_identifier == 5 && completion.command_specific == 0);
    CHECK(completion.sq_head == (slot + 1) % submissions.depth);
    CHECK(completion.status_and_phase == ((unsigned)status << 1 | (number < completions.depth)));
    CHECK(nvme_completion_queue_waiting(&completions) == 1);
    CHECK(nvme_completion_queue_head(&completions, completions.posted % completions.depth) == 1);
    return status;
}

static struct nvme_submission_entry io(uint8_t opcode, uint64_t first, unsigned count) {
    return (struct nvme_submission_entry){
        .opcode = opcode, .nsid = 3, .prp1 = DATA, .prp2 = DATA + PAGE, .cdw10 = (uint32_t)first,
        .cdw11 = (uint32_t)(first >> 32), .cdw12 = count - 1};
}

/* Each command, and each refusal, with the statuses of the standard. */
static void commands(void) {
    static const uint8_t zeros[BLOCK];
    make_queues();
    memset(memory + DATA, 'a', 2 * PAGE);
    CHECK(turn(io(NVME_IO_WRITE, 2, 3), &blocks) == 0);
    CHECK(blocks.data[2 * BLOCK - 1] == 0 && blocks.data[2 * BLOCK] == 'a' && blocks.data[5 * BLOCK - 1] == 'a');
    CHECK(blocks.data[5 * BLOCK] == 0);
    CHECK(turn(io(NVME_IO_COMPARE, 2, 3), &blocks) == 0);
    CHECK(turn(io(NVME_IO_COMPARE, 2, 4), &blocks) == (NVME_STATUS_COMPARE_FAILURE | NO_RETRY));
    CHECK(turn(io(NVME_IO_WRITE_ZEROES, 4, 1), &blocks) == 0 && turn(io(NVME_IO_VERIFY, 0, 8), &blocks) == 0);
    CHECK(turn(io(NVME_IO_READ, 3, 2), &blocks) == 0);
    CHECK(memory[DATA] == 'a' && memcmp(memory + DATA + BLOCK, zeros, BLOCK) == 0 && memory[DATA + 2 * BLOCK] == 'a');
    CHECK(turn(io(NVME_IO_FLUSH, 0, 1), &blocks) == 0);
    put(memory, DATA, 0, (struct nvme_submission_entry){.nsid = 1, .reserved_8 = {2}});
    struct nvme_submission_entry managed = io(NVME_IO_DATASET_MANAGEMENT, 0, 1);
    managed.cdw11 = 4;
    CHECK(turn(managed, &blocks) == 0 && memcmp(blocks.data + 2 * BLOCK, zeros, BLOCK) == 0);
    CHECK(blocks.data[3 * BLOCK] == 'a');
    memcpy(before, blocks.data, BLOCKS * BLOCK);
    CHECK(turn(io(NVME_IO_READ, 7, 2), &blocks) == (NVME_STATUS_LBA_OUT_OF_RANGE | NO_RETRY));
    CHECK(turn(io(NVME_IO_WRITE, UINT64_MAX, 1), &blocks) == (NVME_STATUS_LBA_OUT_OF_RANGE | NO_RETRY));
    CHECK(turn(io(0x7f, 0, 1), &blocks) == (NVME_STATUS_INVALID_COMMAND_OPCODE | NO_RETRY));
    CHECK(turn(io(NVME_IO_WRITE, 0, 1), NULL) == (NVME_STATUS_INVALID_NAMESPACE_OR_FORMAT | NO_RETRY));
    blocks.greatest_transfer = BLOCK;
    CHECK(turn(io(NVME_IO_WRITE, 0, 2), &blocks) == (NVME_STATUS_INVALID_FIELD_IN_COMMAND | NO_RETRY));
    blocks.greatest_transfer = UINT64_MAX;
    blocks.is_full = -1;
    CHECK(turn(io(NVME_IO_WRITE, 0, 2), &blocks) == (NVME_STATUS_CAPACITY_EXCEEDED | NO_RETRY));
    CHECK(turn(io(NVME_IO_READ, 0, 2), &blocks) == 0);
    static const nvme_blocks others[] = {{.nsid = 0, .block_size = BLOCK},
                                         {.nsid = 4, .block_size = BLOCK},
                                         {.nsid = 3, .block_size = 0},
                                         {.nsid = NVME_EVERY_NAMESPACE, .block_size = BLOCK}};
    for (size_t row = 0; row < sizeof others / sizeof others[0]; row++) {
        nvme_blocks other = others[row];
        struct nvme_submission_entry entry = io(NVME_IO_WRITE, 0, 1);
        other.data = blocks.data;
        other.length = blocks.length;
        other.greatest_transfer = PAGE;
        entry.nsid = row == 1 ? 3 : other.nsid;
        CHECK(turn(entry, &other) == (NVME_STATUS_INVALID_NAMESPACE_OR_FORMAT | NO_RETRY));
    }
    nvme_blocks none = blocks;
    none.data = NULL;
    CHECK(turn(io(NVME_IO_READ, 0, 1), &none) == (NVME_STATUS_LBA_OUT_OF_RANGE | NO_RETRY));
    CHECK(memcmp(before, blocks.data, BLOCKS * BLOCK) == 0);
}

/* What a turn would zero: the blocks of Write Zeroes, each range of Dataset Management, and nothing of other commands
 * or without the bit for it. A turn that would be refused has no answer. Nothing changes. */
static void zeroing(void) {
    nvme_range ranges[256];
    struct nvme_submission_entry entry = io(NVME_IO_WRITE_ZEROES, 2, 3);
    const uint8_t *bytes = (const uint8_t *)&entry;
    make_queues();
    blocks.data = NULL;
    for (uint32_t at = 0; at < 256; at++) {
        uint32_t range[4] = {0, at % 4, at % 5, 0};
        memcpy(memory + DATA + 16 * at, range, sizeof range);
    }
    memcpy(before, memory, SIZE);
    CHECK(nvme_blocks_zeroing(&blocks, bytes, memory, PAGES, PAGE, ranges) == 1);
    CHECK(ranges[0].offset == 2 * BLOCK && ranges[0].length == 3 * BLOCK);
    entry = io(NVME_IO_WRITE_ZEROES, 6, 3);
    CHECK(nvme_blocks_zeroing(&blocks, bytes, memory, PAGES, PAGE, ranges) == -1);
    entry = io(NVME_IO_READ, 6, 2);
    CHECK(nvme_blocks_zeroing(&blocks, bytes, memory, PAGES, PAGE, ranges) == 0);
    entry = io(NVME_IO_DATASET_MANAGEMENT, 255, 1);
    CHECK(nvme_blocks_zeroing(&blocks, bytes, memory, PAGES, PAGE, ranges) == 0);
    entry.cdw11 = 4;
    CHECK(nvme_blocks_zeroing(&blocks, bytes, memory, PAGES, PAGE, ranges) == 256);
    for (uint32_t at = 0; at < 256; at++) {
        CHECK(ranges[at].offset == at % 5 * BLOCK && ranges[at].length == at % 4 * BLOCK);
    }
    CHECK(nvme_blocks_zeroing(NULL, bytes, memory, PAGES, PAGE, ranges) == -1);
    CHECK(nvme_blocks_zeroing(&blocks, bytes, memory, 1, PAGE, ranges) == -1);
    CHECK(nvme_blocks_zeroing(&blocks, bytes, memory, PAGES, 1, ranges) == -1);
    CHECK(memcmp(before, memory, SIZE) == 0);
}

/* The next entry and its answer; queues that are empty, full or outside the memory; and numbers that no queue has. */
static void no_turns(void) {
    uint8_t entry[64] = "same", same[64] = "same";
    nvme_answer answer = {9, 0, NVME_STATUS_INVALID_FIELD_IN_COMMAND};
    make_queues();
    memcpy(before, memory, SIZE);
    CHECK(nvme_queue_next(&submissions, &completions, memory, PAGES, PAGE, entry) == 0);
    CHECK(nvme_queue_complete(&submissions, &completions, memory, PAGES, PAGE, answer) == 0);
    CHECK(nvme_queue_turn(&submissions, &completions, memory, PAGES, PAGE, &blocks) == -1);
    CHECK(memcmp(before, memory, SIZE) == 0 && memcmp(entry, same, 64) == 0 && completions.posted == 0);
    for (unsigned slot = 0; slot < 4; slot++) {
        put(memory, SUBMISSIONS, slot, (struct nvme_submission_entry){.opcode = 0, .nsid = 3, .cid = (uint16_t)slot});
    }
    CHECK(nvme_submission_queue_tail(&submissions, 3) == 1 && nvme_submission_queue_waiting(&submissions) == 3);
    CHECK(nvme_queue_next(&submissions, &completions, memory, PAGES, PAGE, entry) == 1);
    CHECK(memcmp(entry, memory + SUBMISSIONS, 64) == 0);
    CHECK(nvme_queue_complete(&submissions, &completions, memory, PAGES, PAGE, answer) == 1);
    struct nvme_completion_entry completion = completion_at(memory, COMPLETIONS, 0);
    CHECK(completion.command_specific == 9 && completion.cid == 0 && completion.sq_head == 1);
    CHECK(completion.sq_identifier == 5);
    CHECK(completion.status_and_phase == (NVME_STATUS_INVALID_FIELD_IN_COMMAND << 1 | 1));
    nvme_submission_queue queues[] = {submissions, submissions, submissions, submissions};
    nvme_completion_queue posts[] = {completions, completions, completions, completions};
    queues[0].base = SIZE - 127;
    posts[1].base = SIZE - 31;
    queues[2].depth = 0;
    posts[3].told = 9;
    memcpy(before, memory, SIZE);
    memcpy(entry, same, 64);
    for (int row = 0; row < 4; row++) {
        nvme_submission_queue from = queues[row];
        nvme_completion_queue to = posts[row];
        CHECK(nvme_queue_next(&from, &to, memory, PAGES, PAGE, entry) == -1);
        CHECK(nvme_queue_complete(&from, &to, memory, PAGES, PAGE, answer) == -1);
        CHECK(nvme_queue_turn(&from, &to, memory, PAGES, PAGE, &blocks) == -1);
        CHECK(memcmp(&from, queues + row, sizeof from) == 0 && memcmp(&to, posts + row, sizeof to) == 0);
    }
    CHECK(nvme_queue_next(&submissions, &completions, memory, PAGES, 4095, entry) == -1);
    CHECK(nvme_queue_next(&submissions, &completions, NULL, PAGES, PAGE, entry) == -1);
    CHECK(nvme_queue_turn(&submissions, &completions, memory, SIZE_MAX, PAGE, &blocks) == -1);
    CHECK(nvme_queue_complete(&submissions, &completions, memory, PAGES, 0, answer) == -1);
    CHECK(memcmp(before, memory, SIZE) == 0 && memcmp(entry, same, 64) == 0);
    queues[0].base = SIZE - 128;
    posts[1].base = SIZE - 32;
    CHECK(nvme_queue_next(queues, posts + 1, memory, PAGES, PAGE, entry) == 1);
    /* two turns fill the completion queue, and a third waits until completions are collected */
    CHECK(nvme_queue_turn(&submissions, &completions, memory, PAGES, PAGE, &blocks) == 0);
    CHECK(nvme_queue_turn(&submissions, &completions, memory, PAGES, PAGE, &blocks) == 0);
    CHECK(nvme_completion_queue_waiting(&completions) == 3 && nvme_submission_queue_tail(&submissions, 0) == 1);
    CHECK(nvme_queue_turn(&submissions, &completions, memory, PAGES, PAGE, &blocks) == -1);
    CHECK(nvme_queue_next(&submissions, &completions, memory, PAGES, PAGE, entry) == 0);
    CHECK(nvme_completion_queue_head(&completions, 3) == 1);
    CHECK(nvme_queue_turn(&submissions, &completions, memory, PAGES, PAGE, &blocks) == 0);
    CHECK(completion_at(memory, COMPLETIONS, 3).cid == 3);
}

int main(void) {
    completed();
    held();
    refused();
    written();
    asked();
    doorbells();
    commands();
    zeroing();
    no_turns();
    printf("%u checks, %u failed\n", checks, failures);
    return failures != 0;
}
