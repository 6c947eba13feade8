/* A host and a drive: the host makes a pair of I/O queues, writes a block, and reads it back. The drive is this program's
 * too. It makes the queues in the controller's place, and lends it the blocks of namespace 1. */
#include <nvme_controller.h>
#include <nvme_records.h>

#include <stdio.h>
#include <string.h>

enum { PAGE = 4096, PAGES = 16, BLOCK = 512, BLOCKS = 2048, IO_SUBMISSIONS = 0x2000, IO_COMPLETIONS = 0x3000 };

static uint8_t memory[PAGES * PAGE], data[BLOCKS * BLOCK];
static nvme_machine *machine;
static nvme_submission_queue submissions;
static nvme_completion_queue completions;

/* The host puts an entry into a slot of a queue. */
static void put(uint64_t queue, unsigned slot, struct nvme_submission_entry entry) {
    memcpy(memory + queue + 64 * slot, &entry, sizeof entry);
}

/* The drive takes the entries of the admin queue, and makes the queues that two of them ask for. */
static void serve_admin(void) {
    struct nvme_submission_entry entry;
    while (nvme_machine_next(machine, 0, memory, PAGES, PAGE, (uint8_t *)&entry)) {
        int is_made = entry.opcode == NVME_QUEUE_CREATE_COMPLETION
                          ? nvme_completion_queue_make(&completions, entry.prp1, (entry.cdw10 >> 16) + 1)
                      : entry.opcode == NVME_QUEUE_CREATE_SUBMISSION
                          ? nvme_submission_queue_make(&submissions, entry.cdw10 & 0xffff, entry.prp1,
                                                       (entry.cdw10 >> 16) + 1)
                          : -1;
        nvme_answer answer = {0, 0, is_made ? NVME_STATUS_SUCCESS : NVME_STATUS_INVALID_FIELD_IN_COMMAND};
        if (is_made < 0)
            nvme_machine_turn(machine, 0, memory, PAGES, PAGE, 1);
        else
            nvme_machine_complete(machine, 0, memory, PAGES, PAGE, answer);
    }
}

/* The drive takes one entry of the I/O queue. */
static void serve_blocks(const char *what) {
    nvme_blocks blocks = {data, sizeof data, 1, BLOCK, PAGE, 0};
    char name[40];
    nvme_status_text((uint16_t)nvme_queue_turn(&submissions, &completions, memory, PAGES, PAGE, &blocks), name, 40);
    printf("%s: %s, %d completion waits\n", what, name, nvme_completion_queue_waiting(&completions));
    nvme_completion_queue_head(&completions, (completions.told + 1) % completions.depth);
}

int main(void) {
    if (nvme_machine_demo(&machine) != 0)
        return 1;
    nvme_machine_write32(machine, 0, NVME_AQA, 0x00070007);
    nvme_machine_write64(machine, 0, NVME_ACQ, 0x1000);
    nvme_machine_write32(machine, 0, NVME_CC, 0x00460001);
    put(0, 0, (struct nvme_submission_entry){.opcode = NVME_QUEUE_CREATE_COMPLETION, .cid = 1, .prp1 = IO_COMPLETIONS,
                                             .cdw10 = 15 << 16 | 1, .cdw11 = 1});
    put(0, 1, (struct nvme_submission_entry){.opcode = NVME_QUEUE_CREATE_SUBMISSION, .cid = 2, .prp1 = IO_SUBMISSIONS,
                                             .cdw10 = 15 << 16 | 1, .cdw11 = 1 << 16 | 1});
    nvme_machine_write32(machine, 0, NVME_TAIL_DOORBELL, 2);
    serve_admin();
    strcpy((char *)memory + 0x4000, "one block");
    put(IO_SUBMISSIONS, 0, (struct nvme_submission_entry){.opcode = NVME_IO_WRITE, .nsid = 1, .prp1 = 0x4000, .cdw10 = 7});
    put(IO_SUBMISSIONS, 1, (struct nvme_submission_entry){.opcode = NVME_IO_READ, .nsid = 1, .prp1 = 0x5000, .cdw10 = 7});
    nvme_submission_queue_tail(&submissions, 2);
    serve_blocks("write");
    serve_blocks("read");
    printf("%s\n", (char *)memory + 0x5000);
    nvme_machine_close(machine);
    return 0;
}
