/* A host's driver for one controller, polled: it sends commands through the rings of its own memory, and prints what
 * they answer as nvme-script prints it.
 *
 *     cc -o bench bench.c $(pkg-config --cflags --libs nvme_controller)
 *     ./bench [SUBSYSTEM-FILE] */
#include <nvme_controller.h>
#include <nvme_records.h>

#include <inttypes.h>
#include <stdio.h>
#include <stdlib.h>
#include <string.h>

enum { PAGE = 4096, PAGES = 16, DEPTH = 8 };

/* Where things lie in the host's memory: the rings, and a page of data. */
enum { SUBMISSIONS = 0 * PAGE, COMPLETIONS = 1 * PAGE, DATA = 2 * PAGE };

struct host {
    nvme_machine *machine;
    uint16_t ctrl;
    uint16_t tail, head, cid;
    int phase;
    uint8_t memory[PAGES * PAGE];
};

struct answer {
    uint32_t dword0;
    uint16_t status;
};

static void give_up(const char *what) {
    fprintf(stderr, "bench: %s\n", what);
    exit(3);
}

/* Makes the controller ready with rings of DEPTH entries. */
static void enable(struct host *host) {
    nvme_machine_write32(host->machine, host->ctrl, NVME_AQA, (DEPTH - 1) << 16 | (DEPTH - 1));
    nvme_machine_write64(host->machine, host->ctrl, NVME_ASQ, SUBMISSIONS);
    nvme_machine_write64(host->machine, host->ctrl, NVME_ACQ, COMPLETIONS);
    nvme_machine_write32(host->machine, host->ctrl, NVME_CC, 0x00460001);
    if ((nvme_machine_read32(host->machine, host->ctrl, NVME_CSTS) & 1) == 0) {
        give_up("the controller isn't ready");
    }
}

/* Sends a command whose data, if it has any, is the page at DATA, and waits for its completion. */
static struct answer send(struct host *host, uint8_t opcode, uint32_t nsid, uint32_t cdw10) {
    struct nvme_submission_entry entry = {
        .opcode = opcode, .cid = host->cid, .nsid = nsid, .prp1 = DATA, .cdw10 = cdw10};
    memcpy(host->memory + SUBMISSIONS + sizeof entry * host->tail, &entry, sizeof entry);
    host->tail = (host->tail + 1) % DEPTH;
    nvme_machine_write32(host->machine, host->ctrl, NVME_TAIL_DOORBELL, host->tail);
    if (nvme_machine_turn(host->machine, host->ctrl, host->memory, PAGES, PAGE, 1) != 1) {
        give_up("no entry was taken");
    }
    struct nvme_completion_entry completion;
    memcpy(&completion, host->memory + COMPLETIONS + sizeof completion * host->head, sizeof completion);
    if (NVME_PHASE(completion.status_and_phase) != host->phase || completion.cid != host->cid) {
        give_up("not this command's completion");
    }
    host->cid++;
    host->head = (host->head + 1) % DEPTH;
    host->phase ^= host->head == 0;
    nvme_machine_write32(host->machine, host->ctrl, NVME_HEAD_DOORBELL, host->head);
    return (struct answer){completion.command_specific, NVME_STATUS(completion.status_and_phase)};
}

/* Whether the command was accepted. */
static int is_done(struct answer answer) {
    char text[40];
    if (answer.status != 0) {
        nvme_status_text(answer.status, text, sizeof text);
        fprintf(stderr, "NVMe status: %s (0x%x)\n", text, answer.status);
    }
    return answer.status == 0;
}

static void list_namespaces(struct host *host) {
    if (is_done(send(host, NVME_OPCODE_IDENTIFY, 0, NVME_IDENTIFY_ACTIVE_NAMESPACES))) {
        struct nvme_namespace_list list;
        memcpy(&list, host->memory + DATA, sizeof list);
        for (int i = 0; i < 1024 && list.nsids[i] != 0; i++) {
            printf("[%4d]:0x%" PRIx32 "\n", i, list.nsids[i]);
        }
    }
}

static void create_namespace(struct host *host, uint64_t blocks) {
    struct nvme_new_namespace wanted = {.nsze = blocks, .ncap = blocks};
    memcpy(host->memory + DATA, &wanted, sizeof wanted);
    struct answer answer = send(host, NVME_OPCODE_NAMESPACE_MANAGEMENT, 0, NVME_NAMESPACE_CREATE);
    if (is_done(answer)) {
        printf("create-ns: Success, created nsid:%" PRIu32 "\n", answer.dword0);
    }
}

static void attach_namespace(struct host *host, uint32_t nsid, uint16_t ctrl) {
    struct nvme_controller_list list = {.count = 1, .cntlids = {ctrl}};
    memcpy(host->memory + DATA, &list, sizeof list);
    if (is_done(send(host, NVME_OPCODE_NAMESPACE_ATTACHMENT, nsid, NVME_NAMESPACE_ATTACH))) {
        printf("attach-ns: Success, nsid:%" PRIu32 "\n", nsid);
    }
}

/* Shows the newest entry of the error log, after a look at the controller's data, as nvme-script does. */
static void show_error(struct host *host) {
    struct nvme_error_entry entry;
    uint32_t dwords = sizeof entry / 4;
    if (!is_done(send(host, NVME_OPCODE_IDENTIFY, 0, NVME_IDENTIFY_CONTROLLER)) ||
        !is_done(send(host, NVME_OPCODE_GET_LOG_PAGE, NVME_EVERY_NAMESPACE,
                      NVME_LOG_ERROR_INFORMATION | (dwords - 1) << 16))) {
        return;
    }
    memcpy(&entry, host->memory + DATA, sizeof entry);
    printf("%-20s: %d\n", "entry", 0);
    printf("%-20s: %" PRIu64 "\n", "error_count", entry.count);
    printf("%-20s: %d\n", "sqid", entry.sqid);
    printf("%-20s: 0x%x\n", "cmdid", entry.cid);
    printf("%-20s: 0x%x\n", "status_field", NVME_STATUS(entry.status_and_phase));
    printf("%-20s: 0x%x\n", "parm_err_loc", entry.location);
    printf("%-20s: 0x%" PRIx64 "\n", "lba", entry.lba);
    printf("%-20s: 0x%" PRIx32 "\n", "nsid", entry.nsid);
    printf("%-20s: 0x%x\n", "vs", entry.vendor);
    printf("%-20s: 0x%" PRIx64 "\n", "cs", entry.specific);
}

/* The machine of a file, or of the built-in subsystem. */
static nvme_machine *opened(const char *path) {
    static uint8_t file[1 << 20];
    nvme_machine *machine = NULL;
    char fault[80] = "out of memory";
    if (path == NULL) {
        return nvme_machine_demo(&machine) == 0 ? machine : (give_up(fault), NULL);
    }
    FILE *stream = fopen(path, "rb");
    if (stream == NULL) {
        give_up("the file can't be read");
    }
    size_t length = fread(file, 1, sizeof file, stream);
    fclose(stream);
    if (nvme_machine_open(file, length, &machine, fault, sizeof fault) != 0) {
        give_up(fault);
    }
    return machine;
}

int main(int count, char **words) {
    static struct host host = {.phase = 1};
    host.machine = opened(count > 1 ? words[1] : NULL);
    enable(&host);
    list_namespaces(&host);
    create_namespace(&host, 4096);
    attach_namespace(&host, 2, 0);
    list_namespaces(&host);
    create_namespace(&host, 14328);
    show_error(&host);
    nvme_machine_close(host.machine);
    return 0;
}
