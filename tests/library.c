/* Tests the mistakes that a program in C can make with the calls of nvme_controller.h, what these calls promise about
 * its memory, and what the header says that controllers don't have. Prints what fails, and at the end the number of
 * checks. It is linked with --wrap for malloc, calloc, realloc and free, to count blocks and refuse allocations. */
#include <nvme_controller.h>
#include <nvme_records.h>

#include <stdio.h>
#include <stdlib.h>
#include <string.h>
#include <sys/mman.h>

enum { PAGE = 4096, PAGES = 16, SIZE = PAGES * PAGE };

static const char FILE_TEXT[] = "version = 1\nnn = 1\ntnvmcap = 1048576\nsubnqn = \"nqn.2014-08.org.example:c\"\n"
    "[[format]]\nlbads = 9\n[[controller]]\ncntlid = 0\nsn = \"C-1\"\nmn = \"Bench\"\nfr = \"1.0\"\nelpe = 3\n";

static unsigned checks, failures;

#define CHECK(holds) check(holds, #holds, __LINE__)

static void check(int holds, const char *what, int line) {
    checks++;
    if (!holds) {
        failures++;
        printf("line %d: %s\n", line, what);
    }
}

/* ---- allocations */

static long blocks, refused_at = -1, asked;

void *__real_malloc(size_t size);
void *__real_calloc(size_t count, size_t size);
void *__real_realloc(void *block, size_t size);
void __real_free(void *block);

static int is_refused(void) {
    return asked++ == refused_at;
}

static void *counted(void *block) {
    blocks += block != NULL;
    return block;
}

void *__wrap_malloc(size_t size) {
    return is_refused() ? NULL : counted(__real_malloc(size));
}

void *__wrap_calloc(size_t count, size_t size) {
    return is_refused() ? NULL : counted(__real_calloc(count, size));
}

void *__wrap_realloc(void *block, size_t size) {
    return is_refused() ? NULL : block == NULL ? counted(__real_realloc(block, size)) : __real_realloc(block, size);
}

void __wrap_free(void *block) {
    blocks -= block != NULL;
    __real_free(block);
}

/* ---- a host */

/* Returns pages with an inaccessible page before them and one after them. */
static uint8_t *guarded(size_t pages) {
    uint8_t *all = mmap(NULL, (pages + 2) * PAGE, PROT_READ | PROT_WRITE, MAP_PRIVATE | MAP_ANONYMOUS, -1, 0);
    if (all == MAP_FAILED || mprotect(all, PAGE, PROT_NONE) != 0 ||
        mprotect(all + (pages + 1) * PAGE, PAGE, PROT_NONE) != 0) {
        perror("guarded");
        exit(3);
    }
    return all + PAGE;
}

static nvme_machine *opened(void) {
    nvme_machine *machine;
    char fault[64];
    CHECK(nvme_machine_open((const uint8_t *)FILE_TEXT, strlen(FILE_TEXT), &machine, fault, sizeof fault) == 0);
    CHECK(machine != NULL && fault[0] == '\0');
    return machine;
}

/* Makes a controller ready with queues of four entries, the submissions at page 0 and the completions at a given page.
 * */
static void enable(nvme_machine *machine, uint32_t completions, uint32_t page_size_field) {
    nvme_machine_write32(machine, 0, NVME_AQA, 0x00030003);
    nvme_machine_write32(machine, 0, NVME_ASQ, 0);
    nvme_machine_write32(machine, 0, NVME_ACQ, completions);
    nvme_machine_write32(machine, 0, NVME_CC, 0x00460001 | page_size_field << 7);
}

static void put(uint8_t *at, int bytes, uint64_t value) {
    for (int i = 0; i < bytes; i++) {
        at[i] = (uint8_t)(value >> 8 * i);
    }
}

/* Writes an entry of Identify Controller with its data at these addresses. */
static void identify(uint8_t *entry, uint16_t cid, uint64_t prp1, uint64_t prp2) {
    memset(entry, 0, 64);
    put(entry, 4, 0x06 | (uint32_t)cid << 16);
    put(entry + 24, 8, prp1);
    put(entry + 32, 8, prp2);
    put(entry + 40, 4, 0x01);
}

static unsigned status_at(const uint8_t *completion) {
    return (completion[14] | completion[15] << 8) >> 1;
}

/* ---- the checks */

static void files(void) {
    nvme_machine *machine = (nvme_machine *)(uintptr_t)1;
    char fault[64];
    const uint8_t *text = (const uint8_t *)FILE_TEXT;
    static const char missing[] = "version = 1\n";
    CHECK(nvme_machine_open((const uint8_t *)missing, strlen(missing), &machine, fault, sizeof fault) == NVME_MISSING);
    CHECK(machine == NULL && strcmp(fault, "missing top.nn") == 0);
    memset(fault, 'x', sizeof fault);
    CHECK(nvme_machine_open((const uint8_t *)missing, strlen(missing), &machine, fault, 5) == NVME_MISSING);
    CHECK(memcmp(fault, "miss", 5) == 0 && fault[5] == 'x');
    CHECK(nvme_machine_open((const uint8_t *)missing, strlen(missing), &machine, fault, 1) == NVME_MISSING);
    CHECK(fault[0] == '\0' && fault[1] == 'i');
    CHECK(nvme_machine_open((const uint8_t *)missing, strlen(missing), &machine, NULL, 0) == NVME_MISSING);
    CHECK(nvme_machine_open((const uint8_t *)"[", 1, &machine, fault, sizeof fault) == NVME_NOT_TOML);
    CHECK(strcmp(fault, "not TOML") == 0);
    CHECK(nvme_machine_open(NULL, 1, &machine, fault, sizeof fault) == NVME_NOT_TOML && machine == NULL);
    CHECK(nvme_machine_open(NULL, 0, &machine, fault, sizeof fault) == NVME_MISSING && machine == NULL);
    CHECK(nvme_machine_open(text, strlen(FILE_TEXT), &machine, NULL, 5) == NVME_NOT_TOML && machine == NULL);
    CHECK(nvme_machine_open(text, strlen(FILE_TEXT), &machine, NULL, 0) == 0 && machine != NULL);
    nvme_machine_close(machine);
    /* a file that is larger than the programs take */
    static uint8_t large[2 << 20];
    memcpy(large, text, strlen(FILE_TEXT));
    memset(large + strlen(FILE_TEXT), '\n', sizeof large - strlen(FILE_TEXT));
    CHECK(nvme_machine_open(large, sizeof large, &machine, fault, sizeof fault) == 0 && machine != NULL);
    nvme_machine_close(machine);
}

static void absent(void) {
    nvme_machine *machine = opened();
    uint8_t entry[64], memory[PAGE];
    uint64_t refusals = 7, commands = 7;
    memset(entry, 'x', sizeof entry);
    CHECK(nvme_machine_controllers(machine) == 1 && nvme_machine_controllers(NULL) == 0);
    CHECK(nvme_machine_read32(machine, 1, NVME_VS) == 0xffffffff);
    CHECK(nvme_machine_read32(machine, 0xffff, NVME_VS) == 0xffffffff);
    CHECK(nvme_machine_read32(NULL, 0, NVME_VS) == 0xffffffff);
    CHECK(nvme_machine_read32(machine, 0, NVME_VS) == 0x00010400);
    nvme_machine_write32(machine, 1, NVME_CC, 1);
    nvme_machine_write32(NULL, 0, NVME_CC, 1);
    CHECK(nvme_machine_read32(machine, 0, NVME_CC) == 0);
    CHECK(nvme_machine_turn(machine, 1, memory, 1, PAGE, 1) == 0);
    CHECK(nvme_machine_turn(NULL, 0, memory, 1, PAGE, 1) == 0);
    nvme_machine_counts(machine, 1, &refusals, &commands);
    CHECK(refusals == 0 && commands == 0);
    CHECK(nvme_machine_log_entry(machine, 1, 0, entry) == 0 && nvme_machine_log_entry(machine, 0, 0, entry) == 0);
    CHECK(nvme_machine_log_entry(machine, 0, SIZE_MAX, entry) == 0 && entry[0] == 'x' && entry[63] == 'x');
    nvme_machine_close(machine);
    nvme_machine_close(NULL);
}

/* Only the five page sizes, and only memories that can exist, are accepted. After a refusal, the entry in the queue is
 * still waiting. */
static void sizes(void) {
    static const uint32_t wrong[] = {0, 1, 2048, 4095, 4097, 6144, 65535, 131072, 0x80000000};
    nvme_machine *machine = opened();
    uint8_t *memory = guarded(PAGES);
    enable(machine, PAGE, 0);
    identify(memory, 1, 2 * PAGE, 0);
    nvme_machine_write32(machine, 0, NVME_TAIL_DOORBELL, 1);
    for (size_t i = 0; i < sizeof wrong / sizeof wrong[0]; i++) {
        CHECK(nvme_machine_turn(machine, 0, memory, 1, wrong[i], 1) == 0);
    }
    CHECK(nvme_machine_turn(machine, 0, NULL, 1, PAGE, 1) == 0);
    CHECK(nvme_machine_turn(machine, 0, memory, SIZE_MAX, PAGE, 1) == 0);
    CHECK(nvme_machine_turn(machine, 0, memory, (size_t)1 << 52, PAGE, 1) == 0);
    CHECK(nvme_machine_turn(machine, 0, memory, (size_t)1 << 32, PAGE, 1) == 0);
    CHECK(nvme_machine_turn(machine, 0, memory, PAGES, PAGE, 0) == 0);
    CHECK(nvme_machine_read32(machine, 0, NVME_CSTS) == 1);
    CHECK(nvme_machine_turn(machine, 0, memory, PAGES, PAGE, 5) == 1 && status_at(memory + PAGE) == 0);
    /* The page size of one call has no effect on the next: 8,192 is fatal to a controller that was enabled with
     * 4,096. */
    identify(memory + 64, 2, 2 * PAGE, 0);
    nvme_machine_write32(machine, 0, NVME_TAIL_DOORBELL, 2);
    CHECK(nvme_machine_turn(machine, 0, memory, PAGES / 2, 8192, 1) == 0);
    CHECK((nvme_machine_read32(machine, 0, NVME_CSTS) & 2) == 2);
    nvme_machine_write32(machine, 0, NVME_CC, 0);
    enable(machine, 8192, 1);
    identify(memory, 3, 2 * 8192, 0);
    nvme_machine_write32(machine, 0, NVME_TAIL_DOORBELL, 1);
    CHECK(nvme_machine_turn(machine, 0, memory, PAGES / 2, 8192, 1) == 1 && status_at(memory + 8192) == 0);
    nvme_machine_close(machine);
}

/* Only the bytes of the data and of the completion change in the memory. */
static void places(void) {
    static uint8_t before[SIZE];
    nvme_machine *machine = opened();
    uint8_t *memory = guarded(PAGES);
    memset(memory, 0xa5, SIZE);
    enable(machine, 3 * PAGE, 0);
    identify(memory, 1, 5 * PAGE + 2048, 9 * PAGE);
    memcpy(before, memory, SIZE);
    nvme_machine_write32(machine, 0, NVME_TAIL_DOORBELL, 1);
    CHECK(memcmp(before, memory, SIZE) == 0);
    CHECK(nvme_machine_turn(machine, 0, memory, PAGES, PAGE, 1) == 1);
    CHECK(status_at(memory + 3 * PAGE) == 0 && memcmp(memory + 5 * PAGE + 2048 + 4, "C-1  ", 5) == 0);
    CHECK(memcmp(before + 3 * PAGE, memory + 3 * PAGE, 16) != 0);
    CHECK(memory[9 * PAGE] == 0 && memory[9 * PAGE + 2047] == 0);
    memcpy(memory + 3 * PAGE, before + 3 * PAGE, 16);
    memcpy(memory + 5 * PAGE + 2048, before + 5 * PAGE + 2048, 2048);
    memcpy(memory + 9 * PAGE, before + 9 * PAGE, 2048);
    CHECK(memcmp(before, memory, SIZE) == 0);
    nvme_machine_close(machine);
}

/* If the memory is a page short, data in the missing page is refused, and queues there cause a fatal status. */
static void short_memory(void) {
    for (size_t pages = 3; pages >= 2; pages--) {
        nvme_machine *machine = opened();
        uint8_t *memory = guarded(pages);
        enable(machine, PAGE, 0);
        identify(memory, 1, 2 * PAGE, 0);
        nvme_machine_write32(machine, 0, NVME_TAIL_DOORBELL, 1);
        CHECK(nvme_machine_turn(machine, 0, memory, pages, PAGE, 1) == 1);
        CHECK((status_at(memory + PAGE) & 0xff) == (pages == 3 ? 0x00 : 0x04));
        nvme_machine_close(machine);
    }
    nvme_machine *machine = opened();
    uint8_t *memory = guarded(1);
    enable(machine, PAGE, 0);
    identify(memory, 1, 0, 0);
    nvme_machine_write32(machine, 0, NVME_TAIL_DOORBELL, 1);
    CHECK(nvme_machine_turn(machine, 0, memory, 1, PAGE, 1) == 0);
    CHECK(nvme_machine_read32(machine, 0, NVME_CSTS) == 3);
    nvme_machine_close(machine);
    machine = opened();
    enable(machine, PAGE, 0);
    nvme_machine_write32(machine, 0, NVME_TAIL_DOORBELL, 1);
    CHECK(nvme_machine_turn(machine, 0, NULL, 0, PAGE, 1) == 0 && nvme_machine_read32(machine, 0, NVME_CSTS) == 3);
    nvme_machine_close(machine);
}

/* Reads change nothing, and machines are independent: a machine that is read at every offset, and one that isn't read,
 * give the same answers. */
static void reads(void) {
    static const uint8_t reserved = 0xff;
    nvme_machine *machines[2] = {opened(), opened()};
    uint8_t *memories[2] = {guarded(PAGES), guarded(PAGES)}, entries[2][64];
    for (int i = 0; i < 2; i++) {
        enable(machines[i], PAGE, 0);
        identify(memories[i], 1, 2 * PAGE, 0);
        identify(memories[i] + 64, 2, 2 * PAGE, 0);
        memories[i][64] = reserved;
        for (uint32_t offset = 0; i == 0 && offset < 0x2000; offset++) {
            nvme_machine_read32(machines[i], 0, offset);
        }
        nvme_machine_write32(machines[i], 0, NVME_TAIL_DOORBELL, 2);
        for (uint32_t offset = 0; i == 0 && offset < 0x2000; offset++) {
            nvme_machine_read32(machines[i], 0, offset);
            nvme_machine_read32(machines[i], 1, offset);
        }
        CHECK(nvme_machine_turn(machines[i], 0, memories[i], PAGES, PAGE, 9) == 2);
        uint64_t refusals, commands;
        nvme_machine_counts(machines[i], 0, &refusals, &commands);
        CHECK(refusals == 1 && commands == 2);
        CHECK(nvme_machine_log_entry(machines[i], 0, 0, entries[i]) == 1);
        CHECK(nvme_machine_log_entry(machines[i], 0, 1, entries[i]) == 0);
    }
    CHECK(memcmp(memories[0], memories[1], SIZE) == 0 && memcmp(entries[0], entries[1], 64) == 0);
    CHECK(entries[0][0] == 1 && entries[0][10] == 2 && (entries[0][12] >> 1) == 0x01);
    for (uint32_t offset = 0; offset < 0x2000; offset++) {
        CHECK(nvme_machine_read32(machines[0], 0, offset) == nvme_machine_read32(machines[1], 0, offset));
    }
    nvme_machine_close(machines[0]);
    CHECK(nvme_machine_read32(machines[1], 0, NVME_CSTS) == 1);
    nvme_machine_close(machines[1]);
}

/* A qword is two dwords, the lower one first. After the greatest offset, there is no register. */
static void qwords(void) {
    nvme_machine *machine = opened();
    for (uint32_t offset = 0; offset < 0x40; offset += 4) {
        uint64_t high = nvme_machine_read32(machine, 0, offset + 4);
        CHECK(nvme_machine_read64(machine, 0, offset) == (high << 32 | nvme_machine_read32(machine, 0, offset)));
    }
    nvme_machine_write64(machine, 0, NVME_ASQ, UINT64_C(0x0123456789abc000));
    CHECK(nvme_machine_read32(machine, 0, NVME_ASQ) == 0x89abc000);
    CHECK(nvme_machine_read32(machine, 0, NVME_ASQ + 4) == 0x01234567);
    CHECK(nvme_machine_read64(machine, 0, NVME_ASQ) == UINT64_C(0x0123456789abc000));
    CHECK(nvme_machine_read64(machine, 0, UINT32_MAX - 3) == 0 && nvme_machine_read64(machine, 0, UINT32_MAX) == 0);
    uint64_t capabilities = nvme_machine_read64(machine, 0, NVME_CAP);
    nvme_machine_write64(machine, 0, UINT32_MAX - 3, UINT64_MAX);
    CHECK(nvme_machine_read64(machine, 0, NVME_CAP) == capabilities && capabilities != 0);
    CHECK(nvme_machine_read64(machine, 1, NVME_CAP) == UINT64_MAX && nvme_machine_read64(NULL, 0, 0) == UINT64_MAX);
    nvme_machine_write64(NULL, 0, NVME_ASQ, 0);
    nvme_machine_close(machine);
}

/* The name of a status is cut so that a zero byte ends it. */
static void names(void) {
    char text[40];
    memset(text, 'x', sizeof text);
    CHECK(nvme_status_text(0x6115, text, sizeof text) == 31 && strcmp(text, "Namespace Insufficient Capacity") == 0);
    CHECK(nvme_status_text(NVME_STATUS_NAMESPACE_INSUFFICIENT_CAPACITY, NULL, 0) == 31);
    CHECK(nvme_status_text(0, text, 5) == 7 && strcmp(text, "Succ") == 0 && text[5] == 'p');
    CHECK(nvme_status_text(0x6002, text, 1) == 24 && text[0] == '\0' && text[1] == 'u');
    CHECK(nvme_status_text(0x7fff, text, sizeof text) == 7 && strcmp(text, "Unknown") == 0);
    CHECK(nvme_status_text(0x7fff, NULL, sizeof text) == 7);
    for (unsigned status = 0; status <= UINT16_MAX; status++) {
        CHECK(nvme_status_text((uint16_t)status, text, sizeof text) < sizeof text);
    }
    CHECK(strcmp(nvme_controller_version(), NVME_CONTROLLER_VERSION) == 0);
}

/* What the header says that a driver finds missing: commands that nvme_records.h doesn't name, and a shutdown. */
static void missing(void) {
    static const uint8_t opcodes[] = {
        NVME_OPCODE_GET_LOG_PAGE, NVME_OPCODE_IDENTIFY, NVME_OPCODE_SET_FEATURES, NVME_OPCODE_GET_FEATURES,
        NVME_OPCODE_NAMESPACE_MANAGEMENT, NVME_OPCODE_NAMESPACE_ATTACHMENT, NVME_OPCODE_FORMAT_NVM};
    nvme_machine *machine = opened();
    uint8_t *memory = guarded(PAGES);
    enable(machine, PAGE, 0);
    for (unsigned sent = 0; sent < 256; sent++) {
        struct nvme_submission_entry entry = {.opcode = (uint8_t)sent, .prp1 = 2 * PAGE, .cid = (uint16_t)sent};
        struct nvme_completion_entry completion;
        memcpy(memory + sent % 4 * sizeof entry, &entry, sizeof entry);
        nvme_machine_write32(machine, 0, NVME_TAIL_DOORBELL, (sent + 1) % 4);
        CHECK(nvme_machine_turn(machine, 0, memory, PAGES, PAGE, 1) == 1);
        memcpy(&completion, memory + PAGE + sent % 4 * sizeof completion, sizeof completion);
        nvme_machine_write32(machine, 0, NVME_HEAD_DOORBELL, (sent + 1) % 4);
        CHECK(completion.cid == sent && NVME_PHASE(completion.status_and_phase) == 1 - (sent / 4 & 1));
        int is_named = memchr(opcodes, (int)sent, sizeof opcodes) != NULL;
        unsigned code = NVME_CODE(NVME_STATUS(completion.status_and_phase));
        CHECK((code == NVME_STATUS_INVALID_COMMAND_OPCODE) != is_named);
    }
    nvme_machine_write32(machine, 0, NVME_CC, 0x00464001);
    CHECK(nvme_machine_read32(machine, 0, NVME_CSTS) == 1);
    nvme_machine_close(machine);
}

/* Each allocation is refused in turn. The call reports it, and frees everything that was allocated, as closing does. A
 * turn allocates nothing. */
static void allocations(void) {
    for (int demo = 0; demo < 2; demo++) {
        int number = NVME_NO_MEMORY;
        long count = 0;
        for (; number == NVME_NO_MEMORY; count++) {
            nvme_machine *machine = (nvme_machine *)(uintptr_t)1;
            char fault[64] = "";
            long had = blocks;
            asked = 0;
            refused_at = count;
            number = demo ? nvme_machine_demo(&machine)
                          : nvme_machine_open((const uint8_t *)FILE_TEXT, strlen(FILE_TEXT), &machine, fault, 64);
            refused_at = -1;
            CHECK(number == 0 || (number == NVME_NO_MEMORY && machine == NULL && blocks == had));
            CHECK(demo || strcmp(fault, number == 0 ? "" : "out of memory") == 0);
            if (number == 0) {
                long held = blocks;
                uint8_t *memory = guarded(PAGES);
                enable(machine, PAGE, 0);
                identify(memory, 1, 2 * PAGE, 0);
                nvme_machine_write32(machine, 0, NVME_TAIL_DOORBELL, 1);
                asked = refused_at = 0;
                CHECK(nvme_machine_turn(machine, 0, memory, PAGES, PAGE, 1) == 1 && status_at(memory + PAGE) == 0);
                CHECK(asked == 0 && blocks == held);
                refused_at = -1;
                nvme_machine_close(machine);
                CHECK(blocks == had);
            }
        }
        CHECK(number == 0 && count > 3);
    }
}

/* Faults that are found before the library allocates are told without memory. Only the block for the machine, which C
 * allocates first, isn't refused. */
static void first_faults(void) {
    static const struct {
        const char *file, *fault;
        int number;
    } rows[] = {{"\xff", "not TOML", NVME_NOT_TOML}, {"# nothing\n", "missing top.version", NVME_MISSING}};
    for (size_t row = 0; row < sizeof rows / sizeof rows[0]; row++) {
        nvme_machine *machine;
        char fault[64];
        asked = 0;
        refused_at = 1;
        int number = nvme_machine_open((const uint8_t *)rows[row].file, strlen(rows[row].file), &machine, fault, 64);
        refused_at = -1;
        CHECK(number == rows[row].number && machine == NULL && strcmp(fault, rows[row].fault) == 0);
        CHECK(asked == 1);
    }
}

int main(void) {
    files();
    absent();
    sizes();
    places();
    short_memory();
    reads();
    qwords();
    names();
    missing();
    allocations();
    first_faults();
    printf("%u checks, %u failed\n", checks, failures);
    return failures != 0;
}
