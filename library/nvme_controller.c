/* The layer between the calls of nvme_controller.h and the proved calls of crates/nvme_controller: it handles null
 * pointers, and stores the handle of each machine. */
#include <nvme_controller.h>

#include <stdlib.h>
#include <string.h>

/* A machine, which stores its handle. */
struct nvme_machine {
    void *at;
};

/* What a turn of blocks is told of them. */
struct terms {
    uint64_t greatest_transfer;
    uint32_t nsid, block_size, is_full;
};

int nvme_handle_open(const uint8_t *file, size_t length, nvme_machine *handle, uint8_t *fault, size_t room);
int nvme_handle_demo(nvme_machine *handle);
void nvme_handle_close(nvme_machine *handle);
uint16_t nvme_handle_controllers(nvme_machine *handle);
uint32_t nvme_handle_read32(nvme_machine *handle, uint16_t ctrl, uint32_t offset);
void nvme_handle_write32(nvme_machine *handle, uint16_t ctrl, uint32_t offset, uint32_t value);
uint16_t nvme_handle_turn(nvme_machine *handle, uint16_t ctrl, uint8_t *memory, size_t size, uint32_t page_size,
                          uint16_t most);
void nvme_handle_counts(nvme_machine *handle, uint16_t ctrl, uint64_t *refusals, uint64_t *commands);
int nvme_handle_log_entry(nvme_machine *handle, uint16_t ctrl, size_t index, uint8_t *entry);
int nvme_handle_identify(nvme_machine *handle, uint16_t ctrl, uint8_t *data);
int nvme_handle_allocated(nvme_machine *handle, uint16_t ctrl, uint32_t nsid, uint8_t *data);
int nvme_handle_active(nvme_machine *handle, uint16_t ctrl, uint32_t nsid, uint8_t *data);
int nvme_handle_next(nvme_machine *handle, uint16_t ctrl, uint8_t *memory, size_t size, uint32_t page_size,
                     uint8_t *entry);
int nvme_handle_fetch(nvme_machine *handle, uint16_t ctrl, uint8_t *memory, size_t size, uint32_t page_size,
                      uint8_t *entry);
int nvme_handle_complete(nvme_machine *handle, uint16_t ctrl, uint8_t *memory, size_t size, uint32_t page_size,
                         const nvme_answer *answer);
int nvme_handle_post(nvme_machine *handle, uint16_t ctrl, uint8_t *memory, size_t size, uint32_t page_size,
                     const nvme_answer *answer);
uint16_t nvme_lent_write(const uint8_t *entry, uint8_t *memory, size_t size, uint32_t page_size, const uint8_t *data,
                         size_t length);
int nvme_lent_next(const nvme_submission_queue *submissions, const nvme_completion_queue *completions,
                   uint8_t *memory, size_t size, uint32_t page_size, uint8_t *entry);
int nvme_lent_complete(nvme_submission_queue *submissions, nvme_completion_queue *completions, uint8_t *memory,
                       size_t size, uint32_t page_size, const nvme_answer *answer);
int nvme_lent_turn(nvme_submission_queue *submissions, nvme_completion_queue *completions, uint8_t *memory,
                   size_t size, uint32_t page_size, uint8_t *data, size_t length, const struct terms *terms);
int nvme_lent_zeroing(const uint8_t *entry, uint8_t *memory, size_t size, uint32_t page_size, const struct terms *terms,
                      size_t length, nvme_range *ranges);
size_t nvme_status_name(uint16_t status, uint8_t *text, size_t room);

/* The status Data Transfer Error, with Do Not Retry. */
enum { DATA_TRANSFER_ERROR = 0x4004 };

/* A pointer to no bytes. */
static uint8_t nothing[1];

/* (The proved calls need a handle that they can write. They don't change it if the machine stays open.) */
static nvme_machine *unlocked(const nvme_machine *machine) {
    return (nvme_machine *)(uintptr_t)machine;
}

/* Returns the bytes of pages that are lent, or null if there can't be such pages. (The proved calls refuse a page size
 * that isn't legal, and need bytes that they can write. Those that only look don't change them.) */
static uint8_t *lent(const uint8_t *memory, size_t pages, uint32_t page_size) {
    if ((memory == NULL && pages != 0) || page_size == 0 || pages > PTRDIFF_MAX / page_size) {
        return NULL;
    }
    return memory == NULL ? nothing : (uint8_t *)(uintptr_t)memory;
}

/* Copies the text of a fault if there is room for it. */
static void tell(char *fault, size_t room, const char *text) {
    if (fault != NULL && room != 0) {
        fault[0] = '\0';
        strncat(fault, text, room - 1);
    }
}

const char *nvme_controller_version(void) {
    return NVME_CONTROLLER_VERSION;
}

int nvme_machine_open(const uint8_t *file, size_t length, nvme_machine **machine, char *fault, size_t room) {
    *machine = NULL;
    if ((file == NULL && length != 0) || (fault == NULL && room != 0) || length > PTRDIFF_MAX || room > PTRDIFF_MAX) {
        tell(fault, room, "not TOML");
        return NVME_NOT_TOML;
    }
    nvme_machine *handle = calloc(1, sizeof *handle);
    if (handle == NULL) {
        tell(fault, room, "out of memory");
        return NVME_NO_MEMORY;
    }
    int number = nvme_handle_open(length != 0 ? file : nothing, length, handle,
                                  room != 0 ? (uint8_t *)fault : nothing, room);
    if (number == 0) {
        *machine = handle;
    } else {
        free(handle);
    }
    return number;
}

int nvme_machine_demo(nvme_machine **machine) {
    *machine = NULL;
    nvme_machine *handle = calloc(1, sizeof *handle);
    int number = handle == NULL ? NVME_NO_MEMORY : nvme_handle_demo(handle);
    if (number == 0) {
        *machine = handle;
    } else {
        free(handle);
    }
    return number;
}

void nvme_machine_close(nvme_machine *machine) {
    if (machine != NULL) {
        nvme_handle_close(machine);
        free(machine);
    }
}

uint16_t nvme_machine_controllers(const nvme_machine *machine) {
    return machine == NULL ? 0 : nvme_handle_controllers(unlocked(machine));
}

uint32_t nvme_machine_read32(const nvme_machine *machine, uint16_t ctrl, uint32_t offset) {
    return machine == NULL ? 0xffffffff : nvme_handle_read32(unlocked(machine), ctrl, offset);
}

void nvme_machine_write32(nvme_machine *machine, uint16_t ctrl, uint32_t offset, uint32_t value) {
    if (machine != NULL) {
        nvme_handle_write32(machine, ctrl, offset, value);
    }
}

/* Returns the offset of the dword after one. (There is no register at the greatest offset.) */
static uint32_t after(uint32_t offset) {
    return offset > UINT32_MAX - 4 ? UINT32_MAX : offset + 4;
}

uint64_t nvme_machine_read64(const nvme_machine *machine, uint16_t ctrl, uint32_t offset) {
    uint64_t low = nvme_machine_read32(machine, ctrl, offset);
    return low | (uint64_t)nvme_machine_read32(machine, ctrl, after(offset)) << 32;
}

void nvme_machine_write64(nvme_machine *machine, uint16_t ctrl, uint32_t offset, uint64_t value) {
    nvme_machine_write32(machine, ctrl, offset, (uint32_t)value);
    nvme_machine_write32(machine, ctrl, after(offset), (uint32_t)(value >> 32));
}

uint16_t nvme_machine_turn(nvme_machine *machine, uint16_t ctrl, uint8_t *memory, size_t pages, uint32_t page_size,
                           uint16_t most) {
    uint8_t *bytes = lent(memory, pages, page_size);
    if (machine == NULL || bytes == NULL) {
        return 0;
    }
    return nvme_handle_turn(machine, ctrl, bytes, pages * page_size, page_size, most);
}

void nvme_machine_counts(const nvme_machine *machine, uint16_t ctrl, uint64_t *refusals, uint64_t *commands) {
    *refusals = 0;
    *commands = 0;
    if (machine != NULL) {
        nvme_handle_counts(unlocked(machine), ctrl, refusals, commands);
    }
}

int nvme_machine_log_entry(const nvme_machine *machine, uint16_t ctrl, size_t index, uint8_t entry[64]) {
    return machine != NULL && nvme_handle_log_entry(unlocked(machine), ctrl, index, entry);
}

int nvme_machine_identify(const nvme_machine *machine, uint16_t ctrl, uint8_t data[4096]) {
    return machine != NULL && nvme_handle_identify(unlocked(machine), ctrl, data);
}

int nvme_machine_namespace(const nvme_machine *machine, uint16_t ctrl, uint32_t nsid, int is_active,
                           uint8_t data[4096]) {
    return machine != NULL && (is_active ? nvme_handle_active : nvme_handle_allocated)(unlocked(machine), ctrl, nsid,
                                                                                      data);
}

int nvme_machine_next(const nvme_machine *machine, uint16_t ctrl, const uint8_t *memory, size_t pages,
                      uint32_t page_size, uint8_t entry[64]) {
    uint8_t *bytes = lent(memory, pages, page_size);
    return machine != NULL && bytes != NULL &&
           nvme_handle_next(unlocked(machine), ctrl, bytes, pages * page_size, page_size, entry);
}

int nvme_machine_complete(nvme_machine *machine, uint16_t ctrl, uint8_t *memory, size_t pages, uint32_t page_size,
                          nvme_answer answer) {
    uint8_t *bytes = lent(memory, pages, page_size);
    return machine != NULL && bytes != NULL &&
           nvme_handle_complete(machine, ctrl, bytes, pages * page_size, page_size, &answer);
}

int nvme_machine_fetch(nvme_machine *machine, uint16_t ctrl, const uint8_t *memory, size_t pages, uint32_t page_size,
                       uint8_t entry[64]) {
    uint8_t *bytes = lent(memory, pages, page_size);
    return machine != NULL && bytes != NULL &&
           nvme_handle_fetch(machine, ctrl, bytes, pages * page_size, page_size, entry);
}

int nvme_machine_post(nvme_machine *machine, uint16_t ctrl, uint8_t *memory, size_t pages, uint32_t page_size,
                      nvme_answer answer) {
    uint8_t *bytes = lent(memory, pages, page_size);
    return machine != NULL && bytes != NULL &&
           nvme_handle_post(machine, ctrl, bytes, pages * page_size, page_size, &answer);
}

uint16_t nvme_entry_write(const uint8_t entry[64], uint8_t *memory, size_t pages, uint32_t page_size,
                          const uint8_t *data, size_t length) {
    uint8_t *bytes = lent(memory, pages, page_size);
    if (bytes == NULL || (data == NULL && length != 0) || length > PTRDIFF_MAX) {
        return DATA_TRANSFER_ERROR;
    }
    return nvme_lent_write(entry, bytes, pages * page_size, page_size, length != 0 ? data : nothing, length);
}

int nvme_queue_next(const nvme_submission_queue *submissions, const nvme_completion_queue *completions,
                    const uint8_t *memory, size_t pages, uint32_t page_size, uint8_t entry[64]) {
    uint8_t *bytes = lent(memory, pages, page_size);
    return bytes == NULL ? -1 : nvme_lent_next(submissions, completions, bytes, pages * page_size, page_size, entry);
}

int nvme_queue_complete(nvme_submission_queue *submissions, nvme_completion_queue *completions, uint8_t *memory,
                        size_t pages, uint32_t page_size, nvme_answer answer) {
    uint8_t *bytes = lent(memory, pages, page_size);
    return bytes == NULL ? -1 : nvme_lent_complete(submissions, completions, bytes, pages * page_size, page_size,
                                                   &answer);
}

/* Returns what a turn is told of blocks, if there are any. */
static struct terms terms_of(const nvme_blocks *blocks) {
    return blocks == NULL ? (struct terms){0} : (struct terms){blocks->greatest_transfer, blocks->nsid,
                                                               blocks->block_size, blocks->is_full != 0};
}

int nvme_queue_turn(nvme_submission_queue *submissions, nvme_completion_queue *completions, uint8_t *memory,
                    size_t pages, uint32_t page_size, const nvme_blocks *blocks) {
    uint8_t *bytes = lent(memory, pages, page_size);
    struct terms terms = terms_of(blocks);
    int has_data = blocks != NULL && blocks->data != NULL && blocks->length <= PTRDIFF_MAX;
    return bytes == NULL ? -1 : nvme_lent_turn(submissions, completions, bytes, pages * page_size, page_size,
                                               has_data ? blocks->data : nothing, has_data ? blocks->length : 0,
                                               &terms);
}

int nvme_blocks_zeroing(const nvme_blocks *blocks, const uint8_t entry[64], const uint8_t *memory, size_t pages,
                        uint32_t page_size, nvme_range ranges[256]) {
    uint8_t *bytes = lent(memory, pages, page_size);
    struct terms terms = terms_of(blocks);
    return bytes == NULL ? -1 : nvme_lent_zeroing(entry, bytes, pages * page_size, page_size, &terms,
                                                  blocks == NULL ? 0 : blocks->length, ranges);
}

size_t nvme_status_text(uint16_t status, char *text, size_t room) {
    if (text == NULL || room > PTRDIFF_MAX) {
        room = 0;
    }
    return nvme_status_name(status, room != 0 ? (uint8_t *)text : nothing, room);
}
