/* The controllers of a model of an NVM Express 1.4 subsystem, in a C or C++ program.
 *
 * A machine has the controllers of one subsystem. A host writes their registers, puts entries into queues in its
 * memory, and lets a controller take a turn over that memory:
 *
 *     nvme_machine *machine;
 *     nvme_machine_demo(&machine);
 *     nvme_machine_write32(machine, 0, NVME_AQA, 0x00070007);      // eight entries each
 *     nvme_machine_write32(machine, 0, NVME_ASQ, 0x0000);
 *     nvme_machine_write32(machine, 0, NVME_ACQ, 0x1000);
 *     nvme_machine_write32(machine, 0, NVME_CC, 0x00460001);       // pages of 4,096 bytes, EN
 *     memcpy(memory, entry, 64);
 *     nvme_machine_write32(machine, 0, NVME_TAIL_DOORBELL, 1);
 *     nvme_machine_turn(machine, 0, memory, 16, 4096, 1);          // its completion lies at 1000h
 *     nvme_machine_close(machine);
 *
 * nvme_records.h has the structures of entries and records, and the numbers of commands and statuses by name.
 *
 * Machines are independent, and there is no state outside them. Use a machine from one thread at a time, and make no
 * call from a signal handler. Memory is allocated only when a machine is opened, by `malloc` and `calloc`, and freed by
 * `free` when it is closed. If an allocation fails, opening says so.
 *
 * It is safe to pass a null machine, or a controller that does not exist: a read returns FFFFFFFFh, a write does
 * nothing, and a turn returns 0. But a machine that is not null must have been opened and not closed, and each other
 * pointer must point to the memory that the call describes.
 *
 * What drivers will miss: by themselves, the controllers have admin queues alone, and refuse each command that
 * nvme_records.h doesn't name NVME_OPCODE_... with Invalid Command Opcode. A program can give them the rest: it sees
 * each entry of an admin queue before the controller takes it (`nvme_machine_next`), and completes those that the
 * controller lacks, such as Create I/O Submission Queue. It keeps the I/O queues, and lends them the blocks of
 * namespaces (`nvme_queue_turn`). Nothing raises an interrupt: look at how many completions wait
 * (`nvme_completion_queue_waiting`), or at phase tags. A shutdown notification (CC.SHN) has no effect, and the shutdown
 * status (CSTS.SHST) stays 0. */
#ifndef NVME_CONTROLLER_H
#define NVME_CONTROLLER_H

#include <stddef.h>
#include <stdint.h>

#ifdef __cplusplus
extern "C" {
#endif

/* The version of this header, as a text and as numbers. Programs of a version run with the shared library of the same
 * major version and an equal or higher minor one. */
#define NVME_CONTROLLER_VERSION "@VERSION@"
#define NVME_CONTROLLER_VERSION_MAJOR @MAJOR@
#define NVME_CONTROLLER_VERSION_MINOR @MINOR@

/* Returns the version of the library that the program runs with, such as NVME_CONTROLLER_VERSION. */
const char *nvme_controller_version(void);

/* The registers by their offsets in bytes. Each is a dword. At any other offset a read returns 0, and a write changes
 * nothing. */
enum {
    NVME_CAP = 0x00,                 /* Controller Capabilities, bits 31:0; bits 63:32 at 04h */
    NVME_VS = 0x08,                  /* Version */
    NVME_CC = 0x14,                  /* Controller Configuration */
    NVME_CSTS = 0x1c,                /* Controller Status */
    NVME_AQA = 0x24,                 /* Admin Queue Attributes */
    NVME_ASQ = 0x28,                 /* Admin Submission Queue Base Address, bits 31:0; bits 63:32 at 2Ch */
    NVME_ACQ = 0x30,                 /* Admin Completion Queue Base Address, bits 31:0; bits 63:32 at 34h */
    NVME_TAIL_DOORBELL = 0x1000,     /* the tail of the submission queue */
    NVME_HEAD_DOORBELL = 0x1004      /* the head of the completion queue */
};

/* Why a machine could not be opened. */
enum {
    NVME_NOT_TOML = 1,               /* the file isn't TOML, or is null */
    NVME_MISSING = 2,                /* a table lacks a required key */
    NVME_KIND = 3,                   /* the value of a key has the wrong kind */
    NVME_RANGE = 4,                  /* the value of a key is out of range */
    NVME_REPEATED = 5,               /* an earlier table has the same value of a key */
    NVME_UNKNOWN = 6,                /* a table has a key that isn't allowed */
    NVME_CAPACITY = 7,               /* the namespaces have more capacity than there is */
    NVME_ATTACHMENT = 8,             /* a namespace is attached to a controller that it can't be attached to */
    NVME_NO_MEMORY = 9               /* there was no memory */
};

/* The controllers of one subsystem. */
typedef struct nvme_machine nvme_machine;

/* Opens the machine of a subsystem file: `length` bytes of TOML at `file`. Returns 0 and stores the machine in
 * `*machine`, or returns the number of the fault and stores null. The text of the fault, such as `missing top.nn`, is
 * copied to `fault`, cut to `room` bytes including its zero byte; it is empty if the machine was opened. `fault` may
 * be null if `room` is 0. `file` may be null if `length` is 0, which is a fault because an empty file has one. Null
 * with another length or room is refused as NVME_NOT_TOML. The file can have any length, while the programs that read
 * subsystem files take up to 1 MiB. */
int nvme_machine_open(const uint8_t *file, size_t length, nvme_machine **machine, char *fault, size_t room);

/* Opens the machine of the built-in subsystem. Returns 0 or NVME_NO_MEMORY. */
int nvme_machine_demo(nvme_machine **machine);

/* Closes a machine. It must not be used afterwards. Null is ignored. */
void nvme_machine_close(nvme_machine *machine);

/* Returns the number of controllers, or 0 for null. Controllers are numbered from 0. */
uint16_t nvme_machine_controllers(const nvme_machine *machine);

/* Returns the dword of a controller's registers at an offset in bytes. Nothing changes. */
uint32_t nvme_machine_read32(const nvme_machine *machine, uint16_t ctrl, uint32_t offset);

/* Writes the dword of a controller's registers at an offset in bytes. Writing CC with EN 0 when it was 1 resets the
 * controller. */
void nvme_machine_write32(nvme_machine *machine, uint16_t ctrl, uint32_t offset, uint32_t value);

/* Reads or writes the dword at an offset as bits 31:0, and then the dword after it as bits 63:32. */
uint64_t nvme_machine_read64(const nvme_machine *machine, uint16_t ctrl, uint32_t offset);
void nvme_machine_write64(nvme_machine *machine, uint16_t ctrl, uint32_t offset, uint64_t value);

/* Lets a controller take at most `most` entries from its submission queue, and returns how many it took. The host's
 * memory is `pages` pages of `page_size` bytes at `memory`, with addresses from 0 on. It is used only during this call.
 * Only the bytes of the data that the entries ask for and of the completions' slots may change, and no byte outside the
 * memory is read or written. An entry with data outside it is refused with Data Transfer Error; queues outside it, or a
 * page size other than that in CC, cause a fatal status.
 * A turn works in the memory itself and allocates none, so its time doesn't grow with the number of pages. Nothing else
 * may write the memory during the call: what is proved assumes that only the turn does.
 *
 * For a page size other than 4096, 8192, 16384, 32768 and 65536, for null with pages, and for 2^32 pages or more, 0 is
 * returned and nothing changes. Null is a memory of no pages. */
uint16_t nvme_machine_turn(nvme_machine *machine, uint16_t ctrl, uint8_t *memory, size_t pages, uint32_t page_size,
                           uint16_t most);

/* Sets `*refusals` and `*commands` to how many commands a controller refused, and how many it took. Both are 0 if there
 * is no such controller. */
void nvme_machine_counts(const nvme_machine *machine, uint16_t ctrl, uint64_t *refusals, uint64_t *commands);

/* Copies the entry of a controller's error log at an index, counted from the newest, to `entry`. Returns 1, or 0 if
 * there is no such entry; then `entry` doesn't change. */
int nvme_machine_log_entry(const nvme_machine *machine, uint16_t ctrl, size_t index, uint8_t entry[64]);

/* Copies the data that Identify returns for the controller to `data`, and returns 1, or 0 if there is no such
 * controller; then `data` is unchanged. Nothing else changes, and the controller counts no command. */
int nvme_machine_identify(const nvme_machine *machine, uint16_t ctrl, uint8_t data[4096]);

/* Does the same with the data that Identify returns for a namespace, which is zeros if there is no such namespace or,
 * with `is_active`, none that is attached to the controller. Returns 0 for an NSID that no namespace can have. */
int nvme_machine_namespace(const nvme_machine *machine, uint16_t ctrl, uint32_t nsid, int is_active,
                           uint8_t data[4096]);

/* ---- Entries of an admin queue that the program answers. For these, memory is lent as for a turn. */

/* What a completion says. (`cid` counts only for nvme_machine_post; the others take it from the entry.) */
typedef struct {
    uint32_t dword0;                 /* command specific */
    uint16_t cid;                    /* command identifier */
    uint16_t status;                 /* without the phase tag */
} nvme_answer;

/* Copies the entry that a turn of the controller over this memory would take next to `entry`, and returns 1. (Bytes of
 * the entry that are reserved are 0.) Returns 0, and leaves `entry` unchanged, if a turn would take none: no entry
 * waits, the completion queue is full, the controller isn't ready or has a fatal status, or a slot lies outside the
 * memory. Nothing else changes. */
int nvme_machine_next(const nvme_machine *machine, uint16_t ctrl, const uint8_t *memory, size_t pages,
                      uint32_t page_size, uint8_t entry[64]);

/* Takes that entry and posts its completion with this answer, which has the entry's identifier, the head past it and
 * the phase tag that is due. Returns 1, or 0 if there is no such entry, and then nothing changes. The controller
 * doesn't see the entry: the subsystem, its logs and its counts stay as they are. Of the memory, only the completion's
 * slot changes. */
int nvme_machine_complete(nvme_machine *machine, uint16_t ctrl, uint8_t *memory, size_t pages, uint32_t page_size,
                          nvme_answer answer);

/* Takes that entry without a completion, which the program then owes, copies it to `entry`, and returns 1; or returns 0
 * as nvme_machine_next does. */
int nvme_machine_fetch(nvme_machine *machine, uint16_t ctrl, const uint8_t *memory, size_t pages, uint32_t page_size,
                       uint8_t entry[64]);

/* Posts a completion that the program owes. Returns 1, or 0 if the completion queue is full or can't be used, and then
 * nothing changes. */
int nvme_machine_post(nvme_machine *machine, uint16_t ctrl, uint8_t *memory, size_t pages, uint32_t page_size,
                      nvme_answer answer);

/* Writes bytes to where the data pointer of an entry says, as a controller writes the data of a reply, and returns 0.
 * For a pointer that isn't valid, more than 1,048,576 bytes, or memory that can't be lent, nothing is written, and the
 * status is returned with which to complete the entry: PRP Offset Invalid or Data Transfer Error, with Do Not Retry. */
uint16_t nvme_entry_write(const uint8_t entry[64], uint8_t *memory, size_t pages, uint32_t page_size,
                          const uint8_t *data, size_t length);

/* ---- I/O queues, which are values that the program keeps. A queue can be copied. */

/* A submission queue. Its entries are counted from 0, modulo twice the depth. Number n lies in slot n modulo the
 * depth. */
typedef struct {
    uint64_t base;                   /* the address of its first slot */
    uint16_t depth;                  /* how many slots it has, from 2 to 4,096 */
    uint16_t sqid;                   /* its identifier, which its completions have */
    uint16_t fetched;                /* the number of the next entry to take */
    uint16_t rung;                   /* the number up to which entries wait, which the tail doorbell set */
} nvme_submission_queue;

/* A completion queue, of one or more submission queues. Its completions are counted likewise. Those below the depth
 * have phase tag 1, and the others 0. */
typedef struct {
    uint64_t base;
    uint16_t depth;
    uint16_t posted;                 /* the number of the next completion */
    uint16_t told;                   /* the number below which all were collected, which the head doorbell set */
    uint16_t reserved;               /* not used */
} nvme_completion_queue;

/* Makes an empty queue of `depth` slots at the address `base`, which need not lie in the memory. Returns 1, or 0 for
 * another depth than 2 to 4,096, and then the queue doesn't change. */
int nvme_submission_queue_make(nvme_submission_queue *queue, uint16_t sqid, uint64_t base, uint32_t depth);
int nvme_completion_queue_make(nvme_completion_queue *queue, uint64_t base, uint32_t depth);

/* Performs a write of the tail doorbell or the head doorbell, and returns 1. A value that the queue can't have is
 * ignored, and 0 returned: a tail that names no slot, or a head to which freeing posted slots doesn't lead. */
int nvme_submission_queue_tail(nvme_submission_queue *queue, uint32_t tail);
int nvme_completion_queue_head(nvme_completion_queue *queue, uint32_t head);

/* Returns how many entries wait to be taken. */
uint16_t nvme_submission_queue_waiting(const nvme_submission_queue *queue);

/* Returns how many completions wait to be collected. The queue is full if these are `depth - 1`. */
uint16_t nvme_completion_queue_waiting(const nvme_completion_queue *queue);

/* The blocks of a namespace, which are lent for a turn. */
typedef struct {
    uint8_t *data;                   /* the blocks one after another, none of them in the host's memory */
    size_t length;                   /* in bytes; what is left after whole blocks isn't used */
    uint32_t nsid;                   /* from 1 to FFFFFFFEh */
    uint32_t block_size;             /* bytes of a block, with its metadata if that is part of it */
    uint64_t greatest_transfer;      /* how many bytes a command may transfer, of which 1,048,576 count */
    int is_full;                     /* whether a Write gets Capacity Exceeded */
} nvme_blocks;

/* Copies the entry that a turn of these queues would take next to `entry`, and returns 1. Returns 0 if no entry waits
 * or the completion queue is full, and -1 if the memory lacks a slot or can't be lent, or if a queue's numbers are
 * those of none; then `entry` is unchanged. Nothing else changes. */
int nvme_queue_next(const nvme_submission_queue *submissions, const nvme_completion_queue *completions,
                    const uint8_t *memory, size_t pages, uint32_t page_size, uint8_t entry[64]);

/* Takes that entry and posts its completion with this answer. Returns what nvme_queue_next does. If that isn't 1,
 * nothing changes. */
int nvme_queue_complete(nvme_submission_queue *submissions, nvme_completion_queue *completions, uint8_t *memory,
                        size_t pages, uint32_t page_size, nvme_answer answer);

/* Takes that entry, performs its command on the blocks, and posts its completion. Returns the status of the completion,
 * or -1 if no entry was taken, and then nothing changes. Without blocks (null), or with an entry of another NSID, each
 * command gets Invalid Namespace or Format. So look at the NSID by nvme_queue_next, and lend that namespace if it is
 * attached to the controller. The commands are those that nvme_records.h names NVME_IO_... Only the bytes of the blocks
 * that the entry names, of the data that it asks for, and of the completion's slot may change, in this order. */
int nvme_queue_turn(nvme_submission_queue *submissions, nvme_completion_queue *completions, uint8_t *memory,
                    size_t pages, uint32_t page_size, const nvme_blocks *blocks);

/* A range of the bytes of blocks. */
typedef struct {
    uint64_t offset;
    uint64_t length;
} nvme_range;

/* Sets the first of `ranges` to the bytes of the blocks that a turn with this entry would zero, by Write Zeroes or
 * Dataset Management, and returns how many ranges these are. A program can clear them by other means, such as holes in
 * a file, and then complete the entry with success (nvme_queue_complete). Returns -1 if the turn would refuse the
 * entry, or the memory can't be lent. Nothing else changes, and the blocks' data isn't used. */
int nvme_blocks_zeroing(const nvme_blocks *blocks, const uint8_t entry[64], const uint8_t *memory, size_t pages,
                        uint32_t page_size, nvme_range ranges[256]);

/* Copies the name of a status to `text`, cut to `room` bytes including its zero byte, and returns the length of the
 * name. `text` may be null if `room` is 0. The name is that of nvme-script's messages, such as `Invalid Field in
 * Command`; or `Success`; or `Unknown` for a status that no controller of this library has. The status is that of a
 * completion without the phase tag, and only its code and their type count. A name has at most 40 bytes with its zero
 * byte. */
size_t nvme_status_text(uint16_t status, char *text, size_t room);

#ifdef __cplusplus
}
#endif

#endif
