/* What a drive has beside the proved controller: the data of namespaces (volumes.c), I/O queues (queues.c), and admin
   commands for these, for events and about other controllers (drive.c). */
#ifndef DRIVE_H
#define DRIVE_H
#include "nvme_controller.h"
#include "wire.h"

/* The data of a namespace, in a file that is mapped. */
struct volume {
    int is_there, file;
    unsigned char *bytes; /* or NULL, if there is no file or mapping */
    uint64_t size, used;  /* the size of the data, and how much memory or room on a disk it takes */
    uint32_t block_size;  /* with the metadata at a block's end */
};

struct subsystem {
    nvme_machine *machine;
    unsigned number;            /* in the order of the options */
    struct function *functions; /* of its controllers */
    unsigned count;             /* of these */
    struct volume volumes[MOST_NSID + 1];
};

/* When the data of a namespace is looked after. */
enum moment { AT_START, AFTER_START, AFTER_COMMAND, AFTER_FORMAT };

/* The most I/O queues of a kind, and the most Asynchronous Event Requests that wait. */
enum { MOST_QUEUES = 64, MOST_REQUESTS = 4 };
/* Number of Queues at first, for submission and completion queues, each one less than what it counts. */
enum { DEFAULT_COUNTS = (MOST_QUEUES - 1) << 16 | (MOST_QUEUES - 1) };

struct submissions {
    nvme_submission_queue queue;
    uint16_t completions; /* the identifier of the queue for its completions */
};

struct completions {
    nvme_completion_queue queue;
    uint64_t vector; /* of its interrupts, as a bit, or 0 */
};

/* Queues stand at their identifiers, and have a depth if they exist. Those at 0 follow what the controller does with
   its admin queues. */
struct drive {
    struct submissions submissions[MOST_QUEUES + 1];
    struct completions completions[MOST_QUEUES + 1];
    uint32_t counts;                  /* Number of Queues */
    unsigned next;                    /* the submission queue that is looked at next */
    int has_failed;                   /* whether a slot or data couldn't be had, which is fatal */
    uint32_t notice;                  /* of a shutdown, as in CC */
    uint64_t due;                     /* the vectors, as bits, by which messages are due */
    uint16_t requests[MOST_REQUESTS]; /* the command identifiers of Asynchronous Event Requests that wait */
    unsigned request_count;
    int wants_changes, saved_wish;    /* whether the host wants to know that namespaces changed, also after a reset */
    int is_told;                      /* whether it knows it */
    unsigned char is_active[MOST_NSID + 1], has_changed[MOST_NSID + 1];
};

struct function;
uint32_t page_size(const struct function *function);
void reset_drive(struct function *function);
void ring(struct function *function, uint32_t offset, uint32_t value);
uint64_t waiting_vectors(const struct function *function);
int take_command(struct function *function);
int take_entry(struct function *function);
void tell_changes(struct function *function);
void look_at_namespaces(const struct function *function, enum moment moment, uint32_t formatted);
int wish_at_start(nvme_machine *machine, uint16_t number);
void prepare_data(const char *folder, uint64_t most);
void follow_namespace(struct subsystem *subsystem, uint32_t nsid, enum moment moment);
int reserve(struct volume *volume, const nvme_range *part);
int set_zeros(struct volume *volume, const nvme_range *part);
unsigned char *begin_use(struct volume *volume, const nvme_range *part);
int end_use(void);
int replace_lost(uintptr_t place);
#endif
