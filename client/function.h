/* A controller as a PCI function of a virtual machine (function.c), the machine's memory (memory.c), and the protocols
   by which programs such as QEMU reach the function (vfio_user.c, proxy.c), with their messages (messages.c). What
   else a drive has is in drive.h. */
#ifndef FUNCTION_H
#define FUNCTION_H
#include "drive.h"
#include <err.h>
#include <errno.h>
#include <fcntl.h>
#include <poll.h>
#include <signal.h>
#include <sys/mman.h>
#include <sys/socket.h>
#include <unistd.h>

/* The most functions, sections of a machine's memory, descriptors with a message, and bytes of an access. */
enum { MOST_FUNCTIONS = 16, MOST_SECTIONS = 256, MOST_FILES = 8, MOST_ACCESS = 0x4000 };
enum { FAILED = 72, HEADER = 16, MOST_MESSAGE = HEADER + 16 + MOST_ACCESS, BATCH = 256 /* bytes of small messages */ };
enum { BAR_SIZE = MOST_ACCESS, CONFIG_SIZE = 256, SMALL_PAGE = 4096, IS_READY = 1 /* of the status */ };
/* The event counters of a function: of the messages by their vectors, of the pin, and of the pin's being seen. */
enum { VECTORS = 64, PIN = VECTORS, SEEN, COUNTERS };
#define MOST_MEMORY ((uint64_t)128 << 30) /* the addresses that a controller reaches */

/* A piece of the machine's memory, in a file that is mapped with this access. What has none (-1) is a hole. */
struct section {
    uint64_t address, size, offset;
    int file, access;
    unsigned char *bytes;
};

/* Memory that is lent for calls of the library. */
struct memory {
    unsigned char *bytes;
    size_t pages;
    uint32_t page;
};

/* Descriptors that came with a message, and whether others couldn't be kept. */
struct files {
    int at[MOST_FILES], has_lost;
    unsigned count;
};

struct function {
    const struct protocol *protocol;
    struct subsystem *subsystem;
    nvme_machine *machine;
    uint16_t number;                           /* of the controller in its machine */
    uint16_t vectors;                          /* how many messages MSI-X has, or 0 if there is no MSI-X */
    unsigned char identity[IDENTIFY_BYTES];    /* what Identify Controller said at the start */
    struct drive drive;
    int socket, listener;                      /* or -1 */
    pid_t receiver;                            /* the process that takes the client's descriptors, or 0 */
    int to_receiver, is_asked;                 /* the socket to it, or -1, and whether it is to answer */
    unsigned char message[MOST_MESSAGE];       /* the message that is served, and then its answer */
    unsigned char input[MOST_MESSAGE + BATCH]; /* what has come, from the beginning of a message on */
    uint32_t come, seen, to_send; /* (of what has come, how much was only seen, and is still in the socket) */
    struct files files;           /* what came with the message that comes first */
    unsigned char config[CONFIG_SIZE];
    struct section sections[MOST_SECTIONS];
    unsigned section_count;
    int counters[COUNTERS]; /* or -1 */
    enum { UNMASKED, BY_RAISE, BY_CLIENT } mask; /* whether the pin waits to be seen, or the client masked it */
    int64_t raised_at;       /* when the pin was raised, in milliseconds */
    int has_taken, has_more; /* whether the guest wrote a head since then, and something may be left to do */
};

extern struct function functions[MOST_FUNCTIONS];

struct protocol {
    uint64_t (*length)(const unsigned char *header); /* of a message, or 0 if it isn't valid */
    uint32_t (*serve)(struct function *);            /* serves the message, and returns how long the answer is */
};
extern const struct protocol vfio_user, proxy;

/* Puts dwords one after the other, and returns their size in bytes. (The machine is a little-endian one.) */
static inline uint32_t put_dwords(unsigned char *at, const uint32_t *numbers, uint32_t count) {
    memcpy(at, numbers, 4 * count);
    return 4 * count;
}

uint32_t read_register(const struct function *function, uint32_t offset);
void reset(struct function *function);
int use(struct function *function, int is_config, uint64_t offset, uint64_t count, unsigned char *bytes, int is_write);
void take_turn(struct function *function);
int is_counter(int file);
void prepare_interrupts(void);
void set_counter(struct function *function, unsigned number, int *file);
unsigned interrupt(struct function *function, uint32_t served);
void see_interrupt(struct function *function);
void reserve_memory(void);
int add_section(struct function *function, struct section section, int *file);
int drop_sections(struct function *function, uint64_t address, uint64_t size);
struct memory lend(const struct function *function, const struct submissions *from);
void give_back(void);
void let_go(struct function *function, int *file);
unsigned serve_client(struct function *function, struct pollfd awaited[2], unsigned other);
#endif
