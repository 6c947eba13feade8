/* What the launcher and the preloaded library share, and the messages of the device. All numbers are little-endian, as
   those of this processor are. A request is a header and, if an entry sends data (the lowest bit of its opcode is 1),
   that data. An answer is a header and its data. None of this is proved. */
#ifndef WIRE_H
#define WIRE_H
#include <assert.h>
#include <stdint.h>
#include <stdio.h>
#include <stdlib.h>
#include <string.h>
#include <sys/ioctl.h>

/* The folder of these programs in the sandbox. */
#define MODEL_FOLDER "/sys/fs/model"

enum { ENTRY_BYTES = 64, IDENTIFY_BYTES = 4096, MOST_DATA = 1 << 20 };

/* The greatest NSID of a subsystem, and the NSID that stands for all namespaces. */
enum { MOST_NSID = 1024 };
#define EVERY_NSID 0xffffffffu

/* The kinds of requests: a submission queue entry, a reset of a controller, and a controller's list of active
   namespaces; and the outcomes of requests. */
enum { KIND_ENTRY = 0, KIND_RESET = 1, KIND_LIST = 2 };
enum { ANSWERED = 0, NO_CONTROLLER = 1, NO_KIND = 2, TOO_LONG = 3 };

/* Opcodes of the admin commands that the launcher sends, with what it asks for, or after which it looks for changes. */
enum { OPCODE_GET_LOG = 0x02, OPCODE_IDENTIFY = 0x06, CNS_NAMESPACE = 0, CNS_CONTROLLER = 1 };
enum { OPCODE_MANAGEMENT = 0x0d, OPCODE_ATTACHMENT = 0x15, OPCODE_FORMAT = 0x80 };

struct request_header {
    uint16_t controller;
    uint16_t kind;
    uint32_t length; /* of the data that is sent, or that is wanted */
    unsigned char entry[ENTRY_BYTES];
};

struct answer_header {
    uint32_t dword_0; /* of the completion; for a list, the number of controllers */
    uint16_t status;  /* without its phase tag */
    uint16_t outcome;
    uint32_t length;
};

static_assert(sizeof(struct request_header) == 72, "a request's header has 72 bytes");
static_assert(sizeof(struct answer_header) == 12, "an answer's header has 12 bytes");

/* A node: a controller ('c'), a generic node of a namespace ('g') or its block device ('b'), which have the number of
   their name. */
struct node {
    char kind;
    unsigned controller, number, nsid;
};

/* The ioctl by which the library asks which node a file is. It fails with ENXIO if the node's device is gone. */
#define NODE_REQUEST _IOWR('N', 0xf0, struct node)

/* The ioctl of the file -1 by which the command's process 1 tells that the command has stopped. */
#define STOPPED_REQUEST _IO('N', 0xf1)

/* The device numbers of nodes, by their kind. None reaches a device: Linux gives no character device such a major, and
   of block devices with 259 (blkext), those of the machine have the lowest minors. */
enum { CONTROLLER_MAJOR = 4092, GENERIC_MAJOR = 4093, BLOCK_MAJOR = 259, FIRST_BLOCK = 1 << 19 };

static inline unsigned major_of(char kind) {
    return kind == 'b' ? BLOCK_MAJOR : kind == 'g' ? GENERIC_MAJOR : CONTROLLER_MAJOR;
}

static inline unsigned minor_of(char kind, unsigned controller, unsigned number) {
    return (kind == 'b' ? FIRST_BLOCK : 0) + controller * MOST_NSID + (number != 0 ? number - 1 : 0);
}

/* A node whose device is gone becomes a socket, because Linux answers ENXIO when a socket is opened. */
#define LOST_NODE (S_IFSOCK | 01666)

/* The mode bit of a block device's file while the device is read-only, which the library keeps to itself. */
#define READ_ONLY S_ISVTX

/* The error of a command that took too long. The library makes it EINTR, which it would take for a signal that came
   before the launcher took the call. */
#define OVERDUE ETIMEDOUT

/* Types of ioctls, and one of an older kind, that the launcher answers for nodes (calls.c). */
enum { NVME_TYPE = 'N', BLOCK_TYPE = 0x12, GEOMETRY_REQUEST = 0x0301 };

/* Returns a little-endian number in data. */
static inline uint64_t number_at(const unsigned char *at, unsigned bytes) {
    uint64_t number = 0;
    memcpy(&number, at, bytes);
    return number;
}

static inline void put_dword(unsigned char *at, uint32_t number) { memcpy(at, &number, sizeof number); }

#endif
