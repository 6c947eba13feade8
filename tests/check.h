/* Declarations that the two parts of the check share. */
#ifndef CHECK_H
#define CHECK_H
#include <stddef.h>
#include <stdint.h>

enum { GET_LOG = 0x02, IDENTIFY = 0x06, SET_FEATURES = 0x09, GET_FEATURES = 0x0a, MANAGEMENT = 0x0d };
enum { ATTACHMENT = 0x15, FORMAT = 0x80 };
enum { INVALID_OPCODE = 0x6001, INVALID_FIELD = 0x6002, INVALID_NAMESPACE = 0x600b, INSUFFICIENT_CAPACITY = 0x6115 };
enum { ALREADY_ATTACHED = 0x6118, NO_THIN_PROVISIONING = 0x611b, INVALID_LIST = 0x611c };
enum { PAGE = 4096, UNTOUCHED = 0xa5 };

#define EVERY 0xffffffffu

struct command {
    uint8_t opcode;
    uint32_t nsid, cdw10, length;
    uint32_t cdw11, cdw12;
    uint8_t flags;
    void *data; /* the common buffer unless another is given */
};

extern unsigned char common[];
extern int files[2]; /* of both controllers */

/* Counts a case, and reports it if it fails. */
void must(int is_so, const char *format, ...);

/* Sends a command by an ioctl, and returns its value. The dword 0 of the completion is stored in *result. */
int send_command(int file, const struct command *command, uint64_t *result);

/* Sends a command to a controller. It must succeed with this dword 0. */
void done(unsigned controller, struct command command, uint32_t dword_0);

/* Commands. Those with data use the common buffer. */
struct command identify(uint32_t cns, uint32_t nsid);
struct command create(uint64_t nsze, uint64_t ncap, unsigned char flbas, unsigned char dps, unsigned char nmic);
struct command attachment(int detaches, uint32_t nsid, unsigned count, unsigned first, unsigned second);
struct command delete(uint32_t nsid);
struct command get_feature(uint32_t nsid, uint32_t identifier, uint32_t selector);
struct command set_feature(uint32_t nsid, uint32_t identifier, uint32_t value, uint32_t saves);

/* Returns a little-endian number of `bytes` bytes, and whether all bytes are equal to one. */
uint64_t number(const unsigned char *data, unsigned at, unsigned bytes);
int all_are(const unsigned char *data, size_t from, size_t to, unsigned char byte);

/* Checks that the common buffer holds this list of namespaces. */
void is_list(unsigned count, const uint32_t *ids);

/* The parts that test the client (check_client.c). */
void try_many(void);
void try_broken(void);
void try_killed(void);
void try_nodes(void);
void try_gone(void);
int answers(int file, char serial);

#endif
