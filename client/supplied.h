/* Admin commands that drives with namespace management have, and the proved controllers lack (supplied.c). The launcher
   answers them for the sandbox (io.c), and the server for virtual machines (drive.c). None of this is proved. */
#ifndef SUPPLIED_H
#define SUPPLIED_H
#include "wire.h"

/* Statuses, with the bit Do Not Retry; and that a command is none of these. */
enum { NOT_SUPPLIED = -1, DONE = 0, INVALID_FIELD = 0x4002, INVALID_NAMESPACE = 0x400b };
enum { LOG_OF_CHANGES = 4 };

/* The controllers of a subsystem, by the numbers that the program gives to all of its controllers, and the one that is
   asked. */
struct asked {
    unsigned first, count, controller;
};

/* Answers a command by data, which is a page at most. Returns its status. */
int supplied(const struct asked *asked, const unsigned char *entry, unsigned char page[IDENTIFY_BYTES]);

/* What io.c and drive.c each know of a controller: what Identify Controller says, and Identify Namespace of a namespace
   that is allocated, or active there (unless there is no such NSID); whether a namespace is attached to it; and which
   namespaces came or left. */
const unsigned char *identity_of(unsigned controller);
int read_namespace(unsigned controller, uint32_t nsid, int is_active, unsigned char page[IDENTIFY_BYTES]);
int is_attached(unsigned controller, uint32_t nsid);
void find_changes(unsigned controller, unsigned char has_changed[MOST_NSID + 1]);
#endif
