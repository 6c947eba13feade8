/* Admin commands that drives with namespace management have, and the proved controllers lack: they are answered from
   what the controllers say. None of this is proved. */
#include "supplied.h"

enum { IDENTIFIERS = 0x03, ATTACHED_TO = 0x12, CONTROLLERS = 0x13, LOG_OF_FIRMWARE = 3 };
enum { FIRMWARE_NAME = 64, CONTROLLER_ID = 78 /* of Identify Controller */ };

typedef int answering(const struct asked *asked, const unsigned char *entry, unsigned char *page);

static uint32_t nsid_of(const unsigned char *entry) { return (uint32_t)number_at(entry + 4, 4); }

/* Looks whether a command's namespace is active at the controller, or allocated. */
static int look_for(const struct asked *asked, const unsigned char *entry, int is_active) {
    unsigned char about[IDENTIFY_BYTES];
    if (nsid_of(entry) == EVERY_NSID)
        return is_active ? INVALID_NAMESPACE : INVALID_FIELD;
    if (!read_namespace(asked->controller, nsid_of(entry), is_active, about))
        return INVALID_NAMESPACE;
    return number_at(about, 8) == 0 ? INVALID_FIELD : DONE;
}

/* A namespace has no identifiers, but that of its command set. */
static int list_identifiers(const struct asked *asked, const unsigned char *entry, unsigned char *page) {
    memcpy(page, (const unsigned char[]){4, 1, 0, 0, 0}, 5);
    return look_for(asked, entry, 1);
}

/* The controllers of the subsystem, or those to which a namespace is attached, in the order of their identifiers. */
static int list_controllers(const struct asked *asked, const unsigned char *entry, unsigned char *page) {
    static unsigned char is_listed[UINT16_MAX + 1];
    int is_of_one = entry[40] == ATTACHED_TO, status = is_of_one ? look_for(asked, entry, 0) : DONE;
    unsigned count = 0;
    memset(is_listed, 0, sizeof is_listed);
    for (unsigned at = asked->first; at < asked->first + asked->count && status == DONE; at++)
        if (!is_of_one || is_attached(at, nsid_of(entry)))
            is_listed[number_at(identity_of(at) + CONTROLLER_ID, 2)] = 1;
    for (unsigned id = (unsigned)number_at(entry + 42, 2); id <= UINT16_MAX; id++)
        if (is_listed[id])
            put_dword(page + 2 * ++count, id);
    put_dword(page, count | (uint32_t)number_at(page + 2, 2) << 16);
    return status;
}

/* The firmware that Identify names is in the first slot. */
static int list_firmware(const struct asked *asked, const unsigned char *entry, unsigned char *page) {
    (void)entry;
    page[0] = 1;
    memcpy(page + 8, identity_of(asked->controller) + FIRMWARE_NAME, 8);
    return DONE;
}

static int list_changes(const struct asked *asked, const unsigned char *entry, unsigned char *page) {
    unsigned char has_changed[MOST_NSID + 1];
    (void)entry;
    find_changes(asked->controller, has_changed);
    for (uint32_t nsid = 1; nsid <= MOST_NSID; nsid++)
        if (has_changed[nsid]) {
            put_dword(page, nsid);
            page += 4;
        }
    return DONE;
}

/* These commands, by the opcode and CNS or LID, with the size of what each answers. */
static const struct row {
    unsigned char opcode, selector;
    uint32_t size;
    answering *answer;
} rows[] = {{OPCODE_IDENTIFY, IDENTIFIERS, IDENTIFY_BYTES, list_identifiers},
            {OPCODE_IDENTIFY, ATTACHED_TO, IDENTIFY_BYTES, list_controllers},
            {OPCODE_IDENTIFY, CONTROLLERS, IDENTIFY_BYTES, list_controllers},
            {OPCODE_GET_LOG, LOG_OF_FIRMWARE, 512, list_firmware},
            {OPCODE_GET_LOG, LOG_OF_CHANGES, 4 * MOST_NSID, list_changes},
            {0}};

/* (a part of a log, or what lies behind it, can be asked for) */
int supplied(const struct asked *asked, const unsigned char *entry, unsigned char page[IDENTIFY_BYTES]) {
    unsigned char whole[IDENTIFY_BYTES] = {0};
    const struct row *row = rows;
    while (row->answer && (row->opcode != entry[0] || row->selector != entry[40]))
        row++;
    if (!row->answer)
        return NOT_SUPPLIED;
    int is_log = row->opcode == OPCODE_GET_LOG;
    uint64_t from = is_log ? number_at(entry + 48, 8) : 0;
    if (is_log && (from % 4 || from > row->size || (nsid_of(entry) != 0 && nsid_of(entry) != EVERY_NSID)))
        return INVALID_FIELD;
    int status = row->answer(asked, entry, whole);
    memset(page, 0, IDENTIFY_BYTES);
    memcpy(page, whole + from, row->size - from);
    return status;
}
