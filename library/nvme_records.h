/* The entries, records and numbers of the NVM Express 1.4 commands that the library of nvme_controller.h carries out.
 * This header needs no other, and can be used without the library.
 *
 * Each structure has the bytes of a table of the standard, with the standard's short names for its fields. Bytes that
 * are marked as reserved here have no meaning to these controllers: they ignore them in an entry, and report them as 0.
 * All numbers are little-endian, as those of an x86-64 machine are. Those of 16 bytes are two of 8, the lower one
 * first, and those at an odd offset are bytes, the lowest first. Copy a structure into memory, or out of it, with
 * `memcpy`. */
#ifndef NVME_RECORDS_H
#define NVME_RECORDS_H

#include <stddef.h>
#include <stdint.h>

/* Refuses to compile unless a field is at its offset, or a structure has its size. */
#if defined(__cplusplus)
#define NVME_HOLDS(name, condition) static_assert(condition, #condition)
#elif defined(__STDC_VERSION__) && __STDC_VERSION__ >= 201112L
#define NVME_HOLDS(name, condition) _Static_assert(condition, #condition)
#else
#define NVME_HOLDS(name, condition) typedef char nvme_holds_##name[(condition) ? 1 : -1]
#endif
#define NVME_SIZE(record, bytes) NVME_HOLDS(record, sizeof(struct record) == (bytes))
#define NVME_AT(record, field, offset) NVME_HOLDS(record##_##field, offsetof(struct record, field) == (offset))

/* ---- Numbers */

/* Opcodes of admin commands. All others are refused with NVME_STATUS_INVALID_COMMAND_OPCODE. */
enum {
    NVME_OPCODE_GET_LOG_PAGE = 0x02,
    NVME_OPCODE_IDENTIFY = 0x06,
    NVME_OPCODE_SET_FEATURES = 0x09,
    NVME_OPCODE_GET_FEATURES = 0x0a,
    NVME_OPCODE_NAMESPACE_MANAGEMENT = 0x0d,
    NVME_OPCODE_NAMESPACE_ATTACHMENT = 0x15,
    NVME_OPCODE_FORMAT_NVM = 0x80
};

/* Opcodes of I/O commands, which nvme_queue_turn performs. All others are refused in the same way. */
enum {
    NVME_IO_FLUSH = 0x00,
    NVME_IO_WRITE = 0x01,
    NVME_IO_READ = 0x02,
    NVME_IO_COMPARE = 0x05,
    NVME_IO_WRITE_ZEROES = 0x08,
    NVME_IO_DATASET_MANAGEMENT = 0x09,
    NVME_IO_VERIFY = 0x0c
};

/* Opcodes of admin commands for I/O queues, which a program completes in a controller's place. */
enum {
    NVME_QUEUE_DELETE_SUBMISSION = 0x00,
    NVME_QUEUE_CREATE_SUBMISSION = 0x01,
    NVME_QUEUE_DELETE_COMPLETION = 0x04,
    NVME_QUEUE_CREATE_COMPLETION = 0x05
};

/* What Identify returns, in bits 7:0 of its dword 10 (CNS). */
enum {
    NVME_IDENTIFY_NAMESPACE = 0x00,            /* struct nvme_identify_namespace */
    NVME_IDENTIFY_CONTROLLER = 0x01,           /* struct nvme_identify_controller */
    NVME_IDENTIFY_ACTIVE_NAMESPACES = 0x02,    /* struct nvme_namespace_list, of the NSIDs above that of the entry */
    NVME_IDENTIFY_ALLOCATED_NAMESPACES = 0x10, /* the same of all namespaces, attached to a controller or not */
    NVME_IDENTIFY_ALLOCATED_NAMESPACE = 0x11   /* struct nvme_identify_namespace, attached or not */
};

/* What to do, in bits 3:0 of dword 10 (SEL). */
enum { NVME_NAMESPACE_CREATE = 0, NVME_NAMESPACE_DELETE = 1 };
enum { NVME_NAMESPACE_ATTACH = 0, NVME_NAMESPACE_DETACH = 1 };

/* Log identifiers, in bits 7:0 of dword 10 of Get Log Page. */
enum {
    NVME_LOG_ERROR_INFORMATION = 0x01,         /* struct nvme_error_entry, one after another */
    NVME_LOG_SMART_HEALTH = 0x02               /* struct nvme_smart_health */
};

/* Feature identifiers, in bits 7:0 of dword 10 of Get Features and Set Features. */
enum {
    NVME_FEATURE_ARBITRATION = 0x01,
    NVME_FEATURE_POWER_MANAGEMENT = 0x02,
    NVME_FEATURE_TEMPERATURE_THRESHOLD = 0x04,
    NVME_FEATURE_ERROR_RECOVERY = 0x05,
    NVME_FEATURE_VOLATILE_WRITE_CACHE = 0x06,
    NVME_FEATURE_INTERRUPT_COALESCING = 0x08,
    NVME_FEATURE_WRITE_ATOMICITY_NORMAL = 0x0a,
    NVME_FEATURE_ASYNCHRONOUS_EVENT_CONFIGURATION = 0x0b
};

/* The value that Get Features selects, in bits 10:8 of its dword 10 (SEL). */
enum {
    NVME_SELECT_CURRENT = 0,
    NVME_SELECT_DEFAULT = 1,
    NVME_SELECT_SAVED = 2,
    NVME_SELECT_CAPABILITIES = 3
};

/* Status codes with their type in bits 10:8, as NVME_CODE takes them out of a status. */
enum {
    NVME_STATUS_SUCCESS = 0x000,
    NVME_STATUS_INVALID_COMMAND_OPCODE = 0x001,
    NVME_STATUS_INVALID_FIELD_IN_COMMAND = 0x002,
    NVME_STATUS_DATA_TRANSFER_ERROR = 0x004,
    NVME_STATUS_INVALID_NAMESPACE_OR_FORMAT = 0x00b,
    NVME_STATUS_PRP_OFFSET_INVALID = 0x013,
    NVME_STATUS_LBA_OUT_OF_RANGE = 0x080,
    NVME_STATUS_CAPACITY_EXCEEDED = 0x081,
    NVME_STATUS_INVALID_LOG_PAGE = 0x109,
    NVME_STATUS_INVALID_FORMAT = 0x10a,
    NVME_STATUS_FEATURE_IDENTIFIER_NOT_SAVEABLE = 0x10d,
    NVME_STATUS_FEATURE_NOT_CHANGEABLE = 0x10e,
    NVME_STATUS_FEATURE_NOT_NAMESPACE_SPECIFIC = 0x10f,
    NVME_STATUS_NAMESPACE_INSUFFICIENT_CAPACITY = 0x115,
    NVME_STATUS_NAMESPACE_IDENTIFIER_UNAVAILABLE = 0x116,
    NVME_STATUS_NAMESPACE_ALREADY_ATTACHED = 0x118,
    NVME_STATUS_NAMESPACE_IS_PRIVATE = 0x119,
    NVME_STATUS_NAMESPACE_NOT_ATTACHED = 0x11a,
    NVME_STATUS_THIN_PROVISIONING_NOT_SUPPORTED = 0x11b,
    NVME_STATUS_CONTROLLER_LIST_INVALID = 0x11c,
    NVME_STATUS_COMPARE_FAILURE = 0x285
};

/* The other bits of a status: More and Do Not Retry. */
enum { NVME_STATUS_MORE = 0x2000, NVME_STATUS_DO_NOT_RETRY = 0x4000 };

/* The phase tag and the status of the last word of a completion or the status word of an error log entry, and the code
 * of a status. */
#define NVME_PHASE(word) ((word) & 1)
#define NVME_STATUS(word) ((uint16_t)(word) >> 1)
#define NVME_CODE(status) ((status) & 0x7ff)

/* The NSID that stands for all namespaces. */
#define NVME_EVERY_NAMESPACE UINT32_C(0xffffffff)

/* ---- Entries */

struct nvme_submission_entry {
    uint8_t opcode;
    uint8_t flags;                             /* FUSE in bits 1:0 and PSDT in bits 7:6, which must be 0 */
    uint16_t cid;
    uint32_t nsid;
    uint8_t reserved_8[8];
    uint64_t mptr;
    uint64_t prp1;
    uint64_t prp2;
    uint32_t cdw10;
    uint32_t cdw11;
    uint32_t cdw12;
    uint32_t cdw13;
    uint32_t cdw14;
    uint32_t cdw15;
};
NVME_SIZE(nvme_submission_entry, 64);
NVME_AT(nvme_submission_entry, opcode, 0);
NVME_AT(nvme_submission_entry, flags, 1);
NVME_AT(nvme_submission_entry, cid, 2);
NVME_AT(nvme_submission_entry, nsid, 4);
NVME_AT(nvme_submission_entry, mptr, 16);
NVME_AT(nvme_submission_entry, prp1, 24);
NVME_AT(nvme_submission_entry, prp2, 32);
NVME_AT(nvme_submission_entry, cdw10, 40);
NVME_AT(nvme_submission_entry, cdw11, 44);
NVME_AT(nvme_submission_entry, cdw12, 48);
NVME_AT(nvme_submission_entry, cdw13, 52);
NVME_AT(nvme_submission_entry, cdw14, 56);
NVME_AT(nvme_submission_entry, cdw15, 60);

struct nvme_completion_entry {
    uint32_t command_specific;                 /* dword 0 */
    uint8_t reserved_4[4];
    uint16_t sq_head;
    uint16_t sq_identifier;
    uint16_t cid;
    uint16_t status_and_phase;                 /* NVME_STATUS and NVME_PHASE */
};
NVME_SIZE(nvme_completion_entry, 16);
NVME_AT(nvme_completion_entry, command_specific, 0);
NVME_AT(nvme_completion_entry, sq_head, 8);
NVME_AT(nvme_completion_entry, sq_identifier, 10);
NVME_AT(nvme_completion_entry, cid, 12);
NVME_AT(nvme_completion_entry, status_and_phase, 14);

/* ---- Records */

struct nvme_identify_controller {
    uint16_t vid;
    uint16_t ssvid;
    char sn[20];                               /* this, mn and fr: filled up with spaces, without a zero byte */
    char mn[40];
    char fr[8];
    uint8_t rab;
    uint8_t ieee[3];
    uint8_t cmic;
    uint8_t mdts;
    uint16_t cntlid;
    uint32_t ver;
    uint8_t reserved_84[172];
    uint16_t oacs;
    uint8_t reserved_258[2];
    uint8_t frmw;
    uint8_t lpa;
    uint8_t elpe;
    uint8_t npss;
    uint8_t reserved_264[2];
    uint16_t wctemp;
    uint16_t cctemp;
    uint8_t reserved_270[10];
    uint64_t tnvmcap[2];
    uint64_t unvmcap[2];
    uint8_t reserved_312[200];
    uint8_t sqes;
    uint8_t cqes;
    uint8_t reserved_514[2];
    uint32_t nn;
    uint16_t oncs;
    uint8_t reserved_522[2];
    uint8_t fna;
    uint8_t vwc;
    uint8_t reserved_526[242];
    char subnqn[256];                          /* filled up with zero bytes */
    uint8_t reserved_1024[3072];
};
NVME_SIZE(nvme_identify_controller, 4096);
NVME_AT(nvme_identify_controller, vid, 0);
NVME_AT(nvme_identify_controller, ssvid, 2);
NVME_AT(nvme_identify_controller, sn, 4);
NVME_AT(nvme_identify_controller, mn, 24);
NVME_AT(nvme_identify_controller, fr, 64);
NVME_AT(nvme_identify_controller, rab, 72);
NVME_AT(nvme_identify_controller, ieee, 73);
NVME_AT(nvme_identify_controller, cmic, 76);
NVME_AT(nvme_identify_controller, mdts, 77);
NVME_AT(nvme_identify_controller, cntlid, 78);
NVME_AT(nvme_identify_controller, ver, 80);
NVME_AT(nvme_identify_controller, oacs, 256);
NVME_AT(nvme_identify_controller, frmw, 260);
NVME_AT(nvme_identify_controller, lpa, 261);
NVME_AT(nvme_identify_controller, elpe, 262);
NVME_AT(nvme_identify_controller, npss, 263);
NVME_AT(nvme_identify_controller, wctemp, 266);
NVME_AT(nvme_identify_controller, cctemp, 268);
NVME_AT(nvme_identify_controller, tnvmcap, 280);
NVME_AT(nvme_identify_controller, unvmcap, 296);
NVME_AT(nvme_identify_controller, sqes, 512);
NVME_AT(nvme_identify_controller, cqes, 513);
NVME_AT(nvme_identify_controller, nn, 516);
NVME_AT(nvme_identify_controller, oncs, 520);
NVME_AT(nvme_identify_controller, fna, 524);
NVME_AT(nvme_identify_controller, vwc, 525);
NVME_AT(nvme_identify_controller, subnqn, 768);

struct nvme_lba_format {
    uint16_t ms;
    uint8_t lbads;
    uint8_t rp;
};
NVME_SIZE(nvme_lba_format, 4);
NVME_AT(nvme_lba_format, ms, 0);
NVME_AT(nvme_lba_format, lbads, 2);
NVME_AT(nvme_lba_format, rp, 3);

struct nvme_identify_namespace {
    uint64_t nsze;
    uint64_t ncap;
    uint64_t nuse;
    uint8_t nsfeat;
    uint8_t nlbaf;
    uint8_t flbas;
    uint8_t mc;
    uint8_t dpc;
    uint8_t dps;
    uint8_t nmic;
    uint8_t reserved_31[17];
    uint64_t nvmcap[2];
    uint8_t reserved_64[64];
    struct nvme_lba_format lbafs[16];
    uint8_t reserved_192[3904];
};
NVME_SIZE(nvme_identify_namespace, 4096);
NVME_AT(nvme_identify_namespace, nsze, 0);
NVME_AT(nvme_identify_namespace, ncap, 8);
NVME_AT(nvme_identify_namespace, nuse, 16);
NVME_AT(nvme_identify_namespace, nsfeat, 24);
NVME_AT(nvme_identify_namespace, nlbaf, 25);
NVME_AT(nvme_identify_namespace, flbas, 26);
NVME_AT(nvme_identify_namespace, mc, 27);
NVME_AT(nvme_identify_namespace, dpc, 28);
NVME_AT(nvme_identify_namespace, dps, 29);
NVME_AT(nvme_identify_namespace, nmic, 30);
NVME_AT(nvme_identify_namespace, nvmcap, 48);
NVME_AT(nvme_identify_namespace, lbafs, 128);

struct nvme_namespace_list {
    uint32_t nsids[1024];                      /* ascending, and then zeros */
};
NVME_SIZE(nvme_namespace_list, 4096);

/* What the host sends to create a namespace. */
struct nvme_new_namespace {
    uint64_t nsze;
    uint64_t ncap;
    uint8_t reserved_16[10];
    uint8_t flbas;
    uint8_t reserved_27[2];
    uint8_t dps;
    uint8_t nmic;
    uint8_t reserved_31[4065];
};
NVME_SIZE(nvme_new_namespace, 4096);
NVME_AT(nvme_new_namespace, nsze, 0);
NVME_AT(nvme_new_namespace, ncap, 8);
NVME_AT(nvme_new_namespace, flbas, 26);
NVME_AT(nvme_new_namespace, dps, 29);
NVME_AT(nvme_new_namespace, nmic, 30);

/* What the host sends to attach a namespace or to detach it. */
struct nvme_controller_list {
    uint16_t count;
    uint16_t cntlids[2047];                    /* ascending, and then zeros */
};
NVME_SIZE(nvme_controller_list, 4096);
NVME_AT(nvme_controller_list, count, 0);
NVME_AT(nvme_controller_list, cntlids, 2);

struct nvme_error_entry {
    uint64_t count;
    uint16_t sqid;
    uint16_t cid;
    uint16_t status_and_phase;                 /* NVME_STATUS */
    uint16_t location;
    uint64_t lba;
    uint32_t nsid;
    uint8_t vendor;
    uint8_t reserved_29[3];
    uint64_t specific;
    uint8_t reserved_40[24];
};
NVME_SIZE(nvme_error_entry, 64);
NVME_AT(nvme_error_entry, count, 0);
NVME_AT(nvme_error_entry, sqid, 8);
NVME_AT(nvme_error_entry, cid, 10);
NVME_AT(nvme_error_entry, status_and_phase, 12);
NVME_AT(nvme_error_entry, location, 14);
NVME_AT(nvme_error_entry, lba, 16);
NVME_AT(nvme_error_entry, nsid, 24);
NVME_AT(nvme_error_entry, vendor, 28);
NVME_AT(nvme_error_entry, specific, 32);

struct nvme_smart_health {
    uint8_t critical_warning;
    uint8_t temperature[2];                    /* Kelvin */
    uint8_t avail_spare;
    uint8_t spare_thresh;
    uint8_t percent_used;
    uint8_t reserved_6[26];
    uint64_t data_units_read[2];
    uint64_t data_units_written[2];
    uint64_t host_read_commands[2];
    uint64_t host_write_commands[2];
    uint64_t controller_busy_time[2];
    uint64_t power_cycles[2];
    uint64_t power_on_hours[2];
    uint64_t unsafe_shutdowns[2];
    uint64_t media_errors[2];
    uint64_t num_err_log_entries[2];
    uint32_t warning_temp_time;
    uint32_t critical_comp_time;
    uint16_t sensors[8];                       /* Kelvin */
    uint8_t reserved_216[296];
};
NVME_SIZE(nvme_smart_health, 512);
NVME_AT(nvme_smart_health, critical_warning, 0);
NVME_AT(nvme_smart_health, temperature, 1);
NVME_AT(nvme_smart_health, avail_spare, 3);
NVME_AT(nvme_smart_health, spare_thresh, 4);
NVME_AT(nvme_smart_health, percent_used, 5);
NVME_AT(nvme_smart_health, data_units_read, 32);
NVME_AT(nvme_smart_health, data_units_written, 48);
NVME_AT(nvme_smart_health, host_read_commands, 64);
NVME_AT(nvme_smart_health, host_write_commands, 80);
NVME_AT(nvme_smart_health, controller_busy_time, 96);
NVME_AT(nvme_smart_health, power_cycles, 112);
NVME_AT(nvme_smart_health, power_on_hours, 128);
NVME_AT(nvme_smart_health, unsafe_shutdowns, 144);
NVME_AT(nvme_smart_health, media_errors, 160);
NVME_AT(nvme_smart_health, num_err_log_entries, 176);
NVME_AT(nvme_smart_health, warning_temp_time, 192);
NVME_AT(nvme_smart_health, critical_comp_time, 196);
NVME_AT(nvme_smart_health, sensors, 200);

#undef NVME_AT
#undef NVME_SIZE
#undef NVME_HOLDS

#endif
