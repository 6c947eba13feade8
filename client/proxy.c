/* The protocol of QEMU's x-pci-proxy-dev, on a little-endian machine: a message has a kind, a size and a body of this
   size. Only QEMU speaks here, so a message that isn't valid ends this process. */
#include "function.h"

enum { MEMORY, ANSWER, CONFIG_WRITE, CONFIG_READ, BAR_WRITE, BAR_READ, INTERRUPT, RESET, KINDS };
static const uint64_t body_sizes[KINDS] = {
    [MEMORY] = 192, [CONFIG_WRITE] = 12, [CONFIG_READ] = 12, [BAR_WRITE] = 24, [BAR_READ] = 24};

static uint64_t length(const unsigned char *header) {
    uint64_t kind = number_at(header, 4), size = number_at(header + 8, 8);
    return kind < KINDS && kind != ANSWER && size == body_sizes[kind] ? HEADER + size : 0;
}

/* Takes the memory anew: eight addresses, sizes and offsets. If a section isn't valid, there is none. */
static void set_memory(struct function *function, const unsigned char *body) {
    int fault = drop_sections(function, 0, 0) | function->files.has_lost;
    for (unsigned at = 0; at < function->files.count && !fault; at++) {
        struct section section = {number_at(body + 8 * at, 8), number_at(body + 64 + 8 * at, 8),
                                  number_at(body + 128 + 8 * at, 8), .access = PROT_READ | PROT_WRITE};
        fault = add_section(function, section, function->files.at + at);
    }
    if (fault)
        drop_sections(function, 0, 0);
}

static void set_interrupt(struct function *function) {
    struct files *files = &function->files;
    int are_valid = files->count == 2 && is_counter(files->at[0]) && is_counter(files->at[1]), none = -1;
    set_counter(function, PIN, are_valid ? files->at : &none);
    set_counter(function, SEEN, are_valid ? files->at + 1 : &none);
}

/* Reads or writes by an address and a value, of 32 bits for the configuration and of 64 for registers, and a length. */
static uint64_t use_value(struct function *function, uint32_t kind, unsigned char *body) {
    int is_config = kind == CONFIG_WRITE || kind == CONFIG_READ, is_write = kind == CONFIG_WRITE || kind == BAR_WRITE;
    unsigned width = is_config ? 4 : 8;
    uint64_t address = is_config ? number_at(body, 4) : number_at(body, 8) % BAR_SIZE;
    uint64_t count = number_at(body + 2 * width, 4);
    if (!is_write)
        memset(body + width, 0, width);
    if (count <= width)
        use(function, is_config, address, count, body + width, is_write);
    return is_write ? 0 : number_at(body + width, width);
}

static uint32_t serve(struct function *function) {
    uint32_t kind = (uint32_t)number_at(function->message, 4);
    unsigned char *body = function->message + HEADER;
    uint64_t value = 0;
    if (kind == MEMORY)
        set_memory(function, body);
    else if (kind == INTERRUPT)
        set_interrupt(function);
    else if (kind == RESET)
        reset(function);
    else
        value = use_value(function, kind, body);
    uint32_t words[] = {ANSWER, 0, sizeof value, 0, (uint32_t)value, (uint32_t)(value >> 32)};
    return kind == MEMORY || kind == INTERRUPT ? 0 : put_dwords(function->message, words, 6);
}

const struct protocol proxy = {length, serve};
