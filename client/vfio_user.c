/* The protocol vfio-user, by which QEMU 10.1 and later, and other programs, use a PCI function of another process: a
   message is a header and a payload, in little-endian numbers. Nothing that a client sends is trusted. */
#include "function.h"

enum { VERSION = 1, DMA_MAP, DMA_UNMAP, DEVICE_INFO, REGION_INFO, IRQ_INFO = 7, SET_IRQS, REGION_READ, REGION_WRITE };
enum { RESET = 13, COMMANDS };
/* The flags of messages, of the device, of memory and regions, of interrupts, and of SET_IRQS. */
enum { KIND = 15, IS_ANSWER = 1, WANTS_NONE = 0x10, IS_ERROR = 0x20, CAN_RESET = 1, IS_PCI = 2 };
enum { MAY_READ = 1, MAY_WRITE = 2, UNMAP_ALL = 2, HAS_COUNTER = 1, IS_MASKABLE = 2, MASKS_ITSELF = 4, IS_FIXED = 8 };
enum { WITH_NONE = 1, WITH_COUNTER = 4, MASK = 8, UNMASK = 0x10, TRIGGER = 0x20 };
/* The regions and interrupts of a PCI function, and which this one has. */
enum { REGIONS = 9, BAR_REGION = 0, CONFIG_REGION = 7, INTERRUPTS = 5, BY_PIN = 0, BY_MSI = 1, BY_MSIX = 2 };

/* The sizes of the commands' payloads, of which two can be longer. */
static const uint32_t payload_sizes[COMMANDS] = {
    [VERSION] = 4,   [DMA_MAP] = 32,  [DMA_UNMAP] = 24,   [DEVICE_INFO] = 16, [REGION_INFO] = 32,
    [IRQ_INFO] = 16, [SET_IRQS] = 20, [REGION_READ] = 16, [REGION_WRITE] = 16};

static uint64_t length(const unsigned char *header) {
    uint32_t size = number_at(header + 4, 4), kind = number_at(header + 8, 4) & KIND;
    return size >= HEADER && size <= MOST_MESSAGE && kind == 0 ? size : 0;
}

/* The functions for commands make the answer's payload, and return its size, or minus the number of an error. */
static int tell_version(unsigned char *payload, uint32_t size) {
    static const char version[] =
        "\0\0\0\0{\"capabilities\":{\"max_msg_fds\":8,\"max_data_xfer_size\":16384,\"max_dma_maps\":256}}";
    static_assert(MOST_FILES == 8 && MOST_ACCESS == 16384 && MOST_SECTIONS == 256, "the version tells the limits");
    if (number_at(payload, 2) != 0 || (size > 4 && payload[size - 1] != '\0'))
        return -EINVAL;
    memcpy(payload, version, sizeof version);
    return sizeof version;
}

/* (The flags are those of mmap, 1 to read and 2 to write.) */
static int map(struct function *function, const unsigned char *payload) {
    uint32_t flags = number_at(payload + 4, 4);
    struct section section = {number_at(payload + 16, 8), number_at(payload + 24, 8), number_at(payload + 8, 8),
                              .access = (int)flags};
    if ((flags != PROT_READ && flags != (PROT_READ | PROT_WRITE)) || function->files.count > 1)
        return -EINVAL;
    return -add_section(function, section, function->files.at);
}

/* (All sections at once have a flag of their own, and the size 0.) */
static int unmap(struct function *function, const unsigned char *payload) {
    uint64_t size = number_at(payload + 16, 8);
    int is_valid = number_at(payload + 4, 4) == (size > 0 ? 0 : UNMAP_ALL);
    int fault = is_valid ? drop_sections(function, number_at(payload + 8, 8), size) : EINVAL;
    return fault ? -fault : 24;
}

static int tell_region(unsigned char *payload) {
    static const uint32_t sizes[REGIONS] = {[BAR_REGION] = BAR_SIZE, [CONFIG_REGION] = CONFIG_SIZE};
    uint32_t index = number_at(payload + 8, 4), size = index < REGIONS ? sizes[index] : 0;
    const uint32_t words[] = {32, size ? MAY_READ | MAY_WRITE : 0, index, 0, size, 0, 0, 0};
    return index < REGIONS ? (int)put_dwords(payload, words, 8) : -EINVAL;
}

/* Returns how many interrupts of a kind there are. */
static uint32_t count_of(const struct function *function, uint32_t index) {
    return index == BY_MSIX ? function->vectors : index < BY_MSIX;
}

static int tell_interrupt(const struct function *function, unsigned char *payload) {
    static const uint32_t flags[] = {HAS_COUNTER | IS_MASKABLE | MASKS_ITSELF, HAS_COUNTER | IS_FIXED, HAS_COUNTER};
    uint32_t index = number_at(payload + 8, 4), is_known = index <= BY_MSIX;
    const uint32_t words[] = {16, is_known ? flags[index] : 0, index, count_of(function, index)};
    return is_known ? (int)put_dwords(payload, words, 4) : -EINVAL;
}

/* Binds or unbinds event counters, all of a kind if the count is 0, or masks or unmasks the pin. */
static int set_interrupts(struct function *function, const unsigned char *payload) {
    uint32_t flags = number_at(payload + 4, 4), index = number_at(payload + 8, 4), first = number_at(payload + 12, 4);
    uint32_t count = number_at(payload + 16, 4), most = count_of(function, index);
    struct files *files = &function->files;
    int none = -1, are_valid = files->count == 0 || (files->count == count && flags & WITH_COUNTER);
    for (unsigned at = 0; at < files->count; at++)
        are_valid &= is_counter(files->at[at]);
    if (first >= most || count > most - first || !are_valid)
        return -EINVAL;
    if (flags == (TRIGGER | (count ? WITH_COUNTER : WITH_NONE)))
        for (uint32_t at = first; at < (count ? first + count : most); at++)
            set_counter(function, (index == BY_PIN ? PIN : 0) + at, files->count ? files->at + (at - first) : &none);
    else if (flags == (UNMASK | WITH_COUNTER) && index == BY_PIN && count)
        set_counter(function, SEEN, files->at);
    else if ((flags == (MASK | WITH_NONE) || flags == (UNMASK | WITH_NONE)) && index == BY_PIN && count)
        function->mask = flags == (MASK | WITH_NONE) ? BY_CLIENT : UNMASKED;
    else
        return -EINVAL;
    return 0;
}

static int use_region(struct function *function, unsigned char *payload, uint32_t size, int is_write) {
    uint32_t region = number_at(payload + 8, 4), count = number_at(payload + 12, 4);
    if ((region != BAR_REGION && region != CONFIG_REGION) || size != 16 + (is_write ? count : 0) ||
        !use(function, region == CONFIG_REGION, number_at(payload, 8), count, payload + 16, is_write))
        return -EINVAL;
    return 16 + (is_write ? 0 : (int)count);
}

static int serve_command(struct function *function, uint32_t command, unsigned char *payload, uint32_t size) {
    static const uint32_t device[] = {16, CAN_RESET | IS_PCI, REGIONS, INTERRUPTS};
    uint32_t wanted = command < COMMANDS ? payload_sizes[command] : 0;
    if (wanted == 0 && command != RESET)
        return -ENOTSUP;
    if (size < wanted || (size > wanted && command != VERSION && command != REGION_WRITE))
        return -EINVAL;
    return command == VERSION       ? tell_version(payload, size)
           : command == DMA_MAP     ? map(function, payload)
           : command == DMA_UNMAP   ? unmap(function, payload)
           : command == DEVICE_INFO ? (int)put_dwords(payload, device, 4)
           : command == REGION_INFO ? tell_region(payload)
           : command == IRQ_INFO    ? tell_interrupt(function, payload)
           : command == SET_IRQS    ? set_interrupts(function, payload)
           : command == RESET       ? (reset(function), 0)
                                    : use_region(function, payload, size, command == REGION_WRITE);
}

static uint32_t serve(struct function *function) {
    unsigned char *message = function->message;
    uint32_t command = number_at(message + 2, 2), size = number_at(message + 4, 4), flags = number_at(message + 8, 4);
    int result = function->files.has_lost ? -EMFILE : serve_command(function, command, message + HEADER, size - HEADER);
    uint32_t error = result < 0 ? (uint32_t)-result : 0;
    const uint32_t words[] = {HEADER + (error ? 0 : (uint32_t)result), IS_ANSWER | (error ? IS_ERROR : 0), error};
    put_dwords(message + 4, words, 3);
    return flags & WANTS_NONE ? 0 : words[0];
}

const struct protocol vfio_user = {length, serve};
