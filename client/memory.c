/* The memory of a virtual machine. A turn of a controller works in memory that nothing else may write meanwhile, but
   the guest's processors go on. So the library is lent addresses without memory. Where it touches a page, a fault
   brings a copy of the guest's, and what changed is written back after the turn. The guest's memory is a file that is
   mapped here, and whose pages can be taken away at any time. As on a PC's bus, what isn't there reads as FFh, and
   loses what is written. None of this is proved. */
#define _GNU_SOURCE
#include "function.h"
#include <setjmp.h>
#include <stdatomic.h>
#include <sys/stat.h>

/* More pages than an entry touches, how many are kept at least for the next turn, how many are brought at once, and how
   the lent addresses are mapped. */
enum { MOST_PAGES = 768, LEAST_KEPT = 4, MOST_RUN = 16, LENT = MAP_PRIVATE | MAP_ANONYMOUS | MAP_NORESERVE };

static unsigned char *lent;                          /* the addresses that are lent, from the guest's 0 on */
static const struct function *user;                  /* the function that has its turn, or had the last one */
static uint64_t pages[MOST_PAGES];                   /* the pages that it has touched */
static unsigned char before[MOST_PAGES][SMALL_PAGE]; /* and what the guest's held at the beginning of the turn */
static unsigned page_count, kept_count; /* of these, and of those among them that are there from former turns */
static uint64_t expected;               /* the page behind those that were brought last, in this turn */
static uint64_t slot;                   /* where the next completion goes */
static volatile sig_atomic_t is_copying;
static sigjmp_buf copying;

static const struct section *section_at(const struct function *function, uint64_t address) {
    for (const struct section *at = function->sections; at < function->sections + function->section_count; at++)
        if (at->bytes && address >= at->address && address - at->address < at->size)
            return at;
    return NULL;
}

/* Copies bytes of one page from or to a file. Returns whether it has the page. */
static int copy(unsigned char *to, const unsigned char *from, size_t length) {
    is_copying = 1;
    if (sigsetjmp(copying, 0) != 0)
        return is_copying = 0;
    memcpy(to, from, length);
    atomic_signal_fence(memory_order_seq_cst);
    is_copying = 0;
    return 1;
}

/* Writes bytes of one page of the guest, after all that was written before. */
static void store(uint64_t address, const unsigned char *bytes, size_t length) {
    const struct section *at = section_at(user, address);
    atomic_thread_fence(memory_order_release);
    if (at && at->access & PROT_WRITE)
        copy(at->bytes + (address - at->address), bytes, length);
}

/* Copies one of the pages from the guest's. */
static void load(unsigned number) {
    unsigned char *page = lent + pages[number];
    const struct section *at = section_at(user, pages[number]);
    if (!at || !copy(page, at->bytes + (pages[number] - at->address), SMALL_PAGE))
        memset(page, 0xff, SMALL_PAGE);
    memcpy(before[number], page, SMALL_PAGE);
}

/* Returns how many pages are to be brought from one on: more, if those before it were touched one after the other. */
static unsigned run_at(uint64_t page) {
    static unsigned run;
    unsigned count = 1;
    run = page == expected ? 4 * run : 1;
    run = run < MOST_RUN ? run : MOST_RUN;
    while (count < run && page_count + count < MOST_PAGES && page + count * SMALL_PAGE < MOST_MEMORY)
        count++;
    for (unsigned number = 0; number < page_count; number++)
        if (pages[number] > page && (pages[number] - page) / SMALL_PAGE < count)
            count = (unsigned)((pages[number] - page) / SMALL_PAGE);
    expected = page + count * SMALL_PAGE;
    return count;
}

/* Brings the page that was touched, or ends a copy with a page that the file lacks. Any other fault is fatal. */
static void bring(int number, siginfo_t *about, __attribute__((unused)) void *context) {
    uint64_t place = (uintptr_t)about->si_addr - (uintptr_t)lent, page = place - place % SMALL_PAGE;
    if (number == SIGBUS && is_copying)
        siglongjmp(copying, 1);
    if (number == SIGBUS && replace_lost((uintptr_t)about->si_addr))
        return;
    unsigned count = place < MOST_MEMORY && page_count < MOST_PAGES ? run_at(page) : 0;
    int how = LENT | MAP_FIXED | MAP_POPULATE;
    if (count == 0 || mmap(lent + page, count * SMALL_PAGE, PROT_READ | PROT_WRITE, how, -1, 0) == MAP_FAILED)
        signal(number, SIG_DFL);
    for (; count > 0; count--, page += SMALL_PAGE) {
        pages[page_count] = page;
        load(page_count++);
    }
}

void reserve_memory(void) {
    struct sigaction faults = {.sa_sigaction = bring, .sa_flags = SA_SIGINFO | SA_NODEFER};
    lent = mmap(NULL, MOST_MEMORY, PROT_NONE, LENT, -1, 0);
    if (lent == MAP_FAILED || sysconf(_SC_PAGESIZE) != SMALL_PAGE)
        err(FAILED, "128 GiB of addresses, in pages of 4,096 bytes");
    sigaction(SIGSEGV, &faults, NULL);
    sigaction(SIGBUS, &faults, NULL);
}

/* Adds a section, and takes the descriptor of its file if a controller can reach it: then the file is mapped, but not
   for receivers. Returns 0 or the number of an error. (A file that a receiver has passed on has a size.) */
int add_section(struct function *function, struct section section, int *file) {
    uint64_t last = section.address + section.size - 1, bits = section.address | section.size | section.offset;
    struct stat about;
    if (bits % SMALL_PAGE != 0 || section.size == 0 || last < section.address)
        return EINVAL;
    for (const struct section *at = function->sections; at < function->sections + function->section_count; at++)
        if (section.address <= at->address + at->size - 1 && at->address <= last)
            return EEXIST;
    if (function->section_count == MOST_SECTIONS)
        return ENOSPC;
    if (*file >= 0 && (fstat(*file, &about) < 0 || (uint64_t)about.st_size < section.size ||
                       (uint64_t)about.st_size - section.size < section.offset))
        return EINVAL;
    if (*file >= 0 && last < MOST_MEMORY) {
        section.bytes = mmap(NULL, section.size, section.access, MAP_SHARED, *file, (off_t)section.offset);
        if (section.bytes == MAP_FAILED || madvise(section.bytes, section.size, MADV_DONTFORK) < 0)
            return errno;
        section.file = *file;
        *file = -1;
    }
    function->sections[function->section_count++] = section;
    return 0;
}

/* Drops a section, or all if the size is 0. Returns 0 or the number of an error. */
int drop_sections(struct function *function, uint64_t address, uint64_t size) {
    struct section *to = function->sections, *end = function->sections + function->section_count;
    for (struct section *at = function->sections; at < end; at++)
        if (size > 0 && (at->address != address || at->size != size))
            *to++ = *at;
        else if (at->bytes) {
            munmap(at->bytes, at->size);
            let_go(function, &at->file);
        }
    function->section_count = to - function->sections;
    return size > 0 && to == end ? ENOENT : 0;
}

/* Lends a function's memory for calls of the library about the next entry of a queue and the slot of its completion, or
   no pages if one of them isn't in memory. Of the pages of former calls, theirs are kept, and as many of the latest
   ones as the last turn touched anew, or all, if it touched none. */
struct memory lend(const struct function *function, const struct submissions *from) {
    const nvme_completion_queue *to = &function->drive.completions[from->completions].queue;
    uint64_t entry = from->queue.base + from->queue.fetched % (from->queue.depth ?: 1) * 64u;
    uint32_t page = page_size(function);
    unsigned touched = page_count - kept_count, wanted = touched > LEAST_KEPT ? touched : LEAST_KEPT;
    unsigned kept = 0, surplus = touched > 0 && page_count > wanted ? page_count - wanted : 0, count;
    slot = to->base + to->posted % (to->depth ?: 1) * 16u;
    for (unsigned number = 0; number < page_count; number += count) {
        uint64_t first = pages[number], next = first;
        for (count = 0; count < surplus && number + count < page_count && pages[number + count] == next; count++) {
            if (next == entry - entry % SMALL_PAGE || next == slot - slot % SMALL_PAGE)
                break;
            next += SMALL_PAGE;
        }
        if (count == 0 || mmap(lent + first, next - first, PROT_NONE, LENT | MAP_FIXED, -1, 0) == MAP_FAILED) {
            pages[kept++] = first;
            count = 1;
        } else
            surplus -= count;
    }
    page_count = kept_count = kept;
    expected = MOST_MEMORY;
    user = function;
    for (unsigned number = 0; number < page_count; number++)
        load(number);
    int is_there = section_at(function, entry) && section_at(function, slot);
    return (struct memory){lent, is_there ? MOST_MEMORY / page : 0, page};
}

/* Writes what the calls changed, of each page from the first byte to the last one. The completion comes after all data,
   and its phase tag at the end. */
void give_back(void) {
    unsigned char completion[16];
    memcpy(completion, lent + slot, sizeof completion);
    for (unsigned at = 0; at < page_count; at++) {
        const unsigned char *now = lent + pages[at], *was = before[at];
        if (pages[at] == slot - slot % SMALL_PAGE)
            memcpy(lent + slot, was + slot % SMALL_PAGE, sizeof completion);
        size_t first = 0, end = memcmp(now, was, SMALL_PAGE) == 0 ? 0 : SMALL_PAGE;
        while (first < end && now[first] == was[first])
            first++;
        while (first < end && now[end - 1] == was[end - 1])
            end--;
        store(pages[at] + first, now + first, end - first);
    }
    store(slot, completion, 12);
    store(slot + 12, completion + 12, 4);
}
