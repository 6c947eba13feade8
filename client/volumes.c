/* The data of namespaces. It lies in files without names, which take memory only for what was written, or in a folder,
   where it stays. The proved turns of I/O queues work in the files, where they are mapped. So before a turn that
   writes, the part of the file gets memory, and a turn for which a page is lost nevertheless, as from a file that
   another program cut, counts as not taken. None of this is proved. */
#define _GNU_SOURCE
#include "function.h"
#include <sys/file.h>
#include <sys/stat.h>

enum { MOST_NAME = 40, LBA_FORMATS = 128, FLBAS = 26, IS_EXTENDED = 0x10, SECTOR = 512 };

static const char *folder_name;
static int folder = -1;
static uint64_t limit, all_used;
static struct volume *in_use;         /* the volume that the turn that goes on may touch, or NULL */
static unsigned char *copied;         /* a copy of a part of it that is lent in its place, or NULL */
static volatile sig_atomic_t is_lost; /* whether it touched a page that couldn't be had */

/* Keeps the data in a folder, if one is named. All of it takes no more than this; 0 stands for what is usual. */
void prepare_data(const char *name, uint64_t most) {
    uint64_t memory = (uint64_t)sysconf(_SC_PHYS_PAGES) * SMALL_PAGE;
    limit = most > 0 ? most : name ? UINT64_MAX : memory / 4;
    folder_name = name;
    if (name && (folder = open(name, O_RDONLY | O_DIRECTORY | O_CLOEXEC)) < 0)
        err(FAILED, "%s", name);
}

static void count_used(struct volume *volume) {
    struct stat about = {.st_blocks = 0};
    if (volume->file >= 0)
        fstat(volume->file, &about);
    all_used += (uint64_t)about.st_blocks * SECTOR - volume->used;
    volume->used = (uint64_t)about.st_blocks * SECTOR;
}

/* ---- volumes */

/* Takes the data that a folder has kept, if there is any. If it doesn't fit the subsystem, someone has to decide what
   is right. */
static int open_kept(const char *name, const struct volume *volume) {
    struct stat about;
    int file = openat(folder, name, O_RDWR | O_NOFOLLOW | O_NONBLOCK | O_CLOEXEC);
    if (file < 0 && errno == ENOENT)
        return -1;
    if (!volume->is_there)
        errx(FAILED, "%s/%s: the subsystem file has no such namespace", folder_name, name);
    if (file < 0 || fstat(file, &about) < 0)
        err(FAILED, "%s/%s", folder_name, name);
    if (!S_ISREG(about.st_mode) || flock(file, LOCK_EX | LOCK_NB) < 0)
        errx(FAILED, "%s/%s is in use, or not a file", folder_name, name);
    if (about.st_size > 0 && (uint64_t)about.st_size != volume->size)
        errx(FAILED, "%s/%s: the file has %ju bytes, and the namespace %ju", folder_name, name,
             (uintmax_t)about.st_size, (uintmax_t)volume->size);
    return file;
}

/* Makes the data of a new namespace. (Of such a name there is no other file, or it isn't this program's.) */
static int open_new(const char *name) {
    if (folder < 0)
        return memfd_create(name, MFD_CLOEXEC);
    int file = openat(folder, name, O_RDWR | O_CREAT | O_EXCL | O_CLOEXEC, 0600);
    return file >= 0 && flock(file, LOCK_EX | LOCK_NB) < 0 ? -1 : file;
}

/* Maps the file of a volume, in the place where it is mapped already, if it is, but not for receivers. */
static void map_file(struct volume *volume) {
    int how = MAP_SHARED | MAP_NORESERVE | (volume->bytes ? MAP_FIXED : 0);
    void *bytes = mmap(volume->bytes, volume->size, PROT_READ | PROT_WRITE, how, volume->file, 0);
    volume->bytes = bytes != MAP_FAILED && madvise(bytes, volume->size, MADV_DONTFORK) == 0 ? bytes : NULL;
}

/* Has nothing left of a volume. (Its file is cut, because a receiver may still have it open.) */
static void free_volume(struct volume *volume, const char *name) {
    if (volume->bytes)
        munmap(volume->bytes, volume->size);
    if (volume->file >= 0 && ftruncate(volume->file, 0) == 0 && folder >= 0)
        unlinkat(folder, name, 0);
    count_used(volume);
    close(volume->file);
}

/* Makes or frees the data of a namespace, as the controllers have it now. Data that was formatted is zeros. (A
   folder gets no file before a start can't fail for other reasons.) */
void follow_namespace(struct subsystem *subsystem, uint32_t nsid, enum moment moment) {
    struct volume *volume = subsystem->volumes + nsid, now = {.file = -1};
    unsigned char about[IDENTIFY_BYTES] = {0};
    char name[MOST_NAME];
    snprintf(name, sizeof name, "subsystem%u.namespace%u", subsystem->number, nsid);
    nvme_machine_namespace(subsystem->machine, 0, nsid, 0, about);
    const unsigned char *format = about + LBA_FORMATS + 4 * (about[FLBAS] & 15);
    now.is_there = number_at(about, 8) > 0;
    if (now.is_there == volume->is_there && moment != AT_START && moment != AFTER_FORMAT)
        return;
    if (volume->is_there)
        free_volume(volume, name);
    now.block_size = (1U << (format[2] & 31)) + (about[FLBAS] & IS_EXTENDED ? (uint32_t)number_at(format, 2) : 0);
    if (__builtin_mul_overflow(number_at(about, 8), now.block_size, &now.size) || now.size > INT64_MAX)
        now.size = INT64_MAX;
    if (moment == AT_START && folder >= 0)
        now.file = open_kept(name, &now);
    else if (now.is_there && (now.file = open_new(name)) < 0 && moment == AFTER_START)
        err(FAILED, "%s/%s", folder_name ?: "memory", name);
    now.is_there &= now.file >= 0 || moment != AT_START;
    if (now.file >= 0 && ftruncate(now.file, (off_t)now.size) == 0)
        map_file(&now);
    if (now.is_there && !now.bytes)
        warn("there is no data for namespace %u", nsid);
    count_used(&now);
    *volume = now;
}

/* ---- what a turn uses */

/* Returns how many bytes of a part's pages are in holes of the file. (A file is asked where data is, page by page: it
   would look through all of its data to find a hole.) */
static uint64_t missing(const struct volume *volume, const nvme_range *part) {
    uint64_t at = part->offset - part->offset % SMALL_PAGE, end = part->offset + part->length, count = 0;
    while (at < end) {
        off_t data = lseek(volume->file, (off_t)at, SEEK_DATA);
        uint64_t next = data < 0 || (uint64_t)data > end ? end : (uint64_t)data;
        count += next - at;
        at = next > at ? next : at + SMALL_PAGE;
    }
    return count + -count % SMALL_PAGE;
}

/* Has memory or room on a disk for a part of the data. Returns whether there is enough. (What can't be reserved there,
   is found by the turn.) */
int reserve(struct volume *volume, const nvme_range *part) {
    uint64_t count = missing(volume, part);
    if (count == 0)
        return 1;
    if (count > limit || all_used > limit - count)
        return 0;
    int is_done = fallocate(volume->file, FALLOC_FL_KEEP_SIZE, (off_t)part->offset, (off_t)part->length) == 0 ||
                  errno == EOPNOTSUPP;
    count_used(volume);
    return is_done;
}

/* Sets a part of the data to zeros, which then takes no memory. Returns whether it could. */
int set_zeros(struct volume *volume, const nvme_range *part) {
    int how = FALLOC_FL_PUNCH_HOLE | FALLOC_FL_KEEP_SIZE;
    int is_done = part->length == 0 || fallocate(volume->file, how, (off_t)part->offset, (off_t)part->length) == 0;
    count_used(volume);
    return is_done;
}

/* Lends the data for a turn. If it only reads this part, and that isn't all there, a copy of the part is lent, because
   a file in memory would take more of it. */
unsigned char *begin_use(struct volume *volume, const nvme_range *part) {
    int how = MAP_PRIVATE | MAP_ANONYMOUS | MAP_NORESERVE;
    in_use = volume;
    if (!part || folder >= 0 || missing(volume, part) == 0)
        return volume->bytes;
    void *copy = mmap(NULL, volume->size, PROT_READ | PROT_WRITE, how, -1, 0);
    if (copy == MAP_FAILED)
        return volume->bytes;
    copied = copy;
    is_lost |= pread(volume->file, copied + part->offset, part->length, (off_t)part->offset) != (ssize_t)part->length;
    return copied;
}

/* Ends the use of the data. Returns whether all of it could be read and written. */
int end_use(void) {
    int is_whole = !is_lost;
    if (copied)
        munmap(copied, in_use->size);
    if (is_lost)
        map_file(in_use);
    in_use = NULL;
    copied = NULL;
    is_lost = 0;
    return is_whole;
}

/* Puts an empty page in the place of one of the data that couldn't be had. Returns whether it is one. */
int replace_lost(uintptr_t place) {
    int how = MAP_PRIVATE | MAP_ANONYMOUS | MAP_FIXED;
    if (!in_use || place - (uintptr_t)in_use->bytes >= in_use->size)
        return 0;
    is_lost = 1;
    place -= place % SMALL_PAGE;
    return mmap((void *)place, SMALL_PAGE, PROT_READ | PROT_WRITE, how, -1, 0) != MAP_FAILED;
}
