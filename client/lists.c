/* The lists of devices that the command's /proc has in place of the kernel's. They have the machine's character
   devices, and of block devices the model's alone. None of this is proved. */
#include "launcher.h"

/* (in place of counts of what was read and written, which nobody makes) */
#define NO_COUNTS "0 0 0 0 0 0 0 0 0 0 0 0 0 0 0 0 0"

/* Begins to replace a list, which has its old text until it has the new one. */
static FILE *begin_list(const char *name) {
    char path[PATH_MAX];
    snprintf(path, sizeof path, SETTINGS "/%s", name);
    int file = open(path, O_WRONLY | O_CREAT | O_CLOEXEC, 0644);
    FILE *list = file < 0 || fchmod(file, 0644) < 0 ? NULL : fdopen(file, "w");
    if (!list)
        fail_by_errno(path);
    return list;
}

static void end_list(FILE *list) {
    if (fflush(list) != 0 || ftruncate(fileno(list), ftell(list)) < 0)
        cannot(SETTINGS);
    fclose(list);
}

void list_devices(void) {
    char line[256];
    FILE *kernel = fopen("/proc/devices", "re"), *list = begin_list("devices");
    while (kernel && fgets(line, sizeof line, kernel) && strncmp(line, "\n", 2) != 0)
        if (!strstr(line, " nvme"))
            fputs(line, list);
    if (kernel)
        fclose(kernel);
    fprintf(list, "%d nvme\n%d nvme-generic\n\nBlock devices:\n%d blkext\n", CONTROLLER_MAJOR, GENERIC_MAJOR,
            BLOCK_MAJOR);
    end_list(list);
}

/* Waits until no other keeper has its turn, or ends it, by a type of lock. (Nobody else can have this lock.) */
static void take_turn(short type) {
    static int turn;
    turn = turn ?: open(MODEL_FOLDER, O_TMPFILE | O_RDWR | O_CLOEXEC, 0600);
    fcntl(turn, F_SETLKW, &(struct flock){.l_type = type});
}

static void list_namespaces(FILE *partitions, FILE *counts, unsigned controller) {
    struct node node = {.controller = controller};
    struct volume volume;
    for (node.number = 1; node.number <= MOST_NSID; node.number++) {
        unsigned minor = minor_of('b', controller, node.number);
        if (!find_namespace(&node) || !read_volume(&node, &volume))
            continue;
        fprintf(partitions, " %d %8u %10ju nvme%un%u\n", BLOCK_MAJOR, minor, volume.blocks << volume.power >> 10,
                controller, node.number);
        fprintf(counts, " %d %7u nvme%un%u " NO_COUNTS "\n", BLOCK_MAJOR, minor, controller, node.number);
    }
}

void list_blocks(void) {
    take_turn(F_WRLCK);
    FILE *partitions = begin_list("partitions"), *counts = begin_list("diskstats");
    fprintf(partitions, "major minor  #blocks  name\n\n");
    for (struct device *device = devices; device < devices + device_count; device++)
        for (unsigned at = device->first; at < device->first + device->count; at++)
            list_namespaces(partitions, counts, at);
    end_list(partitions);
    end_list(counts);
    take_turn(F_UNLCK);
}
