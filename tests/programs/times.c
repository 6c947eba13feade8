/* Prints how long it takes to open a file for reading and for writing, and an ioctl of a node: the most that the
   quickest tenth of many calls take, in microseconds: times FILE */
#include <fcntl.h>
#include <stdio.h>
#include <stdlib.h>
#include <sys/ioctl.h>
#include <time.h>
#include <unistd.h>

enum { COUNT = 5000, READ = 0, WRITE = 1, ASK = 2 };

static double took[COUNT];

static double now(void) {
    struct timespec time;
    clock_gettime(CLOCK_MONOTONIC, &time);
    return (double)time.tv_sec * 1e6 + (double)time.tv_nsec / 1e3;
}

static int order(const void *one, const void *other) {
    double difference = *(const double *)one - *(const double *)other;
    return difference < 0 ? -1 : difference > 0;
}

int main(int count, char **words) {
    static const char *const names[] = {"read", "write", "ioctl"};
    int node = open("/dev/nvme0", O_RDONLY);
    close(open(words[count - 1], O_RDWR | O_CREAT, 0666));
    for (int what = READ; what <= ASK; what++) {
        for (int at = 0; at < COUNT; at++) {
            double begun = now();
            int file = what == ASK ? ioctl(node, 0x4e40) : open(words[count - 1], what == WRITE ? O_WRONLY : O_RDONLY);
            took[at] = now() - begun;
            if (what != ASK && (file < 0 || close(file) < 0))
                return 1;
        }
        qsort(took, COUNT, sizeof *took, order);
        printf("%s %.1f\n", names[what], took[COUNT / 10]);
    }
    return 0;
}
