/* Takes an open file from another process (pidfd_getfd), and prints what this gives. */
#include <errno.h>
#include <stdio.h>
#include <sys/syscall.h>
#include <unistd.h>

int main(void) {
    int taken = (int)syscall(438, -1, 0, 0);
    return printf("%d %d\n", taken, errno) < 0;
}
