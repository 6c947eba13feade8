/* Prints what two ioctls tell of a node, its NSID and its size: asks NODE */
#include <fcntl.h>
#include <stdio.h>
#include <sys/ioctl.h>

int main(int count, char **words) {
    int file = open(words[count - 1], O_RDWR);
    long long size = 0;
    int nsid = ioctl(file, 0x4e40), told = ioctl(file, 0x80081272, &size);
    printf("%d %d %lld\n", nsid, told, size);
    return 0;
}
