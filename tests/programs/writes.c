/* Changes the length of a node, and writes in it and past its end: writes NODE */
#include <errno.h>
#include <fcntl.h>
#include <stdio.h>
#include <unistd.h>

int main(int count, char **words) {
    int file = open(words[count - 1], O_RDWR | O_TRUNC);
    printf("%d ", file >= 0 && ftruncate(file, 9) < 0 && errno == EINVAL);
    printf("%d\n", truncate(words[1], 9) < 0 && errno == EINVAL);
    return pwrite(file, "s", 1, 1) < 0 || pwrite(file, "s", 1, 9999) < 0;
}
