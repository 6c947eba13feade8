/* A library with which a process waits a moment before it writes a message. */
#define _GNU_SOURCE
#include <stdio.h>
#include <unistd.h>

/* (a compiler may write one of these for the other) */
int fputs(const char *text, FILE *file) {
    usleep(300000);
    return fputs_unlocked(text, file);
}

size_t fwrite(const void *text, size_t size, size_t count, FILE *file) {
    usleep(300000);
    return fwrite_unlocked(text, size, count, file);
}
