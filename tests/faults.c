/* Preloaded into a program. A read from standard input returns at most MOST_READ bytes, and the one with the number
   FAIL_READ, counted from 1, fails like that of a broken device. A write to standard output or standard error takes at
   most MOST_WRITE bytes. Those to standard output from the number FAIL_1 on fail too, and so does the one to standard
   error with the number FAIL_2; the one with the number INTERRUPT_1 or INTERRUPT_2 is interrupted. What isn't in the
   environment doesn't happen, and everything else goes to the C library. If such a call never comes, the program ends
   with status 99. */
#define _GNU_SOURCE
#include <dlfcn.h>
#include <errno.h>
#include <stdlib.h>
#include <unistd.h>

static unsigned long reads, writes[3];

static unsigned long named(const char *name) {
    const char *text = getenv(name);
    return text ? strtoul(text, NULL, 10) : 0;
}

static size_t limited(size_t size, unsigned long most) {
    return most && most < size ? most : size;
}

ssize_t read(int file, void *into, size_t size) {
    static ssize_t (*next)(int, void *, size_t);
    if (!next)
        next = dlsym(RTLD_NEXT, "read");
    if (file == 0 && ++reads == named("FAIL_READ")) {
        errno = EIO;
        return -1;
    }
    return next(file, into, file == 0 ? limited(size, named("MOST_READ")) : size);
}

ssize_t write(int file, const void *from, size_t size) {
    static ssize_t (*next)(int, const void *, size_t);
    if (!next)
        next = dlsym(RTLD_NEXT, "write");
    if (file != 1 && file != 2)
        return next(file, from, size);
    unsigned long number = ++writes[file];
    if (file == 1 ? named("FAIL_1") && number >= named("FAIL_1") : number == named("FAIL_2")) {
        errno = EIO;
        return -1;
    }
    if (number == named(file == 1 ? "INTERRUPT_1" : "INTERRUPT_2")) {
        errno = EINTR;
        return -1;
    }
    return next(file, from, limited(size, named("MOST_WRITE")));
}

/* (calls of write whose size is checked are linked to this one) */
ssize_t __write(int file, const void *from, size_t size) { return write(file, from, size); }

__attribute__((destructor)) static void end(void) {
    if (reads < named("FAIL_READ") || writes[1] < named("FAIL_1") || writes[2] < named("FAIL_2") ||
        writes[1] < named("INTERRUPT_1") || writes[2] < named("INTERRUPT_2"))
        _exit(99);
}
