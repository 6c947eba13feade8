/* Preloaded into the launcher, one of whose calls then fails as if the kernel had no memory for it: CALL is the name of
   a program, that of a function, and a number, as in `launcher fork 2`. In each process of this program, the calls of
   the function are counted from `main` on, together with those that its parent made before it. When the call fails, the
   file FAILED is made. */
#define _GNU_SOURCE
#include <dlfcn.h>
#include <errno.h>
#include <fcntl.h>
#include <glob.h>
#include <stdio.h>
#include <stdlib.h>
#include <string.h>
#include <sys/syscall.h>
#include <unistd.h>

static char function[64]; /* nothing before `main` and in other programs */
static unsigned left;
static int (*begin)(int, char **, char **);

static int begin_counting(int count, char **words, char **variables) {
    char program[64];
    const char *call = getenv("CALL");
    if (call && sscanf(call, "%63s %63s %u", program, function, &left) == 3 &&
        strcmp(program, program_invocation_short_name) != 0)
        *function = '\0';
    return begin(count, words, variables);
}

int __libc_start_main(int (*main)(int, char **, char **), int count, char **words, void (*init)(void),
                      void (*fini)(void), void (*rtld_fini)(void), void *end) {
    __typeof__(__libc_start_main) *next = (__typeof__(next))dlsym(RTLD_NEXT, "__libc_start_main");
    begin = main;
    return next(begin_counting, count, words, init, fini, rtld_fini, end);
}

static int fails(const char *name) {
    if (strcmp(name, function) != 0 || left == 0 || --left > 0)
        return 0;
    syscall(SYS_close, syscall(SYS_open, getenv("FAILED"), O_CREAT, 0666));
    errno = ENOMEM;
    return 1;
}

/* (every argument is a number or an address, and no function has more) */
#define FAILS_AS(symbol, name, result)                                                                                 \
    long of_##symbol(long, long, long, long, long, long, long) __asm__(#symbol);                                       \
    long of_##symbol(long a, long b, long c, long d, long e, long f, long g) {                                         \
        static long (*next)(long, long, long, long, long, long, long);                                                 \
        if (!next)                                                                                                     \
            next = (__typeof__(next))dlsym(RTLD_NEXT, #symbol);                                                        \
        return fails(#name) ? result : next(a, b, c, d, e, f, g);                                                      \
    }
#define FAILS(name, result) FAILS_AS(name, name, result)

/* (what the compiler calls in the place of a function) */
FAILS_AS(__asprintf_chk, asprintf, -1)
FAILS_AS(__getdelim, getline, -1)
FAILS_AS(__read_chk, read, -1)
FAILS_AS(__readlink_chk, readlink, -1)
FAILS(access, -1)
FAILS(asprintf, -1)
FAILS(chdir, -1)
FAILS(dup, -1)
FAILS(dup2, -1)
FAILS(close_range, -1)
FAILS(fchmod, -1)
FAILS(fdopen, 0)
FAILS(fopen, 0)
FAILS(fork, -1)
FAILS(fstat, -1)
FAILS(ftruncate, -1)
FAILS(getdelim, -1)
FAILS(glob, GLOB_NOSPACE)
FAILS(inotify_add_watch, -1)
FAILS(inotify_init1, -1)
FAILS(mmap, -1)
FAILS(mount, -1)
FAILS(open, -1)
FAILS(pipe2, -1)
FAILS(prctl, -1)
FAILS(pthread_create, ENOMEM)
FAILS(read, -1)
FAILS(readlink, -1)
FAILS(realloc, 0)
FAILS(reallocarray, 0)
FAILS(signalfd, -1)
FAILS(socketpair, -1)
FAILS(stat, -1)
FAILS(statx, -1)
FAILS(strdup, 0)
FAILS(write, -1)
