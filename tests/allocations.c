/* Preloaded into a program: counts its allocations, and refuses the one with the number REFUSE, counted from 1. At the
   end it writes the number of allocations, and the greatest number of bytes that were allocated at once, to the file
   CALLS. If REFUSE is two numbers, as 1/4, each allocation whose number gives this rest is refused in a process of its
   own, which goes on from there and writes nothing. The file then begins with a line for each, of its number and how
   that process ended: its status, or a negative number of a signal. */
#define _GNU_SOURCE
#include <dlfcn.h>
#include <fcntl.h>
#include <malloc.h>
#include <stdio.h>
#include <stdlib.h>
#include <sys/wait.h>
#include <unistd.h>

static unsigned long calls, refused, step, held, most;
static int told = -1;

/* Writes a line of two numbers to the file. (Other ways to write it allocate memory.) */
static void tell(unsigned long one, long other) {
    char line[64];
    (void)!write(told, line, (size_t)snprintf(line, sizeof line, "%lu %ld\n", one, other));
}

__attribute__((constructor)) static void begin(void) {
    const char *text = getenv("REFUSE"), *name = getenv("CALLS");
    told = name ? open(name, O_WRONLY | O_CREAT | O_TRUNC, 0666) : -1;
    if (text)
        sscanf(text, "%lu/%lu", &refused, &step);
    calls = 0;
}

__attribute__((destructor)) static void end(void) {
    step = 0;
    if (told >= 0)
        tell(calls, (long)most);
}

/* Whether an allocation is refused in this process. */
static int is_refused(void) {
    int how;
    calls++;
    if (step == 0 || calls % step != refused)
        return step == 0 && calls == refused;
    pid_t process = fork();
    if (process == 0) {
        int nothing = open("/dev/null", O_WRONLY);
        dup2(nothing, STDOUT_FILENO);
        dup2(nothing, STDERR_FILENO);
        told = -1;
        step = refused = 0;
        return 1;
    }
    if (process < 0 || waitpid(process, &how, 0) < 0)
        abort();
    tell(calls, WIFEXITED(how) ? WEXITSTATUS(how) : -WTERMSIG(how));
    return 0;
}

static void *found(const char *name) { return dlsym(RTLD_NEXT, name); }

static void *with(void *new) {
    held += malloc_usable_size(new);
    if (held > most)
        most = held;
    return new;
}

void *malloc(size_t size) {
    static void *(*next)(size_t);
    if (!next)
        next = found("malloc");
    return is_refused() ? NULL : with(next(size));
}

void *realloc(void *old, size_t size) {
    static void *(*next)(void *, size_t);
    size_t before = malloc_usable_size(old);
    void *new;
    if (!next)
        next = found("realloc");
    if (is_refused() || !(new = next(old, size)))
        return NULL;
    held -= before;
    return with(new);
}

void free(void *old) {
    static void (*next)(void *);
    if (!next)
        next = found("free");
    held -= malloc_usable_size(old);
    next(old);
}
