/* The processes that work for the launcher. The launcher itself, which passes signals on, waits for nobody: calls are
   received by helpers, each of which looks at the memory and at the files of the process that made a call, as that
   process could (calls.c), and waits where it would. Each device has a keeper, which alone exchanges requests with it
   and makes its nodes (device.c, nodes.c), and which helpers ask. They share memory, by which they tell each other what
   is to be done. Each has a session of its own, so that no signal of a terminal's keys or of a process group reaches
   it. None of this is proved. */
#include "launcher.h"
#include <linux/futex.h>
#include <poll.h>
#include <sys/eventfd.h>
#include <sys/mman.h>
#include <sys/syscall.h>

/* The most helpers. (They are fewer if there are no addresses for the data of so many.) */
enum { LEAST_ROOM = 8, MOST_HELPERS = 512 };

enum { ASKING = 1 };
struct helper {
    pid_t process;       /* 0 if there is none */
    _Atomic int state;   /* of its request: ASKING, until the keeper wakes it, and then 0, or -1 if the device is gone */
    struct request_header request;
    struct answer_header answer;
    union notice notice; /* the call that it answers, whose identifier is 0 until it has one */
    unsigned char data[MOST_DATA]; /* of its request */
};

static struct helper *helpers, *self; /* (`self` only in a helper) */
static unsigned most_helpers = MOST_HELPERS;
static _Atomic unsigned *helper_count; /* (which they share too) */
static int needed; /* where the last helper without a call tells that it has one */

unsigned await_files(const int *files, unsigned count, int milliseconds) {
    struct pollfd events[3];
    unsigned ready = 0;
    for (unsigned at = 0; at < count; at++)
        events[at] = (struct pollfd){.fd = files[at], .events = POLLIN};
    if (poll(events, count, milliseconds) > 0)
        for (unsigned at = 0; at < count; at++)
            ready |= (unsigned)(events[at].revents != 0) << at;
    return ready;
}

static void *map(size_t size) {
    return mmap(NULL, size, PROT_READ | PROT_WRITE, MAP_SHARED | MAP_ANONYMOUS | MAP_NORESERVE, -1, 0);
}

void *share(size_t size) {
    void *memory = map(size);
    if (memory == MAP_FAILED)
        fail_by_errno("memory can't be shared");
    return memory;
}

static struct helper *end(void) { return helpers + *helper_count; }

/* ---- keepers */

/* Carries out the request of a helper. */
static void serve(struct device *device, struct helper *helper) {
    struct request_header request = helper->request;
    int result = serve_keeper(device, &request);
    helper->state = result == NOT_OURS ? carry_out(&request, helper->data, &helper->answer) : result;
    syscall(SYS_futex, &helper->state, FUTEX_WAKE, 1, NULL, NULL, 0);
}

static void start_keeper(struct device *device) {
    int watcher = watch_nodes();
    pid_t process = must(fork(), "fork");
    if (process > 0) {
        device->keeper = process;
        close(watcher);
        return;
    }
    setsid();
    for (;;) {
        const int files[] = {device->asks[0], device->state == LOST ? -1 : device->to_and_from, watcher};
        unsigned ready = await_files(files, 3, -1), place;
        if (ready & 1 && read(files[0], &place, sizeof place) == sizeof place)
            serve(device, helpers + place);
        if (ready & 2)
            lose_device(device);
        if (ready & 4)
            repair_files(device);
    }
}

const struct answer_header *ask_keeper(const struct request_header *header) {
    const struct device *device = device_of(header->controller);
    const unsigned place = (unsigned)(self - helpers);
    if (device->state == LOST)
        return NULL;
    self->request = *header;
    self->state = ASKING;
    (void)!write(device->asks[1], &place, sizeof place);
    while (self->state == ASKING)
        syscall(SYS_futex, &self->state, FUTEX_WAIT, ASKING, NULL, NULL, 0);
    return self->state == 0 ? &self->answer : NULL;
}

int ask_controller(unsigned controller, uint16_t kind, uint32_t length) {
    const struct request_header header = {.controller = (uint16_t)controller, .kind = kind, .length = length};
    return ask_keeper(&header) ? 0 : -ENXIO;
}

void *own_data(void) { return self->data; }

/* ---- helpers */

/* Whether a helper waits for a call. (The kernel stores the identifier of a call as it gives it to the helper.) */
static int is_idle(const struct helper *helper) {
    return helper->process > 0 && __atomic_load_n(&helper->notice.got.id, __ATOMIC_SEQ_CST) == 0;
}

static int is_any_idle(void) {
    const struct helper *helper = helpers;
    while (helper < end() && !is_idle(helper))
        helper++;
    return helper < end();
}

/* Answers calls, one after another. The last helper that there can be, which is started if all others are at work,
   refuses one, so that none is left for which nobody is there. */
__attribute__((noreturn)) static void help(struct helper *helper) {
    self = helper;
    setsid();
    for (;;) {
        while (!receive_call(&helper->notice))
            usleep(1000); /* (who made the call has ended, or all have) */
        __atomic_thread_fence(__ATOMIC_SEQ_CST); /* (of two that come at once, one sees the other) */
        if (!is_any_idle())
            eventfd_write(needed, 1);
        if (helper == helpers + most_helpers - 1) {
            finish_call(&helper->notice, -EAGAIN);
            _exit(0);
        }
        answer_call(&helper->notice);
    }
}

/* Kills the helpers whose callers no longer wait. */
static void drop_helpers(void) {
    for (struct helper *helper = helpers; helper < end(); helper++)
        if (helper->process > 0 && !is_idle(helper) && !is_alive(helper->notice.got.id))
            kill(helper->process, SIGKILL);
}

/* Starts a helper, in the place of one that has ended or beside the others, and returns whether it could. If there is
   only the last place, those that work for nobody end. */
static int add_helper(void) {
    struct helper *place = helpers, *last = helpers + most_helpers - 1;
    while (place < end() && (place->process != 0 || place->state == ASKING))
        place++;
    if (place >= last)
        drop_helpers();
    if (place > last)
        return 0;
    if (place == end())
        ++*helper_count;
    pid_t process = fork();
    if (process == 0)
        help(place);
    place->process = process > 0 ? process : 0;
    return process > 0;
}

/* (a helper that can't be started now may be able to later) */
unsigned await_signals(int signals, int others) {
    enum { PATIENCE = 10 };
    int is_short = !is_any_idle() && !add_helper();
    unsigned ready = await_files((const int[]){signals, others, needed}, 3, is_short ? PATIENCE : -1);
    if (ready & 4)
        eventfd_read(needed, &(eventfd_t){0});
    return ready;
}

/* (the call of a helper that was killed may have been done, and a keeper may still do what it asked for) */
void note_end(pid_t process) {
    for (struct helper *helper = helpers; helper < end(); helper++)
        if (helper->process == process) {
            if (!is_idle(helper))
                finish_call(&helper->notice, -EIO);
            helper->process = 0;
            helper->notice.got.id = 0;
        }
    for (struct device *device = devices; device < devices + device_count; device++)
        if (device->keeper == process)
            fail("the process that talks with a device was killed");
}

void begin_helpers(void) {
    while ((helpers = map(most_helpers * sizeof *helpers)) == MAP_FAILED && most_helpers > LEAST_ROOM)
        most_helpers /= 2;
    if (helpers == MAP_FAILED)
        fail_by_errno("memory can't be shared");
    helper_count = share(sizeof *helper_count);
    needed = eventfd(0, EFD_CLOEXEC | EFD_NONBLOCK);
    for (unsigned at = 0; at < device_count; at++)
        start_keeper(devices + at);
    if (!add_helper())
        fail_by_errno("fork");
}
