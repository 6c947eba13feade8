/* The devices: their start, and the exchange with them, one request after another. A device has its streams and its
   subsystem file, and can make only the calls that its program needs (filter.c), as could any other program that it
   became. None of this is proved. */
#include "launcher.h"
#include <poll.h>
#include <sys/socket.h>

int takes_line(int file) {
    enum { PATIENCE = 2000 };
    static int is_stuck;
    struct pollfd room = {.fd = file, .events = POLLOUT};
    is_stuck = is_stuck || poll(&room, 1, PATIENCE) <= 0;
    return !is_stuck;
}

/* Transfers all bytes. Returns 0, or -1 if no more can be transferred. */
static int move_all(int file, void *at, size_t size, int outwards) {
    ssize_t count = 1;
    while (size > 0 && (count = outwards ? write(file, at, size) : read(file, at, size)) > 0) {
        at = (char *)at + count;
        size -= (size_t)count;
    }
    return size > 0 ? -1 : 0;
}

/* Copies a line of a device. That of a trace begins with a controller, whose number among all devices' controllers
   replaces its own. The first time that it can't be written is reported, in whatever process. */
static void copy_line(const struct device *device, const char *line) {
    const int output = options.trace_file ? TRACE_TO : STDERR_FILENO;
    unsigned number;
    int behind = 0;
    if (sscanf(line, "nvme%u %n", &number, &behind) != 1 || behind == 0) {
        dprintf(STDERR_FILENO, "%s", line);
        return;
    }
    await_room(output);
    if (dprintf(output, "nvme%u %s", number + device->first, line + behind) < 0 && !devices->failures++)
        fprintf(stderr, "nvme-model: the trace can't be written: %s\n", strerror(errno));
}

/* Copies what a device wrote to its standard error so far, in whole lines. */
static void copy_said(struct device *device) {
    char line[4096];
    while (fgets(line, sizeof line, device->said))
        copy_line(device, line);
    clearerr(device->said);
}

/* Reports that a device is lost, before anybody can see it. A device that doesn't even start reports the reason itself.
 */
void lose_device(struct device *device) {
    if (device->state != ANSWERING)
        return;
    copy_said(device);
    fputs("nvme-model: the device ended, or answered what was not asked\n", stderr);
    lose_nodes(device);
    device->state = LOST;
}

/* (the answer has at most as many bytes of data as were asked for, and none if data was sent) */
int exchange(struct device *device, const struct request_header *header, void *data, struct answer_header *answer) {
    uint32_t sent = header->kind == KIND_ENTRY && header->entry[0] & 1 ? header->length : 0;
    uint32_t most = sent > 0 ? 0 : header->length;
    if (device->state == LOST || move_all(device->to_and_from, (void *)header, sizeof *header, 1) < 0 ||
        move_all(device->to_and_from, data, sent, 1) < 0 ||
        move_all(device->to_and_from, answer, sizeof *answer, 0) < 0 || answer->length > most ||
        move_all(device->to_and_from, data, answer->length, 0) < 0) {
        lose_device(device);
        return -1;
    }
    copy_said(device);
    return 0;
}

/* (a controller's number among all controllers is replaced by that among those of its device) */
int carry_out(struct request_header *header, void *data, struct answer_header *answer) {
    struct device *device = device_of(header->controller);
    header->controller -= (uint16_t)device->first;
    int result = supply(device, header, data, answer) ? 0 : exchange(device, header, data, answer);
    if (device->state == LOST)
        return -1;
    if (result == 0)
        look_for_changes(device, header, answer);
    return result;
}

/* Ends the launcher because a device can't start, with the reason that the device told, and the file that has it. */
__attribute__((noreturn)) static void fail_by_device(struct device *device, const char *name) {
    static const char subject[] = "subsystem: ", number[] = "geometry: ";
    const char *line = last_line(device->said, "nvme-device: ");
    if (name && strncmp(line, subject, strlen(subject)) == 0)
        fail("%s: %s", name, line + strlen(subject));
    if (strncmp(line, number, strlen(number)) == 0)
        fail_by_number(line + strlen(number));
    fail("%s", *line ? line : "the device ended before it answered");
}

/* Runs a device's program in a session of its own, so that signals from the terminal's keys don't end it. It ends
   when the launcher does, with its input. */
static void run_device(int file, int in_and_out, int said) {
    const int files[] = {in_and_out, in_and_out, said, file};
    int last = STDERR_FILENO + (file >= 0), is_ready = 1;
    setsid();
    for (int number = 0; number <= last; number++)
        is_ready &= dup2(files[number], number) >= 0;
    if (is_ready && close_range((unsigned)last + 1, ~0U, CLOSE_RANGE_CLOEXEC) == 0 && confine_device() == 0)
        execv(options.device_words[0], options.device_words);
    dprintf(STDERR_FILENO, "%s: %s\n", options.device_words[0], strerror(errno));
    _exit(FAILED);
}

/* (the list of controller 0 also says how many controllers there are) */
void start_device(int file, const char *name) {
    int channel[2], said[2];
    struct device *device = devices + device_count++;
    struct request_header header = {.kind = KIND_LIST};
    struct answer_header answer;
    if (socketpair(AF_UNIX, SOCK_STREAM | SOCK_CLOEXEC, 0, channel) < 0 ||
        socketpair(AF_UNIX, SOCK_STREAM | SOCK_CLOEXEC, 0, said) < 0 || pipe2(device->asks, O_CLOEXEC) < 0 ||
        fcntl(said[0], F_SETFL, O_NONBLOCK) < 0 || !(device->said = fdopen(said[0], "r")))
        fail_by_errno("a device can't be started");
    device->to_and_from = channel[0];
    if (device_count > 1)
        device->first = device[-1].first + device[-1].count;
    const pid_t process = must(fork(), "fork");
    if (process == 0) {
        sigprocmask(SIG_SETMASK, &blocked, NULL);
        run_device(file, channel[1], said[1]);
    }
    close(channel[1]);
    close(said[1]);
    close(file);
    if (exchange(device, &header, NULL, &answer) < 0)
        fail_by_device(device, name);
    device->count = answer.dword_0;
    if (device->count == 0 || device->first + device->count > MOST_CONTROLLERS)
        fail("the device does not answer as it should");
    device->state = ANSWERING;
}
