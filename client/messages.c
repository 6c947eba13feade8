/* The messages of a function's client, with which it may send any descriptors. Who closes the last one of a file or
   socket can have to wait, so this process takes none itself. If any come, it has the client's receiver take the bytes:
   a process that passes on event counters and files in memory, and for which only this client waits. */
#define _GNU_SOURCE
#include "function.h"
#include <linux/magic.h>
#include <sys/vfs.h>
#include <sys/wait.h>

enum { CLIENT, SERVER, NOTHING, OTHERS }; /* the descriptors of a receiver */
enum { PAUSE = 100 }; /* for how many milliseconds a client waits that couldn't be taken */

/* Takes bytes, and adds the descriptors that come with them, as far as there is room. */
static ssize_t take(int from, void *bytes, size_t most, struct files *files) {
    _Alignas(struct cmsghdr) char control[CMSG_SPACE(sizeof files->at)] = {0};
    struct msghdr piece = {.msg_iov = &(struct iovec){bytes, most}, .msg_iovlen = 1, .msg_control = control};
    piece.msg_controllen = CMSG_LEN((MOST_FILES - files->count) * sizeof(int));
    ssize_t count = recvmsg(from, &piece, MSG_CMSG_CLOEXEC);
    size_t length = count > 0 && piece.msg_controllen > 0 ? CMSG_FIRSTHDR(&piece)->cmsg_len - CMSG_LEN(0) : 0;
    memcpy(files->at + files->count, control + CMSG_LEN(0), length);
    files->count += length / sizeof(int);
    files->has_lost |= piece.msg_flags & MSG_CTRUNC && files->count < MOST_FILES;
    return count;
}

/* Sends a packet with descriptors. Returns whether there was room for it. */
static int give(int to, void *bytes, size_t length, const int *files, unsigned count) {
    _Alignas(struct cmsghdr) char control[CMSG_SPACE(MOST_FILES * sizeof *files)] = {0};
    struct msghdr packet = {.msg_iov = &(struct iovec){bytes, length}, .msg_iovlen = 1, .msg_control = control};
    packet.msg_controllen = count > 0 ? CMSG_LEN(count * sizeof *files) : 0;
    *(struct cmsghdr *)control = (struct cmsghdr){packet.msg_controllen, SOL_SOCKET, SCM_RIGHTS};
    memcpy(control + CMSG_LEN(0), files, count * sizeof *files);
    return sendmsg(to, &packet, MSG_DONTWAIT | MSG_NOSIGNAL) == (ssize_t)length;
}

/* Returns whether a file lies in memory. (Most others have no seals, and no file system is asked about them.) */
static int is_memory(int file) {
    struct statfs system;
    return fcntl(file, F_GET_SEALS) >= 0 && fstatfs(file, &system) == 0 && system.f_type == TMPFS_MAGIC;
}

/* Takes as many bytes as the server wants, or closes the descriptors that it no longer needs, until the server closes
   its end. In the place of a descriptor that isn't passed on, one of /dev/null is, which is neither a counter nor a
   file in memory. What is left is read, because otherwise a reset would tell the client of the end, which aborts QEMU
   11.1. */
__attribute__((noreturn)) static void run_receiver(int client, int server) {
    static unsigned char bytes[MOST_MESSAGE];
    uint32_t wanted;
    if (dup2(client, CLIENT) < 0 || dup2(server, SERVER) < 0 || close_range(NOTHING, ~0u, 0) < 0 ||
        open("/dev/null", O_RDONLY) != NOTHING)
        _exit(FAILED);
    while (recv(SERVER, &wanted, sizeof wanted, 0) == sizeof wanted) {
        struct files files = {0};
        ssize_t count = wanted > 0 ? take(CLIENT, bytes, wanted, &files) : 0;
        for (unsigned at = 0; at < files.count; at++)
            if (!is_counter(files.at[at]) && !is_memory(files.at[at]))
                files.at[at] = NOTHING;
        if (wanted > 0 && (count <= 0 || !give(SERVER, bytes, (size_t)count, files.at, files.count)))
            break;
        close_range(OTHERS, ~0u, 0);
    }
    shutdown(CLIENT, SHUT_RD);
    while (recv(CLIENT, bytes, sizeof bytes, 0) > 0)
        ;
    _exit(0);
}

/* Has the receiver close a descriptor, because with the last one all memory of a file may have to be freed. */
void let_go(struct function *function, int *file) {
    uint32_t nothing = 0;
    give(function->to_receiver, &nothing, sizeof nothing, file, 1);
    close(*file);
    *file = -1;
}

static void end_message(struct function *function) {
    for (unsigned at = 0; at < function->files.count; at++)
        let_go(function, function->files.at + at);
    function->files.count = function->files.has_lost = 0;
}

/* At a stream's end, or at a message that isn't valid, another client can come. */
static void lose(struct function *function) {
    if (function->protocol == &proxy && function->come > 0)
        errx(FAILED, "QEMU sent a message that isn't known here");
    end_message(function);
    close(function->socket);
    for (unsigned at = 0; at < COUNTERS; at++)
        let_go(function, function->counters + at);
    drop_sections(function, 0, 0);
    close(function->to_receiver);
    function->socket = function->to_receiver = -1;
    function->come = function->seen = function->to_send = function->is_asked = 0;
    reset(function);
}

/* Begins to serve a function's client, with a receiver of its own. Returns whether it could. (A byte out of band must
   be one like all others, or it would be taken, with its descriptors, unseen.) */
static int begin(struct function *function) {
    static int is_told;
    int ends[2] = {-1, -1}, on = 1;
    if (socketpair(AF_UNIX, SOCK_SEQPACKET | SOCK_CLOEXEC, 0, ends) == 0)
        function->socket = accept4(function->listener, NULL, NULL, SOCK_CLOEXEC | SOCK_NONBLOCK);
    function->to_receiver = ends[0];
    function->receiver = setsockopt(function->socket, SOL_SOCKET, SO_OOBINLINE, &on, sizeof on) == 0 ? fork() : -1;
    if (function->receiver == 0)
        run_receiver(function->socket, ends[1]);
    close(ends[1]);
    if (function->receiver < 0)
        lose(function);
    if (function->socket < 0 && !is_told++)
        warnx("a client waits, because the limit of open files or processes is too low");
    return function->socket >= 0;
}

/* Returns the length of the message that comes first, as far as it is known, or 0 if it isn't valid. */
static uint32_t whole(const struct function *function) {
    return function->come < HEADER ? HEADER : (uint32_t)function->protocol->length(function->input);
}

/* Sends what is left of an answer, after an interrupt of what was done before. (If the other end is closed, the next
   read finds it.) */
static void send_rest(struct function *function) {
    interrupt(function, 0);
    ssize_t count = send(function->socket, function->message, function->to_send, MSG_NOSIGNAL);
    uint32_t sent = count >= 0 ? (uint32_t)count : errno == EAGAIN ? 0 : function->to_send;
    function->to_send -= sent;
    memmove(function->message, function->message + sent, function->to_send);
}

/* Serves the messages that are whole, as long as the client takes the answers. */
static void serve_messages(struct function *function) {
    uint32_t length = HEADER;
    while (function->to_send == 0 && (length = whole(function)) > 0 && length <= function->come) {
        memcpy(function->message, function->input, length);
        function->come -= length;
        memmove(function->input, function->input + length, function->come);
        function->to_send = function->protocol->serve(function);
        end_message(function);
        if (function->to_send > 0)
            send_rest(function);
    }
    if (length == 0)
        lose(function);
}

/* Sees what waits. It is taken from the socket once it was served, so that the guest waits for less. If descriptors are
   among it, the receiver is asked to take the rest of the message that comes first, and no more, so that it is known to
   which one they belong. */
static void receive(struct function *function) {
    uint32_t rest = whole(function) - function->come;
    struct iovec into = {function->input + function->come, rest > BATCH ? rest : BATCH};
    struct msghdr seen = {.msg_iov = &into, .msg_iovlen = 1};
    ssize_t count = recvmsg(function->socket, &seen, MSG_PEEK);
    if (count > 0 && seen.msg_flags & MSG_CTRUNC)
        count = function->is_asked = give(function->to_receiver, &rest, sizeof rest, function->files.at, 0);
    else if (count > 0)
        function->come += function->seen = (uint32_t)count;
    if (count == 0 || (count < 0 && errno != EAGAIN))
        lose(function);
}

/* Takes what the receiver took. */
static void take_answer(struct function *function) {
    ssize_t count = take(function->to_receiver, function->input + function->come, MOST_MESSAGE, &function->files);
    function->come += count > 0 ? (uint32_t)count : 0;
    function->is_asked = 0;
    if (count <= 0)
        lose(function);
}

/* Serves what came: a client, that the pin was seen, what the receiver took, that the client reads, or more of a
   message. From a client whose receiver was asked, only its end comes. Then sets what the function waits for, and
   returns for how many milliseconds it may, if that is less than another one may. The next client waits until the
   receiver of the former one has ended. */
unsigned serve_client(struct function *function, struct pollfd awaited[2], unsigned other) {
    int is_paused = awaited[0].revents && awaited[0].fd == function->listener && !begin(function);
    if (awaited[1].revents)
        (function->is_asked ? take_answer : see_interrupt)(function);
    if (function->has_more)
        take_turn(function);
    if (awaited[0].revents && awaited[0].fd == function->socket)
        (function->is_asked ? lose : function->to_send > 0 ? send_rest : receive)(function);
    serve_messages(function);
    if (function->socket < 0 && function->receiver > 0 && waitpid(function->receiver, NULL, WNOHANG) != 0)
        function->receiver = 0;
    int listener = is_paused || function->receiver > 0 ? -1 : function->listener;
    int event = function->is_asked ? 0 : function->to_send > 0 ? POLLOUT : POLLIN;
    awaited[0] = (struct pollfd){function->socket >= 0 ? function->socket : listener, event, 0};
    awaited[1] = (struct pollfd){function->is_asked ? function->to_receiver : function->counters[SEEN], POLLIN, 0};
    unsigned rest = interrupt(function, function->seen), wait = function->has_more ? 0 : is_paused ? PAUSE : rest;
    return wait < other ? wait : other;
}
