/* Declarations that the launcher's parts share, and the headers that most of them need. Each part includes this file
   first. None of this is proved. */
#ifndef LAUNCHER_H
#define LAUNCHER_H
#define _GNU_SOURCE
#include "wire.h"
#include <errno.h>
#include <fcntl.h>
#include <limits.h>
#include <linux/seccomp.h>
#include <signal.h>
#include <stddef.h>
#include <sys/stat.h>
#include <unistd.h>

/* The greatest numbers of subsystems, and of controllers altogether. */
enum { MOST_DEVICES = 32, MOST_CONTROLLERS = 256 };

/* The geometry of the devices' drivers. */
enum { DEPTH, PAGE_SIZE, WINDOW, OFFSET, LIST_OFFSET, PACE, NUMBERS };

/* A namespace, as the launcher knows it. */
struct volume {
    unsigned power; /* a block has two to this power bytes; 0 as long as this isn't known */
    uint64_t blocks;
    unsigned number;  /* by which its nodes are named, or 0 */
    int is_read_only; /* whether an ioctl has set that its block devices can't be written */
    /* the files of its block devices, with the data, and of its generic nodes, as its device's keeper has them open, or
       0 */
    int file, generic;
    ino_t inode, generic_inode;
};

/* A device is the process of one subsystem. */
struct device {
    int to_and_from;       /* a socket for its input and output */
    FILE *said;            /* what it writes to its standard error */
    int asks[2];           /* a pipe by which helpers ask its keeper, one after another */
    unsigned first, count; /* its controllers, by the numbers of /dev/nvmeX */
    enum { STARTING, ANSWERING, LOST } state;
    pid_t keeper;          /* the process that alone exchanges requests with it */
    _Atomic int failures;  /* of the first device: how many lines of a trace couldn't be written */
    struct volume volumes[MOST_NSID + 1]; /* its namespaces, by their NSIDs */
    uint16_t named[MOST_NSID + 1];        /* the NSID that each number of its nodes names, or 0 */
};

extern struct device *devices; /* (in shared memory, as all that helpers read) */
extern unsigned device_count;
extern unsigned nodes_wait; /* whether nodes wait for a scan or a reset, because of --no-notice */
extern unsigned geometry[NUMBERS];
extern sigset_t blocked; /* the signals that were blocked at the start, and are for the command and the devices */

/* ---- launcher.c: start and end */

enum { NO_SANDBOX = 71, FAILED = 72, NOT_EXECUTABLE = 126, NOT_FOUND = 127 };

/* Reports why the launcher can't continue, and ends everything that was started. */
__attribute__((noreturn, format(printf, 1, 2))) void fail(const char *format, ...);

/* Does so with the reason why the last call failed. */
__attribute__((noreturn)) void fail_by_errno(const char *what);

/* Does so if a call's result is negative, and otherwise returns it. */
int must(int result, const char *what);

/* Reports, with the reason, that a path can't be made, which ends the launcher only before the command runs. */
void cannot(const char *path);

/* Waits until a file takes a line or, before the command runs, ends the launcher as a signal wants it. */
void await_room(int file);

/* Tells the process outside, in a helper, that the command has stopped. */
int report_stop(void);

/* Gives an open file another number. */
void keep_as(int number, int file, const char *name);

/* Reads all that a writer has said, and returns the last line, without the writer's name at its beginning. */
const char *last_line(FILE *said, const char *writer);

/* Has standard error be the caller's again. */
void restore_errors(void);

/* The descriptors that the launcher outside hands on: of the current folder, until it was found inside; of the words
   that it was started with, until they were read; of the process outside, which passes signals on; of standard error,
   in whose place that process reads why the command can't be started, until it is; of the trace; and of the subsystem
   files, until the devices have them. Inside, it has these and the streams alone, and adds sockets and a pipe of each
   device (device.c), folders of its own /sys (sysfs.c), the data of namespaces and what tells of changes in /dev
   (nodes.c), and what the ends of processes and calls come from. */
enum { HERE = 200, WORDS, OUTSIDE, ERRORS, TRACE_TO, FILES };

/* ---- options.c: what the options choose */

enum { MOST_ADDED = 64 };
struct options {
    const char *subsystems[MOST_DEVICES], *added[MOST_ADDED], *trace_file;
    char *device_words[NUMBERS + 4]; /* a device's program and options */
    unsigned subsystem_count, added_count, is_root;
    int has_trace;
    unsigned long long limit; /* of the memory for data */
};
extern struct options options;

/* Reads the options, and returns where the command's words begin. */
int read_options(int count, char **arguments);

/* Reports that a number isn't one that an option of the layout takes. */
__attribute__((noreturn)) void fail_by_number(const char *name);

/* ---- command.c: the command's own namespace */

extern pid_t process_one; /* of that namespace */

/* Starts process 1, whose end can be read from the file `ends`, gives up the rights that make the namespace, and
   returns the process that becomes the command as soon as it is released. */
pid_t start_command(char **arguments, int ends);
void release_command(void);

/* ---- device.c: devices, and the exchange with them */

/* Returns whether a file takes a line within seconds, which it may not because nobody reads it. */
int takes_line(int file);

/* Starts a device, with a subsystem file (or -1) of this name, which it has as descriptor 3 and which is closed
   here. */
void start_device(int file, const char *name);

/* Takes note that a device is gone. */
void lose_device(struct device *device);

/* Sends a device a request, and returns 0, or -1 if it is gone. */
int exchange(struct device *device, const struct request_header *header, void *data, struct answer_header *answer);

/* Carries out a request for a controller by its number among all, and returns the same. */
int carry_out(struct request_header *header, void *data, struct answer_header *answer);

/* ---- nodes.c: nodes, and the data of namespaces */

/* Makes the nodes of all controllers. */
void make_nodes(void);

/* Looks for changes after a command. */
void look_for_changes(struct device *device, const struct request_header *request, const struct answer_header *answer);

/* Makes the nodes of a lost device unusable. */
void lose_nodes(const struct device *device);

/* Returns a descriptor that tells which nodes of a device were written. */
int watch_nodes(void);

/* Restores the lengths of the nodes that were written. */
void repair_files(const struct device *device);

/* Returns whether a name is that of a node, which is there or has been removed, and stores the node. */
enum { NO_NODE, IS_NODE, WAS_NODE };
int read_name(const char *name, struct node *node);

/* Finds the namespace that a node's number names, and returns whether its controller shows it. */
int find_namespace(struct node *node);

/* Returns the device of a controller. */
struct device *device_of(unsigned controller);

/* Returns whether a controller shows a namespace. */
int is_shown(unsigned controller, uint32_t nsid);

/* Sends Identify to a controller, and returns the length of what came, or -1. */
int identify(unsigned controller, uint32_t nsid, uint32_t cns, void *data);

/* Finds the active namespaces of a controller, and returns the length of their list, or -1. */
int list_active(unsigned controller, unsigned char is_active[MOST_NSID + 1]);

/* Opens the data of a namespace that is active on a node's controller, or returns -1. */
int open_data(const struct node *node);

/* Returns the namespace of a node. */
struct volume *volume_of(const struct node *node);

/* Stores how long a namespace is, and returns 0 if this isn't known or just changes. */
int read_volume(const struct node *node, struct volume *volume);

/* Does what is asked of a keeper, and returns 0, or NOT_OURS if a device is asked. */
int serve_keeper(struct device *device, const struct request_header *request);

/* ---- sysfs.c: the model's /sys */

enum part { TOP, SUBSYSTEM, BUS, FUNCTION, CONTROLLER, HEALTH, BLOCK, GENERIC, PARTS };

extern unsigned char identities[MOST_CONTROLLERS][IDENTIFY_BYTES]; /* what Identify says of each controller */

/* Shows a part of a controller or of one of its namespaces. */
void show(enum part part, unsigned controller, uint32_t nsid);

/* Hides it. */
void hide(enum part part, unsigned controller, uint32_t nsid);

/* Shows the temperature of a controller by its health log. */
void show_health(unsigned controller, const unsigned char *log);

/* Returns the greatest number of sectors in a transfer of a controller. */
unsigned most_sectors(unsigned controller);

/* ---- filter.c: filters of calls */

extern int call_listener; /* where calls that are handed over can be received */

/* Has the calls of this thread, and of the processes that it starts, handed over. */
void filter_calls(void);

/* Lets this process, the launcher, make only the calls that it needs. (Helpers and keepers inherit this.) */
void confine_launcher(void);

/* Does so for a process that becomes a device, and returns 0, or -1. */
int confine_device(void);

/* ---- calls.c: calls that were handed over */

/* A message of the kernel about a call, which is longer in later versions. */
union notice {
    struct seccomp_notif got;
    char room[512];
};

/* The result of a call that the kernel carries out. */
enum { NOT_OURS = -10000 };

/* A call that a process made. */
struct call {
    uint64_t id;
    pid_t process;
    int is_old;      /* the program has 32 bits */
    int file;        /* the descriptor of a node that it is about */
    int is_writable; /* which is open for writing */
    int is_path;     /* which is open as a path alone (O_PATH) */
    int is_gone;     /* and has gone since */
    uint32_t request;
    uint64_t argument;
    struct node node;
};

/* Receives a call that waits, and returns whether there was one. */
int receive_call(union notice *notice);

/* Answers one, in a helper. */
void answer_call(const union notice *notice);

/* Returns whether the process of a call still waits. */
int is_alive(uint64_t id);

/* Gives a call its result. */
void finish_call(const union notice *notice, int result);

/* Finds the node that the file of a call is, and how it was opened, or returns 0. */
int find_node(struct call *call);

/* Returns the number of the file system in which nodes are, or the model's files of /sys. */
enum { OF_DEV, OF_SYS };
dev_t number_of(int is_sys);

/* Reads by which name a file was opened, with links followed, or nothing. */
void read_link(const char *link, char name[PATH_MAX]);

/* What a filter decides about calls, by their numbers (of which the first one may be 0, and another 0 ends them), if a
   test of one of their arguments holds: an action of seccomp, and who answers such a call if it is handed over, with a
   result, or an error's number as a negative one. */
typedef int answering(struct call *call, const __u64 *arguments);
struct decided_call {
    short numbers[80];
    uint32_t action;
    answering *answer;
    struct {
        enum { ALWAYS, EQUALS, HAS_BITS, HAS_TYPE } kind; /* (the type of an ioctl) */
        unsigned argument;
        uint32_t value;
    } test;
    int is_of_root; /* whether it holds for root alone */
};

/* The calls of programs of 64 and of 32 bits (opens.c); the last one has no action. */
extern const struct decided_call decided_calls[], old_decided_calls[];

/* Those who answer calls that make, remove or change names (names.c), and ioctls (calls.c). */
answering answer_unlink, answer_unlinkat, answer_rename, answer_renameat, answer_mkdir, answer_mkdirat, answer_link,
    answer_symlinkat, answer_linkat, answer_ioctl;

/* Returns whether a file may be made at a path (names.c). */
int may_create(const struct call *call, int directory, char *path);

/* ---- helpers.c: helpers and keepers */

/* Requests to a keeper, of which the length tells more: a scan of so many controllers, and to show a namespace anew. */
enum { KIND_SCAN = 0xffff, KIND_SHOW = 0xfffe };

/* Waits until one of these files, apart from those of -1, can be read, or for some milliseconds, unless they are -1,
   and returns a bit for each that can. */
unsigned await_files(const int *files, unsigned count, int milliseconds);

/* Begins with helpers and keepers. */
void begin_helpers(void);

/* Waits until one of two files can be read, and starts helpers meanwhile. */
unsigned await_signals(int signals, int others);

/* Takes note that one of these processes has ended, without which the launcher can't continue if it was a keeper. */
void note_end(pid_t process);

/* Returns memory that all these processes share. */
void *share(size_t size);

/* Returns room for data, in a helper. */
void *own_data(void);

/* Sends a request of a helper to the keeper of a controller's device, and returns the answer, or NULL if the device is
   gone. */
const struct answer_header *ask_keeper(const struct request_header *header);

/* Sends one without an answer, and returns -ENXIO then. */
int ask_controller(unsigned controller, uint16_t kind, uint32_t length);

/* ---- caller.c: the process that made a call */

/* Takes its identity, because its memory and its files are open to nobody else, and returns whether it did. (Root alone
   can, and is root again where it opens the data of a node.) */
int act_as_caller(const struct call *call);

/* Returns whether it may administer devices, as root may on a machine: here it is the user who started the model. */
int is_administrator(void);

/* Opens the data of the node that its call is about, whatever it may open itself, or returns -1. */
int open_own_data(const struct call *call);

/* Copies from its memory, and returns 0, or -EFAULT. */
int copy_in(const struct call *call, uint64_t from, void *into, size_t size);

/* Copies to its memory, and returns the same. */
int copy_out(const struct call *call, uint64_t into, const void *from, size_t size);

/* Copies a text from its memory, and returns the same. */
int copy_text(const struct call *call, uint64_t from, char into[PATH_MAX]);

/* Opens what a path of it leads to, with O_PATH, or returns -1. */
struct open_how;
int look_up(const struct call *call, int directory, const char *path, const struct open_how *how);

/* Reads the beginning of a file about a process. */
const char *read_about(pid_t process, const char *name, char *text, size_t room);

/* Looks at a file, whose number is 0 if it isn't there. (No server is asked, because what it tells may change what the
   caller may do.) */
struct statx known_about(int from, const char *path);

/* Returns the number of its file system. */
dev_t system_of(const struct statx *about);

/* Returns whether a file is in a procfs. */
int is_in_proc(int file);

/* ---- lists.c: the lists of /proc for the command */

/* Writes that of kinds of devices. */
void list_devices(void);

/* Writes those of block devices. */
void list_blocks(void);

/* ---- refuse.c: --refuse and --delay */

enum rule_action { REFUSE, DELAY };
struct nvme_passthru_cmd;

/* Adds a rule, or returns why it isn't one. */
const char *add_rule(enum rule_action action, const char *text);

/* Does with a command what the rules say, and returns the status with which it is refused, an error's number as a
   negative one, or 0. */
int follow_rules(const struct call *call, int is_io, const struct nvme_passthru_cmd *given);

/* Takes note that a controller was reset, so that the commands that it delays aren't done. */
void note_reset(unsigned controller);

/* Reports which rules had no effect. */
void report_rules(void);

/* ---- io.c: commands in the controllers' place */

/* Carries out an I/O command, and returns its status, or an error's number as a negative one. */
int io(const struct call *call, const struct nvme_passthru_cmd *given);

/* Carries out that of an ioctl of the older form, and returns the same. */
int submit_io(const struct call *call);

/* Answers an admin command that the controllers don't have, and returns whether it is one. */
int supply(struct device *device, const struct request_header *request, void *data, struct answer_header *answer);

/* ---- sandbox.c: the sandbox */

#define SETTINGS MODEL_FOLDER "/settings" /* what the command's /proc has besides its processes */
#define INSIDE "--inside" /* the launcher's word there */

/* Starts the launcher in the sandbox, in place of this process, with the preloaded library and the device's program. */
__attribute__((noreturn)) void enter_sandbox(const char *library, const char *program);

/* Fails, in the sandbox, if a mount isn't kept from the command, or isn't what it was outside. */
void check_mounts(void);

/* Has each /proc show the processes of this process's namespace alone, and /sys read-only. */
void show_own_processes(void);

/* Returns whether a path is one that bwrap makes anew, such as /dev, or below one. */
int is_replaced(const char *path);

/* ---- inherited.c: what comes in from outside */

/* Returns whether a kind of file system, between blanks, holds files. */
int holds_files(const char *kind);

/* Returns where a device is that --device adds, and fails if it may not be added. */
char *find_device(const char *path);

/* Fails, in the sandbox, if a file in /dev isn't a device on a list. */
void check_node(const char *path);

/* Fails if an open file isn't one that may come in. */
void check_file(int file, const char *name);

/* Fails if a standard stream isn't one. */
void check_streams(void);

/* Occupies the numbers of closed streams, so that no other file gets them, by a path that nobody can use, outside and
   again in the sandbox. */
void hold_streams(void);
#endif
