// The processes of a world. `world keep GROUP MODE SESSION ORDERS` makes a PID namespace and stays outside to end it; all inside
// are tasks, each of which does what its socket says, one system call a message. What a message may say is TABLE below.
#define _GNU_SOURCE
#include <dirent.h>
#include <errno.h>
#include <fcntl.h>
#include <limits.h>
#include <sched.h>
#include <signal.h>
#include <stdarg.h>
#include <stdio.h>
#include <stdlib.h>
#include <string.h>
#include <sys/mount.h>
#include <sys/prctl.h>
#include <sys/socket.h>
#include <sys/syscall.h>
#include <sys/wait.h>
#include <time.h>
#include <unistd.h>

enum {
    LIFE = 0,            // the keeper's socket to the harness: its end is the end of the world
    ORDERS = 3,          // a task's socket to the harness
    MESSAGE = 4608,      // the longest message, a path of 4096 bytes among them
    OWN_GROUPS = 5000,   // the numbers that are tried when a world ends, for children that wait for their own group
    PATIENCE = 3000,     // milliseconds for which an end is waited for
    EXITING = 0x4,       // PF_EXITING of /proc/PID/stat
    STATUS_STUCK = 1,    // the keeper's exit status where a process does not end
    STATUS_USAGE = 2,
    STATUS_NO_WORLD = 3,
};

static void sleep_ms(long ms) {
    struct timespec time = {ms / 1000, ms % 1000 * 1000000};
    nanosleep(&time, NULL);
}

// Messages.

static void tell(int to, const char *format, ...) {
    char text[MESSAGE];
    va_list words;
    va_start(words, format);
    int length = vsnprintf(text, sizeof text, format, words);
    va_end(words);
    if (length > 0) send(to, text, (size_t)length, MSG_NOSIGNAL);
}

// The answer to a call that may fail: its errno, or `ok`.
static void tell_done(long result) {
    if (result < 0) tell(ORDERS, "error %d", errno);
    else tell(ORDERS, "ok");
}

// The answer to a call that gives a number.
static void tell_number(long result) {
    if (result < 0) tell(ORDERS, "error %d", errno);
    else tell(ORDERS, "%ld", result);
}

// Sends a text and an open file, which the harness will hold.
static void tell_with_file(const char *text, int file) {
    struct iovec part = {(void *)text, strlen(text)};
    union { struct cmsghdr align; char room[CMSG_SPACE(sizeof(int))]; } control = {0};
    struct msghdr message = {.msg_iov = &part, .msg_iovlen = 1, .msg_control = control.room, .msg_controllen = sizeof control.room};
    struct cmsghdr *head = CMSG_FIRSTHDR(&message);
    head->cmsg_level = SOL_SOCKET;
    head->cmsg_type = SCM_RIGHTS;
    head->cmsg_len = CMSG_LEN(sizeof(int));
    memcpy(CMSG_DATA(head), &file, sizeof file);
    sendmsg(ORDERS, &message, MSG_NOSIGNAL);
}

// Small files.

static long read_file(const char *path, char *text, size_t room) {
    int file = open(path, O_RDONLY | O_CLOEXEC);
    if (file < 0) return -1;
    long length = read(file, text, room - 1);
    int fault = errno;
    close(file);
    errno = fault;
    text[length < 0 ? 0 : length] = 0;
    return length;
}

static long write_file(const char *path, const char *text) {
    int file = open(path, O_WRONLY | O_CLOEXEC);
    if (file < 0) return -1;
    long length = write(file, text, strlen(text));
    int fault = errno;
    close(file);
    errno = fault;
    return length < 0 ? -1 : 0;
}

// The words of the line `NSpid:` of a file, without its end; empty where the file or the line is not there.
static const char *numbers_of(const char *path, char *text, size_t room) {
    if (read_file(path, text, room) < 0) return "";
    char *line = strstr(text, "\nNSpid:\t");
    if (!line) return "";
    line += strlen("\nNSpid:\t");
    line[strcspn(line, "\n")] = 0;
    return line;
}

// The end of a world.

// Puts the task into a group of its own, and so each of its children: an init that ends in a group of an inner number would wait
// for ever, and setpgid by a live parent still helps it.
static void leave_groups(int signal) {
    int fault = errno;
    (void)signal;
    for (pid_t child = 1; child <= OWN_GROUPS; child++) setpgid(child, child);
    setpgid(0, 0);
    errno = fault;
}

static void on_term(void (*handler)(int)) {
    struct sigaction action = {.sa_handler = handler};
    sigaction(SIGTERM, &action, NULL);
}

// Whether a process cannot hold up the end of the world: it leads a group of its own, or has ended.
static int is_settled(int number) {
    char path[64], text[1024], state = 'X';
    unsigned flags = EXITING;
    if (getpgid(number) == number) return 1;
    snprintf(path, sizeof path, "/proc/%d/stat", number);
    if (read_file(path, text, sizeof text) < 0) return 1;
    char *rest = strrchr(text, ')');
    if (rest) sscanf(rest + 1, " %c %*d %*d %*d %*d %*d %u", &state, &flags);
    return state == 'Z' || state == 'X' || (flags & EXITING);
}

static int all_settled(void) {
    DIR *folder = opendir("/proc");
    int settled = 1;
    if (!folder) return 1;
    for (struct dirent *entry; settled && (entry = readdir(folder));) {
        int number = atoi(entry->d_name);
        if (number > 1) settled = is_settled(number);
    }
    closedir(folder);
    return settled;
}

// The keeper has gone: the init's orders end, and with them the world.
static void end_orders(int signal) {
    (void)signal;
    shutdown(ORDERS, SHUT_RDWR);
}

// The world's init: lets all tasks leave their groups, and ends; the kernel kills all that is left.
static void end_world(void) {
    kill(-1, SIGTERM);
    leave_groups(0);
    for (int waited = 0; waited < PATIENCE && !all_settled(); waited += 2) sleep_ms(2);
    _exit(0);
}

// Tasks.

static int is_world_init;

// Where no more orders come: the init ends the world, and all others wait for that.
static void orders_ended(void) {
    if (is_world_init) end_world();
    leave_groups(0);
    for (;;) pause();
}

// The first message of a task: its numbers, from the world's namespace inwards.
static void tell_birth(void) {
    char text[MESSAGE];
    tell(ORDERS, "born %s", numbers_of("/proc/self/status", text, sizeof text));
}

// The child's side of a fork: its own socket takes the place of its parent's, and an init sets its namespace's pid_max.
static void begin_life(int orders, const char *pid_max) {
    is_world_init = 0;
    on_term(leave_groups);
    dup3(orders, ORDERS, 0);
    close(orders);
    if (strcmp(pid_max, "-") && write_file("/proc/sys/kernel/pid_max", pid_max) < 0) tell(ORDERS, "unborn %d", errno);
    else tell_birth();
}

// `fork PIDMAX`, where a number asks for a new namespace with that pid_max, `new` for a new one and `-` for none.
static void order_fork(const char *words) {
    int ends[2];
    char text[32];
    long flags = strcmp(words, "-") ? CLONE_NEWPID : 0;
    if (socketpair(AF_UNIX, SOCK_SEQPACKET | SOCK_CLOEXEC, 0, ends) < 0) {
        tell(ORDERS, "broken %d", errno);
        return;
    }
    long child = syscall(SYS_clone, SIGCHLD | flags, 0, 0, 0, 0);
    if (child == 0) {
        close(ends[0]);
        begin_life(ends[1], strcmp(words, "new") ? words : "-");
        return;
    }
    if (child < 0) tell(ORDERS, "error %d", errno);
    snprintf(text, sizeof text, "child %ld", child);
    if (child > 0) tell_with_file(text, ends[0]);
    close(ends[0]);
    close(ends[1]);
}

// A new program with the same socket: this one, which reads on.
static void order_exec(const char *words) {
    (void)words;
    char *arguments[] = {"task", "resume", is_world_init ? "init" : "task", NULL}, *settings[] = {NULL};
    execve("/proc/self/exe", arguments, settings);
    tell(ORDERS, "error %d", errno);
}

static void order_exit(const char *words) {
    _exit(atoi(words));
}

// The system call itself, since the C library's wrapper asks for no more than it does.
static void order_wait(const char *words) {
    siginfo_t end = {0};
    char kind[16] = "";
    unsigned number = 0;
    idtype_t which = P_ALL;
    sscanf(words, "%15s %u", kind, &number);
    if (!strcmp(kind, "pid")) which = P_PID;
    if (!strcmp(kind, "own") || !strcmp(kind, "group")) which = P_PGID;
    if (waitid(which, (id_t)number, &end, WEXITED | WNOHANG) < 0) tell(ORDERS, "error %d", errno);
    else if (end.si_pid == 0) tell(ORDERS, "none");
    else if (end.si_code == CLD_EXITED) tell(ORDERS, "reaped %d exit %d", end.si_pid, end.si_status);
    else tell(ORDERS, "reaped %d killed", end.si_pid);
}

static void order_setpgid(const char *words) {
    int target = 0, group = 0;
    sscanf(words, "%d %d", &target, &group);
    tell_done(setpgid(target, group));
}

static void order_setsid(const char *words) {
    (void)words;
    tell_number(setsid());
}

static void order_getpid(const char *words) {
    (void)words;
    tell_number(syscall(SYS_getpid));
}

static void order_getppid(const char *words) {
    (void)words;
    tell_number(syscall(SYS_getppid));
}

static pid_t number_in(const char *words) {
    return (pid_t)strtoul(words, NULL, 10);
}

static void order_getpgid(const char *words) {
    tell_number(getpgid(number_in(words)));
}

static void order_getsid(const char *words) {
    tell_number(getsid(number_in(words)));
}

// How many namespaces around the caller's own, up to the world's, there are.
static int own_level(void) {
    char text[MESSAGE];
    int level = 0;
    for (const char *words = numbers_of("/proc/self/status", text, sizeof text); *words; words++) level += *words == '\t';
    return level;
}

// The target's `NSpid`, of a pidfd, since that is found by its number in the caller's namespace.
static void order_nspid(const char *words) {
    char path[64], text[MESSAGE];
    int target = (int)syscall(SYS_pidfd_open, number_in(words), 0);
    if (target < 0) {
        tell(ORDERS, "error %d", errno);
        return;
    }
    snprintf(path, sizeof path, "/proc/self/fdinfo/%d", target);
    const char *numbers = numbers_of(path, text, sizeof text);
    close(target);
    for (int level = own_level(); level > 0 && *numbers; level--) numbers += strcspn(numbers, "\t") + 1;
    tell(ORDERS, "%s", numbers);
}

static void order_join(const char *words) {
    int target = (int)syscall(SYS_pidfd_open, number_in(words), 0);
    if (target < 0) {
        tell(ORDERS, "error %d", errno);
        return;
    }
    tell_done(setns(target, CLONE_NEWPID));
    close(target);
}

static void order_subreaper(const char *words) {
    tell_done(prctl(PR_SET_CHILD_SUBREAPER, atol(words), 0, 0, 0));
}

static void order_is_subreaper(const char *words) {
    int is_one = 0;
    (void)words;
    tell_number(prctl(PR_GET_CHILD_SUBREAPER, &is_one, 0, 0, 0) < 0 ? -1 : is_one);
}

// `put TEXT PATH`: writes to a file of a control group, so that a number is read as one of this namespace.
static void order_put(const char *words) {
    char text[32] = "";
    sscanf(words, "%31s", text);
    const char *path = strchr(words, ' ');
    tell_done(path ? write_file(path + 1, text) : -1);
}

// The number that the caller's namespace gave last.
static void order_last(const char *words) {
    char text[32];
    (void)words;
    if (read_file("/proc/sys/kernel/ns_last_pid", text, sizeof text) < 0) tell(ORDERS, "error %d", errno);
    else tell(ORDERS, "%ld", atol(text));
}

static const struct { const char *word; void (*act)(const char *); } TABLE[] = {
    {"fork", order_fork}, {"exec", order_exec}, {"exit", order_exit}, {"wait", order_wait}, {"setpgid", order_setpgid},
    {"setsid", order_setsid}, {"getpid", order_getpid}, {"getppid", order_getppid}, {"getpgid", order_getpgid},
    {"getsid", order_getsid}, {"nspid", order_nspid}, {"join", order_join}, {"subreaper", order_subreaper},
    {"is_subreaper", order_is_subreaper}, {"put", order_put}, {"last", order_last},
};

static void obey(char *message) {
    size_t length = strcspn(message, " ");
    const char *words = message[length] ? message + length + 1 : "";
    message[length] = 0;
    for (size_t at = 0; at < sizeof TABLE / sizeof *TABLE; at++)
        if (!strcmp(message, TABLE[at].word)) {
            TABLE[at].act(words);
            return;
        }
    tell(ORDERS, "broken %d", EINVAL);
}

// The life of a task, and of each child that it forks, which returns into the same loop.
static void live(void) {
    char message[MESSAGE];
    for (;;) {
        long length = recv(ORDERS, message, sizeof message - 1, 0);
        if (length < 0 && errno == EINTR) continue;
        if (length <= 0) orders_ended();
        message[length] = 0;
        obey(message);
    }
}

// The world's init.

// A user namespace in which the caller is root, for one who is not.
static int map_user(unsigned user, unsigned group) {
    char text[64];
    snprintf(text, sizeof text, "0 %u 1", user);
    if (write_file("/proc/self/setgroups", "deny") < 0 || write_file("/proc/self/uid_map", text) < 0) return -1;
    snprintf(text, sizeof text, "0 %u 1", group);
    return (int)write_file("/proc/self/gid_map", text);
}

// An init of `no-session` stays in the session and the group of the keeper, which are 0 to it, as the machine's first process has.
static void begin_world(int own_user, int leads, unsigned user, unsigned group) {
    is_world_init = 1;
    on_term(end_orders);
    prctl(PR_SET_PDEATHSIG, SIGTERM, 0, 0, 0);
    if (own_user && map_user(user, group) < 0) tell(ORDERS, "unborn user %d", errno);
    else if (mount(NULL, "/", NULL, MS_REC | MS_PRIVATE, NULL) < 0) tell(ORDERS, "unborn mounts %d", errno);
    else if (mount("proc", "/proc", "proc", MS_NOSUID | MS_NODEV | MS_NOEXEC, NULL) < 0) tell(ORDERS, "unborn proc %d", errno);
    else if (leads && setsid() < 0) tell(ORDERS, "unborn session %d", errno);
    else tell_birth();
    live();
}

// The keeper.

static int ends_within(pid_t init, int ms) {
    for (; ms > 0; ms -= 2) {
        if (waitpid(init, NULL, WNOHANG) != 0) return 1;
        sleep_ms(2);
    }
    return 0;
}

// Removes the control group of the world, where it is not `-` for none, and all below it; a group that has just become empty may
// be busy for a moment.
static void remove_groups(const char *path) {
    char below[PATH_MAX];
    DIR *folder = strcmp(path, "-") ? opendir(path) : NULL;
    if (!folder) return;
    for (struct dirent *entry; (entry = readdir(folder));) {
        if (entry->d_type != DT_DIR || entry->d_name[0] == '.') continue;
        if (snprintf(below, sizeof below, "%s/%s", path, entry->d_name) < (int)sizeof below) remove_groups(below);
    }
    closedir(folder);
    for (int tries = 0; rmdir(path) < 0 && errno == EBUSY && tries < 250; tries++) sleep_ms(2);
}

// Waits for the harness to end, in whatever way, and then ends the world.
static int keep(pid_t init, const char *groups) {
    char byte;
    while (read(LIFE, &byte, 1) > 0) continue;
    int ended = ends_within(init, 2 * PATIENCE);
    if (!ended) kill(init, SIGKILL);
    ended = ended || ends_within(init, PATIENCE);
    remove_groups(groups);
    if (!ended) fprintf(stderr, "world: process %d does not end\n", init);
    return ended ? 0 : STATUS_STUCK;
}

static int start(const char *groups, const char *mode, const char *session, int orders) {
    unsigned user = geteuid(), group = getegid();
    int own_user = !strcmp(mode, "user");
    long flags = SIGCHLD | CLONE_NEWPID | CLONE_NEWNS | (own_user ? CLONE_NEWUSER : 0);
    setsid();
    dup2(orders, ORDERS);
    if (orders != ORDERS) close(orders);
    pid_t init = (pid_t)syscall(SYS_clone, flags, 0, 0, 0, 0);
    int fault = errno;
    if (init == 0) {
        close(LIFE);
        begin_world(own_user, !strcmp(session, "session"), user, group);
    }
    close(ORDERS);
    if (init > 0) {
        tell(LIFE, "init %d", init);
        return keep(init, groups);
    }
    tell(LIFE, "error %d", fault);
    remove_groups(groups);
    return STATUS_NO_WORLD;
}

int main(int count, char **words) {
    if (count == 3 && !strcmp(words[1], "resume")) {
        is_world_init = !strcmp(words[2], "init");
        on_term(is_world_init ? end_orders : leave_groups);
        tell(ORDERS, "ok");
        live();
    }
    if (count == 6 && !strcmp(words[1], "keep")) return start(words[2], words[3], words[4], atoi(words[5]));
    fprintf(stderr, "world: started by the harness: world keep GROUP root|user session|no-session ORDERS\n");
    return STATUS_USAGE;
}
