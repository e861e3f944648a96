/* box.h - what the files of pidtab-box share. */
#ifndef BOX_H
#define BOX_H

#include "data.h"
#include "registers.h"

#include <pidtab.h>

#include <stdbool.h>
#include <stdint.h>
#include <stdio.h>
#include <sys/types.h>

enum {
	MOST_REAL = 4194304,        /* the kernel's own limit of pid_max */
	NOBODY = 0x0fffffff,        /* no process of the kernel has this number; a clock's, which has 29 bits, may */
	FIRST_THREAD = MOST_REAL,   /* threads beside the main one: above every number of the table and of the kernel */
	SUPERVISOR = 1,             /* the table's process 1 is this program; the program in the box is its child, 2 */
	BOX_INIT = 2,
	OWN_FAILURE = 125,          /* the exit status, as of env(1) and timeout(1) */
	MOST_ERRORS = 4096,         /* results above minus this are an errno each */
	FIRST_RESTART = 512,        /* results from -512 downwards mean that the kernel makes the call again */
	MOMENTS = 5000              /* of some 60 us: how long another thread is waited for */
};

struct call;
struct thread;
struct memory;

/* ---- names.c: numbers of the kernel and root numbers ---- */

/* A namespace, and a number in it. */
struct level {
	uint64_t space;
	uint32_t number;
};

/* A number of the kernel with the root number that goes with it. It stays when its process is gone, since a group or a session may still use
 * both. */
struct name {
	pid_t real;
	uint32_t root;
	struct process *process; /* none once it has left the table */
	struct level *kept;      /* its numbers, from the root namespace inwards, which stay as they are */
	uint32_t count;
};

/* ---- stages.c: where a thread is, and the fork that it makes ---- */

enum stage {
	NEW,      /* nothing is known of it */
	STRANGER, /* it has stopped, and no parent has claimed it */
	DEAD,     /* a stranger that was killed, and may still be claimed */
	EXPECTED, /* its parent has claimed it, and it has not stopped */
	RUNNING,
	ASKING,   /* within a fork: the table has the child, and the kernel may have it */
	MADE,     /* within a fork: its child is claimed */
	FALLEN,   /* its process was killed with its namespace */
	LEAVING,  /* a thread of an init, at its end */
	HELD,     /* the last one of an init, which waits until those are dead that fell with it */
	OVER,
	STAGES
};

enum event {
	STOPS,    /* any stop except that of an end */
	CLAIMED,  /* its parent says that it is its child */
	ASKS,     /* the table has made a child */
	TOLD,     /* the kernel has said which one is the child */
	FAILS, DELAYED, /* the call is over without a child, or is made again */
	RETURNS,  /* the call is over, with a child */
	EXECUTES, /* an execve: another thread may have made it */
	FALLS, LEAVES, HOLDS, LET_GO, ENDS,
	EVENTS
};

enum deed {
	NO_DEED = 0,
	UNDO = 1,   /* the table's child is ended and reaped: the kernel has none that it could be */
	KEEP = 2,   /* the table's child is kept for the call that comes again */
	LOSE = 4,   /* the kernel may have a child that nobody will claim */
	JUDGE = 8,  /* whether the stranger may be claimed */
	BEGIN = 16, /* its first steps */
	RUN = 32,   /* it goes on to its end */
	SERVE = 64, END = 128 /* for the caller */
};

/* Each number that is a signalfd's for the first time gets a filter of its own, up to these. The last one is about all numbers. */
enum { MOST_READ_FILTERS = 8 };

/* A process as the table has it and as the kernel has it, which differ for a moment at times. */
struct process {
	struct name *name;       /* none where it is gone */
	pid_t real;
	uint32_t root;
	uint64_t space;          /* its namespace */
	uint32_t parent;         /* the root number of its parent in the table */
	struct thread *threads;  /* real ones that the tracer knows */
	int at[STAGES];          /* how many of them are in each stage */
	bool ended;              /* in the table */
	bool dead;               /* in the kernel: the tracer has seen its end */
	bool gone;               /* the table has no such task any more; the kernel may have */
	bool is_init;            /* of a namespace */
	bool unshared;           /* its next fork makes a namespace, as unshare(2) says */
	bool joined;             /* its children go into another namespace than its own */
	bool ignores_children;   /* SIGCHLD is ignored: its children leave no zombies */
	bool wants_no_zombies;   /* the same by SA_NOCLDWAIT, which an exec ends */
	bool may_catch_end;      /* it has, or had, a handler of SIGCHLD, which an exec ends */
	bool shares_handlers;    /* with another process, which may change what this one does with a signal */
	struct memory *memory;   /* its address space */
	bool had_threads, shares_memory; /* since its exec: others may know of a lock that it holds at its end (robust.c) */
	bool is_hidden;          /* its memory cannot be read, which the report says once */
	bool may_hide;           /* it has said so since its exec */
	bool sees_proc;          /* a filter stops more calls by descriptors, since it has some of /proc (filter.c) */
	bool writes_groups;      /* one stops its writes, since it has opened a file of a control group of the table for writing */
	int read_filters;        /* how many filters stop its reads of signalfds (filter.c) */
	int filtered[MOST_READ_FILTERS]; /* the number that each is about */
	bool ends_unheard;       /* its end sends its parent another signal than SIGCHLD, or none */
	struct process *killer;  /* the init with which it fell */
	uint32_t spare, spare_root; /* a child of the table whose real fork a signal put off */
	int asked;               /* how many setpgid on it are under way in the kernel */
	bool exec_waits;         /* its execve is over in the kernel, and not yet told to the table */
	uint64_t died;           /* when its end was reported, in events */
	int suspect;             /* how often in a row its state differed */
	struct process *next, *previous;
};

extern struct process *processes;

void *need(void *memory);
struct name *name_make(pid_t real, uint32_t root);
void name_outside(pid_t real);
void name_beside(struct name *name, const struct name *parent, uint32_t number);
struct name *name_of_real(pid_t real);
struct process *process_of_root(uint32_t root);
struct process *process_seen(const struct process *caller, uint32_t number);
uint32_t numbers_of(const struct name *name, const struct process *caller, uint32_t *numbers);
uint32_t number_of(const struct name *name, const struct process *caller);
struct process *process_new(struct name *name);
void process_free(struct process *process);

/* What an identifier names, by which it is translated. */
enum kind { NO_KIND, PROCESS, TASK, GROUP, PROCESS_OR_GROUP, CLOCK, PATH, DIRECTORY, CONTROL };

int64_t to_real(const struct process *caller, enum kind kind, int64_t number);
int64_t to_number(const struct process *caller, enum kind kind, int64_t real);

/* ---- threads.c ---- */

/* What it does: its own business; a call whose exit is seen; a call of ours that it is about to make; or is making. */
enum phase { FREE, IN_CALL, INJECTED, IN_INJECTED };

/* A call of ours: what it is for. */
enum injected { MAKE_SUBREAPER, MAP_ROOM, ADD_FILTER, ADD_FILTER_TO_ALL, OPEN_REAL, MAKE_COPY, CLOSE_REAL, OPEN_COPY,
	CLOSE_COPY };

/* A number in the program's memory in whose place the kernel's stands during a call. */
struct lent {
	uint64_t at;
	int32_t number;
};

struct thread {
	pid_t tid;
	uint32_t number;         /* as the program sees it; 0 for a main thread, whose number is its process's */
	struct process *process; /* none where it came before its parent's event */
	enum stage stage;
	struct thread *next, *previous; /* those of its process; or other strangers */
	int status;              /* of a stranger that has ended */
	bool is_killed;          /* a stranger that was nobody's */
	enum phase phase;
	const struct call *call; /* what it makes, in the table of calls */
	struct registers made;   /* the call as the program made it */
	enum injected injected;  /* the call of ours */
	union {
		struct registers given;  /* the program's call as the kernel has it, where that is known */
		struct registers behind; /* with a call of ours: how it goes on after that */
	};
	bool knows_given;
	uint64_t put_off;        /* signals that came before such a call, a bit each */
	bool has_no_exit;        /* the call is a wait whose exit is not seen: the next stop comes right behind it */
	uint64_t entered;        /* when, in events */
	int64_t told;            /* what the table says of it */
	struct kill_all *kill_all;    /* a kill(-1, ..) that is under way */
	struct lent *lent;
	int lent_count, lent_room;
	bool has_changed_call;        /* a fork whose registers this program has changed */
	uint64_t given_flags;         /* those that the kernel has of it */
	bool has_call_of_parent;      /* it has not begun yet, and its registers are those of such a fork */
	bool sees_end;                /* it stops at its end */
	uint32_t seen;                /* the number by which it sees itself; 0 before it begins */
	uint64_t tid_at;              /* where the kernel has written its number before it ran */
	uint64_t told_parent, told_child; /* of a fork: where the child's number is to be */
	uint32_t child, child_root;   /* of a fork: its number to the caller */
	uint64_t flags;               /* of that fork */
	bool makes_space;
	uint32_t target;              /* of a setpgid that the kernel decides first */
	bool lists_tasks;             /* the directory that it reads is that of threads */
	bool is_at_rest;              /* it is stopped by a signal */
	bool once_more;               /* the call is made again, unseen by the program */
	int behind_reads;             /* a descriptor, from which reads are to stop behind the call; -1 for none */
	uint64_t room;                /* memory of ours that it has for its call; 0 for none */
	int content;                  /* a file that is given in place of the kernel's; -1 for none */
	uint64_t open_flags;          /* those of its open */
	bool wants_copy;              /* behind its open: a file of its own */
	bool wants_filter, wants_write_filter; /* and a filter of descriptors of /proc, and one of writes */
	int real_file, made_file;     /* descriptors of the thread, while it makes one */
	struct data *data;            /* the sums of what it reads and writes; none if nobody asks for them */
};

struct thread *thread_new(pid_t tid, struct process *process);
void thread_free(struct thread *thread);
struct thread *thread_of_real(pid_t tid);
struct thread *thread_numbered(uint32_t number);
void thread_number(struct thread *thread);
uint32_t thread_seen(const struct thread *thread);
const struct thread *thread_named(const struct process *caller, int64_t number);

void stage_enlist(struct thread *thread);
void stage_delist(struct thread *thread);
int threads_of(const struct process *process);
enum deed happen(struct thread *thread, enum event event);
void stages_settle(void);
void stages_reset(void);
bool stages_lost(void);

/* ---- table.c: the table and its log ---- */

extern uint64_t log_line;
extern struct pidtab_reply reply; /* of the last call */

void table_start(uint32_t pid_max, const char *log, const char *answers);
void table_stop(void);
int64_t table_do(uint32_t operation, uint32_t caller, uint32_t number, uint32_t choice);
int64_t table_setpgid(uint32_t caller, int32_t pid, int32_t pgid);
int64_t table_control(uint32_t operation, uint32_t caller, uint64_t id, uint32_t number, uint32_t choice);
const struct pidtab_effect *table_exit(uint32_t caller, uint32_t status, bool is_init, uint64_t *count);
struct pidtab_task table_stat(uint32_t caller, uint32_t number);
uint64_t table_around(uint64_t space);
bool table_would_remove(uint64_t control);
uint32_t table_first(uint32_t caller, uint32_t whom, uint32_t number);
const uint32_t *table_list(uint32_t caller, uint32_t whom, uint32_t number, uint64_t *count);
const uint32_t *table_members(uint64_t control, uint64_t *count);

/* ---- report.c ---- */

extern bool checking;
extern uint64_t checks, differences, stops, hidden_waits;

_Noreturn void die(const char *what);
void report_start(const char *file);
void report_difference(const char *what, uint32_t root, int64_t kernel, int64_t table);
void report_refused(const struct call *call, int64_t number);
void report_hidden(pid_t tid);
void report_stop(void);

/* ---- filter.c ---- */

void filter_install(void);
bool reads_stop(const struct process *process, int file);
bool filter_for_reads(struct thread *thread);
bool filter_wanted(struct thread *thread);
bool filter_added(struct thread *thread, int64_t result);

/* ---- room.c ---- */

enum onward { GO, SEE_EXIT };

enum { ROOM = 4096 };

struct memory *memory_new(void);
struct memory *memory_copy(const struct memory *from);
struct memory *memory_share(struct memory *memory);
void memory_leave(struct memory *memory);
bool room_take(struct thread *thread);
void room_give_back(struct thread *thread);
enum onward room_map(struct thread *thread);
void room_mapped(struct thread *thread, int64_t at);

/* ---- translate.c: every call that stops ---- */
enum onward call_enter(struct thread *thread);
enum onward call_leave(struct thread *thread);
void wait_over(struct thread *thread);
enum onward answer_with(const struct thread *thread, int64_t result);
enum onward refuse(struct thread *thread);
enum onward watch(struct thread *thread, const struct registers *registers);
enum onward answer_or_check(struct thread *thread, int64_t told, const struct registers *registers);
enum onward translate(struct thread *thread, struct registers *registers);
void lend(struct thread *thread, uint64_t at, enum kind kind);
void show(const struct thread *thread, uint64_t at, enum kind kind);
int64_t call_argument(const struct thread *thread, int index);

/* ---- forks.c ---- */

/* What clone(2) is given. */
struct clone_words {
	uint64_t flags, stack, parent_tid, child_tid, thread_area, pidfd;
};

enum onward make_by_clone(struct thread *thread, struct registers *registers, const struct clone_words *words);
void forked(struct thread *thread, pid_t real);
void fork_undo(struct thread *thread);
void fork_keep(struct thread *thread);
void give_registers_back(struct thread *thread);
const struct process *stranger_parent(const struct thread *stranger);
bool stranger_is_process(const struct thread *stranger);
void stranger_kill(const struct thread *stranger);

/* ---- robust.c: locks that a thread holds at its end ---- */

bool end_is_seen(const struct process *process);
void robust_end(const struct thread *thread);

/* ---- messages.c ---- */

void messages_start(void);

/* ---- groups.c ---- */

void setpgid_over(struct thread *thread, int64_t result);

/* ---- signals.c ---- */

void kill_all_over(struct thread *thread);
int signal_arrives(const struct thread *thread, int signal);

/* ---- life.c: what ends a process in the table and in the kernel ---- */

void process_ended(struct process *process, int status);
void process_dead(struct process *process);
struct process *parent_of(const struct process *child);
bool settle_parent(const struct process *parent, const struct process *child);
uint32_t reap(struct process *parent, struct process *child);
void reap_vanished(struct process *parent);
bool has_fallen_with(const struct process *init);

/* ---- ending.c ---- */

void ending_start(void);
void ending_of(pid_t init);
void ending_not_caught(const struct process *process, int signal);

/* ---- tracer.c ---- */

extern uint64_t events;

void trace(int request, pid_t tid, long data);
void handle(pid_t tid, int status);
bool hold(pid_t tid, int *status);
void wait_moment(void);
void set_options(struct thread *thread);
void begin(struct thread *thread);
void thread_ended(struct thread *thread, int status);
void exec_told(struct process *process);
void catch_up(const struct process *process, int flags);
bool catch_up_threads(const struct process *process, const struct thread *served);
int supervise(pid_t init);
void trace_first(pid_t init, struct process *process);
bool write_memory(pid_t tid, uint64_t at, const void *from, size_t size);
bool inject(struct thread *thread, enum injected what, int64_t call, const uint64_t words[4]);

/* ---- check.c: what the kernel answered, beside what the table did ---- */

void compare(const char *what, int64_t kernel, int64_t table);
void compare_wait(const struct thread *thread, const struct process *child);
void compare_no_child(const struct thread *thread, int64_t result);
void compare_state(void);

/* What the kernel says of a process, by its own numbers. */
struct state {
	int parent, group, session;
};

bool read_state(pid_t real, struct state *state);
bool read_status(pid_t process, pid_t thread, const char *format, void *value);

/* ---- proc.c: paths and listings of /proc; opens.c: opens; content.c: what files have; copies.c: files in place
 * of the kernel's ---- */

extern bool shows_proc;

bool path_is_elsewhere(const struct thread *thread);
char *content_of(const struct thread *thread, const char *path, const char *file, pid_t real, size_t *size);
char *content_of_group(const struct thread *thread, const char *path, enum kind kind, bool has_unseen, size_t *size);
int copy_make(uint32_t root, const char *path, char *text, size_t size, bool is_written);
bool copy_begin(struct thread *thread);
bool copy_goes_on(struct thread *thread, int64_t result);
void copy_done(struct thread *thread);
bool is_copy_of_none(const struct thread *thread, int file);

/* ---- cgroups.c ---- */

enum group_file { NOT_OF_GROUP, OF_KERNEL, OF_TABLE };

bool group_may_have(const char *path);
enum group_file group_file(const struct thread *thread, const char *path, int folder, bool is_written);
int open_folder(const struct thread *thread, const char *path, int folder);
int open_target(const struct thread *thread, const char *path, int folder);
char *group_text(const struct thread *thread, const char *path, size_t *size);
int group_open(const struct thread *thread, const char *path, int folder, bool is_written);

/* ---- controls.c: the table's control groups, as files ---- */

extern bool shows_controls;

void controls_start(const char *path, uint64_t id, int64_t limit);
void controls_stop(void);
bool control_may_have(const char *path);
bool control_may_be_below(const struct thread *thread, const char *path, int folder);
bool control_has(const char *link);
char *control_text(const struct thread *thread, const char *link, size_t *size);
void control_write_path(FILE *to, const struct process *process);

#endif
