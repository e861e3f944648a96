/* calls.h - the table of system calls: from it the filter, the translation and the page of what is covered are made. */
#ifndef CALLS_H
#define CALLS_H

#include "box.h"

/* Who decides what a call does. */
enum decides {
	PLAIN,   /* the kernel; the call carries no identifier and does not stop */
	KERNEL,  /* the kernel, by translated identifiers */
	TABLE,   /* the table; the kernel is asked too where it has to do the same */
	REFUSED  /* nobody: ENOSYS, and the report names it */
};

/* Which of its uses a row is about: by the low half of an argument, which is all that the filter looks at. */
struct test {
	enum { ALWAYS, WHEN, UNLESS, NEVER, GIVEN /* both halves: the argument is not 0 */ } how;
	int argument;
	uint32_t mask, value;
};

/* An identifier that a call carries. */
struct carried {
	enum kind kind;
	enum { IN_ARGUMENT, IN_MEMORY, IN_RESULT } place;
	int argument;
	int offset; /* in the memory that the argument points to */
};

enum { CARRIED = 2, MOST_CALLS = 512 /* above every number of a call */ };

struct call {
	const char *name;
	int number[2]; /* on x86-64 and on aarch64; -1 where it has no such call */
	enum decides decides;
	struct test test, also; /* both have to hold */
	struct carried in[CARRIED], out[CARRIED];
	enum onward (*enter)(struct thread *thread, struct registers *registers);
	int64_t (*leave)(struct thread *thread, int64_t result);
	uint32_t operation; /* of the table, for a query */
	const char *note;   /* for the page: which use, or why it is refused */
};

/* The rows of a call are beside each other. The first one whose test holds is that of a use; without one the use is plain. */
extern const struct call calls[];
extern const int call_count;

const struct call *call_first(int64_t number);
const struct call *call_row(const struct registers *registers);
const struct call *call_row_translated(const struct registers *registers);
void calls_print(void);

/* What the rows name. Each is beside the others of its topic. */
enum onward enter_query(struct thread *, struct registers *);    /* groups.c */
enum onward enter_gettid(struct thread *, struct registers *);
enum onward enter_setpgid(struct thread *, struct registers *);
enum onward enter_setsid(struct thread *, struct registers *);
enum onward enter_subreaper(struct thread *, struct registers *);
enum onward enter_is_subreaper(struct thread *, struct registers *);
int64_t leave_query(struct thread *, int64_t);
int64_t leave_setpgid(struct thread *, int64_t);
int64_t leave_setsid(struct thread *, int64_t);
enum onward enter_fork(struct thread *, struct registers *);     /* forks.c */
enum onward enter_clone3(struct thread *, struct registers *);   /* clone3.c */
int64_t leave_clone3(struct thread *, int64_t);
enum onward enter_dumpable(struct thread *, struct registers *);
enum onward enter_unshare(struct thread *, struct registers *);
int64_t leave_fork(struct thread *, int64_t);
int64_t leave_unshare(struct thread *, int64_t);
enum onward enter_wait4(struct thread *, struct registers *);    /* waits.c */
int64_t leave_wait4(struct thread *, int64_t);
int64_t leave_waitid(struct thread *, int64_t);
enum onward enter_kill(struct thread *, struct registers *);     /* signals.c */
enum onward enter_sigaction(struct thread *, struct registers *);
int64_t leave_kill(struct thread *, int64_t);
int64_t leave_sigtimedwait(struct thread *, int64_t);
enum onward enter_signalfd(struct thread *, struct registers *);
enum onward enter_read(struct thread *, struct registers *);
enum onward enter_readv(struct thread *, struct registers *);
int64_t leave_signalfd(struct thread *, int64_t);
int64_t leave_signalfd_read(struct thread *, int64_t);
enum onward enter_timer(struct thread *, struct registers *);
enum onward enter_share(struct thread *, struct registers *);    /* robust.c */
enum onward enter_owner(struct thread *, struct registers *);    /* messages.c */
int64_t leave_owner(struct thread *, int64_t);
int64_t leave_peer(struct thread *, int64_t);
enum onward enter_send(struct thread *, struct registers *);
enum onward enter_send_many(struct thread *, struct registers *);
enum onward enter_pass(struct thread *, struct registers *);
enum onward enter_receive(struct thread *, struct registers *);
enum onward enter_receive_many(struct thread *, struct registers *);
int64_t leave_receive(struct thread *, int64_t);
int64_t leave_receive_many(struct thread *, int64_t);
enum onward enter_path(struct thread *, struct registers *);     /* proc.c */
enum onward enter_path_at(struct thread *, struct registers *);
enum onward enter_open(struct thread *, struct registers *);
enum onward enter_creat(struct thread *, struct registers *);
enum onward enter_open_at(struct thread *, struct registers *);
enum onward enter_open_at2(struct thread *, struct registers *);
enum onward enter_rewind(struct thread *, struct registers *);   /* copies.c */
enum onward enter_readlink(struct thread *, struct registers *);
enum onward enter_readlink_at(struct thread *, struct registers *);
enum onward enter_listing(struct thread *, struct registers *);
enum onward enter_mkdir(struct thread *, struct registers *);    /* controls.c */
enum onward enter_mkdir_at(struct thread *, struct registers *);
enum onward enter_rmdir(struct thread *, struct registers *);
enum onward enter_rmdir_at(struct thread *, struct registers *);
enum onward enter_write(struct thread *, struct registers *);
enum onward enter_carry(struct thread *, struct registers *);
int64_t leave_mkdir(struct thread *, int64_t);
int64_t leave_mkdir_at(struct thread *, int64_t);
int64_t leave_path(struct thread *, int64_t);
int64_t leave_listing(struct thread *, int64_t);

#endif
