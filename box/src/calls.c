/* calls.c - the table of system calls, and what is asked of it. */
#define _GNU_SOURCE
#include "calls.h"

#include <asm/ioctls.h>
#include <fcntl.h>
#include <linux/capability.h>
#include <linux/futex.h>
#include <linux/ioprio.h>
#include <linux/seccomp.h>
#include <linux/sockios.h>
#include <sched.h>
#include <signal.h>
#include <stddef.h>
#include <string.h>
#include <sys/ipc.h>
#include <sys/mman.h>
#include <sys/msg.h>
#include <sys/prctl.h>
#include <sys/resource.h>
#include <sys/sem.h>
#include <sys/shm.h>
#include <sys/signalfd.h>
#include <sys/socket.h>
#include <sys/wait.h>

/* Newer than some headers. */
#ifndef FUTEX_LOCK_PI2
#define FUTEX_LOCK_PI2 13
#endif
#ifndef PR_SCHED_CORE
#define PR_SCHED_CORE 62
#endif

/* The type of an ioctl: what a driver calls its own. */
#define IOCTL_TYPE 0xff00u

/* Where identifiers are in memory. */
enum {
	AT_SENDER = offsetof(siginfo_t, si_pid),
	AT_SIGNALFD_SENDER = offsetof(struct signalfd_siginfo, ssi_pid),
	AT_NOTIFIED = offsetof(struct sigevent, _sigev_un),
	AT_CAPABLE = offsetof(struct __user_cap_header_struct, pid),
	AT_LOCKER = offsetof(struct flock, l_pid),
	AT_OWNER = offsetof(struct f_owner_ex, pid),
	AT_SENT = offsetof(struct msqid_ds, msg_lspid),
	AT_ATTACHED = offsetof(struct shmid_ds, shm_cpid)
};

#define ANY_BIT 0xffffffffu
#define WHEN_IS(argument, value) { WHEN, argument, ANY_BIT, value }
#define UNLESS_IS(argument, value) { UNLESS, argument, ANY_BIT, value }
#define WHEN_HAS(argument, mask, value) { WHEN, argument, mask, value }
#define UNLESS_HAS(argument, mask, value) { UNLESS, argument, mask, value }
#define UNSEEN { NEVER, 0, 0, 0 }
#define VALUE(argument, kind) { kind, IN_ARGUMENT, argument, 0 }
#define MEMORY(argument, offset, kind) { kind, IN_MEMORY, argument, offset }
#define RESULT(kind) .out = { { kind, IN_RESULT, 0, 0 } }
#define QUERY(of) .enter = enter_query, .leave = leave_query, .operation = of
#define STATE "`IPC_STAT`, `MSG_STAT`, `SHM_STAT`, also with `_ANY`"
#define OPENED "not `cgroup.procs`, `cgroup.threads`, `tasks` for writing"
#define REWOUND \
	"a copy of the box's, at its beginning: by a filter of its own"
#define MADE "with `--cgroups`"
#define WRITTEN "a file of such a group, by a filter of its own"
#define CARRIED_THERE "to such a file"
#define PRIORITY "with priorities: the kernel compares the word with its own numbers"
#define NONE(name, x86_64, aarch64) { #name, { x86_64, aarch64 }, PLAIN, .note = NULL }

const struct call calls[] = {
	/* What the table answers. */
	{ "getpid", { 39, 172 }, TABLE, RESULT(PROCESS), QUERY(PIDTAB_GETPID) },
	{ "getppid", { 110, 173 }, TABLE, RESULT(PROCESS), QUERY(PIDTAB_GETPPID) },
	{ "gettid", { 186, 178 }, TABLE, RESULT(TASK), .enter = enter_gettid, .leave = leave_query, .operation = PIDTAB_GETPID,
		.note = "the box numbers the threads beside the main one" },
	{ "getpgrp", { 111, -1 }, TABLE, RESULT(GROUP), QUERY(PIDTAB_GETPGID) },
	{ "getpgid", { 121, 155 }, TABLE, .in = { VALUE(0, TASK) }, RESULT(GROUP), QUERY(PIDTAB_GETPGID) },
	{ "getsid", { 124, 156 }, TABLE, .in = { VALUE(0, TASK) }, RESULT(GROUP), QUERY(PIDTAB_GETSID) },

	/* What both do: the table first, but for a setpgid of another process. */
	{ "setpgid", { 109, 154 }, TABLE, .in = { VALUE(0, PROCESS), VALUE(1, GROUP) }, .enter = enter_setpgid, .leave = leave_setpgid },
	{ "setsid", { 112, 157 }, TABLE, RESULT(GROUP), .enter = enter_setsid, .leave = leave_setsid },
	{ "fork", { 57, -1 }, TABLE, RESULT(PROCESS), .enter = enter_fork, .leave = leave_fork },
	{ "vfork", { 58, -1 }, TABLE, RESULT(PROCESS), .enter = enter_fork, .leave = leave_fork },
	{ "clone", { 56, 220 }, REFUSED, .test = UNLESS_HAS(0, CLONE_UNTRACED, 0), .note = "`CLONE_UNTRACED`: nobody would see what it does" },
	{ "clone", { 56, 220 }, REFUSED, .test = WHEN_HAS(0, CLONE_THREAD | CLONE_PARENT, CLONE_PARENT),
		.note = "`CLONE_PARENT`: the table has no such fork" },
	{ "clone", { 56, 220 }, TABLE, .test = WHEN_HAS(0, CLONE_THREAD, 0), RESULT(PROCESS), .enter = enter_fork, .leave = leave_fork,
		.note = "a process; a new thread does not stop here" },
	{ "clone3", { 435, 435 }, TABLE, RESULT(TASK), .enter = enter_clone3, .leave = leave_clone3,
		.note = "it is made `clone`; what that lacks, as `CLONE_INTO_CGROUP` and `set_tid`, is refused" },
	{ "unshare", { 272, 97 }, TABLE, .test = UNLESS_HAS(0, CLONE_NEWPID, 0), .enter = enter_unshare, .leave = leave_unshare,
		.note = "`CLONE_NEWPID`" },
	{ "setns", { 308, 268 }, REFUSED, .test = WHEN_IS(1, 0), .note = "of any type: it may be a PID namespace" },
	{ "setns", { 308, 268 }, REFUSED, .test = UNLESS_HAS(1, CLONE_NEWPID, 0),
		.note = "`CLONE_NEWPID`: the namespaces are those of the table" },
	{ "prctl", { 157, 167 }, TABLE, .test = WHEN_IS(0, PR_SET_CHILD_SUBREAPER), .enter = enter_subreaper,
		.note = "`PR_SET_CHILD_SUBREAPER`" },
	{ "prctl", { 157, 167 }, TABLE, .test = WHEN_IS(0, PR_GET_CHILD_SUBREAPER), .enter = enter_is_subreaper,
		.note = "`PR_GET_CHILD_SUBREAPER`" },
	{ "prctl", { 157, 167 }, KERNEL, .test = WHEN_IS(0, PR_SET_PTRACER), .in = { VALUE(1, PROCESS) }, .note = "`PR_SET_PTRACER`" },
	{ "prctl", { 157, 167 }, KERNEL, .test = WHEN_IS(0, PR_SET_DUMPABLE), .enter = enter_dumpable,
		.note = "`PR_SET_DUMPABLE`" },
	{ "prctl", { 157, 167 }, REFUSED, .test = WHEN_IS(0, PR_SCHED_CORE), .note = "`PR_SCHED_CORE`" },

	/* Waits: the kernel reaps, and the table is told. */
	{ "wait4", { 61, 260 }, KERNEL, .in = { VALUE(0, PROCESS_OR_GROUP) }, RESULT(PROCESS), .enter = enter_wait4, .leave = leave_wait4 },
	{ "waitid", { 247, 95 }, KERNEL, .test = WHEN_IS(0, P_PID), .in = { VALUE(1, PROCESS) }, .out = { MEMORY(2, AT_SENDER, PROCESS) }, .leave = leave_waitid,
		.note = "`P_PID`" },
	{ "waitid", { 247, 95 }, KERNEL, .test = WHEN_IS(0, P_PGID), .in = { VALUE(1, GROUP) }, .out = { MEMORY(2, AT_SENDER, PROCESS) }, .leave = leave_waitid,
		.note = "`P_PGID`" },
	{ "waitid", { 247, 95 }, KERNEL, .out = { MEMORY(2, AT_SENDER, PROCESS) }, .leave = leave_waitid, .note = "all others" },

	/* Signals. */
	{ "kill", { 62, 129 }, KERNEL, .in = { VALUE(0, PROCESS_OR_GROUP) }, .enter = enter_kill, .leave = leave_kill,
		.note = "to all, it is one call after another" },
	{ "tkill", { 200, 130 }, KERNEL, .in = { VALUE(0, TASK) } },
	{ "tgkill", { 234, 131 }, KERNEL, .in = { VALUE(0, PROCESS), VALUE(1, TASK) } },
	{ "rt_sigqueueinfo", { 129, 138 }, KERNEL, .in = { VALUE(0, TASK) } },
	{ "rt_tgsigqueueinfo", { 297, 240 }, KERNEL, .in = { VALUE(0, PROCESS), VALUE(1, TASK) } },
	{ "rt_sigaction", { 13, 134 }, KERNEL, .test = WHEN_IS(0, SIGCHLD), .also = { GIVEN, 1, 0, 0 }, .enter = enter_sigaction,
		.note = "of `SIGCHLD`, which may say that children leave no zombies" },
	{ "rt_sigtimedwait", { 128, 137 }, KERNEL, .out = { MEMORY(1, AT_SENDER, PROCESS) }, .leave = leave_sigtimedwait },
	{ "signalfd", { 282, -1 }, KERNEL, .enter = enter_signalfd, .leave = leave_signalfd, .note = "what is read of it has the sender" },
	{ "signalfd4", { 289, 74 }, KERNEL, .enter = enter_signalfd, .leave = leave_signalfd, .note = "what is read of it has the sender" },
	{ "read", { 0, 63 }, KERNEL, .test = UNSEEN, .out = { MEMORY(1, AT_SIGNALFD_SENDER, PROCESS) }, .enter = enter_read,
		.leave = leave_signalfd_read,
		.note = "of a `signalfd`: it stops by a filter of its own" },
	{ "readv", { 19, 65 }, REFUSED, .test = UNSEEN, .enter = enter_readv, .note = "of a `signalfd`" },
	{ "preadv2", { 327, 286 }, REFUSED, .test = UNSEEN, .enter = enter_readv, .note = "of a `signalfd`" },
	{ "timer_create", { 222, 107 }, KERNEL, .in = { VALUE(0, CLOCK), MEMORY(1, AT_NOTIFIED, TASK) }, .enter = enter_timer,
		.note = "a thread with `SIGEV_THREAD_ID`" },
	{ "clock_gettime", { 228, 113 }, KERNEL, .test = UNLESS_HAS(0, 1u << 31, 0), .in = { VALUE(0, CLOCK) },
		.note = "the clock of a process or a thread" },
	{ "clock_settime", { 227, 112 }, KERNEL, .test = UNLESS_HAS(0, 1u << 31, 0), .in = { VALUE(0, CLOCK) },
		.note = "the clock of a process or a thread" },
	{ "clock_getres", { 229, 114 }, KERNEL, .test = UNLESS_HAS(0, 1u << 31, 0), .in = { VALUE(0, CLOCK) },
		.note = "the clock of a process or a thread" },
	{ "clock_adjtime", { 305, 266 }, KERNEL, .test = UNLESS_HAS(0, 1u << 31, 0), .in = { VALUE(0, CLOCK) },
		.note = "the clock of a process or a thread" },
	{ "clock_nanosleep", { 230, 115 }, KERNEL, .test = UNLESS_HAS(0, 1u << 31, 0), .in = { VALUE(0, CLOCK) },
		.note = "the clock of a process or a thread" },

	/* Whom a call is about. */
	{ "getpriority", { 140, 141 }, KERNEL, .test = WHEN_IS(0, PRIO_PROCESS), .in = { VALUE(1, TASK) }, .note = "`PRIO_PROCESS`" },
	{ "getpriority", { 140, 141 }, KERNEL, .test = WHEN_IS(0, PRIO_PGRP), .in = { VALUE(1, GROUP) }, .note = "`PRIO_PGRP`" },
	{ "setpriority", { 141, 140 }, KERNEL, .test = WHEN_IS(0, PRIO_PROCESS), .in = { VALUE(1, TASK) }, .note = "`PRIO_PROCESS`" },
	{ "setpriority", { 141, 140 }, KERNEL, .test = WHEN_IS(0, PRIO_PGRP), .in = { VALUE(1, GROUP) }, .note = "`PRIO_PGRP`" },
	{ "ioprio_get", { 252, 31 }, KERNEL, .test = WHEN_IS(0, IOPRIO_WHO_PROCESS), .in = { VALUE(1, TASK) },
		.note = "`IOPRIO_WHO_PROCESS`" },
	{ "ioprio_get", { 252, 31 }, KERNEL, .test = WHEN_IS(0, IOPRIO_WHO_PGRP), .in = { VALUE(1, GROUP) }, .note = "`IOPRIO_WHO_PGRP`" },
	{ "ioprio_set", { 251, 30 }, KERNEL, .test = WHEN_IS(0, IOPRIO_WHO_PROCESS), .in = { VALUE(1, TASK) },
		.note = "`IOPRIO_WHO_PROCESS`" },
	{ "ioprio_set", { 251, 30 }, KERNEL, .test = WHEN_IS(0, IOPRIO_WHO_PGRP), .in = { VALUE(1, GROUP) }, .note = "`IOPRIO_WHO_PGRP`" },
	{ "sched_setparam", { 142, 118 }, KERNEL, .test = UNLESS_IS(0, 0), .in = { VALUE(0, TASK) } },
	{ "sched_getparam", { 143, 121 }, KERNEL, .test = UNLESS_IS(0, 0), .in = { VALUE(0, TASK) } },
	{ "sched_setscheduler", { 144, 119 }, KERNEL, .test = UNLESS_IS(0, 0), .in = { VALUE(0, TASK) } },
	{ "sched_getscheduler", { 145, 120 }, KERNEL, .test = UNLESS_IS(0, 0), .in = { VALUE(0, TASK) } },
	{ "sched_rr_get_interval", { 148, 127 }, KERNEL, .test = UNLESS_IS(0, 0), .in = { VALUE(0, TASK) } },
	{ "sched_setaffinity", { 203, 122 }, KERNEL, .test = UNLESS_IS(0, 0), .in = { VALUE(0, TASK) } },
	{ "sched_getaffinity", { 204, 123 }, KERNEL, .test = UNLESS_IS(0, 0), .in = { VALUE(0, TASK) } },
	{ "sched_setattr", { 314, 274 }, KERNEL, .test = UNLESS_IS(0, 0), .in = { VALUE(0, TASK) } },
	{ "sched_getattr", { 315, 275 }, KERNEL, .test = UNLESS_IS(0, 0), .in = { VALUE(0, TASK) } },
	{ "prlimit64", { 302, 261 }, KERNEL, .test = UNLESS_IS(0, 0), .in = { VALUE(0, TASK) } },
	{ "migrate_pages", { 256, 238 }, KERNEL, .test = UNLESS_IS(0, 0), .in = { VALUE(0, TASK) } },
	{ "move_pages", { 279, 239 }, KERNEL, .test = UNLESS_IS(0, 0), .in = { VALUE(0, TASK) } },
	{ "process_vm_readv", { 310, 270 }, KERNEL, .in = { VALUE(0, TASK) } },
	{ "process_vm_writev", { 311, 271 }, KERNEL, .in = { VALUE(0, TASK) } },
	{ "kcmp", { 312, 272 }, KERNEL, .in = { VALUE(0, TASK), VALUE(1, TASK) } },
	{ "capget", { 125, 90 }, KERNEL, .in = { MEMORY(0, AT_CAPABLE, TASK) } },
	{ "capset", { 126, 91 }, KERNEL, .in = { MEMORY(0, AT_CAPABLE, TASK) } },
	{ "pidfd_open", { 434, 434 }, KERNEL, .in = { VALUE(0, TASK) } },
	{ "set_tid_address", { 218, 96 }, KERNEL, RESULT(TASK) },
	{ "get_robust_list", { 274, 100 }, KERNEL, .in = { VALUE(0, TASK) } },
	{ "mmap", { 9, 222 }, KERNEL, .test = UNLESS_HAS(3, MAP_SHARED, 0), .also = UNLESS_HAS(2, PROT_WRITE, 0),
		.enter = enter_share,
		.note = "shared, for writing: from then on its robust locks are seen" },
	{ "shmat", { 30, 196 }, KERNEL, .test = WHEN_HAS(2, SHM_RDONLY, 0), .enter = enter_share, .note = "the same" },
	{ "futex", { 202, 98 }, REFUSED, .test = WHEN_HAS(1, FUTEX_CMD_MASK, FUTEX_LOCK_PI),
		.note = PRIORITY },
	{ "futex", { 202, 98 }, REFUSED, .test = WHEN_HAS(1, FUTEX_CMD_MASK, FUTEX_UNLOCK_PI),
		.note = PRIORITY },
	{ "futex", { 202, 98 }, REFUSED, .test = WHEN_HAS(1, FUTEX_CMD_MASK, FUTEX_TRYLOCK_PI),
		.note = PRIORITY },
	{ "futex", { 202, 98 }, REFUSED, .test = WHEN_HAS(1, FUTEX_CMD_MASK, FUTEX_WAIT_REQUEUE_PI),
		.note = PRIORITY },
	{ "futex", { 202, 98 }, REFUSED, .test = WHEN_HAS(1, FUTEX_CMD_MASK, FUTEX_CMP_REQUEUE_PI),
		.note = PRIORITY },
	{ "futex", { 202, 98 }, REFUSED, .test = WHEN_HAS(1, FUTEX_CMD_MASK, FUTEX_LOCK_PI2),
		.note = PRIORITY },

	/* Descriptors and memory that have identifiers. */
	{ "ioctl", { 16, 29 }, KERNEL, .test = WHEN_IS(1, TIOCGPGRP), .out = { MEMORY(2, 0, GROUP) }, .note = "`TIOCGPGRP`" },
	{ "ioctl", { 16, 29 }, KERNEL, .test = WHEN_IS(1, TIOCGSID), .out = { MEMORY(2, 0, GROUP) }, .note = "`TIOCGSID`" },
	{ "ioctl", { 16, 29 }, KERNEL, .test = WHEN_IS(1, TIOCSPGRP), .in = { MEMORY(2, 0, GROUP) }, .note = "`TIOCSPGRP`" },
	{ "ioctl", { 16, 29 }, KERNEL, .test = WHEN_IS(1, FIOSETOWN), .in = { MEMORY(2, 0, PROCESS_OR_GROUP) }, .note = "`FIOSETOWN`" },
	{ "ioctl", { 16, 29 }, KERNEL, .test = WHEN_IS(1, SIOCSPGRP), .in = { MEMORY(2, 0, PROCESS_OR_GROUP) }, .note = "`SIOCSPGRP`" },
	{ "ioctl", { 16, 29 }, KERNEL, .test = WHEN_IS(1, FIOGETOWN), .out = { MEMORY(2, 0, PROCESS_OR_GROUP) }, .note = "`FIOGETOWN`" },
	{ "ioctl", { 16, 29 }, KERNEL, .test = WHEN_IS(1, SIOCGPGRP), .out = { MEMORY(2, 0, PROCESS_OR_GROUP) }, .note = "`SIOCGPGRP`" },
	{ "ioctl", { 16, 29 }, REFUSED, .test = WHEN_HAS(1, IOCTL_TYPE, 0xff00), .note = "a pidfd's, as `PIDFD_GET_INFO`" },
	{ "ioctl", { 16, 29 }, REFUSED, .test = WHEN_HAS(1, IOCTL_TYPE, 0xb700), .note = "a namespace's, as `NS_GET_PID_FROM_PIDNS`" },
	{ "fcntl", { 72, 25 }, KERNEL, .test = WHEN_IS(1, F_GETLK), .out = { MEMORY(2, AT_LOCKER, PROCESS) }, .note = "`F_GETLK`" },
	{ "fcntl", { 72, 25 }, KERNEL, .test = WHEN_IS(1, F_SETOWN), .in = { VALUE(2, PROCESS_OR_GROUP) }, .note = "`F_SETOWN`" },
	{ "fcntl", { 72, 25 }, KERNEL, .test = WHEN_IS(1, F_GETOWN), RESULT(PROCESS_OR_GROUP), .note = "`F_GETOWN`" },
	{ "fcntl", { 72, 25 }, KERNEL, .test = WHEN_IS(1, F_SETOWN_EX), .in = { MEMORY(2, AT_OWNER, TASK) }, .enter = enter_owner,
		.note = "`F_SETOWN_EX`: by its type a thread, a process or a group" },
	{ "fcntl", { 72, 25 }, KERNEL, .test = WHEN_IS(1, F_GETOWN_EX), .out = { MEMORY(2, AT_OWNER, TASK) }, .leave = leave_owner,
		.note = "`F_GETOWN_EX`" },
	{ "getsockopt", { 55, 209 }, KERNEL, .test = WHEN_IS(2, SO_PEERCRED), .out = { MEMORY(3, 0, PROCESS) }, .leave = leave_peer,
		.note = "`SO_PEERCRED`" },
	{ "sendmsg", { 46, 211 }, KERNEL, .in = { MEMORY(1, 0, PROCESS) }, .enter = enter_send,
		.note = "`SCM_CREDENTIALS` in its control data" },
	{ "sendmmsg", { 307, 269 }, KERNEL, .in = { MEMORY(1, 0, PROCESS) }, .enter = enter_send_many, .note = "the same" },
	{ "recvmsg", { 47, 212 }, KERNEL, .out = { MEMORY(1, 0, PROCESS) }, .enter = enter_receive, .leave = leave_receive,
		.note = "the same" },
	{ "recvmmsg", { 299, 243 }, KERNEL, .out = { MEMORY(1, 0, PROCESS) }, .enter = enter_receive_many,
		.leave = leave_receive_many, .note = "the same" },
	{ "setsockopt", { 54, 208 }, KERNEL, .test = WHEN_IS(1, SOL_SOCKET), .also = WHEN_IS(2, SO_PASSCRED),
		.enter = enter_pass,
		.note = "`SO_PASSCRED`: no `SCM_CREDENTIALS` is looked for before it" },
	{ "msgctl", { 71, 187 }, KERNEL, .test = WHEN_IS(1, IPC_STAT), .out = { MEMORY(2, AT_SENT, PROCESS), MEMORY(2, AT_SENT + 4, PROCESS) },
		.note = STATE },
	{ "msgctl", { 71, 187 }, KERNEL, .test = WHEN_IS(1, MSG_STAT), .out = { MEMORY(2, AT_SENT, PROCESS), MEMORY(2, AT_SENT + 4, PROCESS) },
		.note = STATE },
	{ "msgctl", { 71, 187 }, KERNEL, .test = WHEN_IS(1, MSG_STAT_ANY), .out = { MEMORY(2, AT_SENT, PROCESS), MEMORY(2, AT_SENT + 4, PROCESS) },
		.note = STATE },
	{ "shmctl", { 31, 195 }, KERNEL, .test = WHEN_IS(1, IPC_STAT), .out = { MEMORY(2, AT_ATTACHED, PROCESS), MEMORY(2, AT_ATTACHED + 4, PROCESS) },
		.note = STATE },
	{ "shmctl", { 31, 195 }, KERNEL, .test = WHEN_IS(1, SHM_STAT), .out = { MEMORY(2, AT_ATTACHED, PROCESS), MEMORY(2, AT_ATTACHED + 4, PROCESS) },
		.note = STATE },
	{ "shmctl", { 31, 195 }, KERNEL, .test = WHEN_IS(1, SHM_STAT_ANY), .out = { MEMORY(2, AT_ATTACHED, PROCESS), MEMORY(2, AT_ATTACHED + 4, PROCESS) },
		.note = STATE },
	{ "semctl", { 66, 191 }, KERNEL, .test = WHEN_IS(2, GETPID), RESULT(PROCESS), .note = "`GETPID`" },

	/* /proc. */
	{ "open", { 2, -1 }, KERNEL, .in = { VALUE(0, PATH) }, .enter = enter_open, .leave = leave_path, .note = OPENED },
	{ "creat", { 85, -1 }, KERNEL, .in = { VALUE(0, PATH) }, .enter = enter_creat, .leave = leave_path, .note = OPENED },
	{ "stat", { 4, -1 }, KERNEL, .in = { VALUE(0, PATH) }, .enter = enter_path, .leave = leave_path },
	{ "lstat", { 6, -1 }, KERNEL, .in = { VALUE(0, PATH) }, .enter = enter_path, .leave = leave_path },
	{ "access", { 21, -1 }, KERNEL, .in = { VALUE(0, PATH) }, .enter = enter_path, .leave = leave_path },
	{ "chdir", { 80, 49 }, KERNEL, .in = { VALUE(0, PATH) }, .enter = enter_path, .leave = leave_path },
	{ "statfs", { 137, 43 }, KERNEL, .in = { VALUE(0, PATH) }, .enter = enter_path, .leave = leave_path },
	{ "openat", { 257, 56 }, KERNEL, .in = { VALUE(1, PATH) }, .enter = enter_open_at, .leave = leave_path, .note = OPENED },
	{ "openat2", { 437, 437 }, KERNEL, .in = { VALUE(1, PATH) }, .enter = enter_open_at2, .leave = leave_path,
		.note = OPENED },
	{ "newfstatat", { 262, 79 }, PLAIN, .test = UNLESS_HAS(3, AT_EMPTY_PATH, 0),
		.also = UNLESS_IS(0, (uint32_t)AT_FDCWD) },
	{ "newfstatat", { 262, 79 }, KERNEL, .in = { VALUE(1, PATH) }, .enter = enter_path_at, .leave = leave_path },
	{ "statx", { 332, 291 }, PLAIN, .test = UNLESS_HAS(2, AT_EMPTY_PATH, 0), .also = UNLESS_IS(0, (uint32_t)AT_FDCWD) },
	{ "statx", { 332, 291 }, KERNEL, .in = { VALUE(1, PATH) }, .enter = enter_path_at, .leave = leave_path },
	{ "faccessat", { 269, 48 }, KERNEL, .in = { VALUE(1, PATH) }, .enter = enter_path_at, .leave = leave_path },
	{ "faccessat2", { 439, 439 }, KERNEL, .in = { VALUE(1, PATH) }, .enter = enter_path_at, .leave = leave_path },
	{ "lseek", { 8, 62 }, KERNEL, .test = UNSEEN, .enter = enter_rewind, .note = REWOUND },
	{ "pread64", { 17, 67 }, KERNEL, .test = UNSEEN, .enter = enter_rewind, .note = REWOUND },
	{ "preadv", { 295, 69 }, KERNEL, .test = UNSEEN, .enter = enter_rewind, .note = REWOUND },
	{ "readlink", { 89, -1 }, KERNEL, .in = { VALUE(0, PATH) }, .enter = enter_readlink, .leave = leave_path,
		.note = "`/proc/self` is answered by the box" },
	{ "readlinkat", { 267, 78 }, KERNEL, .in = { VALUE(1, PATH) }, .enter = enter_readlink_at, .leave = leave_path, .note = "the same" },
	{ "getdents64", { 217, 61 }, KERNEL, .in = { VALUE(0, DIRECTORY) }, .enter = enter_listing, .leave = leave_listing,
		.note = "of `/proc` and of `/proc/N/task`" },
	{ "getdents", { 78, -1 }, REFUSED, .note = "the old form of `getdents64`" },

	/* The control groups of the table, which --cgroups shows. */
	{ "mkdir", { 83, -1 }, KERNEL, .in = { VALUE(0, CONTROL) }, .enter = enter_mkdir, .leave = leave_mkdir, .note = MADE },
	{ "mkdirat", { 258, 34 }, KERNEL, .in = { VALUE(1, CONTROL) }, .enter = enter_mkdir_at, .leave = leave_mkdir_at, .note = MADE },
	{ "rmdir", { 84, -1 }, TABLE, .in = { VALUE(0, CONTROL) }, .enter = enter_rmdir, .note = MADE },
	{ "unlinkat", { 263, 35 }, TABLE, .test = WHEN_HAS(2, AT_REMOVEDIR, AT_REMOVEDIR), .in = { VALUE(1, CONTROL) }, .enter = enter_rmdir_at,
		.note = MADE },
	{ "write", { 1, 64 }, TABLE, .test = UNSEEN, .in = { VALUE(0, CONTROL) }, .enter = enter_write, .note = WRITTEN },
	{ "pwrite64", { 18, 68 }, TABLE, .test = UNSEEN, .in = { VALUE(0, CONTROL) }, .enter = enter_write, .note = WRITTEN },
	{ "writev", { 20, 66 }, TABLE, .test = UNSEEN, .in = { VALUE(0, CONTROL) }, .enter = enter_write, .note = WRITTEN },
	{ "pwritev", { 296, 70 }, TABLE, .test = UNSEEN, .in = { VALUE(0, CONTROL) }, .enter = enter_write, .note = WRITTEN },
	{ "pwritev2", { 328, 287 }, TABLE, .test = UNSEEN, .in = { VALUE(0, CONTROL) }, .enter = enter_write, .note = WRITTEN },
	{ "sendfile", { 40, 71 }, REFUSED, .test = UNSEEN, .enter = enter_carry, .note = CARRIED_THERE },
	{ "splice", { 275, 76 }, REFUSED, .test = UNSEEN, .enter = enter_carry, .note = CARRIED_THERE },
	{ "copy_file_range", { 326, 285 }, REFUSED, .test = UNSEEN, .enter = enter_carry, .note = CARRIED_THERE },

	/* What has identifiers that are not translated. */
	{ "ptrace", { 101, 117 }, REFUSED, .note = "the box is the tracer" },
	{ "perf_event_open", { 298, 241 }, REFUSED, .note = "samples have the kernel's numbers" },
	{ "bpf", { 321, 280 }, REFUSED, .note = "programs see the kernel's numbers" },
	{ "seccomp", { 317, 277 }, REFUSED, .test = UNLESS_HAS(1, SECCOMP_FILTER_FLAG_NEW_LISTENER, 0), .note = "with a listener, whose messages have processes" },
	{ "userfaultfd", { 323, 282 }, REFUSED, .note = "its messages have threads" },
	{ "fanotify_init", { 300, 262 }, REFUSED, .note = "its events have processes" },
	{ "io_uring_setup", { 425, 425 }, REFUSED, .note = "it would make calls that do not stop" },
	{ "io_uring_enter", { 426, 426 }, REFUSED, .note = "the same" },
	{ "io_uring_register", { 427, 427 }, REFUSED, .note = "the same" },
	{ "acct", { 163, 89 }, REFUSED, .note = "its records have processes" },

	/* Plain: no identifier, or one of a descriptor alone. */
	NONE(close, 3, 57), NONE(fstat, 5, 80), NONE(poll, 7, -1),
	NONE(mprotect, 10, 226), NONE(munmap, 11, 215), NONE(brk, 12, 214),
	NONE(rt_sigprocmask, 14, 135), NONE(rt_sigreturn, 15, 139), NONE(pipe, 22, -1), NONE(select, 23, -1), NONE(sched_yield, 24, 124), NONE(mremap, 25, 216),
	NONE(msync, 26, 227), NONE(mincore, 27, 232), NONE(madvise, 28, 233), NONE(shmget, 29, 194),
	NONE(dup, 32, 23), NONE(dup2, 33, -1), NONE(pause, 34, -1), NONE(nanosleep, 35, 101), NONE(getitimer, 36, 102),
	NONE(alarm, 37, -1), NONE(setitimer, 38, 103), NONE(socket, 41, 198),
	NONE(connect, 42, 203), NONE(accept, 43, 202), NONE(sendto, 44, 206), NONE(recvfrom, 45, 207),
	NONE(shutdown, 48, 210), NONE(bind, 49, 200), NONE(listen, 50, 201), NONE(getsockname, 51, 204),
	NONE(getpeername, 52, 205), NONE(socketpair, 53, 199), NONE(execve, 59, 221),
	NONE(exit, 60, 93), NONE(uname, 63, 160), NONE(semget, 64, 190), NONE(semop, 65, 193), NONE(shmdt, 67, 197),
	NONE(msgget, 68, 186), NONE(msgsnd, 69, 189), NONE(msgrcv, 70, 188), NONE(flock, 73, 32), NONE(fsync, 74, 82),
	NONE(fdatasync, 75, 83), NONE(truncate, 76, 45), NONE(ftruncate, 77, 46), NONE(getcwd, 79, 17),
	NONE(fchdir, 81, 50), NONE(rename, 82, -1), 
	NONE(link, 86, -1), NONE(unlink, 87, -1), NONE(symlink, 88, -1), NONE(chmod, 90, -1), NONE(fchmod, 91, 52),
	NONE(chown, 92, -1), NONE(fchown, 93, 55), NONE(lchown, 94, -1), NONE(umask, 95, 166), NONE(gettimeofday, 96, 169),
	NONE(getrlimit, 97, 163), NONE(getrusage, 98, 165), NONE(sysinfo, 99, 179), NONE(times, 100, 153),
	NONE(getuid, 102, 174), NONE(syslog, 103, 116), NONE(getgid, 104, 176), NONE(setuid, 105, 146),
	NONE(setgid, 106, 144), NONE(geteuid, 107, 175), NONE(getegid, 108, 177), NONE(setreuid, 113, 145),
	NONE(setregid, 114, 143), NONE(getgroups, 115, 158), NONE(setgroups, 116, 159), NONE(setresuid, 117, 147),
	NONE(getresuid, 118, 148), NONE(setresgid, 119, 149), NONE(getresgid, 120, 150), NONE(setfsuid, 122, 151),
	NONE(setfsgid, 123, 152), NONE(rt_sigpending, 127, 136), NONE(rt_sigsuspend, 130, 133), NONE(sigaltstack, 131, 132),
	NONE(utime, 132, -1), NONE(mknod, 133, -1), NONE(uselib, 134, -1), NONE(personality, 135, 92), NONE(ustat, 136, -1),
	NONE(fstatfs, 138, 44), NONE(sysfs, 139, -1), NONE(sched_get_priority_max, 146, 125),
	NONE(sched_get_priority_min, 147, 126), NONE(mlock, 149, 228), NONE(munlock, 150, 229), NONE(mlockall, 151, 230),
	NONE(munlockall, 152, 231), NONE(vhangup, 153, 58), NONE(modify_ldt, 154, -1), NONE(pivot_root, 155, 41),
	NONE(_sysctl, 156, -1), NONE(arch_prctl, 158, -1), NONE(adjtimex, 159, 171), NONE(setrlimit, 160, 164),
	NONE(chroot, 161, 51), NONE(sync, 162, 81), NONE(settimeofday, 164, 170), NONE(mount, 165, 40),
	NONE(umount2, 166, 39), NONE(swapon, 167, 224), NONE(swapoff, 168, 225), NONE(reboot, 169, 142),
	NONE(sethostname, 170, 161), NONE(setdomainname, 171, 162), NONE(iopl, 172, -1), NONE(ioperm, 173, -1),
	NONE(create_module, 174, -1), NONE(init_module, 175, 105), NONE(delete_module, 176, 106),
	NONE(get_kernel_syms, 177, -1), NONE(query_module, 178, -1), NONE(quotactl, 179, 60), NONE(nfsservctl, 180, 42),
	NONE(getpmsg, 181, -1), NONE(putpmsg, 182, -1), NONE(afs_syscall, 183, -1), NONE(tuxcall, 184, -1),
	NONE(security, 185, -1), NONE(readahead, 187, 213), NONE(setxattr, 188, 5), NONE(lsetxattr, 189, 6),
	NONE(fsetxattr, 190, 7), NONE(getxattr, 191, 8), NONE(lgetxattr, 192, 9), NONE(fgetxattr, 193, 10),
	NONE(listxattr, 194, 11), NONE(llistxattr, 195, 12), NONE(flistxattr, 196, 13), NONE(removexattr, 197, 14),
	NONE(lremovexattr, 198, 15), NONE(fremovexattr, 199, 16), NONE(time, 201, -1), NONE(set_thread_area, 205, -1),
	NONE(set_robust_list, 273, 99),
	NONE(io_setup, 206, 0), NONE(io_destroy, 207, 1), NONE(io_getevents, 208, 4), NONE(io_submit, 209, 2),
	NONE(io_cancel, 210, 3), NONE(get_thread_area, 211, -1), NONE(lookup_dcookie, 212, 18), NONE(epoll_create, 213, -1),
	NONE(epoll_ctl_old, 214, -1), NONE(epoll_wait_old, 215, -1), NONE(remap_file_pages, 216, 234),
	NONE(restart_syscall, 219, 128), NONE(semtimedop, 220, 192), NONE(fadvise64, 221, 223),
	NONE(timer_settime, 223, 110), NONE(timer_gettime, 224, 108), NONE(timer_getoverrun, 225, 109),
	NONE(timer_delete, 226, 111), NONE(exit_group, 231, 94), NONE(epoll_wait, 232, -1), NONE(epoll_ctl, 233, 21),
	NONE(utimes, 235, -1), NONE(vserver, 236, -1), NONE(mbind, 237, 235), NONE(set_mempolicy, 238, 237),
	NONE(get_mempolicy, 239, 236), NONE(mq_open, 240, 180), NONE(mq_unlink, 241, 181), NONE(mq_timedsend, 242, 182),
	NONE(mq_timedreceive, 243, 183), NONE(mq_notify, 244, 184), NONE(mq_getsetattr, 245, 185),
	NONE(kexec_load, 246, 104), NONE(add_key, 248, 217), NONE(request_key, 249, 218), NONE(keyctl, 250, 219),
	NONE(inotify_init, 253, -1), NONE(inotify_add_watch, 254, 27), NONE(inotify_rm_watch, 255, 28),
	NONE(mknodat, 259, 33), NONE(fchownat, 260, 54), NONE(futimesat, 261, -1),
	NONE(renameat, 264, 38), NONE(linkat, 265, 37), NONE(symlinkat, 266, 36),
	NONE(fchmodat, 268, 53), NONE(pselect6, 270, 72), NONE(ppoll, 271, 73), NONE(tee, 276, 77),
	NONE(sync_file_range, 277, 84), NONE(vmsplice, 278, 75), NONE(utimensat, 280, 88), NONE(epoll_pwait, 281, 22),
	NONE(timerfd_create, 283, 85), NONE(eventfd, 284, -1), NONE(fallocate, 285, 47), NONE(timerfd_settime, 286, 86),
	NONE(timerfd_gettime, 287, 87), NONE(accept4, 288, 242), NONE(eventfd2, 290, 19), NONE(epoll_create1, 291, 20),
	NONE(dup3, 292, 24), NONE(pipe2, 293, 59), NONE(inotify_init1, 294, 26),
	NONE(fanotify_mark, 301, 263), NONE(name_to_handle_at, 303, 264),
	NONE(open_by_handle_at, 304, 265), NONE(syncfs, 306, 267), NONE(getcpu, 309, 168), NONE(finit_module, 313, 273),
	NONE(renameat2, 316, 276), NONE(getrandom, 318, 278), NONE(memfd_create, 319, 279),
	NONE(kexec_file_load, 320, 294), NONE(execveat, 322, 281), NONE(membarrier, 324, 283), NONE(mlock2, 325, 284),
	NONE(pkey_mprotect, 329, 288),
	NONE(pkey_alloc, 330, 289), NONE(pkey_free, 331, 290), NONE(io_pgetevents, 333, 292), NONE(rseq, 334, 293),
	NONE(pidfd_send_signal, 424, 424), NONE(open_tree, 428, 428), NONE(move_mount, 429, 429), NONE(fsopen, 430, 430),
	NONE(fsconfig, 431, 431), NONE(fsmount, 432, 432), NONE(fspick, 433, 433), NONE(close_range, 436, 436),
	NONE(pidfd_getfd, 438, 438), NONE(process_madvise, 440, 440), NONE(epoll_pwait2, 441, 441),
	NONE(mount_setattr, 442, 442), NONE(quotactl_fd, 443, 443), NONE(landlock_create_ruleset, 444, 444),
	NONE(landlock_add_rule, 445, 445), NONE(landlock_restrict_self, 446, 446), NONE(memfd_secret, 447, 447),
	NONE(process_mrelease, 448, 448), NONE(futex_waitv, 449, 449), NONE(set_mempolicy_home_node, 450, 450),
	NONE(cachestat, 451, 451), NONE(fchmodat2, 452, 452), NONE(map_shadow_stack, 453, 453), NONE(futex_wake, 454, 454),
	NONE(futex_wait, 455, 455), NONE(futex_requeue, 456, 456), NONE(statmount, 457, 457), NONE(listmount, 458, 458),
	NONE(lsm_get_self_attr, 459, 459), NONE(lsm_set_self_attr, 460, 460), NONE(lsm_list_modules, 461, 461),
	NONE(mseal, 462, 462), NONE(setxattrat, 463, 463), NONE(getxattrat, 464, 464), NONE(listxattrat, 465, 465),
	NONE(removexattrat, 466, 466), NONE(open_tree_attr, 467, 467), NONE(file_getattr, 468, 468),
	NONE(file_setattr, 469, 469),
};

const int call_count = sizeof calls / sizeof calls[0];

/* The first row of each call of this machine, by its number. */
static const struct call *first_rows[MOST_CALLS];

static void index_rows(void)
{
	for (const struct call *call = calls + call_count - 1; call >= calls; call--)
		if (call->number[MACHINE] >= 0)
			first_rows[call->number[MACHINE]] = call;
}

const struct call *call_first(int64_t number)
{
	static bool is_indexed;

	if (!is_indexed)
		index_rows();
	is_indexed = true;
	return number >= 0 && number < MOST_CALLS ? first_rows[number] : NULL;
}

static bool holds(const struct test *test, const struct registers *registers)
{
	bool is_so;

	if (test->how == ALWAYS || test->how == NEVER)
		return true;
	if (test->how == GIVEN)
		return registers_argument(registers, test->argument) != 0;
	is_so = ((uint32_t)registers_argument(registers, test->argument) & test->mask) == test->value;
	return is_so == (test->how == WHEN);
}

/* The row of a use that stopped; a call that no row has is none. */
const struct call *call_row(const struct registers *registers)
{
	int64_t number = registers_call(registers);
	const struct call *call = call_first(number);

	for (; call && call < calls + call_count && call->number[MACHINE] == number; call++)
		if (holds(&call->test, registers) && holds(&call->also, registers))
			return call;
	return NULL;
}

/* The same, of a use that is plain for nearly all, and stops by a filter of its own. */
const struct call *call_row_translated(const struct registers *registers)
{
	const struct call *call = call_row(registers);

	return call && call + 1 < calls + call_count && call[1].number[MACHINE] == call->number[MACHINE] ? call + 1 : call;
}

/* ---- the page of what is covered ---- */

static const char *kind_word(enum kind kind)
{
	static const char *const words[] = {
		[NO_KIND] = "", [PROCESS] = "process", [TASK] = "process or thread", [GROUP] = "group or session",
		[PROCESS_OR_GROUP] = "process, or -group", [CLOCK] = "clock of a process or thread", [PATH] = "path below /proc",
		[DIRECTORY] = "names in /proc", [CONTROL] = "control group"
	};

	return words[kind];
}

static void print_carried(const struct carried carried[CARRIED], const char *before)
{
	for (int i = 0; i < CARRIED && carried[i].kind; i++) {
		printf("%s", i ? ", " : before);
		if (carried[i].place == IN_RESULT)
			printf("the result: %s", kind_word(carried[i].kind));
		else
			printf("%sargument %d: %s", carried[i].place == IN_MEMORY ? "at " : "", carried[i].argument + 1, kind_word(carried[i].kind));
	}
}

static void print_row(const struct call *call)
{
	static const char *const who[] = {
		[PLAIN] = "kernel", [KERNEL] = "kernel", [TABLE] = "table", [REFUSED] = "refused"
	};

	printf("| `%s` | %d | ", call->name, call->number[0]);
	printf(call->number[1] < 0 ? "none | " : "%d | ", call->number[1]);
	printf("%s | ", call->note ? call->note : "");
	print_carried(call->in, "in ");
	print_carried(call->out, call->in[0].kind ? "; out " : "out ");
	printf(" | %s |\n", who[call->decides]);
}

/* The table of README.md: `box/page` puts it there. */
void calls_print(void)
{
	int width = 0;

	printf("| Call | x86-64 | aarch64 | Use | Carries | Who decides |\n|---|---|---|---|---|---|\n");
	for (const struct call *call = calls; call < calls + call_count; call++)
		if (call->decides != PLAIN)
			print_row(call);
	printf("\nAll other uses of these are plain, and so are:\n\n```text");
	for (const struct call *call = calls; call < calls + call_count; call++)
		if (call->decides == PLAIN) {
			width = width > 110 ? 0 : width;
			width += printf("%s%s", width ? " " : "\n", call->name);
		}
	printf("\n```\n");
}
