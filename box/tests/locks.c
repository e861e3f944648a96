/* locks.c - robust locks whose owner has ended, in one of several ways. What it prints is the same wherever it runs. */
#define _GNU_SOURCE
#include <errno.h>
#include <linux/futex.h>
#include <pthread.h>
#include <signal.h>
#include <stdbool.h>
#include <stdint.h>
#include <stdio.h>
#include <stdlib.h>
#include <string.h>
#include <sys/ipc.h>
#include <sys/mman.h>
#include <sys/shm.h>
#include <sys/syscall.h>
#include <sys/wait.h>
#include <time.h>
#include <unistd.h>

enum { FAILED = 1, MISUSED = 2, MANY = 20, SECONDS = 10, ENDS = 100, MOMENT = 50000 /* us */ };

/* What is shared: locks, and how many are held. */
static struct shared {
	pthread_mutex_t locks[MANY];
	volatile int held;
	uint32_t raw;
} *shared;

static void make_locks(int protocol)
{
	pthread_mutexattr_t how;

	pthread_mutexattr_init(&how);
	pthread_mutexattr_setrobust(&how, PTHREAD_MUTEX_ROBUST);
	pthread_mutexattr_setpshared(&how, PTHREAD_PROCESS_SHARED);
	pthread_mutexattr_settype(&how, protocol);
	for (int i = 0; i < MANY; i++)
		pthread_mutex_init(&shared->locks[i], &how);
	shared->held = 0;
}

static const char *word(int error)
{
	return error ? strerrorname_np(error) : "taken";
}

/* Takes it within some seconds: a lock that nobody gives up is ETIMEDOUT. */
static int take(int i)
{
	struct timespec end;

	clock_gettime(CLOCK_REALTIME, &end);
	end.tv_sec += SECONDS;
	return pthread_mutex_timedlock(&shared->locks[i], &end);
}

static void hold_all(void)
{
	for (int i = 0; i < MANY; i++)
		pthread_mutex_lock(&shared->locks[i]);
	shared->held = MANY;
}

/* What one finds who comes after: all are his, one is made consistent, and one is given up as it is. */
static void look(const char *what)
{
	int died = 0, others = 0;

	for (int i = 0; i < MANY; i++) {
		int error = i % 2 ? take(i) : pthread_mutex_trylock(&shared->locks[i]);

		died += error == EOWNERDEAD;
		others += error != EOWNERDEAD;
	}
	printf("%s: %d say that their owner died, %d others\n", what, died, others);
	pthread_mutex_consistent(&shared->locks[0]);
	pthread_mutex_unlock(&shared->locks[0]);
	pthread_mutex_unlock(&shared->locks[1]);
	printf("made good: %s, ", word(take(0)));
	printf("given up: %s\n", word(take(1)));
}

/* ---- who ends ---- */

static void *hold_in_thread(void *arg)
{
	hold_all();
	return arg;
}

static void *hold_until_killed(void *arg)
{
	hold_all();
	for (;;)
		pause();
	return arg;
}

static int thread(void)
{
	pthread_t thread;

	make_locks(PTHREAD_MUTEX_NORMAL);
	pthread_create(&thread, NULL, hold_in_thread, NULL);
	pthread_join(thread, NULL);
	look("a thread");
	return 0;
}

/* A child that ends so. The locks are shared by a mapping, or by System V. */
static void by_child(const char *what, void (*end)(void))
{
	pid_t child;

	make_locks(PTHREAD_MUTEX_RECURSIVE);
	child = fork();
	if (child == 0) {
		hold_all();
		end();
		_exit(0);
	}
	waitpid(child, NULL, 0);
	look(what);
}

static void end_killed(void)
{
	raise(SIGKILL);
}

static void end_itself(void)
{
	exit(0);
}

static void end_by_fault(void)
{
	signal(SIGSEGV, SIG_DFL);
	raise(SIGSEGV);
}

static void end_within_thread(void)
{
	pthread_t thread;

	make_locks(PTHREAD_MUTEX_ERRORCHECK);
	pthread_create(&thread, NULL, hold_until_killed, NULL);
	while (shared->held < MANY)
		usleep(MOMENT / 50);
	_exit(0);
}

static int processes(void)
{
	by_child("killed", end_killed);
	by_child("ended", end_itself);
	by_child("a fault", end_by_fault);
	by_child("with a thread", end_within_thread);
	return 0;
}

/* A child of a child, whose first process ends before: it has the mapping by two forks. */
static int grandchild(void)
{
	pid_t child;

	make_locks(PTHREAD_MUTEX_NORMAL);
	child = fork();
	if (child == 0) {
		if (fork() == 0) {
			hold_all();
			_exit(0);
		}
		wait(NULL);
		_exit(0);
	}
	waitpid(child, NULL, 0);
	look("a grandchild");
	return 0;
}

static void *wait_for_it(void *arg)
{
	*(int *)arg = take(MANY - 1);
	return NULL;
}

/* Those who sleep for the lock, in this process and in another one, are woken. */
static int sleepers(void)
{
	pthread_t thread;
	int error = -1, status;
	pid_t owner, other;

	make_locks(PTHREAD_MUTEX_NORMAL);
	owner = fork();
	if (owner == 0) {
		hold_all();
		for (;;)
			pause();
	}
	while (shared->held < MANY)
		usleep(MOMENT / 50);
	pthread_create(&thread, NULL, wait_for_it, &error);
	other = fork();
	if (other == 0) {
		error = take(MANY - 2);
		_exit(error == EOWNERDEAD ? 0 : FAILED);
	}
	usleep(MOMENT);
	kill(owner, SIGKILL);
	pthread_join(thread, NULL);
	waitpid(owner, NULL, 0);
	waitpid(other, &status, 0);
	printf("woken: %s, in a process %d\n", word(error), status);
	return 0;
}

/* ---- a list of the caller's own, as other libraries have them ---- */

static struct entry {
	struct robust_list list;
	uint32_t *word;
} entry;

static _Noreturn void end_as_owner(void)
{
	while (shared->held != 1)
		;
	pthread_mutex_lock(&shared->locks[0]);
	shared->held = 2;
	_exit(0);
}

static _Noreturn void take_from_owner(void)
{
	int error;

	shared->held = 1;
	while (shared->held != 2)
		;
	do
		error = pthread_mutex_trylock(&shared->locks[0]);
	while (error == EBUSY);
	_exit(error == EDEADLK);
}

/* Each owner ends beside one who was begun next, whose number may be the owner's to the kernel. */
static int mistaken(void)
{
	int count = 0, status;

	for (int i = 0; i < ENDS; i++) {
		make_locks(PTHREAD_MUTEX_ERRORCHECK);
		if (fork() == 0)
			end_as_owner();
		if (fork() == 0)
			take_from_owner();
		while (wait(&status) > 0)
			count += status != 0;
	}
	printf("%d of %d took it for their own\n", count, ENDS);
	return 0;
}

static struct robust_list_head own;

static _Noreturn void *end_with_list(void *arg)
{
	uint32_t how = *(uint32_t *)arg, number = (uint32_t)syscall(SYS_gettid);
	bool is_pending = how & 1;

	own.list.next = is_pending ? &own.list : &entry.list;
	entry.list.next = &own.list;
	own.futex_offset = (long)((char *)&shared->raw - (char *)&entry.list);
	own.list_op_pending = is_pending ? &entry.list : NULL;
	syscall(SYS_set_robust_list, &own, sizeof own);
	shared->raw = how & 2 ? number | FUTEX_WAITERS : how & 4 ? number + 1 : number;
	syscall(SYS_exit, 0);
	abort();
}

/* The word behind it: who died is marked, and others stay. */
static int words(void)
{
	for (uint32_t how = 0; how < 6; how++) {
		pthread_t thread;
		uint32_t before;

		shared->raw = 0;
		pthread_create(&thread, NULL, end_with_list, &how);
		pthread_join(thread, NULL);
		before = shared->raw;
		printf("%u: %s%s%s\n", how, before & FUTEX_OWNER_DIED ? "died " : "", before & FUTEX_WAITERS ? "waiters " : "",
			before & FUTEX_TID_MASK ? "a number" : "");
	}
	return 0;
}

/* Who asks gets the list of a process and of a thread by their numbers. */
static int lists(void)
{
	struct robust_list_head *mine = NULL, *other = NULL;
	size_t size = 0;
	pid_t child = fork();

	if (child == 0)
		for (;;)
			pause();
	for (int i = 0; i < SECONDS * 1000 && !other; i++) {
		syscall(SYS_get_robust_list, child, &other, &size); /* it begins with none */
		usleep(MOMENT / 50);
	}
	printf("own %ld, of a child %ld, of nobody %s\n", syscall(SYS_get_robust_list, 0, &mine, &size),
		syscall(SYS_get_robust_list, child, &other, &size),
	       syscall(SYS_get_robust_list, 999, &other, &size) ? word(errno) : "one");
	printf("%d %d %zu\n", mine != NULL, mine == other, size);
	kill(child, SIGKILL);
	waitpid(child, NULL, 0);
	return 0;
}

static struct shared *by_system_v(void)
{
	int id;
	void *at;

	id = shmget(IPC_PRIVATE, sizeof *shared, 0600);
	at = shmat(id, NULL, 0);
	shmctl(id, IPC_RMID, NULL);
	return at;
}

/* Memory of the kind: private memory is for threads alone. */
static struct shared *share(const char *kind)
{
	static struct shared own_memory;

	if (!strcmp(kind, "private"))
		return &own_memory;
	if (!strcmp(kind, "system-v"))
		return by_system_v();
	return mmap(NULL, sizeof *shared, PROT_READ | PROT_WRITE, MAP_SHARED | MAP_ANONYMOUS, -1, 0);
}

int main(int count, char **given)
{
	static const struct {
		const char *name;
		int (*act)(void);
	} ways[] = { { "thread", thread }, { "processes", processes }, { "grandchild", grandchild }, { "sleepers",
		sleepers }, { "words", words }, { "lists", lists }, { "mistaken", mistaken } };

	setvbuf(stdout, NULL, _IOLBF, 0);
	for (size_t i = 0; count == 3 && i < sizeof ways / sizeof ways[0]; i++)
		if (!strcmp(given[1], ways[i].name)) {
			shared = share(given[2]);
			return ways[i].act();
		}
	fputs("usage: locks thread|processes|grandchild|sleepers|words|lists|mistaken mapping|system-v|private\n", stderr);
	return MISUSED;
}
