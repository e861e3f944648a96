/* bytes.c - whether each byte of a program is still its own, where something stands between it and the kernel. */
#define _GNU_SOURCE
#include <alloca.h>
#include <fcntl.h>
#include <pthread.h>
#include <signal.h>
#include <stdbool.h>
#include <stdint.h>
#include <stdio.h>
#include <stdlib.h>
#include <string.h>
#include <sys/mman.h>
#include <sys/signalfd.h>
#include <sys/syscall.h>
#include <sys/uio.h>
#include <sys/wait.h>
#include <ucontext.h>
#include <unistd.h>

enum { WORDS = 128, FAILED = 1, MISUSED = 2, MANY = 20 };

/* ---- a descriptor's number that was a signalfd's ---- */

/* To one who takes them for a signalfd's, each record comes from a process, whose number is to be translated. */
static void fill(int32_t *words)
{
	for (int i = 0; i < WORDS; i++)
		words[i] = i % 4 == 2 ? 0 : 1000 + i;
}

static int differing(const int32_t *found)
{
	int32_t words[WORDS];
	int count = 0;

	fill(words);
	for (int i = 0; i < WORDS; i++)
		count += words[i] != found[i];
	return count;
}

/* Reads the file by each call that a signalfd is read by. */
static void read_file(int file)
{
	int32_t found[WORDS];
	struct iovec part = { found, sizeof found };
	const char *names[] = { "read", "readv", "preadv2" };

	for (int i = 0; i < 3; i++) {
		ssize_t size;

		memset(found, 0, sizeof found);
		lseek(file, 0, SEEK_SET);
		size = i == 0 ? read(file, found, sizeof found) : i == 1 ? readv(file, &part, 1) : preadv2(file, &part, 1, 0, 0);
		printf("%s: %zd bytes, %d words differ\n", names[i], size, differing(found));
	}
}

static int make_signalfd(int flags)
{
	sigset_t set;

	sigemptyset(&set);
	sigaddset(&set, SIGUSR1);
	sigprocmask(SIG_BLOCK, &set, NULL);
	return signalfd(-1, &set, flags);
}

static int make_file(void)
{
	int file = memfd_create("words", 0);
	int32_t words[WORDS];

	fill(words);
	if (write(file, words, sizeof words) != sizeof words)
		exit(FAILED);
	return file;
}

static int again(void)
{
	int signals = make_signalfd(0), file;

	close(signals);
	file = make_file();
	printf("the same number: %d\n", file == signals);
	read_file(file);
	return 0;
}

static int read_given(void)
{
	read_file(make_file());
	return 0;
}

/* A program that begins with the number free again. */
static int executed(void)
{
	make_signalfd(SFD_CLOEXEC);
	execl("/proc/self/exe", "bytes", "read", NULL);
	return FAILED;
}

/* A program that begins where so many numbers were signalfds'. */
static int behind(int count, char **words)
{
	for (int i = 0; i < count; i++)
		make_signalfd(SFD_CLOEXEC);
	execvp(words[0], words);
	return FAILED;
}

/* ---- who has sent what a signalfd says ---- */

static int files[MANY];

static void *read_all(void *word)
{
	pid_t *sender = word;
	int right = 0;

	for (int i = 0; i < MANY; i++) {
		struct signalfd_siginfo info;

		*sender = fork();
		if (*sender == 0) {
			kill(getppid(), SIGUSR1);
			_exit(0);
		}
		right += read(files[i], &info, sizeof info) == sizeof info && (pid_t)info.ssi_pid == *sender;
		waitpid(*sender, NULL, 0);
	}
	printf("%d senders are right\n", right);
	return NULL;
}

/* Many signalfds, of which another thread reads, which began before. */
static void *read_later(void *word)
{
	while (!__atomic_load_n(&files[MANY - 1], __ATOMIC_ACQUIRE))
		usleep(1000);
	return read_all(word);
}

static int senders(void)
{
	pthread_t thread;
	pid_t sender;
	sigset_t set;

	sigemptyset(&set);
	sigaddset(&set, SIGUSR1);
	sigprocmask(SIG_BLOCK, &set, NULL);
	pthread_create(&thread, NULL, read_later, &sender);
	for (int i = 0; i < MANY; i++)
		__atomic_store_n(&files[i], make_signalfd(0), __ATOMIC_RELEASE);
	pthread_join(thread, NULL);
	read_all(&sender);
	return 0;
}

static int count_filters(void)
{
	char line[256];
	int count = 0;
	FILE *file = fopen("/proc/self/status", "r");

	while (file && fgets(line, sizeof line, file))
		if (sscanf(line, "Seccomp_filters: %d", &count) == 1)
			break;
	if (file)
		fclose(file);
	return count;
}

/* Filters slow all calls, and cannot be taken away. */
static int filters(void)
{
	int before;

	count_filters(); /* a first open of a file of /proc has one of its own */
	before = count_filters();
	for (int i = 0; i < 5 * MANY; i++)
		make_signalfd(0);
	printf("at most 8 filters more: %d\n", count_filters() - before <= 8);
	return 0;
}

/* ---- what is below a small stack ---- */

enum { BLOCK = 65536, STACK = 32768, LEFT = 256, FILLING = 0x5a };

static char *block;
static const char *path;
static ucontext_t back, small;
static sigset_t none;
static const struct open_how_64 { uint64_t flags, mode, resolve; } how;

/* Calls with a stack pointer that is right above the stack's end. */
static void at_the_end(void)
{
	char *here = __builtin_frame_address(0), *end = block + STACK;
	volatile char *room = alloca((size_t)(here - end - LEFT));

	room[0] = 0;
	close((int)syscall(SYS_openat, AT_FDCWD, path, O_RDONLY));
	close((int)syscall(SYS_openat2, AT_FDCWD, path, &how, sizeof how));
	syscall(SYS_faccessat, AT_FDCWD, path, R_OK);
	close((int)syscall(SYS_signalfd4, -1, &none, sizeof(uint64_t), 0));
}

static int changed_below(void)
{
	int changed = 0;

	memset(block, FILLING, BLOCK);
	syscall(SYS_getuid); /* these are found and bound now */
	close(-1);
	getcontext(&small);
	small.uc_stack.ss_sp = block + STACK;
	small.uc_stack.ss_size = BLOCK - STACK;
	small.uc_link = &back;
	makecontext(&small, at_the_end, 0);
	swapcontext(&back, &small);
	for (int i = 0; i < STACK; i++)
		changed += block[i] != FILLING;
	return changed;
}

static int stacks(void)
{
	static const char *const paths[] = { "/proc/self/stat", "/proc/1/status", "/proc/1/cmdline" };

	block = mmap(NULL, BLOCK, PROT_READ | PROT_WRITE, MAP_PRIVATE | MAP_ANONYMOUS, -1, 0);
	for (size_t i = 0; i < sizeof paths / sizeof paths[0]; i++) {
		path = paths[i];
		printf("%s: %d bytes below the stack differ\n", path, changed_below());
	}
	return 0;
}

/* ---- files of /proc, which are given by paths of another's ---- */

static bool is_own_stat(void)
{
	char text[64] = "";
	int file = open("/proc/self/stat", O_RDONLY);
	bool is_so = read(file, text, sizeof text - 1) > 0 && atoi(text) == getpid();

	close(file);
	return is_so;
}

static void *open_often(void *word)
{
	for (int i = 0; i < 200; i++)
		*(int *)word += !is_own_stat();
	return NULL;
}

/* Each of many threads that open at once has the right file. */
static int threads(void)
{
	pthread_t threads[MANY];
	int wrong[MANY] = { 0 }, sum = 0;

	for (int i = 0; i < MANY; i++)
		pthread_create(&threads[i], NULL, open_often, &wrong[i]);
	for (int i = 0; i < MANY; i++) {
		pthread_join(threads[i], NULL);
		sum += wrong[i];
	}
	printf("%d opens went wrong\n", sum);
	return 0;
}

enum { MOST_MAPPED = 256, PAGE = 4096 };

struct mapping {
	unsigned long from, to;
};

static int read_mappings(struct mapping *mappings)
{
	static char text[65536];
	int file = open("/proc/self/maps", O_RDONLY), count = 0;
	size_t size = 0;

	for (ssize_t got; (got = read(file, text + size, sizeof text - 1 - size)) > 0;)
		size += (size_t)got;
	close(file);
	text[size] = 0;
	for (char *line = strtok(text, "\n"); line && count < MOST_MAPPED; line = strtok(NULL, "\n"))
		count += sscanf(line, "%lx-%lx", &mappings[count].from, &mappings[count].to) == 2;
	return count;
}

static bool is_among(unsigned long at, const struct mapping *mappings, int count)
{
	for (int i = 0; i < count; i++)
		if (mappings[i].from <= at && at < mappings[i].to)
			return true;
	return false;
}

/* How many bytes of a mapping in the page's place change by an open. */
static int changed_over(unsigned long page, int *wrong)
{
	char *at = mmap((void *)page, PAGE, PROT_READ | PROT_WRITE, MAP_PRIVATE | MAP_ANONYMOUS | MAP_FIXED, -1, 0);
	int changed = 0;

	memset(at, FILLING, PAGE);
	*wrong += !is_own_stat();
	for (int i = 0; i < PAGE; i++)
		changed += at[i] != FILLING;
	return changed;
}

/* A program may map its own over what has appeared in it: then that is not written to. */
static int taken(void)
{
	static struct mapping before[MOST_MAPPED], after[MOST_MAPPED];
	int count = read_mappings(before), changed = 0, wrong = !is_own_stat(), now = read_mappings(after);

	for (int i = 0; i < now; i++)
		for (unsigned long page = after[i].from; page < after[i].to; page += PAGE)
			if (!is_among(page, before, count))
				changed += changed_over(page, &wrong);
	printf("%d bytes of a mapping differ, %d opens went wrong\n", changed, wrong);
	return 0;
}

int main(int count, char **words)
{
	static const struct {
		const char *name;
		int (*act)(void);
	} ways[] = { { "again", again }, { "executed", executed }, { "read", read_given }, { "senders", senders }, { "stacks", stacks }, { "threads", threads },
		    { "taken", taken }, { "filters", filters } };

	if (count > 3 && !strcmp(words[1], "behind"))
		return behind(atoi(words[2]), words + 3);
	for (size_t i = 0; count == 2 && i < sizeof ways / sizeof ways[0]; i++)
		if (!strcmp(words[1], ways[i].name))
			return ways[i].act();
	fputs("usage: bytes again|executed|read|senders|stacks|threads|taken|filters\n       bytes behind COUNT PROGRAM [WORD ..]\n", stderr);
	return MISUSED;
}
