/* What the proved program asks of C beside the C library and the heap: its words, the environment and errno.
 *
 * The toolchain has these functions for x86-64 with glibc, as an archive. There a constructor keeps the words of the command line, which musl does not
 * hand to one: so here a main of C keeps them, and the program's own main has the name program_main.
 */
#define _GNU_SOURCE
#include "program.h"
#include <errno.h>
#include <stdlib.h>
#include <sys/syscall.h>
#include <unistd.h>

extern char **environ;

static char **words;
static size_t word_count;

/* Copies a text without its end: its length, ABSENT where there is none, or TOO_LONG for the room. */
static int64_t copied(const char *from, unsigned char *to, size_t room)
{
	if (!from)
		return ABSENT;
	size_t size = 0;
	while (from[size]) {
		if (size == room)
			return TOO_LONG;
		to[size] = (unsigned char)from[size];
		size++;
	}
	return (int64_t)size;
}

int64_t rattle_arg_count(void)
{
	return (int64_t)word_count;
}

int64_t rattle_arg(size_t at, unsigned char *to, size_t room)
{
	return copied(at < word_count ? words[at] : NULL, to, room);
}

int64_t rattle_env(const char *name, unsigned char *to, size_t room)
{
	return copied(getenv(name), to, room);
}

int64_t rattle_env_at(size_t at, unsigned char *to, size_t room)
{
	size_t count = 0;
	while (environ && environ[count] && count < at)
		count++;
	return copied(environ ? environ[count] : NULL, to, room);
}

int rattle_errno(void)
{
	return errno;
}

void rattle_set_errno(int error)
{
	errno = error;
}

/* What glibc tells of the processor (sys/platform/x86.h), which a program for x86-64 asks whether it is x86-64-v2: the registers of leaves of cpuid. */
struct cpuid_feature {
	unsigned int known[4], active[4];
};

#if defined(__x86_64__) && !defined(__GLIBC__)
#include <cpuid.h>

const struct cpuid_feature *__x86_get_cpuid_feature_leaf(unsigned int index)
{
	static const unsigned int leaves[] = { 1, 7, 0x80000001 };
	static struct cpuid_feature features[sizeof leaves / sizeof leaves[0]], none;

	if (index >= sizeof leaves / sizeof leaves[0])
		return &none;
	unsigned int *it = features[index].active;
	__get_cpuid_count(leaves[index], 0, &it[0], &it[1], &it[2], &it[3]);
	return &features[index];
}
#elif defined(__riscv)
/* A module for x86-64 that is compiled for another machine: it is for the processor that it is compiled for. */
const struct cpuid_feature *__x86_get_cpuid_feature_leaf(unsigned int index)
{
	static const struct cpuid_feature all = { .active = { ~0u, ~0u, ~0u, ~0u } };

	(void)index;
	return &all;
}
#endif

/* The one system call that such a module makes by its number on x86-64. */
long program_syscall(long number, void *at, long operation, long value, void *timeout)
{
	if (number != FUTEX_OF_X86_64)
		abort();
	return syscall(SYS_futex, at, operation, value, timeout);
}

int main(int count, char **given)
{
	words = given;
	word_count = (size_t)count;
	return program_main();
}
