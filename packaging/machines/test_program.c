/* The functions of program.c alone, called by a program_main that is given two words and two variables. */
#include "program.h"
#include <assert.h>
#include <errno.h>
#include <string.h>

/* Of linux/futex.h, which musl does not have. */
enum { FUTEX_WAIT, FUTEX_WAKE };

static unsigned char room[8];

/* Whether a function has copied just this text, and nothing after it. */
static int is_copied(int64_t size, const char *text)
{
	int same = size == (int64_t)strlen(text) && memcmp(room, text, (size_t)size) == 0 && room[size] == 0xee;
	memset(room, 0xee, sizeof room);
	return same;
}

static void test_words(void)
{
	assert(rattle_arg_count() == 3);
	assert(is_copied(rattle_arg(1, room, 3), "run"));
	assert(is_copied(rattle_arg(2, room, sizeof room), ""));
	assert(rattle_arg(1, room, 2) == TOO_LONG);
	assert(rattle_arg(3, room, sizeof room) == ABSENT);
	assert(rattle_arg(SIZE_MAX, room, sizeof room) == ABSENT);
	memset(room, 0xee, sizeof room);
}

static void test_environment(void)
{
	assert(is_copied(rattle_env("A", room, sizeof room), "one"));
	assert(is_copied(rattle_env("B", room, 0), ""));
	assert(rattle_env("A", room, 2) == TOO_LONG);
	assert(rattle_env("C", room, sizeof room) == ABSENT);
	memset(room, 0xee, sizeof room);
	/* An emulator may give them in another order. */
	size_t first = rattle_env_at(0, room, sizeof room) == 5 ? 0 : 1;
	memset(room, 0xee, sizeof room);
	assert(is_copied(rattle_env_at(first, room, sizeof room), "A=one"));
	assert(is_copied(rattle_env_at(1 - first, room, sizeof room), "B="));
	assert(rattle_env_at(first, room, 4) == TOO_LONG);
	assert(rattle_env_at(2, room, sizeof room) == ABSENT);
	assert(rattle_env_at(SIZE_MAX, room, sizeof room) == ABSENT);
}

static void test_errno(void)
{
	rattle_set_errno(EAGAIN);
	assert(errno == EAGAIN && rattle_errno() == EAGAIN);
}

/* The words for a processor of the level x86-64-v2, as the compiler's own test of them says, and none for what there is no leaf of. */
static void test_processor(void)
{
#if defined(__x86_64__) && !defined(__GLIBC__)
	struct cpuid_feature { unsigned int known[4], active[4]; };
	const struct cpuid_feature *__x86_get_cpuid_feature_leaf(unsigned int index);

	__builtin_cpu_init();
	assert(((__x86_get_cpuid_feature_leaf(0)->active[2] >> 20 & 1) == 1) == !!__builtin_cpu_supports("sse4.2"));
	assert(((__x86_get_cpuid_feature_leaf(0)->active[2] >> 23 & 1) == 1) == !!__builtin_cpu_supports("popcnt"));
	assert(((__x86_get_cpuid_feature_leaf(1)->active[1] >> 5 & 1) == 1) == !!__builtin_cpu_supports("avx2"));
	assert(__x86_get_cpuid_feature_leaf(3)->active[2] == 0);
#endif
}

/* A wait for another value than there is ends at once, and a wake finds nobody. */
static void test_syscall(void)
{
	static unsigned int word = 1;

	assert(program_syscall(FUTEX_OF_X86_64, &word, FUTEX_WAIT, 2, NULL) == -1 && errno == EAGAIN);
	assert(program_syscall(FUTEX_OF_X86_64, &word, FUTEX_WAKE, 1, NULL) == 0);
}

int program_main(void)
{
	memset(room, 0xee, sizeof room);
	test_words();
	test_environment();
	test_errno();
	test_processor();
	test_syscall();
	return 7;
}
