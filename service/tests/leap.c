/* A clock that leaps: at each look it is 20 ms later than the time since the look before tells, as for a process that has lost its processor in between.
 * LD_PRELOAD. */
#define _GNU_SOURCE
#include <dlfcn.h>
#include <time.h>

#define LEAP 20000000L
#define SECOND 1000000000L

static long looks;

int clock_gettime(clockid_t clock, struct timespec *now)
{
	int (*real)(clockid_t, struct timespec *) = (int (*)(clockid_t, struct timespec *))dlsym(RTLD_NEXT, "clock_gettime");
	int status = real(clock, now);
	long leapt = now->tv_nsec + LEAP * __atomic_add_fetch(&looks, 1, __ATOMIC_SEQ_CST);
	now->tv_sec += leapt / SECOND;
	now->tv_nsec = leapt % SECOND;
	return status;
}
