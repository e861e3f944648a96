/* A disk that fails once: the n-th write, sync, rename, truncation, removal or creation of a file returns an error, and all others are done. The file
 * FLAKY has four numbers of 32 bits: n, or 0; the error, or 0 if the process is killed in its place; how many operations there were; and which kind
 * has failed. LD_PRELOAD. */
#define _GNU_SOURCE
#include <dlfcn.h>
#include <errno.h>
#include <fcntl.h>
#include <signal.h>
#include <stdarg.h>
#include <stdlib.h>
#include <sys/mman.h>
#include <sys/stat.h>
#include <unistd.h>

enum kind { NOTHING, SYNC, WRITE, RENAME, TRUNCATE, UNLINK, CREATE };

static struct {
	int number, error, count, failed;
} *plan;

#define REAL(type, name) ((type)dlsym(RTLD_NEXT, name))

__attribute__((constructor)) static void begin(void)
{
	int file = REAL(int (*)(const char *, int, ...), "open64")(getenv("FLAKY"), O_RDWR);
	plan = mmap(NULL, sizeof *plan, PROT_READ | PROT_WRITE, MAP_SHARED, file, 0);
	if (plan == MAP_FAILED)
		abort();
	close(file);
}

static int fails(enum kind kind)
{
	if (!plan || !plan->number || __atomic_add_fetch(&plan->count, 1, __ATOMIC_SEQ_CST) != plan->number)
		return 0;
	plan->failed = kind;
	if (!plan->error)
		kill(getpid(), SIGKILL);
	errno = plan->error;
	return 1;
}

/* Standard error is no disk. */
static int is_kept(int fd)
{
	struct stat about;
	return fd > 2 && fstat(fd, &about) == 0 && S_ISREG(about.st_mode);
}

int fsync(int fd) { return fails(SYNC) ? -1 : REAL(int (*)(int), "fsync")(fd); }
int fdatasync(int fd) { return fails(SYNC) ? -1 : REAL(int (*)(int), "fdatasync")(fd); }
int rename(const char *from, const char *to) { return fails(RENAME) ? -1 : REAL(int (*)(const char *, const char *), "rename")(from, to); }
int unlink(const char *path) { return fails(UNLINK) ? -1 : REAL(int (*)(const char *), "unlink")(path); }
int ftruncate64(int fd, off64_t size) { return fails(TRUNCATE) ? -1 : REAL(int (*)(int, off64_t), "ftruncate64")(fd, size); }

ssize_t write(int fd, const void *bytes, size_t size)
{
	return is_kept(fd) && fails(WRITE) ? -1 : REAL(ssize_t (*)(int, const void *, size_t), "write")(fd, bytes, size);
}

ssize_t pwrite64(int fd, const void *bytes, size_t size, off64_t at)
{
	return is_kept(fd) && fails(WRITE) ? -1 : REAL(ssize_t (*)(int, const void *, size_t, off64_t), "pwrite64")(fd, bytes, size, at);
}

int open64(const char *path, int flags, ...)
{
	va_list rest;
	va_start(rest, flags);
	unsigned mode = va_arg(rest, unsigned);
	va_end(rest);
	return flags & O_CREAT && fails(CREATE) ? -1 : REAL(int (*)(const char *, int, ...), "open64")(path, flags, mode);
}
