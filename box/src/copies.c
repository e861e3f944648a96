/* copies.c - files of this program's in the place of the kernel's. Each is in memory, and its name says what it is
 * a copy of: so it is written anew where the program goes back to its beginning, as the kernel writes its own. */
#define _GNU_SOURCE
#include "proc.h"

#include <errno.h>
#include <fcntl.h>
#include <stdlib.h>
#include <string.h>
#include <sys/mman.h>
#include <sys/sendfile.h>
#include <sys/stat.h>
#include <sys/syscall.h>
#include <unistd.h>

enum { LONGEST_NAME = 249 /* to memfd_create(2) */, ALL_READ = 0444, OWN = 0644 };

#define NAME "pidtab-box"

/* What a file is a copy of: a path by the kernel's numbers, and its process; 0 for a file of a control group. */
struct copy {
	uint32_t root;
	char path[LONGEST_NAME + 1];
};

static bool write_whole(int file, const char *text, size_t size)
{
	return file >= 0 && pwrite(file, text, size, 0) == (ssize_t)size && !ftruncate(file, (off_t)size);
}

/* A descriptor of this program with the text, whose memory is given back; -1 if there is none. Without a path it
 * stays as it is, and one that is written needs a path. */
int copy_make(uint32_t root, const char *path, char *text, size_t size, bool is_written)
{
	char name[LONGEST_NAME + 1];
	bool is_named = path && (size_t)snprintf(name, sizeof name, NAME " %u %s", root, path) < sizeof name;
	int made;

	if (!text)
		return -1;
	if (!is_named)
		strcpy(name, NAME);
	made = is_named || !is_written ? memfd_create(name, MFD_CLOEXEC) : -1;
	if (made >= 0 && (!write_whole(made, text, size) || fchmod(made, is_written ? OWN : ALL_READ))) {
		close(made);
		made = -1;
	}
	free(text);
	return made;
}

/* What the file that a link of /proc leads to is a copy of; false for all others. */
static bool read_copy(const char *link, struct copy *copy)
{
	static const char gone[] = " (deleted)", begins[] = "/memfd:" NAME " ";
	char found[sizeof begins + LONGEST_NAME + sizeof gone];
	ssize_t size = readlink(link, found, sizeof found - 1);
	char *end;

	found[size > 0 ? size : 0] = 0;
	end = strstr(found, gone);
	if (!end || strncmp(found, begins, strlen(begins)))
		return false;
	*end = 0;
	return sscanf(found + strlen(begins), "%u %249[^\n]", &copy->root, copy->path) == 2;
}

/* The same of a descriptor of the thread; the link leads to it. */
static bool is_copy(const struct thread *thread, int file, char link[64], struct copy *copy)
{
	snprintf(link, 64, "/proc/%d/fd/%d", thread->tid, file);
	return read_copy(link, copy);
}

/* The path of what the file that the link leads to is a copy of; any other one stays. */
void copied_from(const char *link, char path[LONGEST_PATH])
{
	struct copy copy;

	if (read_copy(link, &copy))
		strcpy(path, copy.path);
}

/* As it is now; none if the process is gone. */
static char *text_now(const struct thread *thread, const struct copy *copy, size_t *size)
{
	const struct name *name;
	struct place place;
	const char *file;

	if (!copy->root)
		return group_text(thread, copy->path, size);
	place_begin(&place, copy->path);
	file = place_file(&place);
	name = name_of_real(place.process);
	if (!file || !name || !name->process || name->root != copy->root)
		return NULL;
	return content_of(thread, copy->path, file, place.task ? place.task : place.process, size);
}

/* Writes the file that the link leads to anew. Only its owner, who is this program's user, may write it, and for a
 * moment. */
static void rewrite(const char *link, const char *text, size_t size)
{
	int file;

	chmod(link, OWN);
	file = open(link, O_WRONLY | O_CLOEXEC);
	write_whole(file, text, size);
	if (file >= 0)
		close(file);
	chmod(link, ALL_READ);
}

/* ---- a descriptor that is kept, and read again from its beginning ---- */

static bool is_rewind(const struct thread *thread)
{
	bool is_seek = registers_call(&thread->made) == SYS_lseek;

	if (is_seek && call_argument(thread, 2) != SEEK_SET)
		return false;
	return registers_argument(&thread->made, is_seek ? 1 : 3) == 0;
}

/* Of a process that is gone nothing can be read: after an lseek the reads of that descriptor are made to stop. */
enum onward enter_rewind(struct thread *thread, struct registers *registers)
{
	int file = (int)call_argument(thread, 0);
	struct copy copy;
	char link[64], *text;
	size_t size;

	if (!is_rewind(thread) || !is_copy(thread, file, link, &copy))
		return GO;
	text = text_now(thread, &copy, &size);
	if (text)
		rewrite(link, text, size);
	free(text);
	if (text || reads_stop(thread->process, file))
		return GO;
	if (registers_call(registers) != SYS_lseek)
		return answer_with(thread, -ESRCH);
	if (!room_take(thread))
		return room_map(thread);
	thread->behind_reads = file;
	return watch(thread, registers);
}

bool is_copy_of_none(const struct thread *thread, int file)
{
	struct copy copy;
	char link[64], *text;
	size_t size;

	if (!is_copy(thread, file, link, &copy))
		return false;
	text = text_now(thread, &copy, &size);
	free(text);
	return !text;
}

/* ---- a program that may not open what is this program's, since it has become another user: it opens the kernel's
 * file, which says whether it may, and has one of its own in its place, which this program fills ---- */

static bool in_room(const struct thread *thread, const char *text)
{
	return write_memory(thread->tid, thread->room, text, strlen(text) + 1);
}

static bool open_in_room(struct thread *thread, enum injected what, const char *path)
{
	return in_room(thread, path) && inject(thread, what, SYS_openat,
		(const uint64_t[4]){ (uint64_t)AT_FDCWD, thread->room, thread->open_flags, 0 });
}

bool copy_begin(struct thread *thread)
{
	struct copy copy;
	char link[64];

	thread->wants_copy = false;
	snprintf(link, sizeof link, "/proc/self/fd/%d", thread->content);
	if (read_copy(link, &copy) && open_in_room(thread, OPEN_REAL, copy.path))
		return true;
	copy_done(thread);
	return false;
}

static void fill(const struct thread *thread)
{
	char link[64];
	struct stat about;
	off_t from = 0;
	int file;

	snprintf(link, sizeof link, "/proc/%d/fd/%d", thread->tid, thread->made_file);
	file = open(link, O_WRONLY | O_CLOEXEC);
	if (file < 0)
		return;
	if (!fstat(thread->content, &about))
		sendfile(file, thread->content, &from, (size_t)about.st_size);
	close(file);
	if ((thread->open_flags & O_ACCMODE) == O_RDONLY)
		chmod(link, ALL_READ);
}

static bool make_own(struct thread *thread)
{
	char link[64], name[LONGEST_NAME + 8] = "";
	ssize_t size;

	snprintf(link, sizeof link, "/proc/self/fd/%d", thread->content);
	size = readlink(link, name, sizeof name - 1);
	if (size <= (ssize_t)strlen("/memfd: (deleted)"))
		return false;
	name[size - (ssize_t)strlen(" (deleted)")] = 0;
	return in_room(thread, name + strlen("/memfd:")) && inject(thread, MAKE_COPY, SYS_memfd_create,
		(const uint64_t[4]){ thread->room, MFD_CLOEXEC, 0, 0 });
}

/* One of these calls is over; whether another one follows. The program has the result of its open in the end. */
bool copy_goes_on(struct thread *thread, int64_t result)
{
	char own[64];
	bool goes_on = false;

	switch (thread->injected) {
	case OPEN_REAL:
		registers_set_result(&thread->behind, result);
		thread->real_file = (int)result;
		goes_on = result >= 0 && make_own(thread);
		break;
	case MAKE_COPY:
		thread->made_file = (int)result;
		if (result >= 0)
			fill(thread);
		goes_on = result >= 0 && inject(thread, CLOSE_REAL, SYS_close,
			(const uint64_t[4]){ (uint64_t)thread->real_file, 0, 0, 0 });
		break;
	case CLOSE_REAL:
		snprintf(own, sizeof own, "/proc/self/fd/%d", thread->made_file);
		thread->open_flags &= ~(uint64_t)O_NOFOLLOW;
		goes_on = open_in_room(thread, OPEN_COPY, own);
		break;
	case OPEN_COPY:
		registers_set_result(&thread->behind, result);
		goes_on = inject(thread, CLOSE_COPY, SYS_close, (const uint64_t[4]){ (uint64_t)thread->made_file, 0, 0, 0 });
		break;
	default:
		break;
	}
	if (goes_on)
		return true;
	copy_done(thread);
	if (registers_result(&thread->behind) >= 0 && filter_wanted(thread))
		return true;
	room_give_back(thread);
	return false;
}

/* The program has opened it, or could not. Where it may not, or has no such folder, it makes one. */
int64_t leave_path(struct thread *thread, int64_t result)
{
	bool is_given = thread->content >= 0;

	thread->wants_copy = is_given && (result == -EACCES || result == -EPERM || result == -ENOENT);
	if (result < 0 && !thread->wants_copy)
		thread->wants_filter = thread->wants_write_filter = false;
	if (!thread->wants_copy)
		copy_done(thread);
	return result;
}

void copy_done(struct thread *thread)
{
	if (thread->content >= 0)
		close(thread->content);
	thread->content = -1;
}
