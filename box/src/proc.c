/* proc.c - paths and listings of /proc: a number in a path becomes the kernel's, and a listing has the numbers of the caller's namespace. */
#define _GNU_SOURCE
#include "proc.h"

#include <ctype.h>
#include <dirent.h>
#include <errno.h>
#include <fcntl.h>
#include <stddef.h>
#include <stdlib.h>
#include <string.h>
#include <sys/ptrace.h>
#include <unistd.h>

bool shows_proc = true;

enum { PAGE = 4096, USUAL_PATH = 192 };
_Static_assert((int)LONGEST_PATH <= (int)ROOM, "a path fits into the room of a thread");

/* ---- a path, component by component ---- */

bool is_number(const char *word)
{
	return *word && strspn(word, "0123456789") == strlen(word);
}

/* The caller is none where the numbers are the kernel's. */
static pid_t numbered(struct place *place, const struct thread *caller, const char *word)
{
	int64_t number = strtol(word, NULL, 10);

	if (!caller)
		return (pid_t)number;
	place->is_translated = true;
	return (pid_t)to_real(caller->process, TASK, number > 0 ? number : NOBODY);
}

static void go_below(struct place *place, const char *word)
{
	size_t length = strlen(place->rest);

	snprintf(place->rest + length, sizeof place->rest - length, place->where == IN_TASKS ? "/task/%s" : "/%s", word);
	place->where = BELOW;
}

static void step_from_proc(struct place *place, const struct thread *caller, const char *word)
{
	bool is_thread = !strcmp(word, "thread-self");

	if (is_number(word)) {
		place->where = IN_PROCESS;
		place->process = numbered(place, caller, word);
	} else if (caller && (is_thread || !strcmp(word, "self"))) {
		place->where = is_thread ? IN_TASK : IN_PROCESS;
		place->process = caller->process->real;
		place->task = is_thread ? caller->tid : 0;
		place->is_self = true;
	} else {
		go_below(place, word);
	}
}

/* Up from a folder; below one there may be links, so the kernel has to go. */
static void step_up(struct place *place)
{
	static const int above[] = { [ELSEWHERE] = ELSEWHERE, [AT_ROOT] = AT_ROOT, [IN_PROC] = AT_ROOT,
		[IN_PROCESS] = IN_PROC, [IN_TASKS] = IN_PROCESS,
		[IN_TASK] = IN_TASKS };

	if (place->where == BELOW) {
		go_below(place, "..");
		return;
	}
	place->where = above[place->where];
	place->process = place->where == IN_PROC ? 0 : place->process;
	place->task = 0;
}

/* The next component of a path; the caller is none where its numbers are the kernel's. */
void place_step(struct place *place, const struct thread *caller, const char *word)
{
	place->is_self = false;
	if (!strcmp(word, "..")) {
		step_up(place);
	} else if (place->where == AT_ROOT) {
		place->where = strcmp(word, "proc") ? ELSEWHERE : IN_PROC;
	} else if (place->where == IN_PROC) {
		step_from_proc(place, caller, word);
	} else if (place->where == IN_PROCESS && !strcmp(word, "task")) {
		place->where = IN_TASKS;
	} else if (place->where == IN_TASKS && is_number(word)) {
		place->where = IN_TASK;
		place->task = numbered(place, caller, word);
	} else if (place->where != ELSEWHERE) {
		go_below(place, word);
	}
}

static void walk(struct place *place, const struct thread *caller, char *text)
{
	char *rest;

	for (char *word = strtok_r(text, "/", &rest); word; word = strtok_r(NULL, "/", &rest))
		if (strcmp(word, "."))
			place_step(place, caller, word);
}

/* The path by the kernel's numbers; false where it is too long. */
bool place_write(const struct place *place, char *path)
{
	int size = snprintf(path, LONGEST_PATH, "/proc");

	if (place->process)
		size += snprintf(path + size, (size_t)(LONGEST_PATH - size), "/%d", place->process);
	if (place->task)
		size += snprintf(path + size, (size_t)(LONGEST_PATH - size), "/task/%d", place->task);
	else if (place->where == IN_TASKS)
		size += snprintf(path + size, (size_t)(LONGEST_PATH - size), "/task");
	return size + snprintf(path + size, (size_t)(LONGEST_PATH - size), "%s", place->rest) < LONGEST_PATH;
}

/* The file whose numbers are translated, as it is named below a process or a thread; or none. */
const char *place_file(const struct place *place)
{
	static const char *const files[] = { "/stat", "/status", "/children", "/cgroup" };
	int count = (int)(sizeof files / sizeof files[0]) - !shows_controls;

	if (!place->process || place->where != BELOW)
		return NULL;
	for (int i = 0; i < count; i++)
		if (!strcmp(place->rest, files[i]))
			return files[i];
	return strncmp(place->rest, "/fdinfo/", 8) ? NULL : "/fdinfo";
}

/* ---- the paths of a program ---- */

/* What nearly all paths end with: a look at the first bytes. In /proc are those below it, and relative ones of its
 * entries that have numbers. */
static bool may_be_in_proc(const char *head, size_t size)
{
	static const char *const entries[] = { "/proc", "self", "thread", "task", "stat", "childr", "fdinfo", "cgroup" };

	for (size_t i = 0; i < sizeof entries / sizeof entries[0]; i++)
		if (!strncmp(head, entries[i], size < strlen(entries[i]) ? size : strlen(entries[i])))
			return true;
	return isdigit((unsigned char)head[0]);
}

/* Most paths are short: to read all that may be one takes longer. */
bool read_path(pid_t tid, uint64_t at, char *path)
{
	for (size_t done = 0; done < LONGEST_PATH;) {
		size_t size = PAGE - (at + done) % PAGE, most = done ? LONGEST_PATH - done : USUAL_PATH;

		size = size < most ? size : most;
		if (!read_memory(tid, at + done, path + done, size))
			return false;
		if (memchr(path + done, 0, size))
			return true;
		done += size;
	}
	return false;
}

/* What a link of /proc leads to. */
bool read_link(const char *link, char path[LONGEST_PATH])
{
	ssize_t size = readlink(link, path, LONGEST_PATH - 1);

	path[size > 0 ? size : 0] = 0;
	return size > 0;
}

/* The directory that a descriptor of the thread is of, or its own. */
bool read_folder(const struct thread *thread, int file, char *folder)
{
	char link[64];

	if (file == AT_FDCWD)
		snprintf(link, sizeof link, "/proc/%d/cwd", thread->tid);
	else
		snprintf(link, sizeof link, "/proc/%d/fd/%d", thread->tid, file);
	return read_link(link, folder);
}

/* Where a folder is, by the kernel's name of it, which is from the root. */
void place_begin(struct place *place, const char *folder)
{
	char copy[LONGEST_PATH];

	place->where = folder[0] == '/' ? AT_ROOT : ELSEWHERE;
	place->process = place->task = 0;
	place->is_translated = place->is_self = false;
	place->rest[0] = 0;
	walk(place, NULL, strcpy(copy, folder));
}

/* Whether the path names a place in /proc. */
bool place_find(struct place *place, const struct thread *thread, const char *path, int folder)
{
	char text[LONGEST_PATH] = "/";

	if (!may_be_in_proc(path, LONGEST_PATH) || (path[0] != '/' && !read_folder(thread, folder, text)))
		return false;
	place_begin(place, text);
	walk(place, thread, strcpy(text, path));
	return place->where >= IN_PROC;
}

static int folder_of(const struct thread *thread, int index, bool has_folder)
{
	return has_folder ? (int)call_argument(thread, index - 1) : AT_FDCWD;
}

/* The first bytes of a path. A word of the memory is read faster than others, where it is there. */
static bool read_head(pid_t tid, uint64_t at, char *head, size_t size)
{
	long word;

	errno = 0;
	word = ptrace(PTRACE_PEEKDATA, tid, at, 0);
	if (errno)
		return read_memory(tid, at, head, size);
	memcpy(head, &word, size);
	return true;
}

static bool has_head_in_proc(const struct thread *thread, uint64_t at)
{
	char head[6];
	size_t size = PAGE - at % PAGE < sizeof head ? PAGE - at % PAGE : sizeof head;

	return at && read_head(thread->tid, at, head, size) && may_be_in_proc(head, size);
}

/* Whether the call has nothing to do here, by its arguments alone: its path leads elsewhere than into /proc, and a file
 * that is opened is only read, and is none of a control group. */
bool path_is_elsewhere(const struct thread *thread)
{
	const struct call *call = thread->call;
	int index = call->in[0].argument;
	uint64_t at = registers_argument(&thread->made, index);
	char path[LONGEST_PATH];

	if (call->enter == enter_creat || call->enter == enter_open_at2)
		return false;
	if (call->enter != enter_open && call->enter != enter_open_at)
		return !has_head_in_proc(thread, at);
	if ((registers_argument(&thread->made, index + 1) & O_ACCMODE) != O_RDONLY || !read_path(thread->tid, at, path))
		return false;
	return !may_be_in_proc(path, LONGEST_PATH) && !group_may_have(path);
}

/* Where the argument with the index names a place in /proc. */
static bool is_in_proc(struct place *place, const struct thread *thread, int index, bool has_folder)
{
	uint64_t at = registers_argument(&thread->made, index);
	char path[LONGEST_PATH];

	if (!has_head_in_proc(thread, at) || !read_path(thread->tid, at, path))
		return false;
	return place_find(place, thread, path, folder_of(thread, index, has_folder));
}

/* The call gets another path. */
enum onward take_path(struct thread *thread, struct registers *registers, int index, const char *path)
{
	if (!write_memory(thread->tid, thread->room, path, strlen(path) + 1))
		return answer_with(thread, -EFAULT);
	registers_set_argument(registers, index, thread->room);
	return watch(thread, registers);
}

/* The call gets the path by the kernel's numbers. */
static enum onward translate_path(struct thread *thread, struct registers *registers, int index,
	const struct place *place)
{
	char path[LONGEST_PATH];

	if (!place->is_translated)
		return GO;
	if (!place_write(place, path))
		return answer_with(thread, -ENAMETOOLONG);
	return room_take(thread) ? take_path(thread, registers, index, path) : room_map(thread);
}

static enum onward path_enter(struct thread *thread, struct registers *registers, int index, bool has_folder)
{
	struct place place;

	return is_in_proc(&place, thread, index, has_folder) ? translate_path(thread, registers, index, &place) : GO;
}

enum onward enter_path(struct thread *thread, struct registers *registers)
{
	return path_enter(thread, registers, 0, false);
}

enum onward enter_path_at(struct thread *thread, struct registers *registers)
{
	return path_enter(thread, registers, 1, true);
}

/* ---- readlink: what /proc/self links to ---- */

static enum onward readlink_enter(struct thread *thread, struct registers *registers, int index, bool has_folder)
{
	size_t room = registers_argument(registers, index + 2);
	struct place place;
	char text[64];
	int size;

	if (!is_in_proc(&place, thread, index, has_folder))
		return GO;
	if (!place.is_self)
		return translate_path(thread, registers, index, &place);
	size = snprintf(text, sizeof text, "%u", number_of(thread->process->name, thread->process));
	if (place.where == IN_TASK)
		size += snprintf(text + size, sizeof text - (size_t)size, "/task/%u", thread_seen(thread));
	size = room < (size_t)size ? (int)room : size;
	if (!write_memory(thread->tid, registers_argument(registers, index + 1), text, (size_t)size))
		return answer_with(thread, -EFAULT);
	return answer_with(thread, size);
}

enum onward enter_readlink(struct thread *thread, struct registers *registers)
{
	return readlink_enter(thread, registers, 0, false);
}

enum onward enter_readlink_at(struct thread *thread, struct registers *registers)
{
	return readlink_enter(thread, registers, 1, true);
}

/* ---- listings ---- */

enum { LEAST_ROOM = 64, MOST_ROOM = 1 << 20 };

/* A number may get longer, from a record of 24 bytes to one of 32: so the kernel is given three quarters of the room. */
enum onward enter_listing(struct thread *thread, struct registers *registers)
{
	uint64_t room = registers_argument(registers, 2);
	struct place place;
	char folder[LONGEST_PATH];

	if (!read_folder(thread, (int)call_argument(thread, 0), folder))
		return GO;
	place_begin(&place, folder);
	if ((place.where != IN_PROC && place.where != IN_TASKS) || room < LEAST_ROOM)
		return GO;
	thread->lists_tasks = place.where == IN_TASKS;
	room = room < MOST_ROOM ? room : MOST_ROOM;
	registers_set_argument(registers, 2, room / 4 * 3);
	return watch(thread, registers);
}

/* The number of an entry, 0 where it is nobody in the caller's namespace. */
static int64_t listed(const struct thread *thread, const char *name)
{
	pid_t real = (pid_t)strtol(name, NULL, 10);
	const struct name *of = name_of_real(real);

	if (thread->lists_tasks)
		return to_number(thread->process, TASK, real);
	return of && of->process ? number_of(of, thread->process) : 0;
}

/* Copies a record, and returns how long it is; one that the caller cannot see has no length. */
static size_t put_record(const struct thread *thread, const struct dirent64 *from, char *to)
{
	struct dirent64 record = { .d_ino = from->d_ino, .d_off = from->d_off, .d_type = from->d_type };
	size_t head = offsetof(struct dirent64, d_name);
	int64_t number;

	if (!is_number(from->d_name)) {
		memcpy(to, from, from->d_reclen);
		return from->d_reclen;
	}
	number = listed(thread, from->d_name);
	if (number == 0)
		return 0;
	snprintf(record.d_name, sizeof record.d_name, "%ld", number);
	record.d_reclen = (unsigned short)((head + strlen(record.d_name) + 1 + 7) & ~(size_t)7);
	memcpy(to, &record, record.d_reclen);
	return record.d_reclen;
}

int64_t leave_listing(struct thread *thread, int64_t result)
{
	uint64_t at = registers_argument(&thread->made, 1);
	char *from, *to;
	size_t size = 0;

	if (result <= 0)
		return result;
	from = need(malloc((size_t)result));
	to = need(malloc((size_t)result * 2));
	if (read_memory(thread->tid, at, from, (size_t)result))
		for (int64_t done = 0; done < result; done += ((struct dirent64 *)(from + done))->d_reclen)
			size += put_record(thread, (struct dirent64 *)(from + done), to + size);
	write_memory(thread->tid, at, to, size);
	free(from);
	free(to);
	thread->once_more = size == 0; /* nobody of these, and there may be more */
	return (int64_t)size;
}
