/* opens.c - open(2) and its like: some files of /proc, and of control groups, are given as this program writes them. */
#define _GNU_SOURCE
#include "proc.h"

#include <errno.h>
#include <fcntl.h>
#include <linux/openat2.h>
#include <stddef.h>
#include <string.h>
#include <sys/syscall.h>
#include <unistd.h>

enum { LARGEST = 4096 /* of a structure that the kernel takes */ };

/* An open, as the program asks for it. */
struct asked {
	int index;    /* of the argument that has the path */
	int folder;   /* where a relative path begins */
	uint64_t flags;
	size_t size;  /* of the structure of openat2; 0 for all others */
	union {
		struct open_how how;
		char bytes[LARGEST];
	};
	char path[LONGEST_PATH];
};

/* ---- openat2, which may bound where a path leads ---- */

/* A component of a path, by the kernel's numbers; `self` is the program's own number, since this program's is
 * another one. */
static bool add_component(char *text, const struct place *place, int before, const char *word)
{
	size_t size = strlen(text), room = LONGEST_PATH - size;
	const char *line = size && text[size - 1] != '/' ? "/" : "";

	if (place->is_self && place->task)
		return (size_t)snprintf(text + size, room, "%s%d/task/%d", line, place->process, place->task) < room;
	if (place->is_self || (before == IN_PROC && is_number(word)))
		return (size_t)snprintf(text + size, room, "%s%d", line, place->process) < room;
	if (before == IN_TASKS && is_number(word))
		return (size_t)snprintf(text + size, room, "%s%d", line, place->task) < room;
	return (size_t)snprintf(text + size, room, "%s%s", line, word) < room;
}

/* Spells the path once more by the kernel's numbers, and relative as it is. In a folder that is the root of the
 * call, `..` stays there. An errno, or 0; the place is not in /proc where the path is not. */
static int spell(struct place *place, const struct thread *thread, const struct asked *asked, char *text)
{
	bool is_root = asked->how.resolve & RESOLVE_IN_ROOT, has_self = false;
	const char *path = asked->path + (is_root ? strspn(asked->path, "/") : 0);
	char copy[LONGEST_PATH] = "/", *rest;
	int depth = 0;

	if (path[0] != '/' && !read_folder(thread, asked->folder, copy))
		return 0;
	place_begin(place, copy);
	strcpy(text, path[0] == '/' ? "/" : "");
	strcpy(copy, path);
	for (char *word = strtok_r(copy, "/", &rest); word; word = strtok_r(NULL, "/", &rest)) {
		int before = place->where, up = !strcmp(word, "..");

		if (!strcmp(word, ".") || (is_root && up && depth == 0))
			continue;
		depth += up ? -1 : 1;
		place_step(place, thread, word);
		has_self |= place->is_self;
		if (!add_component(text, place, before, word))
			return ENAMETOOLONG;
	}
	if (path[0] == '/' && (asked->how.resolve & (RESOLVE_BENEATH | RESOLVE_NO_XDEV)))
		return 0; /* the kernel refuses it before that */
	return has_self && (asked->how.resolve & RESOLVE_NO_SYMLINKS) ? ELOOP : 0;
}

/* What the kernel says of the path where this program opens it: an errno, or 0. */
static int tried(const struct thread *thread, const struct asked *asked, const char *text)
{
	int at = open_folder(thread, asked->how.resolve & RESOLVE_IN_ROOT ? "" : text, asked->folder), file, failure;

	if (at < 0)
		return 0;
	file = (int)syscall(SYS_openat2, at, text, asked->bytes, asked->size);
	failure = file < 0 ? errno : 0;
	close(at);
	if (file >= 0)
		close(file);
	return failure;
}

/* ---- what an open is given ---- */

/* The call opens the file of this program that the thread has been given. That is a link, which openat2 may not
 * take. */
static enum onward take_copy(struct thread *thread, struct registers *registers, const struct asked *asked)
{
	char path[64];

	thread->open_flags = asked->flags;
	snprintf(path, sizeof path, "/proc/%d/fd/%d", getpid(), thread->content);
	registers_set_argument(registers, asked->index + 1, asked->flags & ~(uint64_t)O_NOFOLLOW);
	if (asked->size) {
		registers_set_argument(registers, asked->index + 2, asked->how.mode);
		registers_make_other(thread->tid, registers, SYS_openat);
	}
	return take_path(thread, registers, asked->index, path);
}

/* A file of a control group; the path is by the kernel's numbers. To be written alone it is opened itself. */
static enum onward open_group(struct thread *thread, struct registers *registers, const struct asked *asked,
	const char *path)
{
	int failure = asked->size ? tried(thread, asked, asked->path) : 0, mode = asked->flags & O_ACCMODE;

	if (failure)
		return answer_with(thread, -failure);
	if (!room_take(thread))
		return room_map(thread);
	thread->wants_filter = mode != O_WRONLY && !thread->process->sees_proc;
	thread->wants_write_filter = mode != O_RDONLY && !thread->process->writes_groups;
	if (mode != O_WRONLY)
		thread->content = group_open(thread, path, asked->folder, mode != O_RDONLY);
	return thread->content >= 0 ? take_copy(thread, registers, asked) : watch(thread, registers);
}

static int open_copy(const struct thread *thread, const struct place *place, const char *path, const char *file)
{
	const struct name *of = name_of_real(place->process);
	size_t size;
	char *text = content_of(thread, path, file, place->task ? place->task : place->process, &size);

	return copy_make(of ? of->root : 0, of ? path : NULL, text, size, false);
}

static bool is_read_alone(const struct asked *asked)
{
	return (asked->flags & O_ACCMODE) == O_RDONLY && !(asked->flags & O_PATH);
}

/* A place in /proc; the path has its name by the kernel's numbers, as the program may open it. */
static enum onward open_place(struct thread *thread, struct registers *registers, const struct asked *asked,
	const struct place *place, const char *path)
{
	const char *file = is_read_alone(asked) ? place_file(place) : NULL;
	char whole[LONGEST_PATH];
	int failure = file && asked->size ? tried(thread, asked, path) : 0;
	bool is_first = (file || place->where != BELOW) && !thread->process->sees_proc;

	if (!file && !place->is_translated && !is_first)
		return GO;
	if (failure)
		return answer_with(thread, -failure);
	if (!room_take(thread))
		return room_map(thread);
	thread->wants_filter = is_first;
	if (!file && !place->is_translated)
		return watch(thread, registers);
	if (file && place_write(place, whole))
		thread->content = open_copy(thread, place, whole, file);
	return thread->content >= 0 ? take_copy(thread, registers, asked) : take_path(thread, registers, asked->index, path);
}

static enum onward open_enter(struct thread *thread, struct registers *registers, const struct asked *asked)
{
	bool is_written = (asked->flags & O_ACCMODE) != O_RDONLY && !(asked->flags & O_PATH);
	char path[LONGEST_PATH], whole[LONGEST_PATH];
	const char *named = asked->path;
	enum group_file group = NOT_OF_GROUP;
	struct place place;
	int failure = 0;

	place.where = ELSEWHERE;
	if (asked->size)
		failure = spell(&place, thread, asked, path);
	else if (place_find(&place, thread, asked->path, asked->folder) && !place_write(&place, path))
		failure = ENAMETOOLONG;
	if (failure && place.where >= IN_PROC)
		return answer_with(thread, -failure);
	if (place.where >= IN_PROC && place_write(&place, whole))
		named = whole; /* it may be the link of a descriptor, as /proc/self/fd/5 */
	if (!(asked->flags & O_PATH))
		group = group_file(thread, named, asked->folder, is_written);
	if (group)
		return is_written && group == OF_KERNEL ? refuse(thread) : open_group(thread, registers, asked, named);
	return place.where >= IN_PROC ? open_place(thread, registers, asked, &place, path) : GO;
}

static bool read_asked(struct asked *asked, const struct thread *thread, int index, int folder, uint64_t flags)
{
	asked->index = index;
	asked->folder = folder;
	asked->flags = flags;
	asked->size = 0;
	return read_path(thread->tid, registers_argument(&thread->made, index), asked->path);
}

/* As open(2) with these flags. */
enum onward enter_creat(struct thread *thread, struct registers *registers)
{
	struct asked asked;

	return read_asked(&asked, thread, 0, AT_FDCWD, O_WRONLY | O_CREAT | O_TRUNC) ? open_enter(thread, registers, &asked)
		: GO;
}

enum onward enter_open(struct thread *thread, struct registers *registers)
{
	struct asked asked;

	return read_asked(&asked, thread, 0, AT_FDCWD, registers_argument(registers, 1)) ? open_enter(thread, registers,
		&asked) : GO;
}

enum onward enter_open_at(struct thread *thread, struct registers *registers)
{
	struct asked asked;

	if (!read_asked(&asked, thread, 1, (int)call_argument(thread, 0), registers_argument(registers, 2)))
		return GO;
	return open_enter(thread, registers, &asked);
}

/* A structure of a size that the kernel does not take is its affair. */
enum onward enter_open_at2(struct thread *thread, struct registers *registers)
{
	uint64_t at = registers_argument(registers, 2), size = registers_argument(registers, 3);
	struct asked asked;

	if (!read_asked(&asked, thread, 1, (int)call_argument(thread, 0), 0) || size < sizeof asked.how || size > LARGEST)
		return GO;
	if (!read_memory(thread->tid, at, asked.bytes, size))
		return GO;
	asked.size = size;
	asked.flags = asked.how.flags;
	return open_enter(thread, registers, &asked);
}
