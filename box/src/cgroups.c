/* cgroups.c - the files of the kernel's control groups that have numbers: what is read of them is translated, and they are not opened for writing,
 * since a write of the box's number would move somebody else. controls.c has those of the table. */
#define _GNU_SOURCE
#include "proc.h"

#include <errno.h>
#include <fcntl.h>
#include <linux/magic.h>
#include <linux/openat2.h>
#include <string.h>
#include <sys/stat.h>
#include <sys/syscall.h>
#include <sys/vfs.h>
#include <unistd.h>

static const struct {
	const char *name;
	enum kind kind;
} files[] = { { "cgroup.procs", PROCESS }, { "cgroup.threads", TASK }, { "tasks", TASK } };

static enum kind kind_of(const char *path)
{
	const char *slash = strrchr(path, '/'), *last = slash ? slash + 1 : path;

	for (size_t i = 0; i < sizeof files / sizeof files[0]; i++)
		if (!strcmp(last, files[i].name))
			return files[i].kind;
	return NO_KIND;
}

bool group_may_have(const char *path)
{
	return kind_of(path) || control_may_have(path);
}

/* The folder that the path begins at: the program's root, its own, or that of a descriptor. None of these ways leaves the kernel's memory. */
int open_folder(const struct thread *thread, const char *path, int folder)
{
	char name[64];

	if (path[0] == '/')
		snprintf(name, sizeof name, "/proc/%d/root", thread->tid);
	else if (folder == AT_FDCWD)
		snprintf(name, sizeof name, "/proc/%d/cwd", thread->tid);
	else
		snprintf(name, sizeof name, "/proc/%d/fd/%d", thread->tid, folder);
	return open(name, O_PATH | O_CLOEXEC);
}

static int open_path(int at, const char *path, uint64_t flags, uint64_t resolve)
{
	struct open_how how = { .flags = O_PATH | O_CLOEXEC | flags, .resolve = resolve | (path[0] == '/' ? RESOLVE_IN_ROOT : 0) };

	return (int)syscall(SYS_openat2, at, path, &how, sizeof how);
}

static bool is_link(int at, const char *path)
{
	int file = open_path(at, path, O_NOFOLLOW, RESOLVE_CACHED);
	struct statx about = { .stx_mode = 0 };
	bool is_so = file >= 0 && !statx(file, "", AT_EMPTY_PATH | AT_STATX_DONT_SYNC, STATX_TYPE, &about) && S_ISLNK(about.stx_mode);

	if (file >= 0)
		close(file);
	return is_so;
}

/* What the path leads to. A file system whose server is a program in the box would wait for this one: so if the kernel has to ask, only a path
 * that is called so, or is a link, or leads to the folder of --cgroups, is walked. */
int open_target(const struct thread *thread, const char *path, int folder)
{
	int at, file;

	if (!strncmp(path, "/proc/", 6))
		return open(path, O_PATH | O_CLOEXEC);
	at = open_folder(thread, path, folder);
	if (at < 0)
		return -1;
	file = open_path(at, path, 0, RESOLVE_CACHED);
	if (file < 0 && errno == EAGAIN &&
		(group_may_have(path) || is_link(at, path) || control_may_be_below(thread, path, folder)))
		file = open_path(at, path, 0, 0);
	close(at);
	return file;
}

/* Which numbers the file that the link of a descriptor leads to has: by what it is really called, and by its file system. */
static enum kind kind_of_link(const char *link, bool *is_second)
{
	char name[LONGEST_PATH];
	struct statfs about;
	enum kind kind = read_link(link, name) ? kind_of(name) : NO_KIND;

	if (!kind || statfs(link, &about))
		return NO_KIND;
	*is_second = about.f_type == CGROUP2_SUPER_MAGIC;
	return *is_second || about.f_type == CGROUP_SUPER_MAGIC ? kind : NO_KIND;
}

static enum group_file file_of_link(const char *link)
{
	bool is_second;

	if (control_has(link))
		return OF_TABLE;
	return kind_of_link(link, &is_second) ? OF_KERNEL : NOT_OF_GROUP;
}

/* Whose control group the file is of that an open names. One that is only read is looked at if it is called so. A path in /proc has the kernel's
 * numbers, and may be the link of a descriptor. */
enum group_file group_file(const struct thread *thread, const char *path, int folder, bool is_written)
{
	enum group_file found;
	char link[64];
	int file;

	if (!strncmp(path, "/proc/", 6))
		return file_of_link(path);
	if (!is_written && !group_may_have(path))
		return NOT_OF_GROUP;
	file = open_target(thread, path, folder);
	if (file < 0)
		return NOT_OF_GROUP;
	snprintf(link, sizeof link, "/proc/self/fd/%d", file);
	found = file_of_link(link);
	close(file);
	return found;
}

/* The file with the caller's numbers, in memory that the caller gives back. Version 2 has a 0 for who cannot be
 * seen, and version 1 leaves him out. */
char *group_text(const struct thread *thread, const char *path, size_t *size)
{
	int file = open(path, O_PATH | O_CLOEXEC);
	bool is_second = false;
	char link[64], *text = NULL;
	enum kind kind;

	if (file < 0)
		return NULL;
	snprintf(link, sizeof link, "/proc/self/fd/%d", file);
	kind = kind_of_link(link, &is_second);
	if (control_has(link))
		text = control_text(thread, link, size);
	else if (kind)
		text = content_of_group(thread, link, kind, is_second, size);
	close(file);
	return text;
}

/* A copy with the caller's numbers, which may be open for writing too; -1 if there is none. */
int group_open(const struct thread *thread, const char *path, int folder, bool is_written)
{
	int file = open_target(thread, path, folder);
	char link[64], name[LONGEST_PATH];
	size_t size;
	char *text;

	if (file < 0)
		return -1;
	snprintf(link, sizeof link, "/proc/self/fd/%d", file);
	read_link(link, name);
	text = group_text(thread, link, &size);
	close(file);
	return copy_make(0, name, text, size, is_written);
}
