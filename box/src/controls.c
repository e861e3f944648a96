/* controls.c - the table's control groups as folders. --cgroups names the folder that is the program's own group; each folder that is made in it
 * is a group of the table, and has files of three names. To write one is a call on the table, and to read one a question to it. */
#define _GNU_SOURCE
#include "proc.h"

#include <ctype.h>
#include <dirent.h>
#include <errno.h>
#include <fcntl.h>
#include <stdlib.h>
#include <string.h>
#include <sys/stat.h>
#include <sys/syscall.h>
#include <sys/uio.h>
#include <unistd.h>

bool shows_controls;

/* What the kernel's files take at once. */
enum { MOST_WRITTEN = 4096 };

enum control_file { PROCS, MOST, CURRENT, FILES };

static const struct {
	const char *name;
	mode_t mode;
} files[FILES] = { [PROCS] = { "cgroup.procs", 0644 }, [MOST] = { "pids.max", 0644 }, [CURRENT] = { "pids.current", 0444 } };

/* A control group of the table, which a folder is known by. The table tells no limit, so the last one that it took is here. */
struct control {
	uint64_t id;
	dev_t device;
	ino_t folder;
	char *name;
	int64_t limit; /* -1 for none */
	struct control *parent, *next; /* the program's own has no parent */
};

static struct control *controls;
static char *top; /* the folder of the program's own group, from the root */

/* ---- which group and which file ---- */

static enum control_file file_called(const char *name)
{
	enum control_file which = PROCS;

	while (which < FILES && strcmp(name, files[which].name))
		which++;
	return which;
}

/* The root of the table's control groups has no limit. */
static bool has_file(const struct control *control, enum control_file which)
{
	return which == PROCS || (which < FILES && control->id);
}

bool control_may_have(const char *path)
{
	const char *slash = strrchr(path, '/');

	return shows_controls && file_called(slash ? slash + 1 : path) < FILES;
}

static struct control *control_of(const struct stat *about)
{
	struct control *control = controls;

	while (control && (control->device != about->st_dev || control->folder != about->st_ino))
		control = control->next;
	return control;
}

static struct control *control_numbered(uint64_t id)
{
	struct control *control = controls;

	while (control && control->id != id)
		control = control->next;
	return control;
}

/* Cuts a path at its last component, which it returns. */
static char *cut_last(char *path)
{
	char *slash = strrchr(path, '/');

	if (!slash)
		return path;
	*slash = 0;
	return slash + 1;
}

/* The group with the file that the path, from the root, is of; none of another file. The path is cut. */
static struct control *control_with(char *path, enum control_file *which)
{
	struct control *control;
	struct stat about;

	*which = path[0] == '/' ? file_called(cut_last(path)) : FILES;
	if (*which == FILES || stat(path, &about))
		return NULL;
	control = control_of(&about);
	return control && has_file(control, *which) ? control : NULL;
}

bool control_has(const char *link)
{
	char name[LONGEST_PATH];
	enum control_file which;

	return shows_controls && read_link(link, name) && control_with(name, &which);
}

/* ---- folders ---- */

static int put_file(int folder, enum control_file which, const struct stat *owner)
{
	int file = openat(folder, files[which].name, O_CREAT | O_EXCL | O_WRONLY | O_CLOEXEC, files[which].mode);
	bool is_put = file >= 0 && !fchmod(file, files[which].mode);

	if (is_put && geteuid() == 0)
		is_put = !fchown(file, owner->st_uid, owner->st_gid);
	if (file >= 0)
		close(file);
	return is_put ? 0 : errno;
}

static void take_files(int folder)
{
	for (enum control_file which = PROCS; which < FILES; which++)
		unlinkat(folder, files[which].name, 0);
}

/* An errno, or 0. The files belong to who made the folder, where that may be another one than the box's user. */
static int put_files(int folder, const struct control *control)
{
	struct stat owner;
	int failure = fstat(folder, &owner) ? errno : 0;

	for (enum control_file which = PROCS; !failure && which < FILES; which++)
		if (has_file(control, which))
			failure = put_file(folder, which, &owner);
	if (failure)
		take_files(folder);
	return failure;
}

static struct control *add(uint64_t id, int64_t limit, int folder, const char *name, struct control *parent)
{
	struct control *control = need(calloc(1, sizeof *control));
	struct stat about = { .st_ino = 0 };

	fstat(folder, &about);
	*control = (struct control){ id, about.st_dev, about.st_ino, need(strdup(name)), limit, parent, controls };
	return controls = control;
}

static void drop(struct control *control)
{
	struct control **link = &controls;

	while (*link != control)
		link = &(*link)->next;
	*link = control->next;
	free(control->name);
	free(control);
}

static bool is_empty(int folder)
{
	int copy = openat(folder, ".", O_RDONLY | O_DIRECTORY | O_CLOEXEC);
	DIR *entries = copy >= 0 ? fdopendir(copy) : NULL;
	int count = 0;

	while (entries && readdir(entries))
		count++;
	if (entries)
		closedir(entries);
	return count == 2; /* itself, and what is around it */
}

/* The folder becomes the control group with the id, of the program that is about to begin. */
void controls_start(const char *path, uint64_t id, int64_t limit)
{
	int folder = open(path, O_RDONLY | O_DIRECTORY | O_CLOEXEC);

	if (folder < 0)
		die(path);
	errno = ENOTEMPTY;
	if (!is_empty(folder))
		die(path);
	errno = put_files(folder, add(id, limit, folder, "", NULL));
	if (errno)
		die(path);
	close(folder);
	top = need(realpath(path, NULL));
	shows_controls = true;
}

/* The path of a group below the program's own, of which nothing is written. */
static void write_below(FILE *to, const struct control *control)
{
	if (!control->parent)
		return;
	write_below(to, control->parent);
	fprintf(to, "/%s", control->name);
}

static void remove_folder(const struct control *control)
{
	char *path = NULL;
	size_t size;
	FILE *to = need(open_memstream(&path, &size));
	int folder;

	fputs(top, to);
	write_below(to, control);
	fclose(to);
	folder = open(path, O_PATH | O_DIRECTORY | O_CLOEXEC);
	if (folder >= 0) {
		take_files(folder);
		close(folder);
	}
	if (control->parent)
		rmdir(path);
	free(path);
}

/* The folder is left as it was, but for what the program itself has put there. Those that were made last go first. */
void controls_stop(void)
{
	while (controls) {
		remove_folder(controls);
		drop(controls);
	}
}

/* ---- mkdir and rmdir ---- */

/* Whether a path leads below the folder of the program's own group, as it is spelled: then it may be walked. */
bool control_may_be_below(const struct thread *thread, const char *path, int folder)
{
	char from[LONGEST_PATH];

	if (!shows_controls)
		return false;
	if (path[0] != '/' && !read_folder(thread, folder, from))
		return false;
	return !strncmp(path[0] == '/' ? path : from, top, strlen(top));
}

struct named {
	char path[LONGEST_PATH];
	int folder; /* where a relative path begins */
};

static bool read_named(struct named *named, const struct thread *thread, int index, bool has_folder)
{
	named->folder = has_folder ? (int)call_argument(thread, index - 1) : AT_FDCWD;
	return read_path(thread->tid, registers_argument(&thread->made, index), named->path);
}

/* The group whose folder the path leads to; none of another one. Its folder's path, from the root, goes where the path was. */
static struct control *find(struct named *named, const struct thread *thread)
{
	int file = open_target(thread, named->path, named->folder);
	struct control *control;
	struct stat about;
	char link[64];

	if (file < 0)
		return NULL;
	snprintf(link, sizeof link, "/proc/self/fd/%d", file);
	control = fstat(file, &about) || !read_link(link, named->path) ? NULL : control_of(&about);
	close(file);
	return control;
}

/* The same of the folder that the last component is in. */
static struct control *find_around(struct named *named, const struct thread *thread)
{
	size_t length = strlen(named->path);
	char *last;

	while (length > 1 && named->path[length - 1] == '/')
		named->path[--length] = 0;
	last = strrchr(named->path, '/');
	if (last)
		last[last == named->path] = 0;
	else
		strcpy(named->path, ".");
	return find(named, thread);
}

/* The kernel makes the folder. Its name has no new line, as in a cgroup file system. */
static enum onward mkdir_enter(struct thread *thread, const struct registers *registers, int index, bool has_folder)
{
	struct named named;
	bool has_line;

	if (!read_named(&named, thread, index, has_folder))
		return GO;
	has_line = strchr(named.path, '\n');
	if (!find_around(&named, thread))
		return GO;
	return has_line ? answer_with(thread, -EINVAL) : watch(thread, registers);
}

/* The new folder becomes a group of the table; one that the table refuses goes again. An errno, or 0. */
static int make(struct control *parent, int folder, const char *path)
{
	int64_t id = table_control(PIDTAB_MK, 0, parent->id, 0, 0);
	struct control *control;
	int failure;

	if (id < 0) {
		rmdir(path);
		return (int)-id;
	}
	control = add((uint64_t)id, -1, folder, strrchr(path, '/') + 1, parent);
	failure = put_files(folder, control);
	if (failure) {
		rmdir(path);
		table_control(PIDTAB_RM, 0, control->id, 0, 0);
		drop(control);
	}
	return failure;
}

static int64_t mkdir_leave(const struct thread *thread, int64_t result, int index, bool has_folder)
{
	struct named named, made;
	struct control *parent;
	int folder, failure;

	if (result != 0 || !read_named(&named, thread, index, has_folder))
		return result;
	made = named;
	parent = find_around(&named, thread);
	folder = open_target(thread, made.path, made.folder);
	if (folder < 0)
		return result;
	snprintf(named.path, sizeof named.path, "/proc/self/fd/%d", folder);
	failure = parent && read_link(named.path, made.path) ? make(parent, folder, made.path) : 0;
	close(folder);
	return -failure;
}

enum onward enter_mkdir(struct thread *thread, struct registers *registers)
{
	return mkdir_enter(thread, registers, 0, false);
}

enum onward enter_mkdir_at(struct thread *thread, struct registers *registers)
{
	return mkdir_enter(thread, registers, 1, true);
}

int64_t leave_mkdir(struct thread *thread, int64_t result)
{
	return mkdir_leave(thread, result, 0, false);
}

int64_t leave_mkdir_at(struct thread *thread, int64_t result)
{
	return mkdir_leave(thread, result, 1, true);
}

/* Whether the thread may remove what is in the folder around the path, as far as the box, which does it in its place, may not see it itself. */
static bool may_remove(const struct thread *thread, const char *path)
{
	char around[LONGEST_PATH];
	struct stat about;
	unsigned user;

	cut_last(strcpy(around, path));
	if (stat(around, &about) || !read_status(thread->process->real, thread->tid, "Uid: %*u %*u %*u %u", &user))
		return false;
	return user == geteuid() || user == about.st_uid || about.st_mode & S_IWOTH;
}

/* A folder with the files of its group is empty. An errno, or 0. */
static int remove_now(const struct control *control, const char *path)
{
	int folder = open(path, O_PATH | O_DIRECTORY | O_CLOEXEC), failure;

	take_files(folder);
	failure = rmdir(path) ? errno : 0;
	if (failure)
		put_files(folder, control);
	close(folder);
	return failure;
}

/* The table says whether the group is busy. What may not be removed is the kernel's to say: the folder has files. */
static enum onward rmdir_enter(struct thread *thread, int index, bool has_folder)
{
	struct named named;
	struct control *control = read_named(&named, thread, index, has_folder) ? find(&named, thread) : NULL;
	int failure;

	if (!control || !control->parent || !may_remove(thread, named.path))
		return GO;
	failure = table_would_remove(control->id) ? remove_now(control, named.path) : 0;
	if (failure)
		return answer_with(thread, -failure);
	failure = (int)-table_control(PIDTAB_RM, 0, control->id, 0, 0);
	if (failure <= 0)
		drop(control);
	return answer_with(thread, failure > 0 ? -failure : 0);
}

enum onward enter_rmdir(struct thread *thread, struct registers *registers)
{
	(void)registers;
	return rmdir_enter(thread, 0, false);
}

enum onward enter_rmdir_at(struct thread *thread, struct registers *registers)
{
	(void)registers;
	return rmdir_enter(thread, 1, true);
}

/* ---- what is read ---- */

/* As the table has it: the tasks that live in the group itself. Who cannot be seen is a 0. */
static void write_tasks(FILE *to, const struct thread *thread, const struct control *control)
{
	uint64_t count;
	const uint32_t *roots = table_members(control->id, &count);

	for (uint64_t i = 0; i < count; i++) {
		const struct process *process = process_of_root(roots[i]);

		fprintf(to, "%u\n", process ? number_of(process->name, thread->process) : 0);
	}
}

/* The file that a link of /proc leads to, or a copy of it, in memory that the caller gives back; none where it is another one. */
char *control_text(const struct thread *thread, const char *link, size_t *size)
{
	char name[LONGEST_PATH], *text = NULL;
	enum control_file which;
	struct control *control = read_link(link, name) ? control_with(name, &which) : NULL;
	FILE *to = control ? open_memstream(&text, size) : NULL;

	if (!to)
		return NULL;
	if (which == PROCS)
		write_tasks(to, thread, control);
	else if (which == CURRENT)
		fprintf(to, "%ld\n", table_control(PIDTAB_COUNT, 0, control->id, 0, 0));
	else if (control->limit < 0)
		fputs("max\n", to);
	else
		fprintf(to, "%ld\n", control->limit);
	fclose(to);
	return text;
}

/* /proc/N/cgroup, which begins at the program's own group. A zombie's may be gone. */
void control_write_path(FILE *to, const struct process *process)
{
	const struct control *control = control_numbered(table_stat(SUPERVISOR, process->root).control);

	fputs("0::", to);
	if (control && control->parent)
		write_below(to, control);
	else
		fputs("/", to);
	fputs(control ? "\n" : " (deleted)\n", to);
}

/* ---- what is written ---- */

/* The group and the file that a descriptor is of, if it is open for writing: of its own, or of a copy of it. */
static struct control *control_written(const struct thread *thread, int file, enum control_file *which)
{
	char link[64], name[LONGEST_PATH];
	struct stat about;

	snprintf(link, sizeof link, "/proc/%d/fd/%d", thread->tid, file);
	if (lstat(link, &about) || !(about.st_mode & S_IWUSR) || !read_link(link, name))
		return NULL;
	copied_from(link, name);
	return control_with(name, which);
}

/* The bytes of a write, with an end. Its size; or minus an errno. */
static int64_t read_written(const struct thread *thread, char text[MOST_WRITTEN + 1])
{
	bool is_one = registers_call(&thread->made) == SYS_write || registers_call(&thread->made) == SYS_pwrite64;
	uint64_t at = registers_argument(&thread->made, 1), count = is_one ? 1 : registers_argument(&thread->made, 2), size = 0;
	struct iovec part = { (void *)at, registers_argument(&thread->made, 2) };

	if (count > UIO_MAXIOV)
		return -EINVAL;
	for (uint64_t i = 0; i < count; i++) {
		if (!is_one && !read_memory(thread->tid, at + i * sizeof part, &part, sizeof part))
			return -EFAULT;
		if (part.iov_len > MOST_WRITTEN - size)
			return -E2BIG;
		if (part.iov_len && !read_memory(thread->tid, (uint64_t)part.iov_base, text + size, part.iov_len))
			return -EFAULT;
		size += part.iov_len;
	}
	text[size] = 0;
	return (int64_t)size;
}

static char *strip(char *text)
{
	size_t length;

	text += strspn(text, " \t\n\v\f\r");
	for (length = strlen(text); length && isspace((unsigned char)text[length - 1]);)
		text[--length] = 0;
	return text;
}

/* A number as the kernel reads one, of base 8, 10 or 16. 0; or minus an errno. */
static int64_t read_number(const char *text, int base, int64_t *number)
{
	char *end;

	errno = 0;
	*number = strtoll(text, &end, base);
	return end == text || *end ? -EINVAL : -errno;
}

/* A number is that of a process, or of one of its threads, in the writer's namespace; 0 is the writer's own. */
static int64_t write_tasks_file(const struct thread *thread, const struct control *control, const char *text)
{
	const struct process *process = thread->process;
	const struct thread *named;
	int64_t number;

	if (read_number(text, 0, &number) || number < 0 || number > INT32_MAX)
		return -EINVAL;
	named = thread_named(thread->process, number);
	if (number)
		process = named ? named->process : process_seen(thread->process, (uint32_t)number);
	return process ? table_control(PIDTAB_MOVE, process->root, control->id, 0, 0) : -ESRCH;
}

/* The program's own group is limited by who began it, as a delegated one is. */
static int64_t write_limit(struct control *control, const char *text)
{
	bool is_limited = strcmp(text, "max");
	int64_t limit = -1, failure = is_limited ? read_number(text, 0, &limit) : 0, told;

	if (!control->parent)
		return -EPERM;
	if (failure)
		return failure;
	if (is_limited && (limit < 0 || limit > MOST_REAL))
		return -EINVAL;
	told = table_control(PIDTAB_LIMIT, 0, control->id, is_limited ? (uint32_t)limit : 0, is_limited);
	control->limit = told < 0 ? control->limit : limit;
	return told;
}

enum onward enter_write(struct thread *thread, struct registers *registers)
{
	char text[MOST_WRITTEN + 1];
	enum control_file which;
	struct control *control = shows_controls ? control_written(thread, (int)call_argument(thread, 0), &which) : NULL;
	int64_t size = control ? read_written(thread, text) : 0, failure = -EINVAL;

	(void)registers;
	if (size <= 0)
		return size ? answer_with(thread, size) : GO;
	if (which == PROCS)
		failure = write_tasks_file(thread, control, strip(text));
	else if (which == MOST)
		failure = write_limit(control, strip(text));
	return answer_with(thread, failure < 0 ? failure : size);
}

/* From one descriptor to another: programs that get a refusal read and write. */
enum onward enter_carry(struct thread *thread, struct registers *registers)
{
	bool is_first = registers_call(registers) == SYS_sendfile;
	enum control_file which;

	return shows_controls && control_written(thread, (int)call_argument(thread, is_first ? 0 : 2), &which) ? refuse(thread) : GO;
}
