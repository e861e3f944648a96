/* proc.h - where a path leads in /proc. */
#ifndef PROC_H
#define PROC_H

#include "calls.h"

#include <limits.h>

enum { LONGEST_PATH = PATH_MAX };

/* Where a path leads, by the kernel's numbers. */
struct place {
	enum { ELSEWHERE, AT_ROOT, IN_PROC, IN_PROCESS, IN_TASKS, IN_TASK, BELOW } where;
	pid_t process, task;
	bool is_translated;      /* a number was the program's */
	bool is_self;            /* `self`, or `thread-self`, is the last component */
	char rest[LONGEST_PATH]; /* below these */
};

bool is_number(const char *word);
bool read_path(pid_t tid, uint64_t at, char *path);
bool read_link(const char *link, char path[LONGEST_PATH]);
bool read_folder(const struct thread *thread, int file, char *folder);
void place_begin(struct place *place, const char *folder);
void place_step(struct place *place, const struct thread *caller, const char *word);
bool place_find(struct place *place, const struct thread *thread, const char *path, int folder);
bool place_write(const struct place *place, char *path);
const char *place_file(const struct place *place);
void copied_from(const char *link, char path[LONGEST_PATH]);
enum onward take_path(struct thread *thread, struct registers *registers, int index, const char *path);

#endif
