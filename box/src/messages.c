/* messages.c - identifiers that descriptors carry: the owner of a descriptor, the other end of a socket, and credentials in messages. */
#define _GNU_SOURCE
#include "calls.h"

#include <dirent.h>
#include <errno.h>
#include <fcntl.h>
#include <stddef.h>
#include <stdlib.h>
#include <sys/socket.h>
#include <sys/uio.h>

/* ---- F_SETOWN_EX and F_GETOWN_EX ---- */

static enum kind kind_of_owner(const struct thread *thread)
{
	static const enum kind kinds[] = { [F_OWNER_TID] = TASK, [F_OWNER_PID] = PROCESS, [F_OWNER_PGRP] = GROUP };
	struct f_owner_ex owner;
	bool is_read = read_memory(thread->tid, registers_argument(&thread->made, 2), &owner, sizeof owner);

	return is_read && (unsigned)owner.type < sizeof kinds / sizeof kinds[0] ? kinds[owner.type] : PROCESS;
}

/* Whatever the type is, anybody's number will do: of a process that is gone too, while a group has it. */
enum onward enter_owner(struct thread *thread, struct registers *registers)
{
	enum kind kind = kind_of_owner(thread) == GROUP ? GROUP : PROCESS_OR_GROUP;

	lend(thread, registers_argument(registers, 2) + offsetof(struct f_owner_ex, pid), kind);
	return watch(thread, registers);
}

int64_t leave_owner(struct thread *thread, int64_t result)
{
	if (result == 0)
		show(thread, registers_argument(&thread->made, 2) + offsetof(struct f_owner_ex, pid), kind_of_owner(thread));
	return result;
}

/* ---- SO_PEERCRED, which other levels of options may have too ---- */

int64_t leave_peer(struct thread *thread, int64_t result)
{
	if (result == 0 && call_argument(thread, 1) == SOL_SOCKET)
		show(thread, registers_argument(&thread->made, 3) + offsetof(struct ucred, pid), PROCESS);
	return result;
}

/* ---- SCM_CREDENTIALS ---- */

enum { MOST_CONTROL = 65536 };

/* The kernel cuts what has no room; the number comes first. */
enum { LEAST_CONTROL = CMSG_LEN(sizeof(pid_t)) };
_Static_assert(offsetof(struct ucred, pid) == 0, "the number comes first");

typedef void act(struct thread *thread, uint64_t at, enum kind kind);

static void show_it(struct thread *thread, uint64_t at, enum kind kind)
{
	show(thread, at, kind);
}

/* Each credentials in the control data of a message. */
static void each_credentials(struct thread *thread, uint64_t message, act *act)
{
	struct msghdr head;
	struct cmsghdr control;
	size_t size = 0;

	if (!read_memory(thread->tid, message, &head, sizeof head) || !head.msg_control || head.msg_controllen > MOST_CONTROL)
		return;
	for (size_t at = 0; at + sizeof control <= head.msg_controllen; at += CMSG_ALIGN(size)) {
		uint64_t here = (uint64_t)head.msg_control + at;

		if (!read_memory(thread->tid, here, &control, sizeof control) || control.cmsg_len < sizeof control)
			return;
		size = control.cmsg_len;
		if (size >= LEAST_CONTROL && control.cmsg_level == SOL_SOCKET && control.cmsg_type == SCM_CREDENTIALS)
			act(thread, here + CMSG_LEN(offsetof(struct ucred, pid)), PROCESS);
	}
}

enum onward enter_send(struct thread *thread, struct registers *registers)
{
	each_credentials(thread, registers_argument(registers, 1), lend);
	return thread->lent_count ? watch(thread, registers) : GO;
}

enum onward enter_send_many(struct thread *thread, struct registers *registers)
{
	for (uint64_t i = 0; i < registers_argument(registers, 2) && i < UIO_MAXIOV; i++)
		each_credentials(thread, registers_argument(registers, 1) + i * sizeof(struct mmsghdr), lend);
	return thread->lent_count ? watch(thread, registers) : GO;
}

/* The kernel hands over credentials where the socket has an option, and there is room for them. Whether any socket
 * has it. */
static bool are_passed;

static void is_passing(int file)
{
	int is_so = 0;
	socklen_t size = sizeof is_so;

	are_passed |= !getsockopt(file, SOL_SOCKET, SO_PASSCRED, &is_so, &size) && is_so;
}

/* A socket that the program is begun with may have it. */
void messages_start(void)
{
	DIR *files = opendir("/proc/self/fd");
	struct dirent *entry;

	while (files && (entry = readdir(files)))
		is_passing((int)strtol(entry->d_name, NULL, 10));
	if (files)
		closedir(files);
	else
		are_passed = true;
}

enum onward enter_pass(struct thread *thread, struct registers *registers)
{
	(void)thread;
	(void)registers;
	are_passed = true;
	return GO;
}

static bool has_room(const struct thread *thread, uint64_t message)
{
	struct msghdr head;

	return !read_memory(thread->tid, message, &head, sizeof head) || (head.msg_control &&
		head.msg_controllen >= LEAST_CONTROL);
}

enum onward enter_receive(struct thread *thread, struct registers *registers)
{
	return are_passed && has_room(thread, registers_argument(registers, 1)) ? watch(thread, registers) : GO;
}

enum onward enter_receive_many(struct thread *thread, struct registers *registers)
{
	return are_passed ? watch(thread, registers) : GO;
}

int64_t leave_receive(struct thread *thread, int64_t result)
{
	if (result >= 0)
		each_credentials(thread, registers_argument(&thread->made, 1), show_it);
	return result;
}

int64_t leave_receive_many(struct thread *thread, int64_t result)
{
	for (int64_t i = 0; i < result; i++)
		each_credentials(thread, registers_argument(&thread->made, 1) + (uint64_t)i * sizeof(struct mmsghdr), show_it);
	return result;
}
