/* room.c - memory of this program's own in each program. What a call is given in place of the program's words is written there, and nothing is
 * written elsewhere: what is below a stack may be another's. */
#define _GNU_SOURCE
#include "box.h"

#include <errno.h>
#include <stdlib.h>
#include <string.h>
#include <sys/mman.h>
#include <sys/syscall.h>

/* A region is mapped if a thread wants room and none is free. Its first page has a mark, and each other one is the room of one thread. */
enum { SLOTS = 7, REGION = (SLOTS + 1) * ROOM };

static const char mark[] = "the room of pidtab-box";

struct region {
	uint64_t at;
	bool is_taken[SLOTS];
	struct region *next;
};

/* The regions of an address space, which processes may share. */
struct memory {
	int users;
	struct region *regions;
};

struct memory *memory_new(void)
{
	struct memory *memory = need(calloc(1, sizeof *memory));

	memory->users = 1;
	return memory;
}

static void add_region(struct memory *memory, uint64_t at)
{
	struct region *region = need(calloc(1, sizeof *region));

	*region = (struct region){ .at = at, .next = memory->regions };
	memory->regions = region;
}

/* After a fork the child has the same regions, and nobody has room in them. */
struct memory *memory_copy(const struct memory *from)
{
	struct memory *memory = memory_new();

	for (const struct region *region = from->regions; region; region = region->next)
		add_region(memory, region->at);
	return memory;
}

struct memory *memory_share(struct memory *memory)
{
	memory->users++;
	return memory;
}

void memory_leave(struct memory *memory)
{
	if (--memory->users)
		return;
	while (memory->regions) {
		struct region *region = memory->regions;

		memory->regions = region->next;
		free(region);
	}
	free(memory);
}

/* Whether the region is still there: a program may have unmapped it, or mapped something else over it. */
static bool is_ours(const struct thread *thread, const struct region *region)
{
	char found[sizeof mark];

	return read_memory(thread->tid, region->at, found, sizeof found) && !memcmp(found, mark, sizeof mark);
}

static struct region *region_of(const struct thread *thread, uint64_t room)
{
	struct region *region = thread->process->memory->regions;

	while (region && (room < region->at || room >= region->at + REGION))
		region = region->next;
	return region;
}

static bool take_slot(struct thread *thread, struct region *region)
{
	for (int i = 0; i < SLOTS; i++)
		if (!region->is_taken[i]) {
			region->is_taken[i] = true;
			thread->room = region->at + (uint64_t)(i + 1) * ROOM;
			return true;
		}
	return false;
}

/* Whether the thread has room for its call. It keeps it until the call is over. */
bool room_take(struct thread *thread)
{
	struct region **link = &thread->process->memory->regions;

	while (!thread->room && *link) {
		struct region *region = *link;

		if (is_ours(thread, region)) {
			take_slot(thread, region);
			link = &region->next;
		} else {
			*link = region->next;
			free(region);
		}
	}
	return thread->room;
}

void room_give_back(struct thread *thread)
{
	struct region *region = thread->room ? region_of(thread, thread->room) : NULL;

	if (region)
		region->is_taken[(thread->room - region->at) / ROOM - 1] = false;
	thread->room = 0;
}

/* Has the thread map a region in place of its call, which it then makes once more. */
enum onward room_map(struct thread *thread)
{
	static const uint64_t words[] = { 0, REGION, PROT_READ | PROT_WRITE, MAP_PRIVATE | MAP_ANONYMOUS, (uint64_t)-1, 0 };
	struct registers registers = thread->made;

	for (int i = 0; i < 6; i++)
		registers_set_argument(&registers, i, words[i]);
	thread->behind = thread->made;
	thread->injected = MAP_ROOM;
	thread->phase = IN_INJECTED;
	registers_make_other(thread->tid, &registers, SYS_mmap);
	return SEE_EXIT;
}

/* Without room the call fails. */
void room_mapped(struct thread *thread, int64_t at)
{
	if (at > -MOST_ERRORS && at < 0) {
		registers_set_result(&thread->behind, -ENOMEM);
		return;
	}
	if (write_memory(thread->tid, (uint64_t)at, mark, sizeof mark))
		add_region(thread->process->memory, (uint64_t)at);
	registers_repeat(&thread->behind, registers_call(&thread->made));
}
