/* One table, for callers in another memory. Each number that passes has 32 bits: one of 64 would be a BigInt in JavaScript, and each call
 * would make some.
 *
 * What is longer stands at fixed places of the memory, which `place_of` tells. The functions are the proved ones, without the guard of
 * bindings/c, as an instance of the module has one thread. None is closed: all of it goes with its instance.
 */
#include <pidtab.h>

/* No line of the language is longer than 200 bytes: one that fills this room is bad. */
enum { LINE_ROOM = 208, ANSWER_ROOM = PIDTAB_LONGEST_ANSWER };

void *heap_alloc(size_t size);
void heap_free(void *at);

/* A function that the build exports. By an attribute, the compiler would ask for a table of functions, which wasm-opt cannot lower. */
#define EXPORTED(name) name

/* A proved function that takes something else than that of pidtab.h with its name, and one that pidtab.h has not. */
uint32_t proved_load_with(struct pidtab *table, const void *text, size_t length, const uint64_t *counts, size_t workers, bool keeps_history, struct pidtab_fault *fault)
	__asm__("pidtab_load_with");
uint32_t pidtab_call_keeping(struct pidtab *table, uint32_t worker, const struct pidtab_call *call, uint64_t keep, struct pidtab_reply *reply, uint64_t *ordinal);

static struct pidtab held;

static struct {
	struct pidtab_call call;
	struct pidtab_reply reply;
	struct pidtab_task task;
	struct pidtab_space space;
	struct pidtab_fault fault;
	struct pidtab_settings settings;
	uint64_t numbers[PIDTAB_MOST_WORKERS];
	size_t size;
	char line[LINE_ROOM], answer[ANSWER_ROOM];
} at;

static void *pointer(uint32_t address)
{
	return (void *)(size_t)address;
}

/* The places in the order in which instance.js names them. */
uint32_t EXPORTED(place_of)(uint32_t what)
{
	void *const places[] = { &at.call, &at.reply, &at.task, &at.space, &at.fault, &at.settings, at.numbers, &at.size, at.line, at.answer };
	return (uint32_t)(size_t)places[what];
}

/* Room for a text, or 0 where there is none. */
uint32_t EXPORTED(take)(uint32_t size)
{
	return (uint32_t)(size_t)heap_alloc(size);
}

void EXPORTED(give)(uint32_t address)
{
	heap_free(pointer(address));
}

/* Each number of 64 bits that a function takes or tells is one of the numbers, in their order, and an ordinal the first: where one is given, the
 * worker of its entry stands in its place. A room for the answer that is short is refused. */

uint32_t EXPORTED(load_with)(uint32_t text, uint32_t length, uint32_t workers, uint32_t keeps_history)
{
	return proved_load_with(&held, pointer(text), length, at.numbers, workers, keeps_history, &at.fault);
}

uint32_t EXPORTED(call_keeping)(uint32_t worker)
{
	return pidtab_call_keeping(&held, worker, &at.call, at.numbers[1], &at.reply, &at.numbers[0]);
}

/* Written by tools/interface: functions. */
uint32_t EXPORTED(open_with)(void)
{
	return pidtab_open_with(&held, &at.settings);
}

uint32_t EXPORTED(list)(uint32_t bytes, uint32_t room)
{
	return pidtab_list(&held, pointer(bytes), room, &at.size);
}

uint32_t EXPORTED(dump)(uint32_t bytes, uint32_t room)
{
	return pidtab_dump(&held, pointer(bytes), room, &at.size);
}

uint32_t EXPORTED(call)(void)
{
	return pidtab_call(&held, &at.call, &at.reply);
}

uint32_t EXPORTED(ask)(void)
{
	return pidtab_ask(&held, &at.call, &at.reply);
}

uint32_t EXPORTED(stat)(uint32_t caller, uint32_t number)
{
	return pidtab_stat(&held, caller, number, &at.task);
}

uint32_t EXPORTED(page)(uint32_t caller, uint32_t whom, uint32_t number, uint32_t from, uint32_t numbers, uint32_t room)
{
	return pidtab_page(&held, caller, whom, number, from, pointer(numbers), room, &at.reply);
}

uint32_t EXPORTED(space)(void)
{
	return pidtab_space(&held, at.numbers[0], &at.space);
}

uint32_t EXPORTED(inside)(uint32_t tree, uint32_t ids, uint32_t room)
{
	return pidtab_inside(&held, tree, at.numbers[0], at.numbers[1], pointer(ids), room, &at.numbers[2]);
}

uint32_t EXPORTED(control_tasks)(uint32_t caller, uint32_t from, uint32_t numbers, uint32_t room)
{
	return pidtab_control_tasks(&held, caller, at.numbers[0], from, pointer(numbers), room, &at.reply);
}

uint32_t EXPORTED(would)(void)
{
	return pidtab_would(&held, &at.call, &at.reply);
}

uint32_t EXPORTED(call_line)(void)
{
	return pidtab_call_line(&at.call, at.line, LINE_ROOM, &at.size);
}

uint32_t EXPORTED(reply_line)(uint32_t room)
{
	return pidtab_reply_line(&at.reply, at.answer, room < ANSWER_ROOM ? room : ANSWER_ROOM, &at.size);
}

uint32_t EXPORTED(call_by)(uint32_t worker)
{
	return pidtab_call_by(&held, worker, &at.call, &at.reply, &at.numbers[0]);
}

uint32_t EXPORTED(line_by)(uint32_t worker, uint32_t length, uint32_t room)
{
	return pidtab_line_by(&held, worker, at.line, length, at.answer, room < ANSWER_ROOM ? room : ANSWER_ROOM, &at.size, &at.numbers[0]);
}

uint32_t EXPORTED(fork_at_by)(uint32_t worker, uint32_t caller, uint32_t new_space, uint32_t child, uint32_t root)
{
	return pidtab_fork_at_by(&held, worker, caller, new_space, child, root, &at.reply, &at.numbers[0]);
}

uint32_t EXPORTED(call_told_by)(uint32_t worker, uint32_t effects, uint32_t room)
{
	return pidtab_call_told_by(&held, worker, &at.call, &at.reply, &at.numbers[0], pointer(effects), room, &at.numbers[1]);
}

uint32_t EXPORTED(counts)(void)
{
	return pidtab_counts(&held, &at.numbers[0], &at.numbers[1]);
}

uint32_t EXPORTED(worker)(uint32_t worker)
{
	return pidtab_worker(&held, worker, &at.numbers[0]);
}

uint32_t EXPORTED(entry)(void)
{
	return pidtab_entry(&held, at.numbers[0], &at.numbers[0], &at.call, &at.reply);
}

uint32_t EXPORTED(keep)(void)
{
	return pidtab_keep(&held, at.numbers[0]);
}

uint32_t EXPORTED(checkpoint)(void)
{
	return pidtab_checkpoint(&held);
}

uint32_t EXPORTED(checkpoint_at)(void)
{
	return pidtab_checkpoint_at(&held, at.numbers[0]);
}

uint32_t EXPORTED(opening)(uint32_t bytes, uint32_t room)
{
	return pidtab_opening(&held, pointer(bytes), room, &at.size);
}
/* The end of functions. */
