/* The functions that guard.c, settings.c and follow.c call, over an instance of the module. What a function takes is written into the memory of the instance
 * at the places of bindings/js/wasm/around.c, and what it tells is read from there. */
#if defined(__GNUC__) && !defined(__TINYC__)
#pragma GCC diagnostic pop
#endif

typedef Z_pidtab_instance_t instance;

/* A query writes what it takes into the memory of the instance, so two take turns. */
#define PIDTAB_MOST_QUERIES 1

enum place { CALL, REPLY, TASK, SPACE, FAULT, SETTINGS, NUMBERS, SIZE, LINE, ANSWER };
enum { LINE_ROOM = 208 };

static uint8_t *at_place(instance *it, enum place what)
{
	return it->w2c_memory.data + Z_pidtabZ_place_of(it, what);
}

static void put(instance *it, enum place what, const void *from, size_t size)
{
	memcpy(at_place(it, what), from, size);
}

static void get(instance *it, enum place what, void *to, size_t size)
{
	memcpy(to, at_place(it, what), size);
}

static size_t told_size(instance *it)
{
	uint64_t size;

	get(it, SIZE, &size, sizeof size);
	return (size_t)size;
}

/* A new instance, or null. */
static instance *new_instance(void)
{
	instance *it = PIDTAB_MALLOC(sizeof *it);

	if (!it)
		return NULL;
	memset(it, 0, sizeof *it);
	Z_pidtab_instantiate(it);
	if (it->w2c_memory.data)
		return it;
	PIDTAB_FREE(it);
	return NULL;
}

static void free_instance(instance *it)
{
	wasm_rt_free_memory(&it->w2c_memory);
	PIDTAB_FREE(it);
}

/* Keeps the instance where its table was opened, and frees it where not. */
static uint32_t kept(void **at, bool *is_open, instance *it, uint32_t status)
{
	if (status != PIDTAB_DONE) {
		free_instance(it);
		return status;
	}
	*at = it;
	*is_open = true;
	return status;
}

static void closed(void **at, bool *is_open)
{
	if (*is_open)
		free_instance(*at);
	*at = NULL;
	*is_open = false;
}

/* A function of the module that writes a text into a room of its memory. */
typedef uint32_t write_text(instance *it, uint32_t room, uint32_t size);

/* The text in a room of the caller: first its length is asked. */
static uint32_t written(instance *it, write_text *write, void *bytes, size_t room, size_t *size)
{
	uint32_t status = write(it, 0, 0), address;

	if (status != PIDTAB_NO_ROOM)
		return status;
	*size = told_size(it);
	if (*size > room)
		return PIDTAB_NO_ROOM;
	address = Z_pidtabZ_take(it, (uint32_t)*size);
	if (!address)
		return PIDTAB_NO_MEMORY;
	status = write(it, address, (uint32_t)*size);
	if (status == PIDTAB_DONE)
		memcpy(bytes, it->w2c_memory.data + address, *size);
	Z_pidtabZ_give(it, address);
	return status;
}

/* The address of a copy of a text in the memory of the instance, or 0. */
static uint32_t copied(instance *it, const void *text, size_t length)
{
	uint32_t address = length < UINT32_MAX ? Z_pidtabZ_take(it, (uint32_t)length) : 0;

	if (address)
		memcpy(it->w2c_memory.data + address, text, length);
	return address;
}

/* How much of a line is handed over: one that is too long stays so. */
static uint32_t put_line(instance *it, const void *line, size_t length)
{
	uint32_t size = length < LINE_ROOM ? (uint32_t)length : LINE_ROOM;

	put(it, LINE, line, size);
	return size;
}

static uint32_t short_room(size_t room)
{
	return room < PIDTAB_LONGEST_ANSWER ? (uint32_t)room : PIDTAB_LONGEST_ANSWER;
}

static uint32_t answered(instance *it, uint32_t status, void *answer, size_t *size)
{
	if (status == PIDTAB_DONE) {
		*size = told_size(it);
		get(it, ANSWER, answer, *size);
	}
	return status;
}

static uint32_t fetched(instance *it, uint32_t status, enum place what, void *to, size_t size)
{
	if (status == PIDTAB_DONE)
		get(it, what, to, size);
	return status;
}

/* What the instance answers to the call that it was given. */
typedef uint32_t answer_call(instance *it);

static uint32_t replied(instance *it, answer_call *answer, const struct pidtab_call *call, struct pidtab_reply *reply)
{
	put(it, CALL, call, sizeof *call);
	return fetched(it, answer(it), REPLY, reply, sizeof *reply);
}

uint32_t pidtab_version(void)
{
	return PIDTAB_VERSION;
}

/* A new instance with these numbers in it, or null: a line of theirs needs no table. */
static instance *instance_with(enum place what, const void *numbers, size_t size)
{
	instance *it = new_instance();

	if (it)
		put(it, what, numbers, size);
	return it;
}

/* The line that the instance has, which is freed. */
static uint32_t line_of(instance *it, uint32_t status, enum place what, void *line, size_t room, size_t *size)
{
	if (status == PIDTAB_DONE) {
		*size = told_size(it);
		if (*size > room)
			status = PIDTAB_NO_ROOM;
		else
			get(it, what, line, *size);
	}
	free_instance(it);
	return status;
}

uint32_t pidtab_call_line(const struct pidtab_call *call, void *line, size_t room, size_t *size)
{
	instance *it = instance_with(CALL, call, sizeof *call);

	return it ? line_of(it, Z_pidtabZ_call_line(it), LINE, line, room, size) : PIDTAB_NO_MEMORY;
}

uint32_t pidtab_reply_line(const struct pidtab_reply *reply, void *answer, size_t room, size_t *size)
{
	instance *it = instance_with(REPLY, reply, sizeof *reply);

	return it ? line_of(it, Z_pidtabZ_reply_line(it, PIDTAB_LONGEST_ANSWER), ANSWER, answer, room, size) : PIDTAB_NO_MEMORY;
}

uint32_t proved_open_with(struct pidtab *table, const struct pidtab_settings *settings)
{
	instance *it;

	if (table->is_open)
		return PIDTAB_BUSY;
	it = new_instance();
	if (!it)
		return PIDTAB_NO_MEMORY;
	put(it, SETTINGS, settings, sizeof *settings);
	return kept(&table->at, &table->is_open, it, Z_pidtabZ_open_with(it));
}

void proved_close(struct pidtab *table)
{
	closed(&table->at, &table->is_open);
}

uint32_t proved_list(struct pidtab *table, void *bytes, size_t room, size_t *size)
{
	return table->is_open ? written(table->at, Z_pidtabZ_list, bytes, room, size) : PIDTAB_CLOSED;
}

uint32_t proved_dump(struct pidtab *table, void *bytes, size_t room, size_t *size)
{
	return table->is_open ? written(table->at, Z_pidtabZ_dump, bytes, room, size) : PIDTAB_CLOSED;
}

uint32_t proved_ask(struct pidtab *table, const struct pidtab_call *call, struct pidtab_reply *reply)
{
	return table->is_open ? replied(table->at, Z_pidtabZ_ask, call, reply) : PIDTAB_CLOSED;
}

uint32_t proved_stat(struct pidtab *table, uint32_t caller, uint32_t number, struct pidtab_task *task)
{
	instance *it = table->at;

	return table->is_open ? fetched(it, Z_pidtabZ_stat(it, caller, number), TASK, task, sizeof *task) : PIDTAB_CLOSED;
}

/* Functions of the module that write numbers into a room of its memory, and tell in its reply how many there are. */
typedef uint32_t write_page(instance *it, uint32_t caller, uint32_t whom, uint32_t number, uint32_t from, uint32_t numbers, uint32_t room);
typedef uint32_t write_tasks(instance *it, uint32_t caller, uint32_t from, uint32_t numbers, uint32_t room);

/* What is asked for: a page, or else the live tasks of a control group. */
struct asked {
	write_page *page;
	write_tasks *tasks;
	uint64_t control;
	uint32_t caller, whom, number, from;
};

static uint32_t ask_for(instance *it, const struct asked *asked, uint32_t numbers, uint32_t room)
{
	if (asked->page)
		return asked->page(it, asked->caller, asked->whom, asked->number, asked->from, numbers, room);
	put(it, NUMBERS, &asked->control, sizeof asked->control);
	return asked->tasks(it, asked->caller, asked->from, numbers, room);
}

/* The numbers in a room of the caller: first they are counted. */
static uint32_t paged(instance *it, const struct asked *asked, uint32_t *numbers, size_t room, struct pidtab_reply *reply)
{
	struct pidtab_reply counted;
	uint32_t status = ask_for(it, asked, 0, 0), count, address;

	if (status != PIDTAB_DONE)
		return status;
	get(it, REPLY, &counted, sizeof counted);
	count = counted.kind != PIDTAB_COUNTED ? 0 : counted.first < room ? (uint32_t)counted.first : (uint32_t)room;
	if (count != 0) {
		address = Z_pidtabZ_take(it, count * (uint32_t)sizeof *numbers);
		if (!address)
			return PIDTAB_NO_MEMORY;
		status = ask_for(it, asked, address, count);
		if (status == PIDTAB_DONE)
			memcpy(numbers, it->w2c_memory.data + address, count * sizeof *numbers);
		Z_pidtabZ_give(it, address);
	}
	return fetched(it, status, REPLY, reply, sizeof *reply);
}

uint32_t proved_page(struct pidtab *table, uint32_t caller, uint32_t whom, uint32_t number, uint32_t from, uint32_t *numbers, size_t room, struct pidtab_reply *reply)
{
	const struct asked asked = { .page = Z_pidtabZ_page, .caller = caller, .whom = whom, .number = number, .from = from };

	return table->is_open ? paged(table->at, &asked, numbers, room, reply) : PIDTAB_CLOSED;
}

uint32_t proved_control_tasks(struct pidtab *table, uint32_t caller, uint64_t control, uint32_t from, uint32_t *numbers, size_t room, struct pidtab_reply *reply)
{
	const struct asked asked = { .tasks = Z_pidtabZ_control_tasks, .control = control, .caller = caller, .from = from };

	return table->is_open ? paged(table->at, &asked, numbers, room, reply) : PIDTAB_CLOSED;
}

/* A function of the module that reads the namespace with the id among its numbers. */
typedef uint32_t read_space(instance *it);

static uint32_t space_read(instance *it, read_space *read, uint64_t id, struct pidtab_space *space)
{
	put(it, NUMBERS, &id, sizeof id);
	return fetched(it, read(it), SPACE, space, sizeof *space);
}

uint32_t proved_space(struct pidtab *table, uint64_t id, struct pidtab_space *space)
{
	return table->is_open ? space_read(table->at, Z_pidtabZ_space, id, space) : PIDTAB_CLOSED;
}

/* A function of the module that writes ids into a room of its memory, and counts them after the two numbers that it takes. */
typedef uint32_t write_inside(instance *it, uint32_t tree, uint32_t ids, uint32_t room);

/* One page: the numbers of 64 bits are an id, where the page begins, and the count. */
static uint32_t inside_page(instance *it, write_inside *inside, uint32_t tree, uint64_t numbers[3], uint32_t address, uint32_t room)
{
	put(it, NUMBERS, numbers, 3 * sizeof *numbers);
	return fetched(it, inside(it, tree, address, room), NUMBERS, numbers, 3 * sizeof *numbers);
}

/* The ids in a room of the caller: first they are counted. */
static uint32_t told_inside(instance *it, write_inside *inside, uint32_t tree, uint64_t numbers[3], uint64_t *ids, size_t room, uint64_t *count)
{
	uint32_t status = inside_page(it, inside, tree, numbers, 0, 0), told, address;

	if (status != PIDTAB_DONE)
		return status;
	told = numbers[2] < room ? (uint32_t)numbers[2] : (uint32_t)room;
	if (told != 0) {
		address = Z_pidtabZ_take(it, told * (uint32_t)sizeof *ids);
		if (!address)
			return PIDTAB_NO_MEMORY;
		status = inside_page(it, inside, tree, numbers, address, told);
		if (status == PIDTAB_DONE)
			memcpy(ids, it->w2c_memory.data + address, told * sizeof *ids);
		Z_pidtabZ_give(it, address);
	}
	if (status == PIDTAB_DONE)
		*count = numbers[2];
	return status;
}

uint32_t proved_inside(struct pidtab *table, uint32_t tree, uint64_t id, uint64_t from, uint64_t *ids, size_t room, uint64_t *count)
{
	uint64_t numbers[3] = { id, from };

	return table->is_open ? told_inside(table->at, Z_pidtabZ_inside, tree, numbers, ids, room, count) : PIDTAB_CLOSED;
}

uint32_t proved_would(struct pidtab *table, const struct pidtab_call *call, struct pidtab_reply *reply)
{
	return table->is_open ? replied(table->at, Z_pidtabZ_would, call, reply) : PIDTAB_CLOSED;
}

/* What a fork gets, or would have got. */
static uint32_t foretold(instance *it, uint32_t status, struct pidtab_reply *reply)
{
	if (status == PIDTAB_DIFFERS)
		fetched(it, PIDTAB_DONE, REPLY, reply, sizeof *reply);
	return fetched(it, status, REPLY, reply, sizeof *reply);
}

/* What a call tells beside its reply: the ordinal of one that a worker made, and how many effects it had, or takes room for. */
struct told {
	uint64_t ordinal, count;
};

/* The call that the instance was given. */
static uint32_t make_told(instance *it, uint32_t worker, uint32_t address, uint32_t room, struct told *told)
{
	uint32_t status;

	put(it, NUMBERS, told, sizeof *told);
	status = Z_pidtabZ_call_told_by(it, worker, address, room);
	if (status == PIDTAB_DONE || status == PIDTAB_NO_ROOM)
		get(it, NUMBERS, told, sizeof *told);
	return status;
}

/* The effects in a room of the caller: first it is asked how many they may be. A call that has none is made by that. */
static uint32_t told_effects(instance *it, uint32_t worker, const struct pidtab_call *call, struct pidtab_reply *reply, struct pidtab_effect *effects, size_t room, struct told *told)
{
	uint32_t status, address, most;

	put(it, CALL, call, sizeof *call);
	status = make_told(it, worker, 0, 0, told);
	if (status == PIDTAB_NO_ROOM && told->count <= room) {
		most = (uint32_t)told->count;
		address = Z_pidtabZ_take(it, most * (uint32_t)sizeof *effects);
		if (!address)
			return PIDTAB_NO_MEMORY;
		status = make_told(it, worker, address, most, told);
		if (status == PIDTAB_DONE)
			memcpy(effects, it->w2c_memory.data + address, (size_t)told->count * sizeof *effects);
		Z_pidtabZ_give(it, address);
	}
	return fetched(it, status, REPLY, reply, sizeof *reply);
}

uint32_t proved_load_with(struct pidtab *table, const void *text, size_t length, const uint64_t *counts, size_t workers, bool keeps_history, struct pidtab_fault *fault)
{
	size_t known = workers < PIDTAB_MOST_WORKERS ? workers : PIDTAB_MOST_WORKERS;
	instance *it;
	uint32_t address, status = PIDTAB_NO_MEMORY;

	*fault = (struct pidtab_fault){ 0, 0 };
	if (table->is_open)
		return PIDTAB_BUSY;
	if (workers > known)
		return PIDTAB_OUT_OF_RANGE;
	it = new_instance();
	if (!it)
		return status;
	address = copied(it, text, length);
	if (address) {
		put(it, NUMBERS, counts, known * sizeof *counts);
		status = Z_pidtabZ_load_with(it, address, (uint32_t)length, (uint32_t)workers, keeps_history);
		get(it, FAULT, fault, sizeof *fault);
		Z_pidtabZ_give(it, address);
	}
	return kept(&table->at, &table->is_open, it, status);
}

uint32_t proved_call(struct pidtab *table, const struct pidtab_call *call, struct pidtab_reply *reply)
{
	return table->is_open ? replied(table->at, Z_pidtabZ_call, call, reply) : PIDTAB_CLOSED;
}

/* A query that tells one number, made as a call: DONE, or the status, or the error of its refusal. */
static uint32_t number_of(struct pidtab *table, struct pidtab_call query, uint64_t *number)
{
	struct pidtab_reply reply;
	uint32_t status = proved_call(table, &query, &reply);

	if (status != PIDTAB_DONE)
		return status;
	if (reply.kind == PIDTAB_REFUSED)
		return reply.error;
	*number = reply.first;
	return PIDTAB_DONE;
}

uint32_t proved_getpid_of(struct pidtab *table, uint32_t caller, uint64_t *number)
{
	return number_of(table, (struct pidtab_call){ .operation = PIDTAB_GETPID, .caller = caller }, number);
}

uint32_t proved_getppid_of(struct pidtab *table, uint32_t caller, uint64_t *number)
{
	return number_of(table, (struct pidtab_call){ .operation = PIDTAB_GETPPID, .caller = caller }, number);
}

uint32_t proved_getpgid_of(struct pidtab *table, uint32_t caller, uint32_t pid, uint64_t *number)
{
	return number_of(table, (struct pidtab_call){ .operation = PIDTAB_GETPGID, .caller = caller, .number = pid }, number);
}

uint32_t proved_getsid_of(struct pidtab *table, uint32_t caller, uint32_t pid, uint64_t *number)
{
	return number_of(table, (struct pidtab_call){ .operation = PIDTAB_GETSID, .caller = caller, .number = pid }, number);
}

uint32_t proved_next_of(struct pidtab *table, uint32_t caller, uint32_t kind, uint32_t from, uint64_t *number)
{
	return number_of(table, (struct pidtab_call){ .operation = PIDTAB_NEXT, .caller = caller, .number = from, .choice = kind }, number);
}

uint32_t proved_count_of(struct pidtab *table, uint64_t id, uint64_t *number)
{
	return number_of(table, (struct pidtab_call){ .operation = PIDTAB_COUNT, .id = id }, number);
}

/* A call that is recorded tells its ordinal among the numbers of the instance; any other leaves what is there. */
uint32_t proved_call_by(struct pidtab *table, uint32_t worker, const struct pidtab_call *call, struct pidtab_reply *reply, uint64_t *ordinal)
{
	instance *it = table->at;

	if (!table->is_open)
		return PIDTAB_CLOSED;
	put(it, CALL, call, sizeof *call);
	put(it, NUMBERS, ordinal, sizeof *ordinal);
	return fetched(it, fetched(it, Z_pidtabZ_call_by(it, worker), REPLY, reply, sizeof *reply), NUMBERS, ordinal, sizeof *ordinal);
}

uint32_t proved_call_keeping(struct pidtab *table, uint32_t worker, const struct pidtab_call *call, uint64_t keep, struct pidtab_reply *reply, uint64_t *ordinal)
{
	instance *it = table->at;
	const uint64_t numbers[2] = { *ordinal, keep };

	if (!table->is_open)
		return PIDTAB_CLOSED;
	put(it, CALL, call, sizeof *call);
	put(it, NUMBERS, numbers, sizeof numbers);
	return fetched(it, fetched(it, Z_pidtabZ_call_keeping(it, worker), REPLY, reply, sizeof *reply), NUMBERS, ordinal, sizeof *ordinal);
}

uint32_t proved_line_by(struct pidtab *table, uint32_t worker, const void *line, size_t length, void *answer, size_t room, size_t *size, uint64_t *ordinal)
{
	instance *it = table->at;
	uint32_t status;

	if (!table->is_open)
		return PIDTAB_CLOSED;
	put(it, NUMBERS, ordinal, sizeof *ordinal);
	status = Z_pidtabZ_line_by(it, worker, put_line(it, line, length), short_room(room));
	return fetched(it, answered(it, status, answer, size), NUMBERS, ordinal, sizeof *ordinal);
}

uint32_t proved_fork_at_by(struct pidtab *table, uint32_t worker, uint32_t caller, uint32_t new_space, uint32_t child, uint32_t root, struct pidtab_reply *reply, uint64_t *ordinal)
{
	instance *it = table->at;

	if (!table->is_open)
		return PIDTAB_CLOSED;
	put(it, NUMBERS, ordinal, sizeof *ordinal);
	return fetched(it, foretold(it, Z_pidtabZ_fork_at_by(it, worker, caller, new_space, child, root), reply), NUMBERS, ordinal, sizeof *ordinal);
}

uint32_t proved_call_told_by(struct pidtab *table, uint32_t worker, const struct pidtab_call *call, struct pidtab_reply *reply, uint64_t *ordinal, struct pidtab_effect *effects, size_t room, uint64_t *count)
{
	struct told told = { *ordinal, 0 };
	uint32_t status = table->is_open ? told_effects(table->at, worker, call, reply, effects, room, &told) : PIDTAB_CLOSED;

	if (status == PIDTAB_DONE || status == PIDTAB_NO_ROOM)
		*count = told.count;
	if (status == PIDTAB_DONE)
		*ordinal = told.ordinal;
	return status;
}

uint32_t proved_counts(struct pidtab *table, uint64_t *first_kept, uint64_t *recorded)
{
	instance *it = table->at;
	uint64_t counts[2] = { 0, 0 };
	uint32_t status = table->is_open ? fetched(it, Z_pidtabZ_counts(it), NUMBERS, counts, sizeof counts) : PIDTAB_CLOSED;

	if (status == PIDTAB_DONE) {
		*first_kept = counts[0];
		*recorded = counts[1];
	}
	return status;
}

uint32_t proved_worker(struct pidtab *table, uint32_t worker, uint64_t *calls)
{
	instance *it = table->at;

	return table->is_open ? fetched(it, Z_pidtabZ_worker(it, worker), NUMBERS, calls, sizeof *calls) : PIDTAB_CLOSED;
}

/* Whether each is a call, which has a line then. */
static bool are_calls(instance *it, const struct pidtab_call *calls, size_t count)
{
	for (size_t i = 0; i < count; i++) {
		put(it, CALL, &calls[i], sizeof *calls);
		if (Z_pidtabZ_call_line(it) != PIDTAB_DONE)
			return false;
	}
	return true;
}

uint32_t proved_calls(struct pidtab *table, uint32_t worker, const struct pidtab_call *calls, size_t count, struct pidtab_reply *replies, size_t room, size_t *made, uint64_t *ordinal)
{
	uint64_t recorded;
	uint32_t known = proved_worker(table, worker, &recorded);

	*made = 0;
	if (known != PIDTAB_DONE)
		return known;
	if (!are_calls(table->at, calls, count))
		return PIDTAB_OUT_OF_RANGE;
	if (room < count)
		return PIDTAB_NO_ROOM;
	for (; *made < count; ++*made) {
		uint32_t status = proved_call_by(table, worker, &calls[*made], &replies[*made], ordinal);
		if (status != PIDTAB_DONE)
			return status;
	}
	return PIDTAB_DONE;
}

uint32_t proved_entry(struct pidtab *table, uint64_t ordinal, uint64_t *worker, struct pidtab_call *call, struct pidtab_reply *reply)
{
	instance *it = table->at;
	uint32_t status;

	if (!table->is_open)
		return PIDTAB_CLOSED;
	put(it, NUMBERS, &ordinal, sizeof ordinal);
	status = fetched(it, Z_pidtabZ_entry(it), NUMBERS, worker, sizeof *worker);
	return fetched(it, fetched(it, status, CALL, call, sizeof *call), REPLY, reply, sizeof *reply);
}

uint32_t proved_read(struct pidtab *table, uint64_t from, struct pidtab_entry *entries, size_t room, size_t *count)
{
	uint64_t first = 0, recorded = 0;
	uint32_t status = proved_counts(table, &first, &recorded);

	if (status != PIDTAB_DONE)
		return status;
	if (from < first || from > recorded)
		return PIDTAB_NOT_KEPT;
	for (*count = 0; *count < room && from + *count < recorded; ++*count) {
		struct pidtab_entry *it = &entries[*count];
		status = proved_entry(table, from + *count, &it->worker, &it->call, &it->reply);
		if (status != PIDTAB_DONE)
			return status;
	}
	return PIDTAB_DONE;
}

static bool is_same(const struct pidtab_reply *one, const struct pidtab_reply *other)
{
	return one->kind == other->kind && one->error == other->error && one->refusal == other->refusal && one->count == other->count &&
		one->first == other->first && one->second == other->second && memcmp(one->levels, other->levels, sizeof one->levels) == 0;
}

uint32_t proved_replay(struct pidtab *table, const struct pidtab_entry *saved, size_t count, size_t *place)
{
	uint64_t first, recorded;
	uint32_t known = proved_counts(table, &first, &recorded);

	if (known != PIDTAB_DONE)
		return known;
	for (*place = 0; *place < count; ++*place) {
		struct pidtab_reply reply;
		uint64_t ordinal;
		uint32_t worker = saved[*place].worker < PIDTAB_MOST_WORKERS ? (uint32_t)saved[*place].worker : PIDTAB_MOST_WORKERS;
		uint32_t status = proved_call_by(table, worker, &saved[*place].call, &reply, &ordinal);
		if (status != PIDTAB_DONE)
			return status;
		if (!is_same(&reply, &saved[*place].reply))
			return PIDTAB_DIFFERS;
	}
	return PIDTAB_DONE;
}

uint32_t proved_keep(struct pidtab *table, uint64_t keep)
{
	instance *it = table->at;

	if (!table->is_open)
		return PIDTAB_CLOSED;
	put(it, NUMBERS, &keep, sizeof keep);
	return Z_pidtabZ_keep(it);
}

uint32_t proved_checkpoint(struct pidtab *table)
{
	return table->is_open ? Z_pidtabZ_checkpoint(table->at) : PIDTAB_CLOSED;
}

uint32_t proved_checkpoint_at(struct pidtab *table, uint64_t seen)
{
	instance *it = table->at;

	if (!table->is_open)
		return PIDTAB_CLOSED;
	put(it, NUMBERS, &seen, sizeof seen);
	return Z_pidtabZ_checkpoint_at(it);
}

uint32_t proved_opening(struct pidtab *table, void *bytes, size_t room, size_t *size)
{
	return table->is_open ? written(table->at, Z_pidtabZ_opening, bytes, room, size) : PIDTAB_CLOSED;
}

/* No table has threads here. What guard.h and settings.c ask of threads.h. */
struct threads {
	struct pidtab table;
	uint32_t queries;
};

static struct threads *threads_of(const struct pidtab *table)
{
	(void)table;
	return NULL;
}

static uint32_t begin_threads(struct pidtab *table, const struct pidtab *held)
{
	(void)table;
	(void)held;
	return PIDTAB_NO_THREADS;
}

static void end_threads(struct threads *threads)
{
	(void)threads;
}

static uint32_t lock_for_calls(struct threads *threads, size_t count)
{
	(void)threads;
	(void)count;
	return PIDTAB_NO_THREADS;
}

static void unlock_changed(struct threads *threads)
{
	(void)threads;
}

static const struct pidtab *share_as_call(struct threads *threads)
{
	return &threads->table;
}

static const struct pidtab *share_before_calls(struct threads *threads)
{
	return &threads->table;
}

static uint32_t end_shared(struct threads *threads, uint32_t status)
{
	(void)threads;
	return status;
}

struct pidtab *pidtab_lock(struct pidtab *table)
{
	(void)table;
	return NULL;
}

void pidtab_unlock(struct pidtab *table)
{
	(void)table;
}

uint32_t pidtab_end(struct pidtab *table)
{
	return table->is_open ? PIDTAB_NO_THREADS : PIDTAB_CLOSED;
}

uint32_t pidtab_await(struct pidtab *table, uint64_t ordinal, const struct timespec *until, uint64_t *recorded)
{
	(void)ordinal;
	(void)until;
	(void)recorded;
	return pidtab_end(table);
}
