/* What the tests of a saved history share. */
#include "test.h"
#include "pidtab_saved.h"

#include <sys/mman.h>

static inline int new_file(void)
{
	int file = memfd_create("history", 0);

	CHECK(file >= 0);
	return file;
}

/* What a table is opened with, for one thread or for many. */
static const struct pidtab_settings of_one = { .keep = PIDTAB_KEEP_ALL };
static const struct pidtab_settings of_many = { .keep = PIDTAB_KEEP_ALL, .threads = true };

static inline struct pidtab_settings settings_of(const struct pidtab_saved_head *head, uint64_t keep, bool threads)
{
	return (struct pidtab_settings){ head->pid_max, head->workers, head->first_stamp, keep, threads };
}

static inline bool same_call(const struct pidtab_call *a, const struct pidtab_call *b)
{
	return a->operation == b->operation && a->caller == b->caller && a->id == b->id && a->number == b->number && a->choice == b->choice
		&& a->pid == b->pid && a->pgid == b->pgid;
}

static inline bool same_reply(const struct pidtab_reply *a, const struct pidtab_reply *b)
{
	return a->kind == b->kind && a->error == b->error && a->refusal == b->refusal && a->count == b->count && a->first == b->first
		&& a->second == b->second && memcmp(a->levels, b->levels, sizeof a->levels) == 0;
}

static inline bool same_entry(const struct pidtab_entry *a, const struct pidtab_entry *b)
{
	return a->worker == b->worker && same_call(&a->call, &b->call) && same_reply(&a->reply, &b->reply);
}

static inline void same_lists(const struct pidtab *one, const struct pidtab *other)
{
	static char texts[2][1 << 20];
	size_t sizes[2] = { 0, 1 };

	CHECK(pidtab_list(one, texts[0], sizeof texts[0], &sizes[0]) == PIDTAB_DONE);
	CHECK(pidtab_list(other, texts[1], sizeof texts[1], &sizes[1]) == PIDTAB_DONE);
	CHECK(sizes[0] > 20 && sizes[0] == sizes[1] && memcmp(texts[0], texts[1], sizes[0]) == 0);
}
