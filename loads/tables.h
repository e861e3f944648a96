/* What programs of this folder share: the table that their calls are made on, and words. */
#ifndef LOADS_TABLES_H
#define LOADS_TABLES_H

#include "pidtab.h"

#include <string.h>

typedef uint32_t make_call(const struct pidtab_call *call, struct pidtab_reply *reply);

static struct pidtab table;

/* Without a worker, and by one. */
static inline uint32_t by_worker_0(const struct pidtab_call *call, struct pidtab_reply *reply)
{
	return pidtab_call(&table, call, reply);
}

static inline uint32_t by_worker(const struct pidtab_call *call, struct pidtab_reply *reply)
{
	uint64_t ordinal;
	return pidtab_call_by(&table, 0, call, reply, &ordinal);
}

static inline bool is_word(const char *word, const char *other)
{
	return strcmp(word, other) == 0;
}

#endif
