/* A heap that refuses. heap.c is built with it, for the one file of a test that takes this in. */
#include <stdbool.h>
#include <stdlib.h>

/* The heap that heap.c is built with here: it refuses the allocation that the counter falls on. 0: none. */
static _Atomic int refuse_at;

/* Has the counter fall on the allocation. In a comma expression, gcc warns of a plain assignment to what is atomic. */
static inline void refuse(int at)
{
	refuse_at = at;
}

/* How many bytes were asked for. */
static _Atomic size_t bytes_asked;

static bool refused(size_t size)
{
	bytes_asked += size;
	return refuse_at > 0 && --refuse_at == 0;
}

void *test_malloc(size_t size)
{
	return refused(size) ? NULL : malloc(size);
}

void *test_realloc(void *at, size_t size)
{
	return refused(size) ? NULL : realloc(at, size);
}
