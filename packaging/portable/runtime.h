/* pidtab.c - the proved library of pidtab as one file for any C compiler: for machines for which there is no pidtab.S, as those with 32 bits.
 *
 * It is the slowest and the least trusted form of the library. The module of the proved crate pidtab_c was compiled for WebAssembly by clang, lowered to
 * 32-bit addresses by wasm-opt, and made C by wasm2c, none of which is proved. Take pidtab.S beside it where there is one for your machine.
 *
 * Compile it with `cc -O2 -c pidtab.c`; the header is pidtab.h. Before it may be defined
 *   PIDTAB_NO_BOUNDS                          no access to a table's memory is checked, which is faster; no proved code needs the checks
 *   PIDTAB_MALLOC, PIDTAB_REALLOC, PIDTAB_FREE
 * Each table has a memory of its own, of at most 1 GiB, in one block that grows.
 * It has what pidtab.h declares, and neither histories in files nor replicas. A table with threads is not opened: PIDTAB_NO_THREADS.
 */
#include "pidtab.h"

#include <stdlib.h>
#include <string.h>

#if (defined(__BYTE_ORDER__) && __BYTE_ORDER__ == __ORDER_BIG_ENDIAN__) || defined(__ARMEB__)
#error "pidtab.c is for little-endian machines"
#endif

#ifndef PIDTAB_MALLOC
#define PIDTAB_MALLOC malloc
#define PIDTAB_REALLOC realloc
#define PIDTAB_FREE free
#endif

#if defined(__GNUC__) && !defined(__TINYC__)
#define LIKELY(x) __builtin_expect(!!(x), 1)
#define UNLIKELY(x) __builtin_expect(!!(x), 0)
#else
#define LIKELY(x) (x)
#define UNLIKELY(x) (x)
/* Without operations that are atomic. So a second thread is not seen: threads take turns under a lock. */
#define __atomic_load_n(at, order) (*(at))
#define __atomic_store_n(at, value, order) (*(at) = (value))
#define __atomic_sub_fetch(at, less, order) (*(at) -= (less))
#define __atomic_compare_exchange_n(at, seen, value, weak, order, other) (*(at) == *(seen) ? (*(at) = (value), true) : (*(seen) = *(at), false))
#define __ATOMIC_RELAXED 0
#define __ATOMIC_ACQUIRE 0
#define __ATOMIC_RELEASE 0
#define __builtin_clz(x) ((int)plain_clz(x, 32))
#define __builtin_clzll(x) ((int)plain_clz(x, 64))
#define __builtin_ctz(x) ((int)plain_ctz(x))
#define __builtin_ctzll(x) ((int)plain_ctz(x))
#define __builtin_popcount(x) ((int)plain_count(x))
#define __builtin_popcountll(x) ((int)plain_count(x))

static unsigned plain_clz(uint64_t bits, unsigned width)
{
	while (bits) {
		width--;
		bits >>= 1;
	}
	return width;
}

static unsigned plain_ctz(uint64_t bits)
{
	unsigned count = 0;

	while (!(bits & 1)) {
		count++;
		bits >>= 1;
	}
	return count;
}

static unsigned plain_count(uint64_t bits)
{
	unsigned count = 0;

	for (; bits; bits &= bits - 1)
		count++;
	return count;
}
#endif

/* What wasm2c's code asks of a runtime: memories, and what is done where something is wrong that no proved code does. */
typedef struct {
	uint8_t *data;
	uint32_t pages, max_pages;
	uint64_t size;
} wasm_rt_memory_t;

typedef struct {
	int none;
} wasm_rt_funcref_table_t;

enum { WASM_PAGE = 65536 };

#define wasm_rt_memcpy memcpy
#define wasm_rt_trap(why) abort()
#define WABT_BIG_ENDIAN 0
#ifdef PIDTAB_NO_BOUNDS
#define WASM_RT_MEMCHECK_SIGNAL_HANDLER 1
#else
#define WASM_RT_MEMCHECK_SIGNAL_HANDLER 0
#endif

/* Without memory there is no data. */
static void wasm_rt_allocate_memory(wasm_rt_memory_t *memory, uint32_t pages, uint32_t max_pages)
{
	memory->data = PIDTAB_MALLOC((size_t)pages * WASM_PAGE);
	memory->pages = pages;
	memory->max_pages = max_pages;
	memory->size = (uint64_t)pages * WASM_PAGE;
	if (memory->data)
		memset(memory->data, 0, (size_t)pages * WASM_PAGE);
}

/* The pages before, or -1 where there is no memory. The memory may move, so nothing outside has an address in it across a call. */
static uint32_t wasm_rt_grow_memory(wasm_rt_memory_t *memory, uint32_t more)
{
	uint32_t before = memory->pages;
	uint8_t *data;

	if (more > memory->max_pages - before)
		return (uint32_t)-1;
	data = PIDTAB_REALLOC(memory->data, (size_t)(before + more) * WASM_PAGE);
	if (!data)
		return (uint32_t)-1;
	memset(data + (size_t)before * WASM_PAGE, 0, (size_t)more * WASM_PAGE);
	memory->data = data;
	memory->pages = before + more;
	memory->size = (uint64_t)memory->pages * WASM_PAGE;
	return before;
}

static void wasm_rt_free_memory(wasm_rt_memory_t *memory)
{
	PIDTAB_FREE(memory->data);
}

#if defined(__GNUC__) && !defined(__TINYC__)
#pragma GCC diagnostic push
#pragma GCC diagnostic ignored "-Wunused-variable"
#pragma GCC diagnostic ignored "-Wunused-but-set-variable"
#pragma GCC diagnostic ignored "-Wunused-label"
#pragma GCC diagnostic ignored "-Wunused-function"
#pragma GCC diagnostic ignored "-Wunused-value"
#pragma GCC diagnostic ignored "-Wunused-parameter"
#pragma GCC diagnostic ignored "-Wsign-compare"
#endif
