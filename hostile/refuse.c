/* A library to be preloaded, which is hostile to a program: it refuses it memory, and has its devices stumble.
 *
 * A growth is a call of malloc, calloc or realloc. Growths are counted, and may be refused, while the program is armed.
 * With REFUSE_MARKS set each write to standard output that begins with "? " arms it, and the next write there ends that;
 * else it is armed from its start on. After a write that begins with "! " each growth is refused, until the next write.
 *
 *   REFUSE_AT=N       refuses the N-th growth ..
 *   REFUSE_COUNT=K    .. and those after it, K in all (1 where it is not set), but none after the next write
 *   REFUSE_IN_TURN=1  refuses one growth after each mark: those of one step in turn, where each try finds what the
 *                     refused ones have kept
 *   REFUSE_THREADS=1  starts no thread
 *   REFUSE_REPORT=F   keeps two numbers of 8 bytes in the file F: the growths, and those that were refused
 *
 *   READ_BREAKS=K     interrupts the K-th read (EINTR)
 *   WRITE_BREAKS=K    interrupts the K-th write
 *   WRITE_BYTES=K     has each write take at most K bytes
 *   GROW_AT=K         adds the line of GROW_LINE to the file GROW_FILE before the K-th read
 */
#define _GNU_SOURCE
#include <dlfcn.h>
#include <errno.h>
#include <fcntl.h>
#include <pthread.h>
#include <stdlib.h>
#include <string.h>
#include <sys/mman.h>
#include <sys/syscall.h>
#include <unistd.h>

extern void *__libc_malloc(size_t);
extern void *__libc_calloc(size_t, size_t);
extern void *__libc_realloc(void *, size_t);
extern void __libc_free(void *);

enum { MOST_KEPT = 65536, NO_REPORT = 97 };

static long refuse_at, refuse_count, read_breaks, write_breaks, write_bytes, grow_at;
static int by_marks, in_turn, no_threads;

static volatile int lock;
static int is_ready, armed, refuses_all, has_refused, is_over;

/* It lies in the file itself, since a program that ends by _exit runs no function of ours. */
struct report {
    long growths, refused;
};
static struct report unread, *counts = &unread;

/* Of the step that is tried in turn: its mark, how many growths are granted, how many there were, and what they keep. */
static char mark[256];
static long granted, seen;
static void *kept[MOST_KEPT];
static int kept_count;

static void take_lock(void) {
    while (__sync_lock_test_and_set(&lock, 1)) {
    }
}

static void drop_lock(void) { __sync_lock_release(&lock); }

static long number(const char *name, long otherwise) {
    const char *text = getenv(name);
    return text ? atol(text) : otherwise;
}

static struct report *map_report(const char *name) {
    int file = open(name, O_RDWR | O_CREAT | O_TRUNC, 0600);
    if (file < 0 || ftruncate(file, sizeof(struct report)))
        _exit(NO_REPORT);
    void *place = mmap(NULL, sizeof(struct report), PROT_READ | PROT_WRITE, MAP_SHARED, file, 0);
    if (place == MAP_FAILED)
        _exit(NO_REPORT);
    close(file);
    return place;
}

__attribute__((constructor)) static void begin(void) {
    refuse_at = number("REFUSE_AT", 0);
    refuse_count = number("REFUSE_COUNT", 1);
    by_marks = number("REFUSE_MARKS", 0) != 0;
    in_turn = number("REFUSE_IN_TURN", 0) != 0;
    no_threads = number("REFUSE_THREADS", 0) != 0;
    read_breaks = number("READ_BREAKS", 0);
    write_breaks = number("WRITE_BREAKS", 0);
    write_bytes = number("WRITE_BYTES", 0);
    grow_at = number("GROW_AT", 0);
    if (getenv("REFUSE_REPORT"))
        counts = map_report(getenv("REFUSE_REPORT"));
    armed = !by_marks;
    is_ready = 1;
}

/* Whether a growth is refused. */
static int is_refused(void) {
    if (!is_ready || !(armed || refuses_all))
        return 0;
    long growth = ++counts->growths;
    int is = refuses_all;
    if (armed && in_turn)
        is = !has_refused && seen++ == granted;
    else if (armed && refuse_at && !is_over)
        is = growth >= refuse_at && growth - refuse_at < refuse_count;
    has_refused |= is;
    counts->refused += is;
    return is;
}

static void keep(void *block) {
    if (in_turn && armed && !has_refused && block && kept_count < MOST_KEPT)
        kept[kept_count++] = block;
}

static void forget(void *block) {
    for (int i = kept_count; in_turn && block && i-- > 0;)
        if (kept[i] == block) {
            kept[i] = kept[--kept_count];
            return;
        }
}

static int is_next_try(const char *text, size_t length) {
    char next[sizeof mark] = "";
    memcpy(next, text, length < sizeof next ? length : sizeof next);
    int is_same = !memcmp(mark, next, sizeof mark);
    memcpy(mark, next, sizeof mark);
    return has_refused && is_same;
}

/* A write to standard output ends a try. Where a growth was refused, and the next mark is the same, the next try is of the
 * same step. What the refused one has kept is what is still there then, and it is not asked for again. */
static void tell(const char *text, size_t length) {
    take_lock();
    refuses_all = by_marks && length >= 2 && !memcmp(text, "! ", 2);
    armed = !by_marks || (length >= 2 && !memcmp(text, "? ", 2));
    is_over |= has_refused;
    if (armed) {
        granted = is_next_try(text, length) ? granted - kept_count + 1 : 0;
        seen = kept_count = 0;
        has_refused = 0;
    }
    drop_lock();
}

static void *answered(void *block) {
    if (!block)
        errno = ENOMEM;
    return block;
}

void *malloc(size_t size) {
    take_lock();
    void *block = is_refused() ? NULL : __libc_malloc(size);
    keep(block);
    drop_lock();
    return answered(block);
}

void *calloc(size_t count, size_t size) {
    take_lock();
    void *block = is_refused() ? NULL : __libc_calloc(count, size);
    keep(block);
    drop_lock();
    return answered(block);
}

void *realloc(void *old, size_t size) {
    take_lock();
    void *block = is_refused() ? NULL : __libc_realloc(old, size);
    if (block) {
        forget(old);
        keep(block);
    }
    drop_lock();
    return answered(block);
}

void free(void *block) {
    take_lock();
    forget(block);
    drop_lock();
    __libc_free(block);
}

int pthread_create(pthread_t *thread, const pthread_attr_t *attributes, void *(*start)(void *), void *given) {
    static int (*next)(pthread_t *, const pthread_attr_t *, void *(*)(void *), void *);
    if (no_threads)
        return EAGAIN;
    if (!next)
        *(void **)&next = dlsym(RTLD_NEXT, "pthread_create");
    return next(thread, attributes, start, given);
}

static void grow_file(void) {
    const char *line = getenv("GROW_LINE");
    int file = open(getenv("GROW_FILE"), O_WRONLY | O_APPEND);
    if (file < 0 || syscall(SYS_write, file, line, strlen(line)) < 0 || syscall(SYS_write, file, "\n", (size_t)1) < 0)
        _exit(NO_REPORT);
    close(file);
}

ssize_t read(int file, void *place, size_t count) {
    static long reads;
    reads++;
    if (reads == grow_at)
        grow_file();
    if (reads == read_breaks) {
        errno = EINTR;
        return -1;
    }
    return syscall(SYS_read, file, place, count);
}

ssize_t write(int file, const void *text, size_t count) {
    static long writes;
    if (++writes == write_breaks) {
        errno = EINTR;
        return -1;
    }
    size_t some = write_bytes && count > (size_t)write_bytes ? (size_t)write_bytes : count;
    ssize_t wrote = syscall(SYS_write, file, text, some);
    if (file == STDOUT_FILENO)
        tell(text, count);
    return wrote;
}
