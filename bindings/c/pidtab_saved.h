/* pidtab_saved.h - a saved history: the calls of a table with their replies, as bytes and in a file.
 *
 * A process that crashed loads the file. A fresh table is opened with the settings of the file's head, each saved call is made on
 * it again, and each reply is compared with the saved one. Then the file and the table go on. docs/SAVED.md has the form of the
 * bytes: a head of 48 bytes, and 48 bytes for each call but a few. It is the same on every machine, and has no time and no address.
 *
 * The functions of bytes in memory are proved, as those of pidtab.h are (crates/pidtab_c/src/saved_bytes.rt). Those of files are in
 * saved_file.c, which is tested and not proved. Neither allocates; only the table does, as its calls are made.
 *
 * Nobody checks that a caller keeps these rules, nor those of pidtab.h, which hold too:
 *
 * - One thread at a time works on a struct pidtab_saved: the saver. Where the table has threads, the others may make calls on it meanwhile,
 *   and wait for the saver. The saver makes no call where pidtab_saved_bound has set a bound. Threads wait for one saver: where several files
 *   are saved, each tells how far it is.
 * - One process at a time writes the file, and by one descriptor.
 * - What a write has given to the kernel survives the process. To have it survive the machine, call fsync or fdatasync.
 * - A pipe without a reader is SIGPIPE, as for any write. Ignored, it is PIDTAB_DEVICE with EPIPE.
 */
#ifndef PIDTAB_SAVED_H
#define PIDTAB_SAVED_H

#include "pidtab.h"

#ifdef __cplusplus
extern "C" {
#endif

/* Written by tools/interface: statuses. */
/* What these functions answer besides. */
enum pidtab_saved_status {
	PIDTAB_DEVICE = 5,        /* EIO: a read or a write of the file failed; the field `error` has its errno */
	PIDTAB_NOT_SAVED = 8,     /* ENOEXEC: the bytes are no saved history */
	PIDTAB_NOT_EMPTY = 17,    /* EEXIST: the file has bytes already */
	PIDTAB_ENDED = 32,        /* EPIPE: the saver has ended, and the call is not known to be saved */
	PIDTAB_TORN = 42,         /* ENOMSG: the bytes end before the head, or the entry, does */
	PIDTAB_WRONG_BYTE = 84,   /* EILSEQ: a byte is not the one that was written */
	PIDTAB_OTHER_VERSION = 93 /* EPROTONOSUPPORT: the form is of a version that this library does not know */
};

/* What a status says, as a sentence; also one of pidtab.h. */
static inline const char *pidtab_saved_text(uint32_t status)
{
	switch (status) {
	case PIDTAB_DEVICE:
		return "a read or a write of the file failed";
	case PIDTAB_NOT_SAVED:
		return "the bytes are no saved history";
	case PIDTAB_NOT_EMPTY:
		return "the file has bytes already";
	case PIDTAB_ENDED:
		return "the saver has ended";
	case PIDTAB_TORN:
		return "the bytes end within the head or an entry";
	case PIDTAB_WRONG_BYTE:
		return "a byte is not the one that was written";
	case PIDTAB_OTHER_VERSION:
		return "the saved history is of another version";
	}
	return pidtab_text(status);
}
/* The end of statuses. */

/* Written by tools/interface: bounds. */
#define PIDTAB_SAVED_VERSION 1   /* the version of the form */
#define PIDTAB_SAVED_BLOCK 48    /* the head and each entry are whole blocks of so many bytes */
#define PIDTAB_SAVED_LONGEST 192 /* the longest entry, that of an nspid with 33 levels */
/* The end of bounds. */

/* The settings that the table was opened with. A 0 is none of them. */
struct pidtab_saved_head {
	uint32_t pid_max;
	uint32_t workers;
	uint64_t first_stamp;
};

/* Bytes in memory. `sum` is the running checksum: the head's functions begin it, and each entry's goes on with it. No function except the
 * last changes anything unless it is PIDTAB_DONE, but `size`. What is written is read back. An operation, a kind, an error or a refusal
 * that this library does not know is a number all the same, and whoever makes the call refuses it. */

/* The CRC-64/XZ of bytes after those whose CRC is `sum`, which is 0 for none. */
uint64_t pidtab_saved_sum(uint64_t sum, const void *bytes, size_t length);

/* Writes the head, of size PIDTAB_SAVED_BLOCK. DONE, NO_ROOM, and OUT_OF_RANGE for settings that no table is opened with. */
uint32_t pidtab_saved_put_head(const struct pidtab_saved_head *head, void *bytes, size_t room, size_t *size, uint64_t *sum);

/* Writes an entry; in room of PIDTAB_SAVED_LONGEST each fits. DONE; NO_ROOM, and then size says what is needed; OUT_OF_RANGE where a
 * number has no place in the form. Each entry of pidtab_read can be written. */
uint32_t pidtab_saved_put(const struct pidtab_entry *entry, void *bytes, size_t room, size_t *size, uint64_t *sum);

/* Reads the head from the front of the bytes; size is how many it has. DONE; TORN where there are fewer, and those may be the front
 * of a head; NOT_SAVED; OTHER_VERSION; WRONG_BYTE; and OUT_OF_RANGE as above. */
uint32_t pidtab_saved_take_head(const void *bytes, size_t length, struct pidtab_saved_head *head, size_t *size, uint64_t *sum);

/* Reads an entry from the front of the bytes; size is how many it has. DONE; TORN where there are fewer, and then size says how
 * many there are at least; WRONG_BYTE, and then size is the place of the first block that is not as it was written. Nothing is
 * said of the call and the reply: they may be those of no table. */
uint32_t pidtab_saved_take(const void *bytes, size_t length, struct pidtab_entry *entry, size_t *size, uint64_t *sum);

/* Reads on after the head or the last whole entry, in bytes that come in pieces; `is_end` says that none follow. Pieces may be cut
 * anywhere, and one of PIDTAB_SAVED_LONGEST bytes always leads on. `left_out` is 0 at first, and is given back as it is: so many bytes
 * after the last whole entry are passed.
 *
 * DONE with a size that is not 0: an entry, of so many bytes. DONE with 0: the end, where `left_out` says how many bytes a torn end has. TORN:
 * more bytes decide. Then size says how many of these are passed: all of them, or none, and then they come again with more after them.
 * WRONG_BYTE. */
uint32_t pidtab_saved_next(const void *bytes, size_t length, bool is_end, struct pidtab_entry *entry, size_t *size, uint64_t *sum, uint64_t *left_out);

/* A file that a history is saved to. Its fields may be read, and are not written. */
struct pidtab_saved {
	struct pidtab_saved_head head; /* the settings in the file */
	uint64_t next;                 /* so many calls are in the file, each whole, also where a write failed; the next one has this ordinal */
	uint64_t bytes;                /* so many bytes they have, with the head */
	uint64_t left_out;             /* so many bytes of a torn end a load has found after them */
	uint64_t sum;
	size_t part;                   /* so many bytes of the next one a write that failed has left after them */
	bool is_torn;                  /* the torn end is in the file yet */
	int file;
	int error;                     /* the errno of what was PIDTAB_DEVICE, or else 0 */
};

/* Begins a saved history: writes the head into an empty file. The settings are those that the table is opened with; nobody compares
 * them. No table of pidtab_load_with is saved so: it goes on from a text, which the file has not. DONE; OUT_OF_RANGE; NOT_EMPTY;
 * DEVICE, and then pidtab_saved_trim takes away what was written of the head. */
uint32_t pidtab_saved_begin(struct pidtab_saved *saved, int file, const struct pidtab_saved_head *head);

/* Writes the calls that were recorded since, and perhaps some that are recorded meanwhile. The lock of a table with threads is held while up to
 * 512 calls are copied, and for no write. Short and interrupted writes are gone on with. It takes some 120 KB of stack.
 *
 * DONE, CLOSED, NO_HISTORY, BUSY. NOT_KEPT where the next call to be saved was cut away, or the table has fewer calls than the file: so a history
 * that was cut before it was saved from its first call on is refused. TORN where a load has left out a torn end that is not trimmed
 * yet. DEVICE: the next append goes on after the last byte that was written, so nothing is lost or doubled.
 *
 * What is saved may be cut: pidtab_checkpoint_at with `next` gives its memory back, and the file goes on. */
uint32_t pidtab_saved_append(struct pidtab_saved *saved, struct pidtab *table);

/* The saver of a table with threads, in a thread of its own. It appends, sleeps until a call is recorded, and begins again, until
 * pidtab_saved_end. With `to_disk` each turn ends with fdatasync, so one such call serves all that wait. Where keep is not 0,
 * it cuts the history whenever that has so many entries: all others wait while the last calls are written and the kept ones made once more.
 *
 * DONE where it has ended, and then all calls that were recorded before the end are saved. CLOSED and NO_THREADS, at once. Any other status is that of
 * the append, or DEVICE of the fdatasync; all that wait have it too. It may be called again. After an fdatasync that failed, nobody knows what the disk
 * has: load the file. */
uint32_t pidtab_saved_serve(struct pidtab_saved *saved, struct pidtab *table, uint64_t keep, bool to_disk);

/* Waits until the call with the ordinal is saved: in the file, by an append, a load or pidtab_saved_serve; and on the disk, where only
 * pidtab_saved_serve with `to_disk` saves. Each of these wakes all that wait, at the end of its turn. It costs a lock, and a sleep where the
 * call is not saved yet.
 *
 * DONE, also where the saver has ended or failed since. CLOSED, NO_THREADS. Any other status is that of the saver's last turn, at once until a turn does
 * better, with its errno where it is DEVICE: whether the call is saved is not known. ENDED. Before the first turn it waits. */
uint32_t pidtab_saved_wait(struct pidtab *table, uint64_t ordinal);

/* From now on at most so many calls are recorded and not saved; 0, as at first, is any number. A call by any function that would be one more waits for
 * the saver, as pidtab_saved_wait does. So do those of pidtab_calls that would be too many, and more than the bound until all are saved. Where the
 * saver's last turn failed, or it has ended, none is made, and the answer is that status. DONE, CLOSED, NO_THREADS. */
uint32_t pidtab_saved_bound(struct pidtab *table, uint64_t most);

/* Ends the saver, for good: pidtab_saved_serve saves what was recorded, and answers. What waits, or comes to wait, for a call that is not
 * saved is ENDED. So it is called when no thread waits any more. DONE, CLOSED, NO_THREADS. */
uint32_t pidtab_saved_end(struct pidtab *table);

/* Opens a table by the head of the file, and makes its calls. The file is read from its beginning to its end, and not changed. Of the settings it looks
 * at two. Where keep is not PIDTAB_KEEP_ALL, the history is cut whenever it has so many entries while the file is loaded; each cut costs its calls once
 * more. What is recorded later is kept, as it is not saved yet: pidtab_saved_serve cuts it then, or pidtab_checkpoint_at. And threads.
 *
 * On DONE the table is open: `next` calls were made, and each had the saved reply. A torn end, which is that of a writer that was
 * stopped, is left out: `left_out` says how many bytes it has. Any other status says that nothing is to be closed:
 *
 * - NO_HISTORY where keep is 0.
 * - TORN: the file ends within its head. NOT_SAVED, OTHER_VERSION: by its head. OUT_OF_RANGE where `bytes` is 0: its settings.
 * - WRONG_BYTE: in the head, where `bytes` is 0, or in the entry that begins at `bytes`, that of the ordinal `next`.
 * - DIFFERS: the call with the ordinal `next`, saved at `bytes`, has another reply. OUT_OF_RANGE, SPENT, NO_MEMORY: it was not made.
 * - DEVICE, BUSY. NO_MEMORY where `bytes` is 0: the table was not opened.
 *
 * A file that is cut to a length of `bytes`, where that is not 0, loads as what comes before. It costs what the calls cost. */
uint32_t pidtab_saved_load(struct pidtab_saved *saved, int file, struct pidtab *table, const struct pidtab_settings *settings);

/* Cuts the torn end off the file, after a load, or what was written of a head. Then an append goes on, or a begin. DONE, also where
 * there is none; DEVICE. */
uint32_t pidtab_saved_trim(struct pidtab_saved *saved);

/* Loads the file, and trims it: an append goes on. A file that is empty, or ends within its head, is begun, and the table is opened
 * with the settings; those of another file are its own, and `head` has them. The descriptor reads and writes. Statuses are
 * those of a load except for TORN; where none is DONE, nothing is to be closed. */
uint32_t pidtab_saved_resume(struct pidtab_saved *saved, int file, struct pidtab *table, const struct pidtab_settings *settings);

#ifdef __cplusplus
}
#endif

#endif
