//! `bindings/c/pidtab.h`, and what of `pidtab_saved.h` works in memory: numbers, structs and functions, and an owner for each struct
//! that is opened and closed. All unsafe code of the crate is here.
#![allow(unsafe_code)]

use std::cell::UnsafeCell;
use std::ffi::c_void;
use std::mem::{size_of, zeroed};
use std::panic::RefUnwindSafe;
#[cfg(test)]
use std::ptr;
#[cfg(test)]
use std::sync::atomic::{AtomicU8, Ordering};

/// Constants of the header.
macro_rules! numbers {
    ($($name:ident: $type:ty = $value:literal,)*) => { $(
        #[allow(dead_code)] // Not each is used here.
        pub(crate) const $name: $type = $value;
    )* };
}

/// Structs of the header that are values, with that of zeroes.
macro_rules! structs {
    ($(#[$of:meta] struct $name:ident { $($field:ident: $type:ty),* })*) => { $(
        #[$of]
        #[repr(C)]
        #[derive(Clone, Copy, Debug, PartialEq)]
        pub(crate) struct $name {
            $(pub(crate) $field: $type,)*
        }

        impl $name {
            // SAFETY: each field may be zero.
            #[allow(dead_code)] // Not each is used here.
            pub(crate) const BLANK: $name = unsafe { zeroed() };
        }
    )* };
}

/// Functions of the header by references and slices, which answer a status. tools/interface alone writes the rows.
macro_rules! lent {
    ($(fn $name:ident($($taken:tt)*) = $call:expr;)*) => { $(
        pub(crate) fn $name($($taken)*) -> u32 {
            // SAFETY: a method's table is open; each other pointer is a reference's, or that of a slice of that length.
            unsafe { $call }
        }
    )* };
}

// Written by tools/interface: statuses.
// What the functions answer.
numbers! {
    DONE: u32 = 0, CLOSED: u32 = 9, NO_MEMORY: u32 = 12, BUSY: u32 = 16, OUT_OF_RANGE: u32 = 22, NO_ROOM: u32 = 34,
    EMPTY_LINE: u32 = 61, BAD_LINE: u32 = 71, SPENT: u32 = 75, DIFFERS: u32 = 74, BAD_TEXT: u32 = 117,
    NOT_KEPT: u32 = 2, AGAIN: u32 = 11, NO_HISTORY: u32 = 95, NO_THREADS: u32 = 37, DEVICE: u32 = 5, NOT_SAVED: u32 = 8,
    NOT_EMPTY: u32 = 17, ENDED: u32 = 32, TORN: u32 = 42, WRONG_BYTE: u32 = 84, OTHER_VERSION: u32 = 93,
}
// The end of statuses.

// Written by tools/interface: operations.
// The operations.
numbers! {
    FORK: u32 = 0, GETPID: u32 = 1, NSPID: u32 = 2, EXEC: u32 = 3, EXIT: u32 = 4, WAIT: u32 = 5, GETPPID: u32 = 6,
    SETPGID: u32 = 7, SETSID: u32 = 8, MK: u32 = 9, RM: u32 = 10, LIMIT: u32 = 11, MOVE: u32 = 12, COUNT: u32 = 13,
    GETPGID: u32 = 14, GETSID: u32 = 15, NEXT: u32 = 16, JOIN: u32 = 17, SUBREAPER: u32 = 18,
}
// The end of operations.

// Written by tools/interface: kinds.
// The kinds of a reply, and what a choice says.
numbers! {
    FORKED: u32 = 0, OK: u32 = 1, NUMBER: u32 = 2, LEVELS: u32 = 3, REAPED: u32 = 4, NONE_YET: u32 = 5,
    COUNTED: u32 = 6, CONTROL: u32 = 7, END: u32 = 8, REFUSED: u32 = 9, ANY: u32 = 0, CHILD: u32 = 1,
    OWN_GROUP: u32 = 2, GROUP: u32 = 3, TASKS: u32 = 0, GROUPS: u32 = 1, SESSIONS: u32 = 2, CHILDREN: u32 = 0,
    GROUP_MEMBERS: u32 = 1, SESSION_MEMBERS: u32 = 2, NAMESPACE_MEMBERS: u32 = 3, NAMESPACE_OWN: u32 = 4,
    SPACES: u32 = 0, CONTROLS: u32 = 1, TASK_ENDED: u32 = 0, TASK_ADOPTED: u32 = 1, TASK_GONE: u32 = 2,
    GROUP_GONE: u32 = 3, SESSION_GONE: u32 = 4, SPACE_FELL: u32 = 5, SPACE_GONE: u32 = 6,
}
// The end of kinds.

// Written by tools/interface: bounds.
// The bounds of the headers.
numbers! {
    VERSION: u32 = 1, LONGEST_ANSWER: usize = 362, LONGEST_CALL: usize = 42, KILLED: u64 = 256, LEVELS_MAX: usize = 33,
    MOST_WORKERS: u32 = 16, SAVED_VERSION: u32 = 1, SAVED_BLOCK: usize = 48, SAVED_LONGEST: usize = 192,
    LEAST_PID_MAX: u32 = 301, GREATEST_PID_MAX: u32 = 4194304,
}
// The end of bounds.

// Written by tools/interface: structs.
/// `struct pidtab`.
#[repr(C)]
struct Held {
    at: *mut c_void,
    is_open: bool,
    in_use: u8,
    way: u8,
    workers: u8,
    seated: u8,
    keep: u64,
    threads: *mut c_void,
}

structs! {
    /// `struct pidtab_call`.
    struct Call { operation: u32, caller: u32, id: u64, number: u32, choice: u32, pid: i32, pgid: i32 }
    /// `struct pidtab_fault`.
    struct Fault { line: u64, kind: u32 }
    /// `struct pidtab_reply`.
    struct Reply { kind: u32, error: u32, refusal: u32, count: u32, first: u64, second: u64, levels: [u32; LEVELS_MAX] }
    /// `struct pidtab_task`.
    struct Task { error: u32, refusal: u32, count: u32, parent: u32, group: u32, session: u32, ended: u32, status: u32,
        executed: u32, subreaper: u32, space: u64, control: u64, root: u32, levels: [u32; LEVELS_MAX] }
    /// `struct pidtab_space`.
    struct Space { id: u64, parent: u64, level: u32, init: u32, fallen: u32 }
    /// `struct pidtab_effect`.
    struct Effect { what: u32, number: u32, value: u64 }
    /// `struct pidtab_entry`.
    struct Entry { worker: u64, call: Call, reply: Reply }
    /// `struct pidtab_saved_head`.
    struct SavedHead { pid_max: u32, workers: u32, first_stamp: u64 }
    /// `struct pidtab_settings`.
    struct Settings { pid_max: u32, workers: u32, first_stamp: u64, keep: u64, threads: bool }
}
// The end of structs.

// The sizes are those that the tests of bindings/c assert.
const _: () = {
    assert!(size_of::<Held>() == 32 && size_of::<Settings>() == 32 && size_of::<Call>() == 32);
    assert!(size_of::<Reply>() == 168 && size_of::<Task>() == 192);
    assert!(size_of::<Entry>() == 208 && size_of::<SavedHead>() == 16);
    assert!(size_of::<Effect>() == 16);
};

// Written by tools/interface: functions.
#[rustfmt::skip]
extern "C" {
    fn pidtab_version() -> u32;
    fn pidtab_open_with(table: *mut Held, settings: *const Settings) -> u32;
    fn pidtab_close(table: *mut Held) -> u32;
    fn pidtab_list(table: *const Held, bytes: *mut c_void, room: usize, size: *mut usize) -> u32;
    fn pidtab_dump(table: *const Held, bytes: *mut c_void, room: usize, size: *mut usize) -> u32;
    fn pidtab_load_with(table: *mut Held, text: *const c_void, length: usize, settings: *const Settings,
        counts: *const u64, fault: *mut Fault) -> u32;
    fn pidtab_call(table: *mut Held, call: *const Call, reply: *mut Reply) -> u32;
    fn pidtab_ask(table: *const Held, call: *const Call, reply: *mut Reply) -> u32;
    fn pidtab_stat(table: *const Held, caller: u32, number: u32, task: *mut Task) -> u32;
    fn pidtab_page(table: *const Held, caller: u32, whom: u32, number: u32, from: u32, numbers: *mut u32, room: usize,
        reply: *mut Reply) -> u32;
    fn pidtab_space(table: *const Held, id: u64, space: *mut Space) -> u32;
    fn pidtab_inside(table: *const Held, tree: u32, id: u64, from: u64, ids: *mut u64, room: usize,
        count: *mut u64) -> u32;
    fn pidtab_control_tasks(table: *const Held, caller: u32, control: u64, from: u32, numbers: *mut u32, room: usize,
        reply: *mut Reply) -> u32;
    fn pidtab_would(table: *const Held, call: *const Call, reply: *mut Reply) -> u32;
    fn pidtab_call_line(call: *const Call, line: *mut c_void, room: usize, size: *mut usize) -> u32;
    fn pidtab_reply_line(reply: *const Reply, answer: *mut c_void, room: usize, size: *mut usize) -> u32;
    fn pidtab_call_by(table: *mut Held, worker: u32, call: *const Call, reply: *mut Reply, ordinal: *mut u64) -> u32;
    fn pidtab_calls(table: *mut Held, worker: u32, calls: *const Call, count: usize, replies: *mut Reply, room: usize,
        made: *mut usize, ordinal: *mut u64) -> u32;
    fn pidtab_line_by(table: *mut Held, worker: u32, line: *const c_void, length: usize, answer: *mut c_void,
        room: usize, size: *mut usize, ordinal: *mut u64) -> u32;
    fn pidtab_fork_at_by(table: *mut Held, worker: u32, caller: u32, new_space: u32, child: u32, root: u32,
        reply: *mut Reply, ordinal: *mut u64) -> u32;
    fn pidtab_call_told_by(table: *mut Held, worker: u32, call: *const Call, reply: *mut Reply, ordinal: *mut u64,
        effects: *mut Effect, room: usize, count: *mut u64) -> u32;
    fn pidtab_seat(table: *mut Held, worker: *mut u32) -> u32;
    fn pidtab_counts(table: *const Held, first_kept: *mut u64, recorded: *mut u64) -> u32;
    fn pidtab_worker(table: *const Held, worker: u32, calls: *mut u64) -> u32;
    fn pidtab_entry(table: *const Held, ordinal: u64, worker: *mut u64, call: *mut Call, reply: *mut Reply) -> u32;
    fn pidtab_read(table: *const Held, from: u64, entries: *mut Entry, room: usize, count: *mut usize) -> u32;
    fn pidtab_replay(table: *mut Held, saved: *const Entry, count: usize, place: *mut usize) -> u32;
    fn pidtab_keep(table: *mut Held, keep: u64) -> u32;
    fn pidtab_checkpoint(table: *mut Held) -> u32;
    fn pidtab_checkpoint_at(table: *mut Held, seen: u64) -> u32;
    fn pidtab_opening(table: *const Held, bytes: *mut c_void, room: usize, size: *mut usize) -> u32;
    fn pidtab_saved_put_head(head: *const SavedHead, bytes: *mut c_void, room: usize, size: *mut usize,
        sum: *mut u64) -> u32;
    fn pidtab_saved_put(entry: *const Entry, bytes: *mut c_void, room: usize, size: *mut usize, sum: *mut u64) -> u32;
    fn pidtab_saved_take_head(bytes: *const c_void, length: usize, head: *mut SavedHead, size: *mut usize,
        sum: *mut u64) -> u32;
    fn pidtab_saved_take(bytes: *const c_void, length: usize, entry: *mut Entry, size: *mut usize,
        sum: *mut u64) -> u32;
    fn pidtab_saved_next(bytes: *const c_void, length: usize, is_end: bool, entry: *mut Entry, size: *mut usize,
        sum: *mut u64, left_out: *mut u64) -> u32;
}
// The end of functions.

// What the head of the header asks of a caller, and why each function below may be called:
//
// - A struct begins as zeroes, and stays on the heap until it is dropped. It has one owner.
// - Each pointer is a reference's or a slice's, which is lent to the call alone: no function keeps one. None is null,
//   not even to 0 bytes, and the compiler lets no two of them overlap.
// - The library takes its memory from malloc, which any thread may free.
// - No function here is called from a signal handler, as that would be unsafe code of the caller's.

/// Panics where the library has another interface.
fn compare_versions() {
    // SAFETY: the function takes nothing.
    let version = unsafe { pidtab_version() };
    assert_eq!(version, VERSION, "the library's interface");
}

/// The value, where the status is `DONE`; else the status.
pub(crate) fn done<T>(status: u32, value: T) -> Result<T, u32> {
    if status == DONE {
        Ok(value)
    } else {
        Err(status)
    }
}

/// An open table.
pub(crate) struct Table {
    held: Box<UnsafeCell<Held>>,
}

// SAFETY: the table's memory is reached by this owner alone, the library has no state beside it, and it comes from malloc, which any
// thread may free. That the handle may go to another thread is proved: crates/foreign_handles/proofs/handle/Handle/TheSendSync.
unsafe impl Send for Table {}

// SAFETY: each function marks the table before it looks at it, and is BUSY where a mark of another thread is there that keeps it out: guard.c. Queries
// alone overlap. Each works on a copy of the handle, and proved code has the table there by a `&`. That such functions may overlap is not proved, and
// tested: docs/PROVED.md.
unsafe impl Sync for Table {}

// What panics is this crate alone, and no function of the library is under way then.
impl RefUnwindSafe for Table {}

impl Table {
    /// A struct of zeroes, which is no open table yet.
    fn none() -> Table {
        compare_versions();
        // SAFETY: each field may be zero.
        let held = unsafe { zeroed::<Held>() };
        Table {
            held: Box::new(UnsafeCell::new(held)),
        }
    }

    pub(crate) fn open_with(settings: &Settings) -> Result<Table, u32> {
        let table = Table::none();
        // SAFETY: the first pointer is to a struct of zeroes that is this call's alone, and the other one that of a reference.
        let status = unsafe { pidtab_open_with(table.held.get(), settings) };
        done(status, table)
    }

    /// There is a count for each worker of the settings.
    pub(crate) fn load_with(
        text: &[u8],
        settings: &Settings,
        counts: &[u64],
        fault: &mut Fault,
    ) -> Result<Table, u32> {
        assert_eq!(counts.len(), settings.workers as usize, "the counts");
        let table = Table::none();
        // SAFETY: as above; `counts` has as many as the function reads.
        let status = unsafe {
            pidtab_load_with(
                table.held.get(),
                text.as_ptr().cast(),
                text.len(),
                settings,
                counts.as_ptr(),
                fault,
            )
        };
        done(status, table)
    }
}

#[allow(clippy::too_many_arguments)] // As the functions have them.
impl Table {
    // Written by tools/interface: methods of a table.
    lent! {
        fn list(&self, bytes: &mut [u8], size: &mut usize) =
            pidtab_list(self.held.get(), bytes.as_mut_ptr().cast(), bytes.len(), size);
        fn dump(&self, bytes: &mut [u8], size: &mut usize) =
            pidtab_dump(self.held.get(), bytes.as_mut_ptr().cast(), bytes.len(), size);
        fn call(&self, call: &Call, reply: &mut Reply) = pidtab_call(self.held.get(), call, reply);
        fn ask(&self, call: &Call, reply: &mut Reply) = pidtab_ask(self.held.get(), call, reply);
        fn stat(&self, caller: u32, number: u32, task: &mut Task) = pidtab_stat(self.held.get(), caller, number, task);
        fn page(&self, caller: u32, whom: u32, number: u32, from: u32, numbers: &mut [u32], reply: &mut Reply) =
            pidtab_page(self.held.get(), caller, whom, number, from, numbers.as_mut_ptr(), numbers.len(), reply);
        fn space(&self, id: u64, space: &mut Space) = pidtab_space(self.held.get(), id, space);
        fn inside(&self, tree: u32, id: u64, from: u64, ids: &mut [u64], count: &mut u64) =
            pidtab_inside(self.held.get(), tree, id, from, ids.as_mut_ptr(), ids.len(), count);
        fn control_tasks(&self, caller: u32, control: u64, from: u32, numbers: &mut [u32], reply: &mut Reply) =
            pidtab_control_tasks(self.held.get(), caller, control, from, numbers.as_mut_ptr(), numbers.len(), reply);
        fn would(&self, call: &Call, reply: &mut Reply) = pidtab_would(self.held.get(), call, reply);
        fn call_by(&self, worker: u32, call: &Call, reply: &mut Reply, ordinal: &mut u64) =
            pidtab_call_by(self.held.get(), worker, call, reply, ordinal);
        fn calls(&self, worker: u32, calls: &[Call], replies: &mut [Reply], made: &mut usize, ordinal: &mut u64) =
            pidtab_calls(self.held.get(), worker, calls.as_ptr(), calls.len(), replies.as_mut_ptr(), replies.len(),
                made, ordinal);
        fn line_by(&self, worker: u32, line: &[u8], answer: &mut [u8], size: &mut usize, ordinal: &mut u64) =
            pidtab_line_by(self.held.get(), worker, line.as_ptr().cast(), line.len(), answer.as_mut_ptr().cast(),
                answer.len(), size, ordinal);
        fn fork_at_by(&self, worker: u32, caller: u32, new_space: u32, child: u32, root: u32, reply: &mut Reply,
            ordinal: &mut u64) =
            pidtab_fork_at_by(self.held.get(), worker, caller, new_space, child, root, reply, ordinal);
        fn call_told_by(&self, worker: u32, call: &Call, reply: &mut Reply, ordinal: &mut u64, effects: &mut [Effect],
            count: &mut u64) =
            pidtab_call_told_by(self.held.get(), worker, call, reply, ordinal, effects.as_mut_ptr(), effects.len(),
                count);
        fn seat(&self, worker: &mut u32) = pidtab_seat(self.held.get(), worker);
        fn counts(&self, first_kept: &mut u64, recorded: &mut u64) =
            pidtab_counts(self.held.get(), first_kept, recorded);
        fn worker(&self, worker: u32, calls: &mut u64) = pidtab_worker(self.held.get(), worker, calls);
        fn entry(&self, ordinal: u64, worker: &mut u64, call: &mut Call, reply: &mut Reply) =
            pidtab_entry(self.held.get(), ordinal, worker, call, reply);
        fn read(&self, from: u64, entries: &mut [Entry], count: &mut usize) =
            pidtab_read(self.held.get(), from, entries.as_mut_ptr(), entries.len(), count);
        fn replay(&self, saved: &[Entry], place: &mut usize) =
            pidtab_replay(self.held.get(), saved.as_ptr(), saved.len(), place);
        fn keep(&self, keep: u64) = pidtab_keep(self.held.get(), keep);
        fn checkpoint(&self) = pidtab_checkpoint(self.held.get());
        fn checkpoint_at(&self, seen: u64) = pidtab_checkpoint_at(self.held.get(), seen);
        fn opening(&self, bytes: &mut [u8], size: &mut usize) =
            pidtab_opening(self.held.get(), bytes.as_mut_ptr().cast(), bytes.len(), size);
    }
    // The end of methods of a table.
}

// Written by tools/interface: other functions.
lent! {
    fn call_line(call: &Call, line: &mut [u8], size: &mut usize) =
        pidtab_call_line(call, line.as_mut_ptr().cast(), line.len(), size);
    fn reply_line(reply: &Reply, answer: &mut [u8], size: &mut usize) =
        pidtab_reply_line(reply, answer.as_mut_ptr().cast(), answer.len(), size);
    fn saved_put_head(head: &SavedHead, bytes: &mut [u8], size: &mut usize, sum: &mut u64) =
        pidtab_saved_put_head(head, bytes.as_mut_ptr().cast(), bytes.len(), size, sum);
    fn saved_put(entry: &Entry, bytes: &mut [u8], size: &mut usize, sum: &mut u64) =
        pidtab_saved_put(entry, bytes.as_mut_ptr().cast(), bytes.len(), size, sum);
    fn saved_take_head(bytes: &[u8], head: &mut SavedHead, size: &mut usize, sum: &mut u64) =
        pidtab_saved_take_head(bytes.as_ptr().cast(), bytes.len(), head, size, sum);
    fn saved_take(bytes: &[u8], entry: &mut Entry, size: &mut usize, sum: &mut u64) =
        pidtab_saved_take(bytes.as_ptr().cast(), bytes.len(), entry, size, sum);
    fn saved_next(bytes: &[u8], is_end: bool, entry: &mut Entry, size: &mut usize, sum: &mut u64,
        left_out: &mut u64) =
        pidtab_saved_next(bytes.as_ptr().cast(), bytes.len(), is_end, entry, size, sum, left_out);
}
// The end of other functions.

#[cfg(test)]
impl Table {
    /// As in a forked child, where the thread whose call was under way is not.
    pub(crate) fn mark(&self, in_call: bool) {
        let mark = if in_call { u8::MAX } else { 0 };
        // SAFETY: the mark is changed as guard.c changes it.
        let in_use = unsafe { AtomicU8::from_ptr(ptr::addr_of_mut!((*self.held.get()).in_use)) };
        in_use.store(mark, Ordering::Relaxed);
    }
}

impl Drop for Table {
    fn drop(&mut self) {
        // SAFETY: the table is lent to this call alone; one that is not open stays so. No other thread is in it, so it is closed.
        unsafe { pidtab_close(self.held.get()) };
    }
}

/// Writes the head of a saved history: how many bytes it has. It begins the running checksum.
pub(crate) fn put_head(head: &SavedHead, bytes: &mut [u8], sum: &mut u64) -> Result<usize, u32> {
    let mut size = 0;
    done(saved_put_head(head, bytes, &mut size, sum), size)
}

/// Writes an entry of a saved history: how many bytes it has.
pub(crate) fn put_entry(entry: &Entry, bytes: &mut [u8], sum: &mut u64) -> Result<usize, u32> {
    let mut size = 0;
    done(saved_put(entry, bytes, &mut size, sum), size)
}

/// Reads the head of a saved history from the front of the bytes, with the place for its size.
pub(crate) fn take_head(bytes: &[u8], size: &mut usize, sum: &mut u64) -> Result<SavedHead, u32> {
    let mut head = SavedHead::BLANK;
    done(saved_take_head(bytes, &mut head, size, sum), head)
}

/// Reads an entry of a saved history from the front of the bytes, with the place for its size, or for that of its first wrong block.
pub(crate) fn take_entry(bytes: &[u8], size: &mut usize, sum: &mut u64) -> Result<Entry, u32> {
    let mut entry = Entry::BLANK;
    done(saved_take(bytes, &mut entry, size, sum), entry)
}

/// Reads on after the last whole entry of a saved history. Where it is done, a size of 0 is the end, where so many bytes are left out.
pub(crate) fn next_entry(
    bytes: &[u8],
    is_end: bool,
    size: &mut usize,
    sum: &mut u64,
    left_out: &mut u64,
) -> Result<Entry, u32> {
    let mut entry = Entry::BLANK;
    let status = saved_next(bytes, is_end, &mut entry, size, sum, left_out);
    done(status, entry)
}
