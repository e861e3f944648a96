//! Linux process identifiers as one table, in this process: safe Rust over the library that `make lib` builds.
//!
//! A [`Table`] begins with one task, the root init, which is number 1. A caller is always named by its root number, as
//! [`Child::root`]; every other process number is the caller's own. A refusal has the errno that the kernel would give:
//!
//! ```
//! use pidtab::{Refusal, Table};
//!
//! let table = Table::open(32768)?;
//! let child = table.fork_new(1)?;
//! assert_eq!((child.number, child.root), (2, 2));
//! assert_eq!(table.getpid(child.root)?, 1);
//! let fault = table.getpid(99).unwrap_err();
//! assert_eq!((fault.refusal(), fault.raw_os_error()), (Some(Refusal::NoCaller), Some(3)));
//! assert_eq!(fault.to_string(), "getpid 99: no-caller (errno 3)");
//! # Ok::<(), pidtab::Error>(())
//! ```
//!
//! Settings say whether a table keeps its history, and whether many threads use it: [`Table::options`]. [`Table::save`] writes a history, and
//! [`Options::load`] reads it.
//!
//! The library's functions are proved to be the steps of a model. This crate is not proved; it keeps the rules at the head of
//! `pidtab.h`, which the library leaves to its callers.
#![deny(missing_docs, unsafe_code, unsafe_op_in_unsafe_fn)]

mod argument;
mod blocks;
mod calls;
#[cfg(test)]
mod cases;
#[cfg(unix)]
mod connected;
mod effects;
mod fault;
mod history;
mod json;
mod labels;
mod listing;
mod numbers;
mod options;
mod page;
mod questions;
mod raw;
mod saved;
mod seat;
mod space;
mod stat;
mod table;
pub mod testing;
mod texts;
mod threads;

pub use argument::Argument;
pub use blocks::{Blocks, Head, Made, Note, Replayed};
pub use calls::{Call, Kind, Reply, Which};
#[cfg(unix)]
pub use connected::Connected;
pub use effects::{Effect, Told};
pub use fault::{Error, LineError, Refusal, ReplayError, TextError, TextFault};
pub use history::{Counts, Entry};
pub use listing::{BadList, Control, Listing, Space, Task};
pub use options::{Keep, Options};
pub use saved::{Saved, SavedError, SavedFault};
pub use seat::Seat;
pub use space::SpaceStat;
pub use stat::Stat;
pub use table::Table;
pub use threads::Guard;

/// The numbers of a new task.
#[derive(Clone, Copy, Debug, PartialEq, Eq, Hash)]
pub struct Child {
    /// Its number in the caller's namespace.
    pub number: u32,
    /// Its number in the root namespace, by which it is named as a caller.
    pub root: u32,
}

/// How a task ended.
#[derive(Clone, Copy, Debug, PartialEq, Eq, Hash)]
pub enum Ended {
    /// By an exit with the status.
    Exited(u8),
    /// By the fall of its namespace.
    Killed,
}

/// An ended child that a wait has taken away.
#[derive(Clone, Copy, Debug, PartialEq, Eq, Hash)]
pub struct Reaped {
    /// Its number in the caller's namespace.
    pub child: u32,
    /// How it ended.
    pub ended: Ended,
}

/// More may come of each of these, so a match has an arm for the others:
///
/// ```compile_fail,E0004
/// use pidtab::Error::*;
/// fn all(it: pidtab::Error) {
///     match it {
///         Refused { .. } | NoMemory | Spent | Argument(_) | NoQuery | NoSeat | OutOfRange | Busy | NotKept | Again | NoHistory |
///         NoThreads | Differs | Unsaved | Ended | BadLabel | NotServed | Disconnected => {}
///     }
/// }
/// ```
///
/// ```compile_fail,E0004
/// use pidtab::LineError::*;
/// fn all(it: pidtab::LineError) { match it { Empty | Bad | NoMemory | Spent | Busy | Unsaved => {} } }
/// ```
///
/// ```compile_fail,E0004
/// use pidtab::SavedFault::*;
/// fn all(it: pidtab::SavedFault) {
///     match it { Io(_) | Torn | NotSaved | OtherVersion | WrongByte | Settings | OtherTable | Ended | Table(_) => {} }
/// }
/// ```
///
/// ```compile_fail,E0004
/// use pidtab::TextError::*;
/// fn all(it: pidtab::TextError) { match it { Bad { .. } | Argument(_) | OutOfRange | NoMemory => {} } }
/// ```
///
/// ```compile_fail,E0004
/// use pidtab::TextFault::*;
/// fn all(it: pidtab::TextFault) {
///     match it {
// Written by tools/interface: faults.
///         BadLine | WrongDigest | BadSettings | OutOfOrder | UnknownParent | UnknownNamespace | UnknownControl |
///         BadName | TakenNumber | NoInit | NoNumber | Impossible => {}
// The end of faults.
///     }
/// }
/// ```
///
/// ```compile_fail,E0004
/// use pidtab::Which::*;
/// fn all(it: pidtab::Which) { match it { Any | Pid(_) | OwnGroup | Group(_) => {} } }
/// ```
///
/// ```compile_fail,E0004
/// use pidtab::Kind::*;
/// fn all(it: pidtab::Kind) { match it { Task | Group | Session => {} } }
/// ```
///
/// ```compile_fail,E0004
/// use pidtab::Reply::*;
/// fn all(it: pidtab::Reply) {
///     match it {
///         Forked(_) | Done | Number(_) | Levels(_) | Reaped(_) | NoneYet | Counted(_) | Control(_) | End | Refused { .. } => {}
///     }
/// }
/// ```
///
/// ```compile_fail,E0004
/// use pidtab::Effect::*;
/// fn all(it: pidtab::Effect) {
///     match it {
///         Ended { .. } | Adopted { .. } | Gone { .. } | GroupGone { .. } | SessionGone { .. } | SpaceFell { .. } | SpaceGone { .. } => {}
///     }
/// }
/// ```
///
/// ```compile_fail,E0004
/// use pidtab::Call::*;
/// fn all(it: pidtab::Call) {
///     match it {
// Written by tools/interface: calls.
///         Fork { .. } | Getpid { .. } | Nspid { .. } | Exec { .. } | Exit { .. } | Wait { .. } | Getppid { .. } | Setpgid { .. } | Setsid
///         { .. } | Mk { .. } | Rm { .. } | Limit { .. } | Move { .. } | Count { .. } | Getpgid { .. } | Getsid { .. } | Next { .. } | Join
///         { .. } | Subreaper { .. }
///         => {}
// The end of calls.
///     }
/// }
/// ```
///
/// ```compile_fail,E0004
/// use pidtab::Refusal::*;
/// fn all(it: pidtab::Refusal) {
///     match it {
// Written by tools/interface: refusals.
///         NoCaller | NoTask | NoChild | NoNumber(_) | PidsLimit(_) | SpaceFallen | TooDeep | Elsewhere | BadGroup |
///         OtherSession | IsLeader | NoGroup | Executed | RootInit | NoControl | ControlBusy | RootControl | BadLimit |
///         ControlDepth => {}
// The end of refusals.
///     }
/// }
/// ```
#[cfg(doctest)]
struct MoreMayCome;
