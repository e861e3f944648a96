//! Which argument is outside its range.
use crate::raw;
use std::fmt;

/// An argument that is outside its range.
///
/// ```
/// use pidtab::{Error, Table};
///
/// let fault = Table::open(300).unwrap_err();
/// assert_eq!(fault.to_string(), "pid_max is 300, and not 301 to 4194304");
/// assert!(matches!(fault, Error::Argument(it) if it.name == "pid_max" && it.least == 301));
/// ```
#[derive(Clone, Copy, Debug, PartialEq, Eq, Hash)]
#[non_exhaustive]
pub struct Argument {
    /// What it is called, as `pid_max`.
    pub name: &'static str,
    /// As it was given.
    pub value: u64,
    /// The least that it may be.
    pub least: u64,
    /// The greatest that it may be.
    pub most: u64,
    /// What is said in place of these; nothing of most.
    why: &'static str,
}

impl Argument {
    /// The argument, if it is outside.
    pub(crate) fn outside(
        name: &'static str,
        value: impl Into<u64>,
        least: impl Into<u64>,
        most: impl Into<u64>,
    ) -> Option<Argument> {
        let found = Argument {
            name,
            value: value.into(),
            least: least.into(),
            most: most.into(),
            why: "",
        };
        (found.value < found.least || found.value > found.most).then_some(found)
    }

    /// `pid_max`, if no table has it.
    pub(crate) fn pid_max(pid_max: u32) -> Option<Argument> {
        Argument::outside(
            "pid_max",
            pid_max,
            raw::LEAST_PID_MAX,
            raw::GREATEST_PID_MAX,
        )
    }

    /// The number of workers, if no table has so many.
    pub(crate) fn workers(workers: u32) -> Option<Argument> {
        Argument::outside("workers", workers, 1u32, raw::MOST_WORKERS)
    }

    /// So many workers of a table without a history.
    pub(crate) fn workers_of_no_history(workers: u32) -> Argument {
        Argument {
            name: "workers",
            value: workers.into(),
            least: 1,
            most: 1,
            why: "workers count the calls of a history: open it with keep",
        }
    }

    /// The sum of the counts of calls that are given beside a text with the stamp.
    pub(crate) fn counts(counts: &[u64], stamp: u64) -> Argument {
        Argument {
            name: "the sum of counts",
            value: counts.iter().fold(0, |sum, it| sum.saturating_add(*it)),
            least: 0,
            most: stamp - 1,
            why: "",
        }
    }

    /// What of the settings no table has.
    pub(crate) fn settings(head: &raw::SavedHead) -> Option<Argument> {
        Argument::pid_max(head.pid_max)
            .or_else(|| Argument::workers(head.workers))
            .or_else(|| Argument::outside("first_stamp", head.first_stamp, 1u32, u64::MAX))
    }
}

impl fmt::Display for Argument {
    fn fmt(&self, to: &mut fmt::Formatter<'_>) -> fmt::Result {
        let Argument {
            name,
            value,
            least,
            most,
            why,
        } = self;
        if why.is_empty() {
            return write!(to, "{name} is {value}, and not {least} to {most}");
        }
        to.write_str(why)
    }
}
