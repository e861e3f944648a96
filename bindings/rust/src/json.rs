//! JSON, as docs/list.schema.json has it: its parts, replies, and what is read of tasks and namespaces. `listing.rs` has lists.
use crate::{Child, Ended, Error, Reaped, Refusal, Reply, SpaceStat, Stat};
use std::fmt;

/// The items of an array.
pub(crate) fn array<T>(items: &[T], object: fn(&T) -> String) -> String {
    let objects: Vec<_> = items.iter().map(object).collect();
    format!("[{}]", objects.join(","))
}

/// A number, or the word for none.
pub(crate) fn or_null<T: fmt::Display>(number: Option<T>) -> String {
    number.map_or_else(|| "null".into(), |it| it.to_string())
}

/// A string.
pub(crate) fn quote(text: &str) -> String {
    let escape = |it| match it {
        '"' | '\\' => format!("\\{it}"),
        '\0'..='\x1f' => format!("\\u{:04x}", it as u32),
        _ => it.to_string(),
    };
    format!("\"{}\"", text.chars().map(escape).collect::<String>())
}

/// The word for how a task stands, and the status of one that exited.
pub(crate) fn state(ended: Option<Ended>) -> (&'static str, Option<u8>) {
    match ended {
        None => ("live", None),
        Some(Ended::Killed) => ("killed", None),
        Some(Ended::Exited(status)) => ("exited", Some(status)),
    }
}

// Written by tools/interface: errnos.
/// The name of an errno that a refusal may have.
pub(crate) fn errno_name(errno: i32) -> &'static str {
    match errno {
        3 => "ESRCH",
        10 => "ECHILD",
        11 => "EAGAIN",
        12 => "ENOMEM",
        28 => "ENOSPC",
        1 => "EPERM",
        13 => "EACCES",
        16 => "EBUSY",
        2 => "ENOENT",
        22 => "EINVAL",
        _ => unreachable!("no refusal has the errno {errno}"),
    }
}
// The end of errnos.

fn refusal_object(errno: i32, refusal: Refusal) -> String {
    let id = match refusal {
        Refusal::NoNumber(id) | Refusal::PidsLimit(id) => Some(id),
        _ => None,
    };
    format!(
        r#"{{"error":"{}","word":"{}","id":{}}}"#,
        errno_name(errno),
        refusal.name(),
        or_null(id)
    )
}

impl Child {
    /// The child as JSON, as docs/list.schema.json has it.
    pub fn to_json(&self) -> String {
        format!(r#"{{"child":{},"root":{}}}"#, self.number, self.root)
    }
}

impl Reaped {
    /// The child as JSON, as docs/list.schema.json has it, with `null` for the status of a killed one.
    pub fn to_json(&self) -> String {
        let (_, status) = state(Some(self.ended));
        format!(r#"{{"child":{},"status":{}}}"#, self.child, or_null(status))
    }
}

impl Stat {
    /// The task as JSON, as docs/list.schema.json has it.
    pub fn to_json(&self) -> String {
        let (state, status) = state(self.ended());
        format!(
            r#"{{"numbers":{},"root":{},"parent":{},"group":{},"session":{},"space":{},"control":{},"state":"{state}","status":{},"executed":{},"subreaper":{}}}"#,
            array(self.numbers(), u32::to_string),
            self.root(),
            self.parent(),
            self.group(),
            self.session(),
            self.space(),
            self.control(),
            or_null(status),
            self.executed(),
            self.subreaper(),
        )
    }
}

impl SpaceStat {
    /// The namespace as JSON, as docs/list.schema.json has it.
    pub fn to_json(&self) -> String {
        format!(
            r#"{{"id":{},"parent":{},"level":{},"init":{},"fallen":{}}}"#,
            self.id,
            or_null(self.parent),
            self.level,
            or_null(self.init),
            self.fallen,
        )
    }
}

impl Reply {
    /// What the reply tells as JSON, as docs/list.schema.json has it: an object, a number, numbers, or `null` for nothing.
    pub fn to_json(&self) -> String {
        match self {
            Reply::Forked(child) => child.to_json(),
            Reply::Number(number) => number.to_string(),
            Reply::Levels(numbers) => array(numbers, u32::to_string),
            Reply::Reaped(reaped) => reaped.to_json(),
            Reply::Counted(number) | Reply::Control(number) => number.to_string(),
            Reply::Refused { errno, refusal } => refusal_object(*errno, *refusal),
            Reply::Done | Reply::NoneYet | Reply::End => "null".into(),
        }
    }
}

impl Error {
    /// A refusal as JSON, as docs/list.schema.json has it; none for an error that is no refusal.
    pub fn to_json(&self) -> Option<String> {
        match self {
            Error::Refused { errno, refusal, .. } => Some(refusal_object(*errno, *refusal)),
            _ => None,
        }
    }
}
