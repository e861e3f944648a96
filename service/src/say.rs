//! Replies of the table as answers of RESP2.
use crate::commands::{Command, COMMANDS};
use crate::engine::Refused;
use crate::resp::Answer;
use pidtab::{Effect, Ended, Error, Reply, SpaceStat, Stat, Told};

/// The names of the errors that the table gives, by `errno(3)`.
const ERRORS: [(i32, &str); 10] = [
    (1, "EPERM"),
    (2, "ENOENT"),
    (3, "ESRCH"),
    (10, "ECHILD"),
    (11, "EAGAIN"),
    (12, "ENOMEM"),
    (13, "EACCES"),
    (16, "EBUSY"),
    (22, "EINVAL"),
    (28, "ENOSPC"),
];

pub fn error(out: &mut Vec<u8>, error: &Error) {
    match error {
        Error::Refused { errno, refusal, .. } => {
            let name = ERRORS.iter().find(|it| it.0 == *errno).map_or("ERR", |it| it.1);
            out.line(&format!("-{name} {refusal}"));
        }
        Error::NoMemory => out.line("-OOM no-memory"),
        Error::Spent => out.line("-ERR spent"),
        other => out.line(&format!("-ERR {other}")),
    }
}

pub fn refused(out: &mut Vec<u8>, why: &Refused) {
    match why {
        Refused::TooManyControls => out.line("-OOM too-many-controls"),
        Refused::Table(it) => error(out, it),
    }
}

pub fn reply(out: &mut Vec<u8>, reply: &Reply) {
    match reply {
        Reply::Done => out.ok(),
        Reply::Number(number) => out.number(u64::from(*number)),
        Reply::Counted(number) | Reply::Control(number) => out.number(*number),
        Reply::Forked(child) => numbers(out, &[child.number, child.root]),
        Reply::Levels(levels) => numbers(out, levels),
        Reply::Reaped(it) => {
            out.array(2);
            out.number(u64::from(it.child));
            ended(out, it.ended);
        }
        Reply::NoneYet => out.line("*-1"),
        Reply::End => out.line("$-1"),
        Reply::Refused { errno, refusal } => {
            let (errno, refusal) = (*errno, *refusal);
            error(out, &Error::Refused { errno, refusal, call: None });
        }
        other => out.line(&format!("-ERR unknown reply {other:?}")),
    }
}

fn ended(out: &mut Vec<u8>, ended: Ended) {
    match ended {
        Ended::Exited(status) => out.number(u64::from(status)),
        Ended::Killed => out.line("+killed"),
    }
}

fn numbers(out: &mut Vec<u8>, numbers: &[u32]) {
    out.array(numbers.len());
    numbers.iter().for_each(|it| out.number(u64::from(*it)));
}

/// Names and values, by turns.
pub fn stat(out: &mut Vec<u8>, task: &Stat) {
    let fields = [
        ("root", u64::from(task.root())),
        ("parent", u64::from(task.parent())),
        ("group", u64::from(task.group())),
        ("session", u64::from(task.session())),
        ("space", task.space()),
        ("control", task.control()),
        ("executed", u64::from(task.executed())),
        ("subreaper", u64::from(task.subreaper())),
    ];
    out.array(2 * fields.len() + 4);
    out.bulk(b"numbers");
    numbers(out, task.numbers());
    out.bulk(b"state");
    match task.ended() {
        None => out.bulk(b"live"),
        Some(Ended::Killed) => out.bulk(b"killed"),
        Some(Ended::Exited(status)) => out.number(u64::from(status)),
    }
    for (name, value) in fields {
        out.bulk(name.as_bytes());
        out.number(value);
    }
}

/// How many there are, and as many of them as there is room for.
pub fn page(out: &mut Vec<u8>, numbers: &[u64], room: usize) {
    let told = &numbers[..numbers.len().min(room)];
    out.array(2);
    out.number(numbers.len() as u64);
    out.array(told.len());
    told.iter().for_each(|it| out.number(*it));
}

/// Names and values, by turns. The root namespace is in none, and of an init that was reaped there is no number.
pub fn space(out: &mut Vec<u8>, space: &SpaceStat) {
    let fields = [
        ("id", Some(space.id)),
        ("parent", space.parent),
        ("level", Some(u64::from(space.level))),
        ("init", space.init.map(u64::from)),
        ("fallen", Some(u64::from(space.fallen))),
    ];
    out.array(2 * fields.len());
    for (name, value) in fields {
        out.bulk(name.as_bytes());
        match value {
            Some(value) => out.number(value),
            None => out.line("$-1"),
        }
    }
}

/// The reply, and an array of what the call did.
pub fn told(out: &mut Vec<u8>, told: &Told) {
    out.array(2);
    reply(out, &told.reply);
    out.array(told.effects.len());
    told.effects.iter().for_each(|it| effect(out, it));
}

fn effect(out: &mut Vec<u8>, effect: &Effect) {
    let (what, number) = match *effect {
        Effect::Ended { number, .. } => ("ended", u64::from(number)),
        Effect::Adopted { number, .. } => ("adopted", u64::from(number)),
        Effect::Gone { number } => ("gone", u64::from(number)),
        Effect::GroupGone { number } => ("group-gone", u64::from(number)),
        Effect::SessionGone { number } => ("session-gone", u64::from(number)),
        Effect::SpaceFell { id } => ("space-fell", id),
        Effect::SpaceGone { id } => ("space-gone", id),
        _ => ("unknown", 0),
    };
    let has_more = matches!(effect, Effect::Ended { .. } | Effect::Adopted { .. });
    out.array(2 + usize::from(has_more));
    out.bulk(what.as_bytes());
    out.number(number);
    match *effect {
        Effect::Ended { ended: it, .. } => ended(out, it),
        Effect::Adopted { parent, .. } => out.number(u64::from(parent)),
        _ => {}
    }
}

pub fn syntax(out: &mut Vec<u8>, command: &Command) {
    out.line(&format!("-ERR syntax: {}", command.syntax()));
}

/// The name of what is no command, as far as it can be shown.
pub fn unknown(out: &mut Vec<u8>, word: &[u8]) {
    let shown = |it: &u8| if it.is_ascii_graphic() && *it != b'\'' { *it as char } else { '?' };
    let name: String = word.iter().take(32).map(shown).collect();
    out.line(&format!("-ERR unknown command '{name}'"));
}

/// A line of HELP, and of the tables of the pages.
pub fn help_line(command: &Command) -> String {
    format!("{} - {}", command.syntax(), command.summary)
}

pub fn help(out: &mut Vec<u8>) {
    out.array(COMMANDS.len());
    COMMANDS.iter().for_each(|it| out.bulk(help_line(it).as_bytes()));
}

/// As COMMAND of Redis: the name, how many words (less than 0: at least), flags, and no keys.
pub fn command(out: &mut Vec<u8>, command: Option<&Command>) {
    let Some(command) = command else { return out.line("*-1") };
    let (least, most) = command.counts();
    out.array(6);
    out.bulk(command.name.as_bytes());
    out.line(&format!(":{}{least}", if least == most { "" } else { "-" }));
    out.array(1);
    out.line(if command.asks() { "+readonly" } else { "+write" });
    (0..3).for_each(|_| out.number(0));
}

pub fn command_docs(out: &mut Vec<u8>) {
    out.array(2 * COMMANDS.len());
    for command in COMMANDS {
        out.bulk(command.name.as_bytes());
        out.array(4);
        out.bulk(b"summary");
        out.bulk(command.summary.as_bytes());
        out.bulk(b"group");
        out.bulk(if command.is_call() { b"call" } else { b"service" });
    }
}
