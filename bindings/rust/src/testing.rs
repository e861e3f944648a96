//! A test kit: a process table of yours is asked the same calls as one of pidtab, until an answer differs.
//!
//! A case is bytes, so proptest finds a difference and shortens it, and so does a fuzzer:
//!
//! ```text
//! proptest! {
//!     #[test]
//!     fn mine_is_as_linux(data in vec(any::<u8>(), 0..160)) {
//!         let mut mine = Mine::new();
//!         prop_assert_eq!(compare(&data, &mut |line| mine.answer(line), &["fork", "exit", "getppid"]), None);
//!     }
//! }
//! ```
use crate::{LineError, Listing, Table, Task};
use std::fmt;

/// The calls of docs/SCRIPT.md. C is a caller and T a task, P and G are process numbers, I is the id of a control group, S a status, N a limit.
// Written by tools/interface: forms.
const FORMS: [&str; 27] = [
    "fork C",
    "fork C new",
    "exec C",
    "exit C S",
    "wait C any",
    "wait C pid P",
    "wait C own",
    "wait C group P",
    "setpgid C G G",
    "setsid C",
    "getpid C",
    "getppid C",
    "getpgid C P",
    "getsid C P",
    "nspid C P",
    "next C task P",
    "next C group P",
    "next C session P",
    "join C P",
    "subreaper C on",
    "subreaper C off",
    "mk I",
    "rm I",
    "limit I N",
    "limit I max",
    "move T I",
    "count I",
];
// The end of forms.
const KINDS: [&str; 7] = ["C", "T", "P", "G", "I", "S", "N"];

/// A call takes so many bytes: one for its form, and three for the numbers that it may have.
const STEP: usize = 4;

/// A pick counts the tasks from the newest back; the last ones become an odd number.
const MOST_PICK: u8 = 31;
const ODD_FROM: usize = 28;

/// Numbers that are nobody's, or at an edge.
const ODD: [i64; 6] = [0, 1, 2, 300, 0x7fff_ffff, 0xffff_ffff];
const STATUSES: [i64; 4] = [0, 1, 7, 255];
const LIMITS: [i64; 4] = [0, 1, 2, 4];
const PID_MAX: u32 = 32768;

/// The first answer of a case that differs.
#[derive(Clone, Debug, PartialEq, Eq)]
#[non_exhaustive]
pub struct Different {
    /// The lines up to the one that shows it.
    pub script: Vec<String>,
    /// Your answer to the last line.
    pub yours: String,
    /// That of pidtab.
    pub pidtab: String,
}

impl fmt::Display for Different {
    fn fmt(&self, to: &mut fmt::Formatter<'_>) -> fmt::Result {
        let last = self.script.last().map_or("", String::as_str);
        writeln!(
            to,
            "{last}\n  yours  {}\n  pidtab {}\nthe script:",
            self.yours, self.pidtab
        )?;
        write!(to, "  {}", self.script.join("\n  "))
    }
}

impl std::error::Error for Different {}

/// Asks a new table and yours the calls that the bytes mean: the first answer that differs, or none.
///
/// Yours answers a line of docs/SCRIPT.md as `pidtab run` does; a refusal may be the errno's name alone, and a child its number alone. The calls are
/// those that are named, each by its form, as "fork", "fork new" or "wait pid", or all of "wait"; all where none is. They are aimed at the tasks and
/// control groups that are there. It costs a list of the table for each call.
///
/// # Panics
///
/// Where the names are those of no call, and where there is no memory for the table.
pub fn compare(
    data: &[u8],
    yours: &mut dyn FnMut(&str) -> String,
    names: &[&str],
) -> Option<Different> {
    let forms = select(names);
    assert!(!forms.is_empty(), "no call has one of these names");
    let table = Table::open(PID_MAX).expect("a table");
    let mut script = Vec::new();
    for step in data.chunks_exact(STEP) {
        let listing = table.listing().expect("a list");
        let form = forms[usize::from(step[0]) % forms.len()];
        let line = Aim::new(&listing).line(form, &step[1..]);
        script.push(line.clone());
        let answer = answer_of(table.line(&line));
        let told = yours(&line);
        if !agree(&told, &answer) {
            return Some(Different {
                script,
                yours: told,
                pidtab: answer,
            });
        }
    }
    None
}

/// The answer to a line; none of these lines is bad.
fn answer_of(answered: Result<String, LineError>) -> String {
    answered.expect("an answer")
}

/// Whether two answers are the same, where yours may leave out the end of a refusal, and the root number of a child.
fn agree(yours: &str, answer: &str) -> bool {
    let is_part = answer.starts_with('E') || answer.starts_with("child ");
    let rest = answer.strip_prefix(yours);
    yours == answer || (is_part && yours != "child" && rest.is_some_and(|it| it.starts_with(' ')))
}

/// The name of a form: its words without the letters.
fn name_of(form: &str) -> String {
    let words: Vec<_> = form.split(' ').filter(|it| !KINDS.contains(it)).collect();
    words.join(" ")
}

/// The forms that are named; all where no name is given.
fn select(names: &[&str]) -> Vec<&'static str> {
    if names.is_empty() {
        return FORMS.to_vec();
    }
    names.iter().flat_map(|name| forms_of(name)).collect()
}

/// The form with the name, or all of the command.
fn forms_of(name: &str) -> Vec<&'static str> {
    let is_exact = |form: &&str| name_of(form) == name;
    match FORMS.into_iter().find(is_exact) {
        Some(form) => vec![form],
        None => FORMS
            .into_iter()
            .filter(|form| form.split(' ').next() == Some(name))
            .collect(),
    }
}

/// The number that a pick means, of those that are there, or an odd one.
fn picked(pool: &[i64], pick: usize) -> i64 {
    if pick >= ODD_FROM || pool.is_empty() {
        return ODD[pick % ODD.len()];
    }
    pool[pick % pool.len()]
}

/// The numbers, the newest first: so a pick means the same where earlier calls are left out.
fn newest(numbers: impl Iterator<Item = i64>) -> Vec<i64> {
    let mut found: Vec<_> = numbers.collect();
    found.sort_unstable_by(|one, other| other.cmp(one));
    found
}

/// A call that goes to what stands in a table.
struct Aim<'a> {
    listing: &'a Listing,
    numbers: Vec<i64>,
}

impl Aim<'_> {
    fn new(listing: &Listing) -> Aim<'_> {
        Aim {
            listing,
            numbers: Vec::new(),
        }
    }

    /// The line that the picks mean.
    fn line(mut self, form: &str, picks: &[u8]) -> String {
        let mut words = Vec::new();
        for word in form.split(' ') {
            if !KINDS.contains(&word) {
                words.push(word.to_owned());
                continue;
            }
            let number = self.number(word, picks[self.numbers.len()] & MOST_PICK);
            self.numbers.push(number);
            words.push(number.to_string());
        }
        words.join(" ")
    }

    /// The number that a pick means at a place.
    fn number(&self, kind: &str, pick: u8) -> i64 {
        let at = usize::from(pick);
        match kind {
            "C" | "T" => picked(&self.live(), at),
            "P" => picked(&self.seen(), at),
            "G" if pick == MOST_PICK => -1,
            "G" => picked(&[&[0], self.seen().as_slice()].concat(), at).min(i64::from(i32::MAX)),
            "I" => picked(&self.controls(), at),
            "S" => STATUSES[at % STATUSES.len()],
            _ => picked(&LIMITS, at),
        }
    }

    /// The root numbers of the tasks that may make a call.
    fn live(&self) -> Vec<i64> {
        let live = self.listing.tasks.iter().filter(|it| it.ended.is_none());
        newest(live.map(|it| it.root().into()))
    }

    /// The numbers of the tasks in the namespace of the caller.
    fn seen(&self) -> Vec<i64> {
        let root = |it: &&Task| i64::from(it.root()) == self.numbers[0];
        let Some(caller) = self.listing.tasks.iter().find(root) else {
            return Vec::new();
        };
        let level = caller.numbers.len() - 1;
        let seen = self.listing.tasks.iter();
        newest(
            seen.filter(|it| self.is_within(it.space, caller.space))
                .map(|it| it.numbers[level].into()),
        )
    }

    /// Whether a namespace is another one, or inside it.
    fn is_within(&self, mut space: u64, other: u64) -> bool {
        while space != other {
            let found = self.listing.spaces.iter().find(|it| it.id == space);
            let Some(parent) = found.and_then(|it| it.parent) else {
                return false;
            };
            space = parent;
        }
        true
    }

    fn controls(&self) -> Vec<i64> {
        let ids = self.listing.controls.iter().map(|it| it.id);
        newest(ids.map(|id| i64::try_from(id).expect("a stamp of a new table")))
    }
}
