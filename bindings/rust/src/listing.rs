//! The list of a table, read.
use crate::json::{array, or_null, quote, state};
use crate::Ended;
use std::collections::HashMap;
use std::fmt;
use std::str::FromStr;

/// A task of a list.
#[derive(Clone, Debug, PartialEq, Eq, Hash)]
#[non_exhaustive]
pub struct Task {
    // Written by tools/interface: fields of a task.
    /// Its numbers, that of the root namespace first.
    pub numbers: Vec<u32>,
    /// The id of its namespace.
    pub space: u64,
    /// The root number of its parent, 0 for none.
    pub parent: u32,
    /// The root number of its process group.
    pub group: u32,
    /// The root number of its session.
    pub session: u32,
    /// The id of its control group.
    pub control: u64,
    /// How it ended; none for a live task. One that ended was not yet waited for.
    pub ended: Option<Ended>,
    /// Whether it has executed.
    pub executed: bool,
    /// The id of the namespace that its children go into, none for its own.
    pub children: Option<u64>,
    /// Whether it takes orphans of its namespace.
    pub subreaper: bool,
    // The end of fields of a task.
    /// A name from outside of the table, which [`Listing::with_labels`] gives.
    pub label: Option<String>,
}

impl Task {
    /// Its number in the root namespace, by which it is named as a caller.
    pub fn root(&self) -> u32 {
        self.numbers[0]
    }
}

/// A namespace of a list.
#[derive(Clone, Debug, PartialEq, Eq, Hash)]
#[non_exhaustive]
pub struct Space {
    // Written by tools/interface: fields of a namespace.
    /// Its id, 0 for the root.
    pub id: u64,
    /// The id of the namespace around it, none for the root.
    pub parent: Option<u64>,
    /// Where the search for its next number begins.
    pub cursor: u32,
    /// Whether its init has ended.
    pub fallen: bool,
    // The end of fields of a namespace.
}

/// A control group of a list.
#[derive(Clone, Debug, PartialEq, Eq, Hash)]
#[non_exhaustive]
pub struct Control {
    // Written by tools/interface: fields of a control group.
    /// Its id, 0 for the root.
    pub id: u64,
    /// The id of the control group above it, none for the root.
    pub parent: Option<u64>,
    /// How many tasks it may have, none for no limit.
    pub limit: Option<u32>,
    /// How many tasks it and those below it have.
    pub count: u64,
    // The end of fields of a control group.
}

/// All that stands in a table.
#[derive(Clone, Debug, PartialEq, Eq, Hash)]
#[non_exhaustive]
pub struct Listing {
    /// The tasks, by root number.
    pub tasks: Vec<Task>,
    /// The namespaces, by id.
    pub spaces: Vec<Space>,
    /// The control groups, by id.
    pub controls: Vec<Control>,
}

impl Listing {
    /// The list with names of its tasks, by root number. A number that is no task's is left out, and an empty name is none.
    pub fn with_labels<L: Into<String>>(
        mut self,
        labels: impl IntoIterator<Item = (u32, L)>,
    ) -> Listing {
        let mut labels: HashMap<u32, L> = labels.into_iter().collect();
        for task in &mut self.tasks {
            if let Some(label) = labels.remove(&task.root()) {
                task.label = Some(label.into()).filter(|it| !it.is_empty());
            }
        }
        self
    }

    /// The list as JSON, in one line, as docs/list.schema.json has it.
    pub fn to_json(&self) -> String {
        format!(
            r#"{{"tasks":{},"spaces":{},"controls":{}}}"#,
            array(&self.tasks, task_object),
            array(&self.spaces, space_object),
            array(&self.controls, control_object),
        )
    }

    /// What a list of the library says.
    pub(crate) fn of(list: &str) -> Listing {
        list.parse().expect("what the library lists is a list")
    }
}

/// A text that `pidtab list` does not write.
#[derive(Clone, Copy, Debug, PartialEq, Eq, Hash)]
pub struct BadList {
    line: usize,
    why: &'static str,
}

impl fmt::Display for BadList {
    fn fmt(&self, to: &mut fmt::Formatter<'_>) -> fmt::Result {
        write!(to, "line {}: {}", self.line, self.why)
    }
}

impl std::error::Error for BadList {}

impl FromStr for Listing {
    type Err = BadList;

    /// What the text of a list says, as [`Table::list`](crate::Table::list) or `pidtab list` writes it.
    fn from_str(text: &str) -> Result<Listing, BadList> {
        let bad = |line, why| Err(BadList { line, why });
        let (mut tasks, mut spaces, mut controls) = (Vec::new(), Vec::new(), Vec::new());
        if text.is_empty() {
            return bad(1, "no list");
        }
        for (place, line) in text.split_inclusive('\n').enumerate() {
            let Some(line) = line.strip_suffix('\n') else {
                return bad(place + 1, "cut off, without a newline");
            };
            let words: Vec<_> = line.split(' ').collect();
            if let Some(task) = whole(&words, read_task) {
                tasks.push(task);
            } else if let Some(space) = whole(&words, read_space) {
                spaces.push(space);
            } else if let Some(control) = whole(&words, read_control) {
                controls.push(control);
            } else {
                return bad(place + 1, "not a line of `pidtab list`");
            }
        }
        Ok(Listing {
            tasks,
            spaces,
            controls,
        })
    }
}

/// The number that a word of decimal digits is.
fn number<T: FromStr>(word: &str) -> Option<T> {
    let digits = word.bytes().all(|it| it.is_ascii_digit());
    word.parse().ok().filter(|_| digits)
}

/// The words of a line that are not read yet.
struct Words<'a>(&'a [&'a str]);

impl<'a> Words<'a> {
    /// Takes the next word.
    fn take(&mut self) -> Option<&'a str> {
        let (first, rest) = self.0.split_first()?;
        self.0 = rest;
        Some(first)
    }

    /// Whether the next word is this one, which then is taken.
    fn mark(&mut self, word: &str) -> bool {
        let is_there = self.0.first() == Some(&word);
        if is_there {
            self.take();
        }
        is_there
    }

    /// What stands after the word, which has to be there.
    fn behind(&mut self, word: &str) -> Option<&'a str> {
        if self.mark(word) {
            self.take()
        } else {
            None
        }
    }

    /// The number after the word.
    fn number<T: FromStr>(&mut self, word: &str) -> Option<T> {
        number(self.behind(word)?)
    }

    /// The numbers after the word.
    fn numbers(&mut self, word: &str) -> Option<Vec<u32>> {
        self.behind(word)?.split(',').map(number).collect()
    }

    /// The number after the word, but none for the one that stands for none.
    fn unless<T: FromStr>(&mut self, word: &str, none: &str) -> Option<Option<T>> {
        let told = self.behind(word)?;
        if told == none {
            return Some(None);
        }
        number(told).map(Some)
    }

    /// The id after the word, but none where the word is not there.
    fn apart(&mut self, word: &str) -> Option<Option<u64>> {
        if self.0.first() != Some(&word) {
            return Some(None);
        }
        self.number(word).map(Some)
    }

    /// How a task ended, but none for one that lives.
    fn state(&mut self) -> Option<Option<Ended>> {
        match self.take()? {
            "live" => Some(None),
            "killed" => Some(Some(Ended::Killed)),
            "exit" => number(self.take()?).map(|status| Some(Ended::Exited(status))),
            _ => None,
        }
    }
}

/// What a line says by the reader of its kind, where it is one with nothing after it.
fn whole<T>(words: &[&str], read: impl Fn(&mut Words<'_>) -> Option<T>) -> Option<T> {
    let mut words = Words(words);
    read(&mut words).filter(|_| words.0.is_empty())
}

// Written by tools/interface: readers.
/// A task of a line, where it is one.
fn read_task(words: &mut Words<'_>) -> Option<Task> {
    Some(Task {
        numbers: words.numbers("task")?,
        space: words.number("space")?,
        parent: words.number("parent")?,
        group: words.number("group")?,
        session: words.number("session")?,
        control: words.number("control")?,
        ended: words.state()?,
        executed: words.mark("executed"),
        children: words.apart("children")?,
        subreaper: words.mark("subreaper"),
        label: None,
    })
}

/// A namespace of a line, where it is one.
fn read_space(words: &mut Words<'_>) -> Option<Space> {
    Some(Space {
        id: words.number("space")?,
        parent: words.unless("parent", "-")?,
        cursor: words.number("cursor")?,
        fallen: words.mark("fallen"),
    })
}

/// A control group of a line, where it is one.
fn read_control(words: &mut Words<'_>) -> Option<Control> {
    Some(Control {
        id: words.number("control")?,
        parent: words.unless("parent", "-")?,
        limit: words.unless("limit", "max")?,
        count: words.number("count")?,
    })
}
// The end of readers.

// Written by tools/interface: objects.
/// The fields of a task, as docs/list.schema.json has them.
fn task_object(task: &Task) -> String {
    let (state, status) = state(task.ended);
    format!(
        r#"{{"numbers":{},"space":{},"parent":{},"group":{},"session":{},"control":{},"state":"{state}","status":{},"executed":{},"children":{},"subreaper":{}{}}}"#,
        array(&task.numbers, u32::to_string),
        task.space,
        task.parent,
        task.group,
        task.session,
        task.control,
        or_null(status),
        task.executed,
        or_null(task.children),
        task.subreaper,
        task.label
            .as_deref()
            .map_or_else(String::new, |it| format!(r#","label":{}"#, quote(it))),
    )
}

/// The fields of a namespace, as docs/list.schema.json has them.
fn space_object(space: &Space) -> String {
    format!(
        r#"{{"id":{},"parent":{},"cursor":{},"fallen":{}}}"#,
        space.id,
        or_null(space.parent),
        space.cursor,
        space.fallen,
    )
}

/// The fields of a control group, as docs/list.schema.json has them.
fn control_object(control: &Control) -> String {
    format!(
        r#"{{"id":{},"parent":{},"limit":{},"count":{}}}"#,
        control.id,
        or_null(control.parent),
        or_null(control.limit),
        control.count,
    )
}
// The end of objects.
