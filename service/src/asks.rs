//! What is asked of a table: by the table that serves, or, while the disk does not take what was recorded, by the second one.
use crate::commands::{Action, Values};
use crate::resp::{is_word, number, Answer, Words};
use crate::say;
use pidtab::{Call, Error, Reply, SpaceStat, Stat, Table};

/// No page has more numbers.
pub const MOST_ON_A_PAGE: usize = 1000;

/// Whose numbers are on a page: of a task, a group, a session or a namespace by a number, or of a cgroup by its id.
#[derive(Clone, Copy, Debug, PartialEq)]
pub enum Whom {
    Children(u32),
    Group(u32),
    Session(u32),
    /// All in the namespace of the task.
    Namespace(u32),
    /// Those of them that are in no namespace inside it.
    Own(u32),
    /// Those that live, directly in the cgroup.
    Control(u64),
}

impl Whom {
    /// `CHILDREN 5`; none: it is no such words.
    pub fn read(words: Words) -> Option<Whom> {
        let (word, id) = (words.at(0), number(words.at(1), u64::MAX)?);
        if is_word(word, "CONTROL") {
            return Some(Whom::Control(id));
        }
        let kinds: [(&str, fn(u32) -> Whom); 5] = [
            ("CHILDREN", Whom::Children),
            ("GROUP", Whom::Group),
            ("SESSION", Whom::Session),
            ("NAMESPACE", Whom::Namespace),
            ("OWN", Whom::Own),
        ];
        let kind = kinds.iter().find(|it| is_word(word, it.0))?.1;
        u32::try_from(id).ok().map(kind)
    }
}

/// What stands in what.
#[derive(Clone, Copy, Debug, PartialEq)]
pub enum Tree {
    Spaces,
    Controls,
}

impl Tree {
    pub fn read(word: &[u8]) -> Option<Tree> {
        let trees = [("SPACES", Tree::Spaces), ("CONTROLS", Tree::Controls)];
        trees.iter().find(|it| is_word(word, it.0)).map(|it| it.1)
    }
}

#[derive(Clone, Copy)]
pub enum Query {
    Call(Call),
    /// The reply that the call would get.
    Would(Call),
    Stat {
        caller: u32,
        number: u32,
    },
    Page {
        caller: u32,
        whom: Whom,
        from: u32,
        room: usize,
    },
    Space {
        id: u64,
    },
    Inside {
        tree: Tree,
        id: u64,
        from: u64,
        room: usize,
    },
}

/// What a query was answered.
pub enum Answered {
    Reply(Result<Reply, Error>),
    Stat(Box<Result<Stat, Error>>),
    /// None: there is no such namespace.
    Space(Result<Option<SpaceStat>, Error>),
    /// All from the first one that was asked for, and how many of them are told. None: there is no such id.
    Page {
        numbers: Result<Option<Vec<u64>>, Error>,
        room: usize,
    },
}

impl Query {
    /// That of a command, if it is no call of the script language.
    pub fn of(action: Action, values: &Values) -> Option<Query> {
        let Values { caller, number, id, whom, tree, from, room, .. } = *values;
        match action {
            Action::Stat => Some(Query::Stat { caller, number }),
            Action::Page => Some(Query::Page { caller, whom, from: from as u32, room }),
            Action::Space => Some(Query::Space { id }),
            Action::Inside => Some(Query::Inside { tree, id, from, room }),
            _ => None,
        }
    }

    pub fn answer(self, table: &Table) -> Answered {
        match self {
            Query::Call(call) => Answered::Reply(table.ask(call)),
            Query::Would(call) => Answered::Reply(table.would(call)),
            Query::Stat { caller, number } => Answered::Stat(Box::new(table.stat(caller, number))),
            Query::Page { caller, whom, from, room } => {
                let numbers = page(table, caller, whom, from);
                let numbers = numbers.map(|it| Some(it.into_iter().map(u64::from).collect()));
                Answered::Page { numbers, room }
            }
            Query::Space { id } => Answered::Space(table.space(id)),
            Query::Inside { tree: Tree::Spaces, id, from, room } => {
                Answered::Page { numbers: table.spaces_inside(id, from), room }
            }
            Query::Inside { tree: Tree::Controls, id, from, room } => {
                Answered::Page { numbers: table.controls_inside(id, from), room }
            }
        }
    }
}

fn page(table: &Table, caller: u32, whom: Whom, from: u32) -> Result<Vec<u32>, Error> {
    match whom {
        Whom::Children(number) => table.children(caller, number, from),
        Whom::Group(number) => table.group_members(caller, number, from),
        Whom::Session(number) => table.session_members(caller, number, from),
        Whom::Namespace(number) => table.namespace_members(caller, number, from),
        Whom::Own(number) => table.namespace_own(caller, number, from),
        Whom::Control(id) => table.control_tasks(caller, id, from),
    }
}

impl Answered {
    pub fn say(&self, out: &mut Vec<u8>) {
        match self {
            Answered::Reply(Ok(reply)) => say::reply(out, reply),
            Answered::Stat(stat) => match stat.as_ref() {
                Ok(task) => say::stat(out, task),
                Err(error) => say::error(out, error),
            },
            Answered::Space(Ok(Some(space))) => say::space(out, space),
            Answered::Page { numbers: Ok(Some(numbers)), room } => say::page(out, numbers, *room),
            Answered::Space(Ok(None)) | Answered::Page { numbers: Ok(None), .. } => out.line("*-1"),
            Answered::Reply(Err(error)) | Answered::Space(Err(error)) => say::error(out, error),
            Answered::Page { numbers: Err(error), .. } => say::error(out, error),
        }
    }
}
