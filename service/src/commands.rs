//! The one table of commands. The parser, `COMMAND`, `HELP`, the tables of the pages and the tests of arity come from it.
use crate::asks::{Tree, Whom, MOST_ON_A_PAGE};
use crate::resp::{is_word, number, signed, Words};
use pidtab::{Call, Child, Kind, Which};

/// Each name may have it in front, as some are commands of Redis too.
pub const PREFIX: &[u8] = b"PIDTAB.";

/// The calls of a table.
#[derive(Clone, Copy, Debug, PartialEq)]
pub enum Verb {
    // Written by tools/interface: verbs.
    Fork,
    Getpid,
    Nspid,
    Exec,
    Exit,
    Wait,
    Getppid,
    Setpgid,
    Setsid,
    Mk,
    Rm,
    Limit,
    Move,
    Count,
    Getpgid,
    Getsid,
    Next,
    Join,
    Subreaper,
    // The end of verbs.
}

/// What a command does: a call, or what a service needs besides.
#[derive(Clone, Copy, Debug, PartialEq)]
pub enum Action {
    Call(Verb),
    Line,
    WaitChild,
    ForkAt,
    Told,
    Would,
    Stat,
    Page,
    Space,
    Inside,
    Name,
    Names,
    Multi,
    Discard,
    Subscribe,
    Unsubscribe,
    Lease,
    Leases,
    Release,
    List,
    Dump,
    Position,
    Ping,
    Echo,
    Info,
    Help,
    Command,
    Seat,
    Client,
    Config,
    Slowlog,
    Metrics,
    Hello,
    Select,
    Auth,
    Quit,
    Save,
    Follow,
    Takeover,
    Shutdown,
}

/// What a command takes, in the words of docs/SCRIPT.md.
#[derive(Clone, Copy, Debug, PartialEq)]
pub enum Argument {
    Caller,
    Task,
    Status,
    Process,
    Pid,
    Pgid,
    Control,
    New,
    Which,
    Kind,
    Switch,
    Limit,
    /// The numbers of a child, in its parent's namespace and in the root.
    Child,
    Whom,
    Tree,
    Id,
    /// The first number that is asked for, with the greatest that there may be.
    From(u64),
    Room,
    /// As it is, with the least and the greatest number of words.
    Other(&'static str, usize, usize),
}

/// No number of a task is greater.
const MOST_PROCESS: u64 = u32::MAX as u64;

/// What was read of the arguments.
#[derive(Clone, Copy, Debug)]
pub struct Values {
    pub caller: u32,
    pub number: u32,
    pub id: u64,
    pid: i32,
    pgid: i32,
    choice: bool,
    pub which: Which,
    kind: Kind,
    limit: Option<u32>,
    pub child: Child,
    pub whom: Whom,
    pub tree: Tree,
    pub from: u64,
    pub room: usize,
}

impl Default for Values {
    fn default() -> Values {
        Values {
            caller: 0,
            number: 0,
            id: 0,
            pid: 0,
            pgid: 0,
            choice: false,
            which: Which::Any,
            kind: Kind::Task,
            limit: None,
            child: Child { number: 0, root: 0 },
            whom: Whom::Children(0),
            tree: Tree::Spaces,
            from: 0,
            room: MOST_ON_A_PAGE,
        }
    }
}

impl Argument {
    /// How it is written in the table.
    fn words(self) -> &'static str {
        match self {
            Argument::Caller => "C",
            Argument::Task => "T",
            Argument::Status => "S",
            Argument::Process => "P",
            Argument::Pid | Argument::Pgid => "G",
            Argument::Control => "I",
            Argument::New => "[NEW]",
            Argument::Which => "ANY|OWN|PID P|GROUP P",
            Argument::Kind => "TASK|GROUP|SESSION",
            Argument::Switch => "ON|OFF",
            Argument::Limit => "N|MAX",
            Argument::Child => "N R",
            Argument::Whom => "CHILDREN P|GROUP P|SESSION P|NAMESPACE P|OWN P|CONTROL I",
            Argument::Tree => "SPACES|CONTROLS",
            Argument::Id => "ID",
            Argument::From(_) => "FROM",
            Argument::Room => "[ROOM]",
            Argument::Other(words, ..) => words,
        }
    }

    /// How many words it has, at least and at most.
    fn counts(self) -> (usize, usize) {
        match self {
            Argument::New | Argument::Room => (0, 1),
            Argument::Child | Argument::Whom => (2, 2),
            Argument::Which => (1, 2),
            Argument::Other(_, least, most) => (least, most),
            _ => (1, 1),
        }
    }

    /// Reads it from the front of the words: how many it has. None: it is not there.
    fn read(self, words: Words, to: &mut Values) -> Option<usize> {
        let word = words.at(0);
        let process = || read_process(word);
        match self {
            Argument::Caller | Argument::Task => to.caller = process()?,
            Argument::Process => to.number = process()?,
            Argument::Status => to.number = number(word, 255)? as u32,
            Argument::Pid => to.pid = signed(word)?,
            Argument::Pgid => to.pgid = signed(word)?,
            Argument::Control => to.id = number(word, u64::MAX)?,
            Argument::New => {
                to.choice = is_word(word, "NEW");
                return (to.choice || words.len() == 0).then_some(words.len().min(1));
            }
            Argument::Which => return read_which(words, to),
            Argument::Kind => to.kind = read_kind(word)?,
            Argument::Switch => {
                to.choice = is_word(word, "ON");
                return (to.choice || is_word(word, "OFF")).then_some(1);
            }
            Argument::Limit if is_word(word, "MAX") => to.limit = None,
            Argument::Limit => to.limit = Some(process()?),
            Argument::Other(..) => return Some(words.len()),
            _ => return self.read_of_page(words, to),
        }
        Some(1)
    }

    /// What is of a page, or of a fork with given numbers.
    fn read_of_page(self, words: Words, to: &mut Values) -> Option<usize> {
        let word = words.at(0);
        match self {
            Argument::Child => {
                let (number, root) = (read_process(word)?, read_process(words.at(1))?);
                to.child = Child { number, root };
                return Some(2);
            }
            Argument::Whom => {
                to.whom = Whom::read(words)?;
                return Some(2);
            }
            Argument::Tree => to.tree = Tree::read(word)?,
            Argument::Id => to.id = number(word, u64::MAX)?,
            Argument::From(most) => to.from = number(word, most)?,
            Argument::Room if words.len() == 0 => return Some(0),
            Argument::Room => to.room = number(word, MOST_ON_A_PAGE as u64)? as usize,
            _ => return None,
        }
        Some(1)
    }
}

fn read_process(word: &[u8]) -> Option<u32> {
    number(word, MOST_PROCESS).map(|it| it as u32)
}

fn read_which(words: Words, to: &mut Values) -> Option<usize> {
    let (word, process) = (words.at(0), number(words.at(1), u64::from(u32::MAX)));
    let (which, count) = match process {
        _ if is_word(word, "ANY") => (Which::Any, 1),
        _ if is_word(word, "OWN") => (Which::OwnGroup, 1),
        Some(number) if is_word(word, "PID") => (Which::Pid(number as u32), 2),
        Some(number) if is_word(word, "GROUP") => (Which::Group(number as u32), 2),
        _ => return None,
    };
    to.which = which;
    Some(count)
}

fn read_kind(word: &[u8]) -> Option<Kind> {
    let kinds = [("TASK", Kind::Task), ("GROUP", Kind::Group), ("SESSION", Kind::Session)];
    kinds.iter().find(|it| is_word(word, it.0)).map(|it| it.1)
}

impl Verb {
    /// Whether it is a query.
    pub fn asks(self) -> bool {
        use Verb::*;
        // Written by tools/interface: queries.
        matches!(self, Getpid | Nspid | Getppid | Count | Getpgid | Getsid | Next)
        // The end of queries.
    }

    /// The call with these values.
    pub fn call(self, values: &Values) -> Call {
        let Values { caller, number, id, .. } = *values;
        match self {
            // Written by tools/interface: calls.
            Verb::Fork => Call::Fork { caller, new_space: values.choice },
            Verb::Getpid => Call::Getpid { caller },
            Verb::Nspid => Call::Nspid { caller, number },
            Verb::Exec => Call::Exec { caller },
            Verb::Exit => Call::Exit { caller, status: number as u8 },
            Verb::Wait => Call::Wait { caller, which: values.which },
            Verb::Getppid => Call::Getppid { caller },
            Verb::Setpgid => Call::Setpgid { caller, pid: values.pid, pgid: values.pgid },
            Verb::Setsid => Call::Setsid { caller },
            Verb::Mk => Call::Mk { parent: id },
            Verb::Rm => Call::Rm { id },
            Verb::Limit => Call::Limit { id, limit: values.limit },
            Verb::Move => Call::Move { task: caller, id },
            Verb::Count => Call::Count { id },
            Verb::Getpgid => Call::Getpgid { caller, pid: number },
            Verb::Getsid => Call::Getsid { caller, pid: number },
            Verb::Next => Call::Next { caller, kind: values.kind, from: number },
            Verb::Join => Call::Join { caller, number },
            Verb::Subreaper => Call::Subreaper { caller, on: values.choice },
            // The end of calls.
        }
    }
}

/// A command: its name, what it does, what it takes, and what HELP says of it.
pub struct Command {
    pub name: &'static str,
    pub action: Action,
    arguments: &'static [Argument],
    pub summary: &'static str,
}

impl Command {
    /// How many words it has, with its name, at least and at most.
    pub fn counts(&self) -> (usize, usize) {
        let counts = self.arguments.iter().map(|it| it.counts());
        counts.fold((1, 1), |sum, it| (sum.0 + it.0, sum.1 + it.1))
    }

    /// `FORK C [NEW]`.
    pub fn syntax(&self) -> String {
        let words = self.arguments.iter().map(|it| it.words());
        let all: Vec<_> = [self.name].into_iter().chain(words).collect();
        all.join(" ")
    }

    /// What stands behind the name, if it is what the command takes.
    pub fn read(&self, words: Words) -> Option<Values> {
        let (mut values, mut at) = (Values::default(), 1);
        for argument in self.arguments {
            at += argument.read(words.from(at), &mut values)?;
        }
        let (least, most) = self.counts();
        (at == words.len() && (least..=most).contains(&at)).then_some(values)
    }

    /// Whether it is answered without a change of the table or the service.
    pub fn asks(&self) -> bool {
        match self.action {
            Action::Call(verb) => verb.asks(),
            Action::Line | Action::WaitChild | Action::ForkAt | Action::Told => false,
            Action::Lease | Action::Release | Action::Name => false,
            Action::Save | Action::Takeover | Action::Shutdown => false,
            _ => true,
        }
    }

    /// Whether it waits where the disk does not take what was recorded: whatever changes something, and the texts.
    pub fn waits_for_disk(&self) -> bool {
        match self.action {
            Action::Call(verb) => !verb.asks(),
            Action::Would | Action::Stat | Action::Page | Action::Space | Action::Inside => false,
            Action::Ping | Action::Echo | Action::Info | Action::Help | Action::Command => false,
            Action::Slowlog | Action::Metrics => false,
            Action::Client | Action::Config | Action::Hello | Action::Select | Action::Auth | Action::Quit => false,
            _ => true,
        }
    }

    /// Whether it may come within a MULTI.
    pub fn is_call(&self) -> bool {
        matches!(self.action, Action::Call(_) | Action::Line)
    }
}

const fn row(name: &'static str, action: Action, arguments: &'static [Argument], summary: &'static str) -> Command {
    Command { name, action, arguments, summary }
}

use Action as A;
use Argument::*;

/// By their names.
#[rustfmt::skip]
pub const COMMANDS: &[Command] = &[
    row("AUTH", A::Auth, &[Other("[USER] PASSWORD", 1, 2)], "an error: the socket's mode and --allow say who may connect"),
    row("BGSAVE", A::Save, &[Other("[SCHEDULE]", 0, 1)], "goes on in a new file of the log, and makes a snapshot beside"),
    row("CALL", A::Line, &[Other("VERB ..", 1, 5)], "a line of the script language: recorded, the queries too"),
    row("CLIENT", A::Client, &[Other("ID|INFO|LIST|KILL|SETNAME|GETNAME|SETINFO ..", 1, 63)], "connections: LIST and KILL take ID N .., USER UID, TYPE normal|replica|pubsub; KILL also SKIPME yes|no"),
    row("COMMAND", A::Command, &[Other("[COUNT|DOCS|INFO|LIST ..]", 0, 63)], "the commands"),
    row("CONFIG", A::Config, &[Other("GET NAME ..", 2, 63)], "settings and their values, by names in which * and ? stand for others"),
    row("COUNT", A::Call(Verb::Count), &[Control], "how many tasks the cgroup and those below it have"),
    row("DISCARD", A::Discard, &[], "forgets a MULTI"),
    row("DUMP", A::Dump, &[], "the text of the table"),
    row("ECHO", A::Echo, &[Other("TEXT", 1, 1)], "the text"),
    row("END", A::Call(Verb::Exit), &[Caller, Status], "EXIT, at a prompt that takes that word for its own"),
    row("EXEC", A::Call(Verb::Exec), &[Caller], "the caller executes a program; with no caller it ends a MULTI"),
    row("EXIT", A::Call(Verb::Exit), &[Caller, Status], "the caller ends with the status"),
    row("FOLLOW", A::Follow, &[Other("[IDENTITY]", 0, 1)], "the table's identity, if asked, its text, and then each call that is recorded: for a follower"),
    row("FORK", A::Call(Verb::Fork), &[Caller, New], "a child, perhaps in a new namespace: its number in the caller's and in the root"),
    row("FORKAT", A::ForkAt, &[Caller, Child, New], "FORK, if the child has these numbers, as WOULD tells them; else nothing changes"),
    row("GETPGID", A::Call(Verb::Getpgid), &[Caller, Process], "the group of the task"),
    row("GETPID", A::Call(Verb::Getpid), &[Caller], "the caller's number"),
    row("GETPPID", A::Call(Verb::Getppid), &[Caller], "the number of the caller's parent"),
    row("GETSID", A::Call(Verb::Getsid), &[Caller, Process], "the session of the task"),
    row("HELLO", A::Hello, &[Other("[2 ..]", 0, 6)], "the protocol is RESP2"),
    row("HELP", A::Help, &[Other("[NAME]", 0, 1)], "these lines"),
    row("INFO", A::Info, &[Other("[SECTION ..]", 0, 63)], "figures of the service"),
    row("INSIDE", A::Inside, &[Tree, Id, From(u64::MAX), Room], "how many namespaces, or cgroups, stand directly in that one, from the id FROM on, and their ids, ROOM at most"),
    row("JOIN", A::Call(Verb::Join), &[Caller, Process], "the caller's later children go into the namespace of the task"),
    row("LEASE", A::Lease, &[Other("NAME TTL", 2, 2)], "what this connection forks ends TTL ms after the last connection with the lease has gone"),
    row("LEASES", A::Leases, &[], "each lease: its name, TTL, connections and tasks"),
    row("LIMIT", A::Call(Verb::Limit), &[Control, Limit], "the limit of the cgroup"),
    row("LIST", A::List, &[], "the table for reading"),
    row("METRICS", A::Metrics, &[], "figures of the service in the text format of Prometheus"),
    row("MK", A::Call(Verb::Mk), &[Control], "a cgroup below the one with the id: its id"),
    row("MOVE", A::Call(Verb::Move), &[Task, Control], "the task goes into the cgroup"),
    row("MULTI", A::Multi, &[], "the next calls come together, at EXEC"),
    row("NAME", A::Name, &[Control, Other("NAME", 1, 1)], "the cgroup has the name among those beside it: --allow may have its path"),
    row("NAMES", A::Names, &[], "each cgroup with a name: its path and its id"),
    row("NEXT", A::Call(Verb::Next), &[Caller, Kind, Process], "the least number from P on that is in use, or nil"),
    row("NSPID", A::Call(Verb::Nspid), &[Caller, Process], "the task's numbers, outermost first"),
    row("PAGE", A::Page, &[Caller, Whom, From(MOST_PROCESS), Room], "how many children or members there are from the number FROM on, and their numbers, ROOM at most"),
    row("PING", A::Ping, &[Other("[TEXT]", 0, 1)], "PONG"),
    row("POSITION", A::Position, &[], "how many calls are recorded"),
    row("QUIT", A::Quit, &[], "closes the connection"),
    row("RELEASE", A::Release, &[Other("NAME", 1, 1)], "forgets the lease: its tasks stay"),
    row("RM", A::Call(Verb::Rm), &[Control], "removes a cgroup"),
    row("SEAT", A::Seat, &[Other("[N]", 0, 1)], "the seat that the connection's calls are booked to, 0 to 15"),
    row("SELECT", A::Select, &[Other("N", 1, 1)], "for the libraries of clients: there is one table"),
    row("SETPGID", A::Call(Verb::Setpgid), &[Caller, Pid, Pgid], "the task goes into the group"),
    row("SETSID", A::Call(Verb::Setsid), &[Caller], "the caller leads a new session"),
    row("SHUTDOWN", A::Shutdown, &[Other("[SAVE|NOSAVE]", 0, 1)], "ends the service, with all saved"),
    row("SLOWLOG", A::Slowlog, &[Other("GET [N]|LEN|RESET", 1, 2)], "requests that took long, the last one first, as Redis has them"),
    row("SPACE", A::Space, &[Id], "the namespace, or nil where there is none"),
    row("STAT", A::Stat, &[Caller, Process], "the task as the caller's namespace sees it"),
    row("SUBREAPER", A::Call(Verb::Subreaper), &[Caller, Switch], "the caller takes orphans"),
    row("SUBSCRIBE", A::Subscribe, &[Other("CHANNEL .. [FROM ORDINAL]", 1, 63)], "events: exit, fork or fall, alone or of space:ID or control:ID, as exit:control:5; with FROM those of the calls from that ordinal on too"),
    row("TAKEOVER", A::Takeover, &[Other("[FORCE]", 0, 1)], "a follower serves from now on"),
    row("TOLD", A::Told, &[Other("VERB ..", 1, 5)], "CALL, with what the call did besides: who ended, has another parent, or is gone"),
    row("UNSUBSCRIBE", A::Unsubscribe, &[Other("[CHANNEL ..]", 0, 63)], "no more events of these, or of any"),
    row("WAIT", A::Call(Verb::Wait), &[Caller, Which], "reaps an ended child: its number, and its status or killed; nil where none has ended"),
    row("WAITCHILD", A::WaitChild, &[Caller, Which, Other("[TIMEOUT MS]", 0, 2)], "WAIT that sleeps until a child has ended, or for so long"),
    row("WOULD", A::Would, &[Other("VERB ..", 1, 5)], "the reply that the call would get now: nothing changes"),
];

/// No name is longer.
const LONGEST_NAME: usize = 16;

/// Where the commands with each first letter begin, and the end.
static FIRST_WITH: [u8; 27] = first_with();

const fn first_with() -> [u8; 27] {
    let (mut places, mut place, mut letter) = ([COMMANDS.len() as u8; 27], 0, 0);
    while place < COMMANDS.len() {
        let this = (COMMANDS[place].name.as_bytes()[0] - b'A') as usize;
        while letter <= this {
            places[letter] = place as u8;
            letter += 1;
        }
        place += 1;
    }
    places
}

/// The command with the name, with or without its prefix.
pub fn find(word: &[u8]) -> Option<&'static Command> {
    let name = without_prefix(word).unwrap_or(word);
    if name.is_empty() || name.len() > LONGEST_NAME || !name[0].is_ascii_alphabetic() {
        return None;
    }
    let letter = usize::from(name[0].to_ascii_uppercase() - b'A');
    let (from, to) = (FIRST_WITH[letter], FIRST_WITH[letter + 1]);
    let rows = &COMMANDS[usize::from(from)..usize::from(to)];
    rows.iter().find(|it| is_word(name, it.name))
}

/// The name behind the prefix, if there is one.
pub fn without_prefix(word: &[u8]) -> Option<&[u8]> {
    let (front, name) = word.split_at_checked(PREFIX.len())?;
    front.eq_ignore_ascii_case(PREFIX).then_some(name)
}

#[cfg(test)]
mod tests {
    use super::*;
    use crate::resp::Reader;

    fn read(line: &str) -> Option<Call> {
        let (mut reader, bytes) = (Reader::default(), format!("{line}\n"));
        reader.take(bytes.as_bytes()).expect("a line");
        let words = reader.words(bytes.as_bytes());
        let command = find(words.at(0))?;
        let Action::Call(verb) = command.action else { return None };
        Some(verb.call(&command.read(words)?))
    }

    #[test]
    fn they_are_sorted_and_found() {
        assert!(COMMANDS.is_sorted_by(|one, other| one.name < other.name));
        for command in COMMANDS {
            let found = find(command.name.to_ascii_lowercase().as_bytes());
            assert_eq!(found.map(|it| it.name), Some(command.name));
            let prefixed = format!("pidtab.{}", command.name);
            assert_eq!(find(prefixed.as_bytes()).map(|it| it.name), Some(command.name));
            assert!(command.name.len() <= LONGEST_NAME);
        }
        let wrong: [&[u8]; 6] = [b"", b"FORKS", b"PIDTAB.", b"\xff", b"Z", b"PIDTAB.PIDTAB.FORK"];
        assert!(wrong.iter().all(|it| find(it).is_none()));
    }

    #[test]
    fn calls_are_read() {
        assert_eq!(read("fork 1 new"), Some(Call::Fork { caller: 1, new_space: true }));
        assert_eq!(read("FORK 1"), Some(Call::Fork { caller: 1, new_space: false }));
        let which = Which::Group(7);
        assert_eq!(read("WAIT 3 GROUP 7"), Some(Call::Wait { caller: 3, which }));
        assert_eq!(read("SETPGID 1 0 -1"), Some(Call::Setpgid { caller: 1, pid: 0, pgid: -1 }));
        assert_eq!(read("LIMIT 5 MAX"), Some(Call::Limit { id: 5, limit: None }));
        assert_eq!(read("PIDTAB.MOVE 4 9"), Some(Call::Move { task: 4, id: 9 }));
        let (kind, from) = (pidtab::Kind::Session, 2);
        assert_eq!(read("NEXT 1 SESSION 2"), Some(Call::Next { caller: 1, kind, from }));
        assert_eq!(read("SUBREAPER 1 OFF"), Some(Call::Subreaper { caller: 1, on: false }));
    }

    #[test]
    fn what_is_no_call() {
        let wrong = [
            "FORK",
            "FORK x",
            "FORK 1 OLD",
            "FORK 1 NEW NEW",
            "FORK 01",
            "FORK 4294967296",
            "EXIT 1 256",
            "EXIT 1",
            "WAIT 1",
            "WAIT 1 PID",
            "WAIT 1 ANY 3",
            "WAIT 1 GROUP x",
            "NEXT 1 SPACE 2",
            "SUBREAPER 1 MAYBE",
            "LIMIT 1 4294967296",
            "MOVE 1",
            "SETPGID 1 0 -0",
            "COUNT -1",
            "GETPID 1 2",
        ];
        assert_eq!(wrong.iter().find(|it| read(it).is_some()), None);
    }
}
