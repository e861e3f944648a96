//! The cases of `interface/cases`, whose README says what each step is: by lines, by values and by methods, on tables with and without a history.
use crate::json::errno_name;
use crate::*;
use std::fs;
use std::path::Path;

/// What a case has open. A seat borrows its table, which stays to the end of the process.
struct World {
    /// By lines, by values and by methods; none where the case is of a history alone.
    tables: Vec<Table>,
    /// With a history.
    recorded: &'static Table,
    seats: Vec<Seat<&'static Table>>,
    at: usize,
    /// The latest reply.
    told: Reply,
    /// The bound, and whether the history begins with the root init.
    keep: u64,
    is_whole: bool,
}

// Written by tools/interface: questions.
/// What a question tells; none for a step that is no question.
#[rustfmt::skip]
fn question(table: &Table, word: &str, n: &[u64]) -> Option<String> {
    Some(match word {
        "stat" => say_stat(table.stat(n[0] as u32, n[1] as u32)),
        "children" => say_page(table.children(n[0] as u32, n[1] as u32, n[2] as u32)),
        "group_members" => say_page(table.group_members(n[0] as u32, n[1] as u32, n[2] as u32)),
        "session_members" => say_page(table.session_members(n[0] as u32, n[1] as u32, n[2] as u32)),
        "namespace_members" => say_page(table.namespace_members(n[0] as u32, n[1] as u32, n[2] as u32)),
        "namespace_own" => say_page(table.namespace_own(n[0] as u32, n[1] as u32, n[2] as u32)),
        "space" => say_space_stat(table.space(n[0])),
        "spaces_inside" => say_ids(table.spaces_inside(n[0], n[1])),
        "controls_inside" => say_ids(table.controls_inside(n[0], n[1])),
        "control_tasks" => say_page(table.control_tasks(n[0] as u32, n[1], n[2] as u32)),
        _ => return None,
    })
}
// The end of questions.

/// A table with a history of so many entries, 0 for all.
fn kept(entries: u64) -> Options {
    let keep = match entries {
        0 => Keep::All,
        _ => entries.into(),
    };
    Table::options().keep(keep).threads()
}

impl World {
    fn of(tables: Vec<Table>, recorded: Table, keep: u64, is_whole: bool) -> World {
        let recorded: &'static Table = Box::leak(Box::new(recorded));
        let seats = (0..recorded.workers())
            .map(|_| recorded.seat().expect("a seat"))
            .collect();
        assert_eq!(recorded.seat().err(), Some(Error::NoSeat));
        World {
            tables,
            recorded,
            seats,
            at: 0,
            told: Reply::Done,
            keep,
            is_whole,
        }
    }

    fn open(settings: &[u64]) -> Result<World, Error> {
        let [pid_max, workers, stamp, keep] = settings else {
            panic!("{settings:?}")
        };
        let options = kept(*keep)
            .pid_max(*pid_max as u32)
            .workers(*workers as u32);
        let recorded = options.first_stamp(*stamp).open();
        let mut tables = Vec::new();
        if settings[1..] == [1, 1, 0] {
            let opened: Vec<_> = (0..3).map(|_| Table::open(*pid_max as u32)).collect();
            assert!(opened
                .iter()
                .all(|it| it.as_ref().err() == recorded.as_ref().err()));
            tables = opened.into_iter().flatten().collect();
        }
        Ok(World::of(tables, recorded?, *keep, *stamp == 1))
    }

    fn load(text: &str, counts: &[u64], keep: u64) -> Result<World, TextError> {
        let recorded = kept(keep).open_dump(text, counts)?;
        let tables = (0..3).map(|_| Table::from_dump(text).expect("a table"));
        let is_alone = counts == [0] && keep == 0;
        Ok(World::of(
            tables.take(if is_alone { 3 } else { 0 }).collect(),
            recorded,
            keep,
            false,
        ))
    }

    /// Goes on with what is made of the texts.
    fn reload(&mut self) {
        let text = self.recorded.dump().expect("a text");
        let counts: Vec<_> = (0..self.recorded.workers())
            .map(|it| self.recorded.worker(it).expect("calls"))
            .collect();
        let loaded = World::load(&text, &counts, self.keep).expect("a table");
        assert_eq!(loaded.recorded.dump().as_ref(), Ok(&text));
        let at = self.at;
        let tables = std::mem::take(&mut self.tables).into_iter().map(|it| {
            let again = it.dump().expect("a text");
            assert_eq!(again, text);
            Table::from_dump(again).expect("a table")
        });
        let tables = tables.collect();
        *self = World {
            tables,
            at,
            ..loaded
        };
    }

    /// The answer to the line, which is the same by each way.
    fn call(&mut self, line: &str) -> String {
        let seat = &mut self.seats[self.at];
        let answer = seat.line(line).unwrap_or_else(|fault| status(&fault));
        let by_line = self
            .tables
            .first_mut()
            .map(|it| it.line(line).unwrap_or_else(|fault| status(&fault)));
        assert!(by_line.map_or(true, |it| it == answer), "{line}");
        if answer.starts_with(char::is_uppercase) && !answer.contains(' ') {
            return answer;
        }
        let ordinal = seat.ordinal().expect("an ordinal");
        let entry = self.recorded.entry(ordinal).expect("an entry");
        assert_eq!(
            (
                entry.worker as usize,
                entry.call.line().as_str(),
                say(&entry.reply)
            ),
            (self.at, line, answer.clone())
        );
        assert_eq!(entry.reply.line().as_deref(), Some(answer.as_str()));
        let is_query = QUERIES.contains(&line.split(' ').next().expect("a word"));
        let asked = if is_query {
            Ok(entry.reply.clone())
        } else {
            Err(Error::NoQuery)
        };
        assert_eq!(self.recorded.ask(entry.call), asked, "{line}");
        if let [_, by_value, by_method] = &mut self.tables[..] {
            assert_eq!(by_value.ask(entry.call), asked, "{line}");
            assert_eq!(by_value.would(entry.call).as_ref(), Ok(&entry.reply));
            let told = by_value.told(entry.call).map(|it| it.reply);
            assert_eq!(told.as_ref(), Ok(&entry.reply));
            let told = by_its_method(by_method, entry.call).or_else(|fault| match fault {
                Error::Refused {
                    errno,
                    refusal,
                    call,
                } => {
                    assert_eq!(call, Some(entry.call), "{line}");
                    Ok(Reply::Refused { errno, refusal })
                }
                other => Err(other),
            });
            assert_eq!(told.as_ref(), Ok(&entry.reply), "{line}");
        }
        self.told = entry.reply;
        answer
    }

    /// The answer to the line, and what its call does, which are the same of each table.
    fn call_told(&mut self, line: &str) -> String {
        let (call, seat) = (call_on(line), &mut self.seats[self.at]);
        let told = seat.told(call).expect("a call");
        let ordinal = seat.ordinal().expect("an ordinal");
        let entry = self.recorded.entry(ordinal).expect("an entry");
        assert_eq!(
            (entry.worker as usize, entry.call, &entry.reply),
            (self.at, call, &told.reply)
        );
        for table in &mut self.tables {
            assert_eq!(table.told(call).as_ref(), Ok(&told), "{line}");
        }
        let effects = told.effects.iter().map(say_effect);
        say(&told.reply) + &effects.collect::<String>()
    }

    /// What a question tells, which is the same of each table; none for a step that is no question.
    fn question(&self, word: &str, numbers: &[u64]) -> Option<String> {
        let told = question(self.recorded, word, numbers);
        for table in &self.tables {
            assert_eq!(question(table, word, numbers), told, "{word} {numbers:?}");
        }
        told
    }

    /// What a step of a history tells.
    fn read(&mut self, words: &[&str]) -> String {
        let numbers: Vec<u64> = words[1..]
            .iter()
            .map(|it| it.parse().expect("a number"))
            .collect();
        let told = match (words[0], &numbers[..]) {
            ("counts", []) => self
                .recorded
                .counts()
                .map(|it| format!("{} {}", it.first_kept, it.recorded)),
            ("worker", [it]) => self.recorded.worker(*it as u32).map(|it| it.to_string()),
            ("entry", [it]) => self
                .recorded
                .entry(*it)
                .map(|it| format!("{} {}: {}", it.worker, it.call.line(), say(&it.reply))),
            ("read", [from, most]) => self
                .recorded
                .entries(*from, *most as usize)
                .map(|it| it.len().to_string()),
            ("checkpoint", []) => self.recorded.checkpoint().map(|()| "DONE".to_owned()),
            ("checkpoint_at", [seen]) => self
                .recorded
                .checkpoint_at(*seen)
                .map(|()| "DONE".to_owned()),
            _ => panic!("{words:?}"),
        };
        told.unwrap_or_else(|fault| say_error(&fault))
    }

    fn text(&mut self, name: &str) -> String {
        let told = match name {
            "list" => self.recorded.list(),
            "dump" => self.recorded.dump(),
            _ => self.recorded.opening(),
        };
        for table in &mut self.tables {
            assert!(
                name == "opening"
                    || if name == "list" {
                        table.list()
                    } else {
                        table.dump()
                    } == told
            );
        }
        told.expect("a text")
    }

    /// The same calls on a second table; a change stops at its place.
    fn replay(&self, change: Option<(&str, usize)>) {
        let mut saved = self.recorded.entries(0, usize::MAX).expect("entries");
        let options = kept(0).pid_max(self.recorded.pid_max());
        let again = options.workers(self.recorded.workers()).open();
        let again = again.expect("a table");
        let Some((what, place)) = change else {
            assert_eq!(again.replay(&saved), Ok(()));
            assert_eq!(
                (again.counts(), again.list()),
                (self.recorded.counts(), self.recorded.list())
            );
            return;
        };
        let error = match what {
            "differs" => Error::Differs,
            _ => {
                let workers = self.recorded.workers();
                let outside = Argument::outside("worker", workers, 0u32, workers - 1);
                Error::Argument(outside.expect("no worker"))
            }
        };
        match error {
            Error::Differs => saved[place].reply = Reply::Done,
            _ => saved[place].worker = self.recorded.workers(),
        }
        assert_eq!(again.replay(&saved), Err(ReplayError { place, error }));
        assert_eq!(
            again.counts().expect("counts").recorded,
            place as u64 + u64::from(error == Error::Differs)
        );
    }
}

// Written by tools/interface: calls.
#[rustfmt::skip]
const QUERIES: [&str; 7] = ["getpid", "nspid", "getppid", "count", "getpgid", "getsid", "next"];

#[rustfmt::skip]
fn by_its_method(table: &Table, call: Call) -> Result<Reply, Error> {
    match call {
        Call::Fork { caller, new_space: false } => table.fork(caller).map(Reply::Forked),
        Call::Fork { caller, new_space: true } => table.fork_new(caller).map(Reply::Forked),
        Call::Getpid { caller } => table.getpid(caller).map(Reply::Number),
        Call::Nspid { caller, number } => table.nspid(caller, number).map(Reply::Levels),
        Call::Exec { caller } => table.exec(caller).map(|()| Reply::Done),
        Call::Exit { caller, status } => table.exit(caller, status).map(|()| Reply::Done),
        Call::Wait { caller, which } => table.wait(caller, which).map(|it| it.map_or(Reply::NoneYet, Reply::Reaped)),
        Call::Getppid { caller } => table.getppid(caller).map(Reply::Number),
        Call::Setpgid { caller, pid, pgid } => table.setpgid(caller, pid, pgid).map(|()| Reply::Done),
        Call::Setsid { caller } => table.setsid(caller).map(Reply::Number),
        Call::Mk { parent } => table.mk(parent).map(Reply::Control),
        Call::Rm { id } => table.rm(id).map(|()| Reply::Done),
        Call::Limit { id, limit } => table.limit(id, limit).map(|()| Reply::Done),
        Call::Move { task, id } => table.move_task(task, id).map(|()| Reply::Done),
        Call::Count { id } => table.count(id).map(Reply::Counted),
        Call::Getpgid { caller, pid } => table.getpgid(caller, pid).map(Reply::Number),
        Call::Getsid { caller, pid } => table.getsid(caller, pid).map(Reply::Number),
        Call::Next { caller, kind, from } => table.next(caller, kind, from).map(|it| it.map_or(Reply::End, Reply::Number)),
        Call::Join { caller, number } => table.join(caller, number).map(|()| Reply::Done),
        Call::Subreaper { caller, on } => table.subreaper(caller, on).map(|()| Reply::Done),
    }
}
// The end of calls.

/// The name that `interface/statuses.tbl` has for an error.
fn status(fault: &dyn std::fmt::Debug) -> String {
    let mut name = String::new();
    for letter in format!("{fault:?}").chars() {
        if letter.is_uppercase() && !name.is_empty() {
            name.push('_');
        }
        name.push(letter.to_ascii_uppercase());
    }
    match name.as_str() {
        "EMPTY" | "BAD" => name + "_LINE",
        "NO_QUERY" | "NO_SEAT" => "OUT_OF_RANGE".to_owned(),
        _ if name.starts_with("ARGUMENT(") => "OUT_OF_RANGE".to_owned(),
        _ => name,
    }
}

fn say_error(fault: &Error) -> String {
    match fault {
        Error::Refused { errno, refusal, .. } => format!("{} {refusal}", errno_name(*errno)),
        other => status(other),
    }
}

fn joined(numbers: &[u32], between: &str) -> String {
    numbers
        .iter()
        .map(u32::to_string)
        .collect::<Vec<_>>()
        .join(between)
}

fn say_end(ended: Ended) -> String {
    match ended {
        Ended::Exited(status) => format!("exit {status}"),
        Ended::Killed => "killed".to_owned(),
    }
}

/// The answer that a reply is, by docs/SCRIPT.md.
fn say(reply: &Reply) -> String {
    match reply {
        Reply::Forked(child) => format!("child {} root {}", child.number, child.root),
        Reply::Done => "ok".to_owned(),
        Reply::Number(number) => number.to_string(),
        Reply::Levels(numbers) => joined(numbers, " "),
        Reply::Reaped(it) => format!("reaped {} {}", it.child, say_end(it.ended)),
        Reply::NoneYet => "none".to_owned(),
        Reply::Counted(count) => count.to_string(),
        Reply::Control(id) => format!("control {id}"),
        Reply::End => "end".to_owned(),
        Reply::Refused { errno, refusal } => say_error(&Error::Refused {
            errno: *errno,
            refusal: *refusal,
            call: None,
        }),
    }
}

/// What became of a task, after a comma.
/// The numbers of a page.
fn say_page(told: Result<Vec<u32>, Error>) -> String {
    match told.as_deref() {
        Ok([]) => String::from("none"),
        Ok(found) => joined(found, " "),
        Err(fault) => say_error(fault),
    }
}

fn say_ids(told: Result<Option<Vec<u64>>, Error>) -> String {
    match told.expect("a read").as_deref() {
        None => "OUT_OF_RANGE".to_owned(),
        Some([]) => "none".to_owned(),
        Some(ids) => ids.iter().map(u64::to_string).collect::<Vec<_>>().join(" "),
    }
}

fn say_stat(told: Result<Stat, Error>) -> String {
    told.map_or_else(|fault| say_error(&fault), |it| say_task(&it))
}

fn say_space_stat(told: Result<Option<SpaceStat>, Error>) -> String {
    told.expect("a read")
        .map_or_else(|| "OUT_OF_RANGE".to_owned(), |it| say_space(&it))
}

fn say_effect(effect: &Effect) -> String {
    match effect {
        Effect::Ended { number, ended } => format!(", ended {number} {}", say_end(*ended)),
        Effect::Adopted { number, parent } => format!(", adopted {number} {parent}"),
        Effect::Gone { number } => format!(", gone {number}"),
        Effect::GroupGone { number } => format!(", group-gone {number}"),
        Effect::SessionGone { number } => format!(", session-gone {number}"),
        Effect::SpaceFell { id } => format!(", space-fell {id}"),
        Effect::SpaceGone { id } => format!(", space-gone {id}"),
    }
}

/// The call on a line, by the entry of another table.
fn call_on(line: &str) -> Call {
    let table = kept(0).open().expect("a table");
    table.line(line).expect("an answer");
    table.entry(0).expect("an entry").call
}

fn say_task(it: &Stat) -> String {
    let numbers = joined(it.numbers(), ",");
    let end = it.ended().map_or("live".to_owned(), say_end);
    let marks = [(it.executed(), " executed"), (it.subreaper(), " subreaper")];
    let marks: String = marks
        .into_iter()
        .filter(|(holds, _)| *holds)
        .map(|(_, word)| word)
        .collect();
    let (parent, group, session) = (it.parent(), it.group(), it.session());
    let (root, space, control) = (it.root(), it.space(), it.control());
    format!("{numbers} root {root} space {space} parent {parent} group {group} session {session} control {control} {end}{marks}")
}

fn say_space(it: &SpaceStat) -> String {
    let or_none = |number: Option<u64>| number.map_or("-".to_owned(), |it| it.to_string());
    let (parent, init) = (or_none(it.parent), or_none(it.init.map(u64::from)));
    let fallen = if it.fallen { " fallen" } else { "" };
    format!(
        "space {} parent {parent} level {} init {init}{fallen}",
        it.id, it.level
    )
}

/// The line of the call that the numbers say, which has the same numbers again.
fn line_of(words: &[&str]) -> String {
    let number = |at: usize| words[at].parse::<i64>().expect("a number");
    let call = raw::Call {
        operation: number(0) as u32,
        caller: number(1) as u32,
        id: words[2].parse().expect("an id"),
        number: number(3) as u32,
        choice: number(4) as u32,
        pid: number(5) as i32,
        pgid: number(6) as i32,
    };
    let (mut line, mut size) = ([0; raw::LONGEST_CALL], 0);
    match raw::call_line(&call, &mut line, &mut size) {
        raw::DONE => assert_eq!(Call::of(&call).numbers(), call),
        raw::OUT_OF_RANGE => return "OUT_OF_RANGE".to_owned(),
        other => panic!("{other}"),
    }
    String::from_utf8(line[..size].to_vec()).expect("a line")
}

fn damage(text: &str) {
    for place in 0..text.len() {
        assert!(Table::from_dump(&text[..place]).is_err(), "{place}");
        let mut bytes = text.to_owned().into_bytes();
        bytes[place] ^= 1;
        let refused = Table::from_dump(&bytes).expect_err("a fault");
        assert!(matches!(refused, TextError::Bad { .. }), "{place}");
    }
}

fn loaded(world: &mut Option<World>, text: &str, counts: &[u64]) -> String {
    match World::load(text, counts, 0) {
        Ok(made) => *world = Some(made),
        Err(TextError::Bad { line, fault }) => {
            assert_eq!(
                Table::from_dump(text).err(),
                Some(TextError::Bad { line, fault })
            );
            return format!("line {line}: {fault}");
        }
        Err(fault) => return status(&fault),
    }
    String::new()
}

/// What the step tells; nothing where all that is wanted of it is seen to.
fn make(world: &mut Option<World>, step: &str, text: &str) -> String {
    let words: Vec<&str> = step.split(' ').collect();
    let numbers: Vec<u64> = words[1..].iter().map_while(|it| it.parse().ok()).collect();
    match words[0] {
        "case" => *world = None,
        "open" => match World::open(&numbers) {
            Ok(made) => *world = Some(made),
            Err(fault) => return status(&fault),
        },
        "load" => return loaded(world, text, &numbers),
        "damage" => damage(text),
        "numbers" => return line_of(&words[1..]),
        "parse" => {
            return text
                .parse::<Listing>()
                .expect_err("no list")
                .to_string()
                .split(':')
                .next()
                .expect("a line")
                .to_owned()
        }
        word => {
            return make_open(
                world.as_mut().expect("an open table"),
                word,
                step,
                (&words, &numbers),
                text,
            )
        }
    }
    String::new()
}

fn make_open(
    world: &mut World,
    word: &str,
    step: &str,
    (words, numbers): (&[&str], &[u64]),
    text: &str,
) -> String {
    match word {
        "seat" => world.at = numbers[0] as usize,
        "each" => {
            for number in numbers[0]..=numbers[1] {
                let answer = world.call(&words[3..].join(" ").replace('#', &number.to_string()));
                assert!(!answer.starts_with(char::is_uppercase), "{step}: {answer}");
            }
        }
        "json" => {
            world.call(&words[1..].join(" "));
            return world.told.to_json();
        }
        "told" => return world.call_told(&words[1..].join(" ")),
        "list" | "dump" | "opening" => assert_eq!(world.text(word), text),
        "reload" => world.reload(),
        "differs" | "stranger" => world.replay(Some((word, numbers[0] as usize))),
        "counts" | "worker" | "entry" | "read" | "checkpoint" | "checkpoint_at" => {
            return world.read(words)
        }
        _ => {
            let call = || step.replace("\\r", "\r").replace("\\0", "\0");
            return world
                .question(word, numbers)
                .unwrap_or_else(|| world.call(&call()));
        }
    }
    String::new()
}

fn end(world: &Option<World>) {
    if let Some(world) = world {
        if world.is_whole && world.recorded.counts().expect("counts").first_kept == 0 {
            world.replay(None);
        }
    }
}

#[test]
fn cases() {
    let top = Path::new(env!("CARGO_MANIFEST_DIR"));
    // The crate alone, as it is packed, has no cases.
    if !top.join("tests").is_dir() {
        return;
    }
    let mut made = 0;
    for file in fs::read_dir(top.join("../../interface/cases")).expect("the cases") {
        let path = file.expect("a file").path();
        if path.extension().map_or(true, |it| it != "cases") {
            continue;
        }
        let text = fs::read_to_string(&path).expect("cases");
        let mut lines = text
            .lines()
            .zip(1..)
            .filter(|(it, _)| !it.is_empty() && !it.starts_with('#'))
            .peekable();
        let mut world = None;
        while let Some((line, at)) = lines.next() {
            let (step, wanted) = line.split_once(" -> ").unwrap_or((line, ""));
            let mut below = String::new();
            while let Some((line, _)) = lines.next_if(|(it, _)| it.starts_with('\t')) {
                below += &(line[1..].replace("\\r", "\r") + "\n");
            }
            if line.starts_with("case ") || line.starts_with("open ") {
                end(&world);
            }
            assert_eq!(
                make(&mut world, step, &below),
                wanted,
                "{}:{at}: {line}",
                path.display()
            );
            made += 1;
        }
        end(&world);
    }
    assert!(made > 300, "{made}");
}
