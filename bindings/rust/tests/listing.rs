//! Lists, read: each field, lists of the repository that say the same when they are written again, and texts that are no lists.
use pidtab::{Control, Ended, Listing, Space, Table, Task};
use std::fmt::Display;
use std::fs;
use std::path::Path;

/// All that a line of a list may say.
const WIDE: &str = "\
task 1 space 0 parent 0 group 1 session 1 control 0 live subreaper
task 2,1 space 4 parent 1 group 1 session 1 control 7 exit 255
task 3,2 space 4 parent 1 group 0 session 0 control 0 killed executed
task 5 space 0 parent 1 group 5 session 5 control 0 live executed children 4 subreaper
space 0 parent - cursor 10
space 4 parent 0 cursor 3 fallen
control 0 parent - limit max count 6
control 7 parent 0 limit 0 count 2
control 18446744073709551615 parent 7 limit 4194304 count 1
";

fn read(text: &str) -> Listing {
    text.parse().unwrap_or_else(|fault| panic!("{fault}"))
}

#[test]
fn json() {
    let bindings = Path::new(env!("CARGO_MANIFEST_DIR"))
        .parent()
        .expect("the folder of all packages");
    let text = |name| fs::read_to_string(bindings.join(name)).expect(name);
    assert_eq!(
        format!("{}\n", read(&text("example.list")).to_json()),
        text("example.json")
    );
}

#[test]
fn labels() {
    let listing = read(WIDE);
    assert_eq!(
        listing.clone().with_labels([(9, "nobody"), (2, "")]),
        listing
    );
    let named = listing.with_labels([(2, "nginx"), (5, "a \"\\\n\u{7}é")]);
    let labels: Vec<_> = named.tasks.iter().map(|it| it.label.as_deref()).collect();
    assert_eq!(labels, [None, Some("nginx"), None, Some("a \"\\\n\u{7}é")]);
    let json = named.to_json();
    assert!(
        json.contains(r#""subreaper":false,"label":"nginx"},{"#),
        "{json}"
    );
    assert!(
        json.contains(r#","label":"a \"\\\u000a\u0007é"}]"#),
        "{json}"
    );
    assert_eq!(json.matches("label").count(), 2);
}

/// The number, or the word for none.
fn or<T: Display>(number: Option<T>, none: &str) -> String {
    number.map_or_else(|| none.to_owned(), |it| it.to_string())
}

/// The line of a task by docs/SCRIPT.md, "The list".
fn say_task(task: &Task) -> String {
    let numbers: Vec<_> = task.numbers.iter().map(u32::to_string).collect();
    let (space, parent, group, session) = (task.space, task.parent, task.group, task.session);
    let end = match task.ended {
        None => "live".to_owned(),
        Some(Ended::Killed) => "killed".to_owned(),
        Some(Ended::Exited(status)) => format!("exit {status}"),
    };
    let mut line = format!(
        "task {} space {space} parent {parent} group {group} session {session}",
        numbers.join(",")
    );
    line += &format!(" control {} {end}", task.control);
    if task.executed {
        line += " executed";
    }
    if let Some(space) = task.children {
        line += &format!(" children {space}");
    }
    if task.subreaper {
        line += " subreaper";
    }
    line + "\n"
}

fn say_space(space: &Space) -> String {
    let fallen = if space.fallen { " fallen" } else { "" };
    format!(
        "space {} parent {} cursor {}{fallen}\n",
        space.id,
        or(space.parent, "-"),
        space.cursor
    )
}

fn say_control(control: &Control) -> String {
    let (parent, limit) = (or(control.parent, "-"), or(control.limit, "max"));
    format!(
        "control {} parent {parent} limit {limit} count {}\n",
        control.id, control.count
    )
}

fn say(listing: &Listing) -> String {
    let tasks = listing.tasks.iter().map(say_task);
    let spaces = listing.spaces.iter().map(say_space);
    tasks
        .chain(spaces)
        .chain(listing.controls.iter().map(say_control))
        .collect()
}

#[test]
fn lists_are_read_whole() {
    let folder = Path::new(env!("CARGO_MANIFEST_DIR")).join("../../examples");
    let mut texts = vec![WIDE.to_owned()];
    for entry in fs::read_dir(folder).expect("the examples") {
        let path = entry.expect("an entry").path();
        if path.extension().is_some_and(|it| it == "list") {
            texts.push(fs::read_to_string(path).expect("a list"));
        }
    }
    assert!(texts.len() > 5);
    for text in texts {
        assert_eq!(say(&read(&text)), text);
    }
}

#[test]
fn the_list_of_a_table() {
    let table = Table::open(32768).expect("a table");
    for line in [
        "fork 1 new",
        "fork 2",
        "mk 0",
        "limit 3 5",
        "move 3 3",
        "exec 3",
        "exit 2 7",
    ] {
        assert!(
            !table.line(line).expect("an answer").starts_with('E'),
            "{line}"
        );
    }
    let listing = table.listing().expect("a listing");
    assert_eq!(say(&listing), table.list().expect("a list"));
    assert_eq!(listing.tasks[1].ended, Some(Ended::Exited(7)));
    assert!(listing.spaces.iter().any(|it| it.fallen));
    assert_eq!(
        (listing.controls[1].id, listing.controls[1].limit),
        (3, Some(5))
    );
}

/// Each other text that is none is in interface/cases.
#[test]
fn what_is_no_list() {
    for (text, said) in [
        ("", "line 1: no list"),
        ("hello\n", "line 1: not a line of `pidtab list`"),
        (
            "space 0 parent - cursor 2\nspace 1",
            "line 2: cut off, without a newline",
        ),
    ] {
        let fault = text.parse::<Listing>().expect_err(text);
        assert_eq!(fault.to_string(), said);
    }
}
