//! What methods answer as JSON, tasks and namespaces. Replies are in interface/cases.
use pidtab::{Ended, Error, Reaped, Refusal, SpaceStat, Table};

#[test]
fn answers() {
    let table = Table::open(32768).expect("a table");
    let child = table.fork_new(1).expect("a child");
    assert_eq!(child.to_json(), r#"{"child":2,"root":2}"#);
    let ends = [(Ended::Exited(255), "255"), (Ended::Killed, "null")];
    for (ended, status) in ends {
        let told = Reaped { child: 3, ended }.to_json();
        assert_eq!(told, format!(r#"{{"child":3,"status":{status}}}"#));
    }
    let refused = table.getpid(9).expect_err("nobody").to_json();
    let wanted = r#"{"error":"ESRCH","word":"no-caller","id":null}"#;
    assert_eq!(refused.as_deref(), Some(wanted));
    let (errno, refusal) = (11, Refusal::NoNumber(u64::MAX));
    let wanted = r#"{"error":"EAGAIN","word":"no-number","id":18446744073709551615}"#;
    let refused = Error::Refused {
        errno,
        refusal,
        call: None,
    }
    .to_json();
    assert_eq!(refused.as_deref(), Some(wanted));
    assert_eq!(Error::NoMemory.to_json(), None);
}

#[test]
fn tasks() {
    let table = Table::open(32768).expect("a table");
    table.fork_new(1).expect("a child");
    let told = table.stat(1, 2).expect("a task").to_json();
    let wanted = r#"{"numbers":[2,1],"root":2,"parent":1,"group":1,"session":1,"space":1,"control":0,"state":"live","status":null,"executed":false,"subreaper":false}"#;
    assert_eq!(told, wanted);
    table.exec(2).expect("a program");
    table.subreaper(2, true).expect("a subreaper");
    table.exit(2, 7).expect("an end");
    let told = table.stat(1, 2).expect("a task").to_json();
    assert!(
        told.ends_with(r#""state":"exited","status":7,"executed":true,"subreaper":true}"#),
        "{told}"
    );
}

#[test]
fn namespaces() {
    let table = Table::open(32768).expect("a table");
    table.fork_new(1).expect("a child");
    table.exit(2, 0).expect("an end");
    for (id, wanted) in [
        (
            0,
            r#"{"id":0,"parent":null,"level":0,"init":1,"fallen":false}"#,
        ),
        (1, r#"{"id":1,"parent":0,"level":1,"init":2,"fallen":true}"#),
    ] {
        let space = table.space(id).expect("a read").expect("a namespace");
        assert_eq!(space.to_json(), wanted);
        let gone = SpaceStat {
            init: None,
            ..space
        };
        assert!(gone.to_json().contains(r#""init":null"#));
    }
}
