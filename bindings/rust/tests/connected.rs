//! The table of a service by [`Connected`], beside one in this process. It needs the built service; without it each test says so, and passes.
use pidtab::{Call, Child, Connected, Ended, Error, Kind, Reaped, Reply, Table, Which};
use std::path::PathBuf;
use std::process::{self, Command};
use std::sync::atomic::{AtomicU32, Ordering};
use std::sync::Mutex;
use std::time::{Duration, Instant};
use std::{env, fs, thread};

/// A service in a folder of its own, which is ended when this is dropped.
struct Service {
    folder: PathBuf,
    process: process::Child,
}

static STARTED: AtomicU32 = AtomicU32::new(0);

impl Service {
    fn start(options: &[&str]) -> Option<Service> {
        let built = concat!(
            env!("CARGO_MANIFEST_DIR"),
            "/../../service/target/release/pidtabd"
        );
        let daemon = env::var("PIDTABD").unwrap_or(built.to_owned());
        if fs::metadata(&daemon).is_err() {
            println!("no service {daemon}: `make service` builds it");
            return None;
        }
        let number = STARTED.fetch_add(1, Ordering::SeqCst);
        let folder = env::temp_dir().join(format!("pidtab-connected-{}-{number}", process::id()));
        fs::create_dir(&folder).expect("a folder");
        let mut command = Command::new(daemon);
        command
            .args(options)
            .arg("--socket")
            .arg(folder.join("socket"));
        let process = command.spawn().expect("the service");
        Some(Service { folder, process })
    }

    fn address(&self) -> String {
        format!("unix:{}", self.folder.join("socket").display())
    }

    fn connect(&self) -> Connected {
        let end = Instant::now() + Duration::from_secs(10);
        loop {
            match Connected::connect(self.address()) {
                Ok(table) => return table,
                Err(fault) => assert!(Instant::now() < end, "{fault}"),
            }
            thread::sleep(Duration::from_millis(10));
        }
    }

    /// Has it stopped, or going on.
    fn signal(&self, name: &str) {
        let done = Command::new("kill")
            .args([name, &self.process.id().to_string()])
            .status();
        assert!(done.expect("kill").success());
    }
}

impl Drop for Service {
    fn drop(&mut self) {
        let _ = self.process.kill();
        let _ = self.process.wait();
        let _ = fs::remove_dir_all(&self.folder);
    }
}

/// Numbers that look random: those of xorshift64.
struct Dice(u64);

impl Dice {
    fn below(&mut self, most: u32) -> u32 {
        self.0 ^= self.0 << 13;
        self.0 ^= self.0 >> 7;
        self.0 ^= self.0 << 17;
        (self.0 % u64::from(most)) as u32
    }

    fn call(&mut self) -> Call {
        let (caller, number, id) = (self.below(20), self.below(20), u64::from(self.below(60)));
        match self.below(30) {
            0..=9 => Call::Fork {
                caller,
                new_space: self.below(3) == 0,
            },
            10 => Call::Getpid { caller },
            11 => Call::Nspid { caller, number },
            12 => Call::Exec { caller },
            13 => Call::Exit { caller, status: 7 },
            14 => self.wait(caller, number),
            15 => Call::Getppid { caller },
            16 => Call::Setpgid {
                caller,
                pid: number as i32,
                pgid: self.below(9) as i32 - 1,
            },
            17 => Call::Setsid { caller },
            18 => Call::Mk { parent: 0 },
            19 => Call::Rm { id },
            20 => Call::Limit {
                id,
                limit: Some(number).filter(|it| *it > 3),
            },
            21 => Call::Move { task: caller, id },
            22 => Call::Count { id },
            23 => Call::Getpgid {
                caller,
                pid: number,
            },
            24 => Call::Getsid {
                caller,
                pid: number,
            },
            25..=27 => self.next(caller, number),
            28 => Call::Join { caller, number },
            _ => Call::Subreaper {
                caller,
                on: self.below(2) == 0,
            },
        }
    }

    fn wait(&mut self, caller: u32, number: u32) -> Call {
        let all = [
            Which::Any,
            Which::Pid(number),
            Which::OwnGroup,
            Which::Group(number),
        ];
        Call::Wait {
            caller,
            which: all[self.below(4) as usize],
        }
    }

    fn next(&mut self, caller: u32, from: u32) -> Call {
        let kind = [Kind::Task, Kind::Group, Kind::Session][self.below(3) as usize];
        Call::Next { caller, kind, from }
    }
}

/// Each reply is that of the table in this process, and the list.
#[test]
fn random_calls() {
    let Some(service) = Service::start(&["--pid-max", "400"]) else {
        return;
    };
    let (mut table, mut dice) = (service.connect(), Dice(9));
    let beside = Table::open(400).expect("a table");
    let mut kinds = [0; 10];
    for turn in 0..6000u64 {
        let call = dice.call();
        let (told, wanted) = (table.call(call), beside.call(call));
        assert_eq!(told, wanted, "call {turn}: {}", call.line());
        kinds[place_of(&wanted.expect("a reply"))] += 1;
        assert!(turn % 1000 > 0 || table.list() == beside.list());
    }
    assert_eq!(table.listing(), beside.listing());
    assert_eq!(table.position(), Ok(6000));
    assert!(kinds.iter().all(|it| *it > 0), "{kinds:?}");
    let fault = table.getpid(399).expect_err("nobody");
    assert_eq!(fault.to_string(), "getpid 399: no-caller (errno 3)");
}

fn place_of(reply: &Reply) -> usize {
    match reply {
        Reply::Forked(_) => 0,
        Reply::Done => 1,
        Reply::Number(_) => 2,
        Reply::Levels(_) => 3,
        Reply::Reaped(_) => 4,
        Reply::NoneYet => 5,
        Reply::Counted(_) => 6,
        Reply::Control(_) => 7,
        Reply::End => 8,
        _ => 9,
    }
}

#[test]
fn leases_and_what_is_not_served() {
    let Some(one) = Service::start(&[]) else {
        return;
    };
    let (mut table, mut other) = (one.connect(), one.connect());
    assert_eq!(other.lease("rig", Duration::ZERO), Ok(()));
    assert_eq!(other.fork(1), Ok(Child { number: 2, root: 2 }));
    assert_eq!(other.lease("a b", Duration::ZERO), Err(Error::NotServed));
    assert_eq!(other.why(), "ERR syntax: LEASE NAME TTL");
    let too_long = other.lease("rig", Duration::from_secs(86_401));
    assert_eq!(
        too_long.expect_err("a fault").to_string(),
        "ttl is 86401000, and not 0 to 86400000"
    );
    assert_eq!(other.release("rig"), Ok(true));
    assert_eq!(other.release("rig"), Ok(false));
    drop(other);
    assert_eq!(table.getpid(2), Ok(2));
    let socket = one.folder.join("socket");
    let Some(two) = Service::start(&["--follow", socket.to_str().expect("a path")]) else {
        return;
    };
    let mut follower = two.connect();
    assert_eq!(follower.fork(1), Err(Error::NotServed));
    assert!(
        follower.why().starts_with("READONLY this follows "),
        "{}",
        follower.why()
    );
    assert_eq!(Error::NotServed.raw_os_error(), None);
}

/// The namespace of a child falls, whose parent is outside of it.
#[test]
fn a_killed_child() {
    let Some(service) = Service::start(&[]) else {
        return;
    };
    let mut table = service.connect();
    assert_eq!(table.fork(1), Ok(Child { number: 2, root: 2 }));
    assert_eq!(table.fork_new(1), Ok(Child { number: 3, root: 3 }));
    assert_eq!(
        (table.join(2, 3), table.wait(2, Which::Any).is_err()),
        (Ok(()), true)
    );
    assert_eq!(table.fork(2), Ok(Child { number: 4, root: 4 }));
    assert_eq!(
        (table.wait(2, Which::Any), table.exit(3, 0)),
        (Ok(None), Ok(()))
    );
    let killed = Reaped {
        child: 4,
        ended: Ended::Killed,
    };
    assert_eq!(table.wait(2, Which::Any), Ok(Some(killed)));
}

/// Each has the answers to its own calls.
#[test]
fn threads_that_share_one() {
    let Some(service) = Service::start(&[]) else {
        return;
    };
    let table = Mutex::new(service.connect());
    let lock = || table.lock().expect("no panic");
    thread::scope(|scope| {
        for _ in 0..8 {
            scope.spawn(|| {
                for _ in 0..100 {
                    let child = lock().fork(1).expect("a child");
                    assert_eq!(lock().getpid(child.root), Ok(child.root));
                }
            });
        }
    });
    assert_eq!(lock().count(0), Ok(801));
}

/// A late answer is never that of the next request.
#[test]
fn a_peer_that_is_silent() {
    let Some(service) = Service::start(&[]) else {
        return;
    };
    let (mut table, mut other) = (service.connect(), service.connect());
    assert!(table.set_timeout(Some(Duration::ZERO)).is_err());
    table
        .set_timeout(Some(Duration::from_millis(200)))
        .expect("a timeout");
    service.signal("-STOP");
    assert_eq!(table.fork(1), Err(Error::Disconnected));
    service.signal("-CONT");
    assert_eq!(table.getpid(1), Err(Error::Disconnected));
    assert!(!table.why().is_empty());
    // The daemon reads what was sent before that it was closed.
    while other.position() == Ok(0) {
        thread::sleep(Duration::from_millis(10));
    }
    assert_eq!(other.position(), Ok(1));
}

#[test]
fn a_peer_that_dies() {
    let Some(mut service) = Service::start(&[]) else {
        return;
    };
    let mut table = service.connect();
    service.signal("-STOP");
    thread::scope(|scope| {
        let told = scope.spawn(|| (table.fork(1), table.getpid(1)));
        thread::sleep(Duration::from_millis(100));
        service.process.kill().expect("it is there");
        let wanted = (Err(Error::Disconnected), Err(Error::Disconnected));
        assert_eq!(told.join().expect("no panic"), wanted);
    });
    assert!(!table.why().is_empty());
    assert!(Connected::connect(service.address()).is_err());
    assert!(Connected::connect(service.folder.join("none")).is_err());
}
