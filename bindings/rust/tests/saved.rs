//! A saved history: its bytes are those of docs/SAVED.md, it loads as what was saved, and what is wrong with it is said with its place. The
//! writers and readers are short, interrupted, and fail after each byte.
use pidtab::{Entry, Error, Keep, Options, Saved, SavedError, SavedFault, Seat, Table};
use std::fs::{self, File, OpenOptions};
use std::io::{self, Read, Seek, SeekFrom, Write};
use std::net::Shutdown;
use std::os::unix::net::UnixStream;
use std::path::{Path, PathBuf};
use std::process::{Command, Stdio};
use std::sync::atomic::{AtomicU32, Ordering};
use std::sync::{mpsc, Mutex};
use std::time::Duration;
use std::{env, thread};

const BLOCK: usize = 48;

/// A task in six namespaces, and one in seventeen: its `nspid` has one block more, and two.
const DEEP: u32 = 17;

/// The CRC-64/XZ, a bit at a time, by the polynomial of docs/SAVED.md with its bits reflected.
fn crc(bytes: &[u8]) -> u64 {
    let mut sum = u64::MAX;
    for byte in bytes {
        sum ^= u64::from(*byte);
        for _ in 0..8 {
            sum = sum >> 1
                ^ if sum & 1 == 1 {
                    0xc96c_5795_d787_0f42
                } else {
                    0
                };
        }
    }
    !sum
}

/// The same blocks with the checksums that belong there.
fn seal(mut blocks: Vec<u8>) -> Vec<u8> {
    let mut summed = Vec::new();
    for block in blocks.chunks_mut(BLOCK) {
        summed.extend_from_slice(&block[..40]);
        block[40..].copy_from_slice(&crc(&summed).to_le_bytes());
    }
    blocks
}

/// The example of docs/SAVED.md with other bytes at a place, and the checksums of these.
fn changed(at: usize, put: &[u8]) -> Vec<u8> {
    let mut bytes = page_bytes();
    bytes[at..at + put.len()].copy_from_slice(put);
    seal(bytes)
}

fn read_page(name: &str) -> String {
    let path = Path::new(env!("CARGO_MANIFEST_DIR"))
        .join("../..")
        .join(name);
    fs::read_to_string(path).expect("a page")
}

/// What stands between a mark and another.
fn between<'a>(text: &'a str, mark: &str, end: &str) -> &'a str {
    let (_, behind) = text.split_once(mark).expect(mark);
    behind.split_once(end).expect(end).0
}

/// The bytes of the example of docs/SAVED.md.
fn page_bytes() -> Vec<u8> {
    let page = read_page("docs/SAVED.md");
    let words = between(&page, "```hex\n", "```").split_whitespace();
    words
        .map(|it| u8::from_str_radix(it, 16).expect("a byte"))
        .collect()
}

fn options(workers: u32) -> Options {
    Table::options().keep(Keep::All).workers(workers).threads()
}

fn open(workers: u32) -> Table {
    options(workers).open().expect("a table")
}

fn ask(seat: &mut Seat<&Table>, lines: &[&str]) {
    for line in lines {
        seat.line(line).expect("an answer");
    }
}

/// A table with the calls of the example.
fn example() -> Table {
    let table = open(2);
    ask(&mut table.seat().expect("a seat"), &["fork 1 new"]);
    let lines = ["nspid 1 2", "setpgid 1 0 -1"];
    ask(&mut table.seat().expect("a seat"), &lines);
    table
}

/// Calls of each kind, good and refused; with replies of one block to three, where a task is in seventeen namespaces.
const LINES: [&str; 33] = [
    "nspid 1 17",
    "nspid 1 6",
    "exec 2",
    "setsid 3",
    "setpgid 3 0 -1",
    "setpgid 1 0 0",
    "mk 0",
    "mk 17",
    "limit 17 5",
    "limit 17 max",
    "move 4 17",
    "count 17",
    "count 99",
    "getpid 9",
    "getpid 99",
    "getppid 2",
    "getpgid 1 0",
    "getsid 1 0",
    "next 1 task 2",
    "next 1 group 999",
    "join 1 2",
    "subreaper 1 on",
    "subreaper 1 off",
    "exit 17 7",
    "wait 16 any",
    "wait 1 any",
    "exit 5 0",
    "wait 4 own",
    "wait 4 pid 9",
    "wait 1 group 7",
    "rm 17",
    "fork 1",
    "nspid 1 1",
];

/// A table with calls of each kind, of two workers, and their bytes.
fn whole() -> (Table, Vec<u8>) {
    let table = open(2);
    let mut seat = table.seat().expect("a seat");
    for number in 1..DEEP {
        seat.fork_new(number).expect("a child");
    }
    ask(&mut table.seat().expect("a seat"), &LINES);
    let bytes = bytes_of(&table);
    (table, bytes)
}

fn save(table: &Table, saved: &mut Saved, to: impl Write) {
    table.save(saved, to).expect("a save");
}

/// What a new save writes.
fn bytes_of(table: &Table) -> Vec<u8> {
    let mut bytes = Vec::new();
    save(table, &mut Saved::new(), &mut bytes);
    bytes
}

fn load(bytes: &[u8]) -> (Table, Saved) {
    options(1).load(bytes).expect("a table")
}

/// Why the bytes do not load.
fn fault_of(bytes: &[u8]) -> SavedError {
    options(1).load(bytes).map(|_| ()).expect_err("a fault")
}

fn entries(table: &Table) -> Vec<Entry> {
    table.entries(0, usize::MAX).expect("entries")
}

fn same(one: &Table, other: &Table) {
    assert_eq!(entries(one), entries(other));
    assert_eq!(one.list(), other.list());
    for worker in 0..one.workers() {
        assert_eq!(one.worker(worker), other.worker(worker));
    }
}

/// Where each entry begins, and at last the end, by docs/SAVED.md: by the kind of its reply and the count of its levels.
fn places(bytes: &[u8]) -> Vec<usize> {
    let mut places = vec![BLOCK];
    while let Some(&at) = places.last().filter(|it| **it < bytes.len()) {
        let levels = if bytes[at + 3] == 3 { bytes[at + 6] } else { 0 };
        let blocks = match levels {
            0..=4 => 1,
            5..=14 => 2,
            15..=24 => 3,
            _ => 4,
        };
        places.push(at + blocks * BLOCK);
    }
    places
}

fn facts(saved: &Saved) -> (u64, u64, u64) {
    (saved.calls(), saved.bytes(), saved.left_out())
}

/// A file of this test, which is removed after it.
struct Kept {
    path: PathBuf,
}

impl Kept {
    fn new(bytes: &[u8]) -> Kept {
        static NEXT: AtomicU32 = AtomicU32::new(0);
        let number = NEXT.fetch_add(1, Ordering::Relaxed);
        let path = env::temp_dir().join(format!("pidtab {} {number}", std::process::id()));
        fs::write(&path, bytes).expect("a file");
        Kept { path }
    }

    fn open(&self) -> File {
        let mut options = OpenOptions::new();
        options
            .read(true)
            .write(true)
            .open(&self.path)
            .expect("a file")
    }

    fn bytes(&self) -> Vec<u8> {
        fs::read(&self.path).expect("a file")
    }
}

impl Drop for Kept {
    fn drop(&mut self) {
        let _ = fs::remove_file(&self.path);
    }
}

#[test]
fn the_example_is_written_and_read() {
    assert_eq!(crc(b"123456789"), 0x995d_c9bb_df19_39fa);
    assert_eq!(seal(page_bytes()), page_bytes());
    let table = example();
    let mut saved = Saved::new();
    assert_eq!(facts(&saved), (0, 0, 0));
    let mut bytes = Vec::new();
    save(&table, &mut saved, &mut bytes);
    assert_eq!((facts(&saved), bytes), ((3, 192, 0), page_bytes()));
    let (again, loaded) = load(&page_bytes());
    assert_eq!(facts(&loaded), (3, 192, 0));
    assert_eq!(
        (again.pid_max(), again.workers(), again.first_stamp()),
        (32768, 2, 1)
    );
    assert_eq!(again.seat().expect("a seat").worker(), 0);
    same(&again, &table);
}

#[test]
fn calls_of_each_kind() {
    let (table, bytes) = whole();
    assert_eq!(seal(bytes.clone()), bytes);
    let ends = places(&bytes);
    let sizes: Vec<_> = ends.windows(2).map(|it| (it[1] - it[0]) / BLOCK).collect();
    assert!(
        sizes.contains(&1) && sizes.contains(&2) && sizes.contains(&3),
        "{sizes:?}"
    );
    let (again, saved) = load(&bytes);
    assert_eq!(
        facts(&saved),
        (ends.len() as u64 - 1, bytes.len() as u64, 0)
    );
    same(&again, &table);
}

/// An append is what one save writes, and a loaded table goes on as the saved one.
#[test]
fn what_goes_on_is_what_one_table_saves() {
    let (table, bytes) = whole();
    let (one, mut saved, mut file) = (open(2), Saved::new(), Vec::new());
    let (mut seat, mut other) = (one.seat().expect("a seat"), one.seat().expect("a seat"));
    for number in 1..DEEP {
        seat.fork_new(number).expect("a child");
        save(&one, &mut saved, &mut file);
        save(&one, &mut saved, &mut file);
    }
    ask(&mut other, &LINES[..5]);
    save(&one, &mut saved, &mut file);
    let (again, mut loaded) = load(&file);
    let _ = again.seat();
    ask(&mut again.seat().expect("a seat"), &LINES[5..]);
    save(&again, &mut loaded, &mut file);
    assert_eq!(file, bytes);
    same(&again, &table);
}

#[test]
fn cut_at_each_byte() {
    let (table, bytes) = whole();
    let (ends, all) = (places(&bytes), entries(&table));
    for length in 0..bytes.len() {
        if length < BLOCK {
            let fault = fault_of(&bytes[..length]);
            assert!(matches!(fault.fault, SavedFault::Torn), "{fault}");
            assert_eq!((fault.calls, fault.bytes), (0, 0));
            continue;
        }
        let calls = ends.iter().filter(|it| **it <= length).count() - 1;
        let (again, mut saved) = load(&bytes[..length]);
        let left_out = length - ends[calls];
        assert_eq!(
            facts(&saved),
            (calls as u64, ends[calls] as u64, left_out as u64)
        );
        assert_eq!(entries(&again), all[..calls]);
        let more = again.save(&mut saved, &mut Vec::new());
        assert_eq!(more.is_err(), left_out != 0);
    }
}

#[test]
fn a_file_that_is_cut_at_each_byte_goes_on() {
    let (table, bytes) = whole();
    let (ends, kept) = (places(&bytes), Kept::new(&[]));
    for length in (0..bytes.len()).step_by(7) {
        fs::write(&kept.path, &bytes[..length]).expect("a file");
        let file = kept.open();
        let (again, mut saved) = options(2).resume(&file).expect("a table");
        let calls = ends
            .iter()
            .filter(|it| **it <= length)
            .count()
            .saturating_sub(1);
        let whole = if length < BLOCK { 0 } else { ends[calls] };
        assert_eq!(
            facts(&saved),
            (
                calls as u64,
                whole.max(BLOCK) as u64,
                (length - whole) as u64
            )
        );
        assert_eq!(kept.bytes(), &bytes[..whole.max(BLOCK)]);
        make_again(&again, &entries(&table)[calls..]);
        save(&again, &mut saved, &file);
        assert_eq!(kept.bytes(), bytes);
    }
}

fn make_again(table: &Table, entries: &[Entry]) {
    let mut seats = [table.seat().expect("a seat"), table.seat().expect("a seat")];
    for entry in entries {
        let _ = seats[entry.worker as usize].call(entry.call);
    }
}

#[test]
fn zeroes_at_the_end() {
    let (_, bytes) = whole();
    for zeroes in [1, 47, 48, 49, 4096, 100_000] {
        let mut longer = bytes.clone();
        longer.resize(bytes.len() + zeroes, 0);
        assert_eq!(load(&longer).1.left_out(), zeroes as u64);
        let kept = Kept::new(&longer);
        options(2).resume(&kept.open()).expect("a table");
        assert_eq!(kept.bytes(), bytes);
        if zeroes > 48 {
            longer.push(1);
            let fault = fault_of(&longer);
            assert!(matches!(fault.fault, SavedFault::WrongByte), "{fault}");
            assert_eq!(fault.bytes, bytes.len() as u64);
        }
    }
}

#[test]
fn changed_at_each_byte() {
    let (_, bytes) = whole();
    let ends = places(&bytes);
    for at in 0..bytes.len() {
        let mut wrong = bytes.clone();
        wrong[at] ^= 1 << (at % 8);
        let fault = fault_of(&wrong);
        let calls = ends
            .iter()
            .filter(|it| **it <= at)
            .count()
            .saturating_sub(1);
        let place = if at < BLOCK { 0 } else { ends[calls] };
        assert_eq!((fault.calls, fault.bytes), (calls as u64, place as u64));
        match at {
            0..=7 => assert!(matches!(fault.fault, SavedFault::NotSaved)),
            8..=11 => assert!(matches!(fault.fault, SavedFault::OtherVersion)),
            _ => assert!(matches!(fault.fault, SavedFault::WrongByte)),
        }
    }
}

#[test]
fn an_entry_that_is_dropped_doubled_or_moved() {
    let bytes = page_bytes();
    let blocks: Vec<_> = bytes.chunks(BLOCK).collect();
    for (order, calls) in [
        (vec![0, 2, 3], 0),
        (vec![0, 1, 3], 1),
        (vec![0, 1, 1, 2, 3], 1),
        (vec![0, 1, 3, 2], 1),
    ] {
        let moved: Vec<_> = order.iter().map(|it| blocks[*it]).collect();
        let fault = fault_of(&moved.concat());
        assert!(matches!(fault.fault, SavedFault::WrongByte), "{fault}");
        assert_eq!((fault.calls, fault.bytes), (calls, 48 * (1 + calls)));
    }
}

/// The bytes are refused at the call, with these words.
fn refused(bytes: &[u8], calls: u64, words: &str) {
    let fault = fault_of(bytes);
    assert_eq!((fault.calls, fault.bytes), (calls, 48 * (1 + calls)));
    let wanted = format!("call {calls}, saved at byte {}: {words}", fault.bytes);
    assert!(fault.to_string().starts_with(&wanted), "{fault}");
}

#[test]
fn entries_that_no_table_has() {
    for (at, put, calls) in [(72, 3, 0), (124, 2, 1), (149, 5, 2)] {
        refused(&changed(at, &[put]), calls, "a reply is not the saved one");
    }
    // No operation, no worker; and more levels than any task has, which would be after the end.
    refused(&changed(96, &[19]), 1, "out of range");
    refused(&changed(98, &[2]), 1, "out of range");
    for levels in [34, 255] {
        refused(&changed(102, &[levels]), 1, "a byte is not the one");
    }
    // The second call would have the stamp 2^64 - 1.
    refused(&changed(16, &(u64::MAX - 1).to_le_bytes()), 1, "spent");
}

#[test]
fn heads_of_no_table() {
    let settings: [(usize, &[u8]); 5] = [
        (12, &[44, 1, 0, 0]),
        (12, &[1, 0, 64, 0]),
        (16, &[0; 8]),
        (24, &[0]),
        (24, &[17]),
    ];
    for (at, put) in settings {
        let fault = fault_of(&changed(at, put));
        assert!(matches!(fault.fault, SavedFault::Settings), "{fault}");
        assert_eq!(
            fault.to_string(),
            "head: no table has the settings of the head"
        );
    }
    for bytes in [&b"fork 1\n"[..], b"\0", &[0; 100], &page_bytes()[1..]] {
        let fault = fault_of(bytes);
        assert!(matches!(fault.fault, SavedFault::NotSaved), "{fault}");
    }
    assert_eq!(
        io::Error::from(fault_of(b"")).kind(),
        io::ErrorKind::UnexpectedEof
    );
    assert_eq!(
        io::Error::from(fault_of(b"x")).kind(),
        io::ErrorKind::InvalidData
    );
}

#[test]
fn entries_that_are_cut_as_they_load() {
    let table = open(1);
    let mut seat = table.seat().expect("a seat");
    ask(&mut seat, &["fork 1"; 100]);
    let bytes = bytes_of(&table);
    let (again, mut saved) = options(1).keep(10).load(&bytes[..]).expect("a table");
    let counts = again.counts().expect("counts");
    assert_eq!((counts.first_kept, counts.recorded), (90, 100));
    ask(&mut again.seat().expect("a seat"), &["fork 1"; 20]);
    ask(&mut seat, &["fork 1"; 20]);
    assert_eq!(again.counts().expect("counts").first_kept, 90);
    let mut more = Vec::new();
    save(&again, &mut saved, &mut more);
    assert_eq!([bytes, more].concat(), bytes_of(&table));
}

/// A device: it moves a byte at a time, each second try is interrupted, and after so many bytes it fails.
struct Device<T> {
    of: T,
    left: usize,
    tries: u32,
}

impl<T> Device<T> {
    fn new(of: T, left: usize) -> Device<T> {
        Device { of, left, tries: 0 }
    }

    fn moves_one(&mut self) -> io::Result<()> {
        self.tries += 1;
        if self.tries % 2 == 1 {
            return Err(io::ErrorKind::Interrupted.into());
        }
        if self.left == 0 {
            return Err(io::ErrorKind::TimedOut.into());
        }
        self.left -= 1;
        Ok(())
    }
}

impl<T: Write> Write for Device<T> {
    fn write(&mut self, bytes: &[u8]) -> io::Result<usize> {
        self.moves_one()?;
        self.of.write(&bytes[..1])
    }

    fn flush(&mut self) -> io::Result<()> {
        self.of.flush()
    }
}

impl<T: Read> Read for Device<T> {
    fn read(&mut self, bytes: &mut [u8]) -> io::Result<usize> {
        self.moves_one()?;
        self.of.read(&mut bytes[..1])
    }
}

fn is_of_the_device(fault: &SavedError) -> bool {
    matches!(&fault.fault, SavedFault::Io(it) if it.kind() == io::ErrorKind::TimedOut)
}

/// After a write that failed at each byte, the next save goes on with the same byte, also where calls came between.
#[test]
fn a_writer_that_fails_after_each_byte() {
    let (table, bytes) = whole();
    let places = places(&bytes);
    for length in 0..bytes.len() {
        let (mut file, mut saved) = (Vec::new(), Saved::new());
        let failed = table.save(&mut saved, Device::new(&mut file, length));
        let failed = failed.expect_err("a fault");
        assert!(is_of_the_device(&failed) && failed.bytes == saved.bytes());
        assert_eq!(file, &bytes[..length]);
        let whole = places.iter().filter(|it| **it <= length).count();
        assert_eq!(saved.calls() as usize, whole.saturating_sub(1));
        save(&table, &mut saved, Device::new(&mut file, usize::MAX));
        assert!(file == bytes && facts(&saved).1 == bytes.len() as u64);
    }
}

#[test]
fn a_writer_that_fails_amid_calls() {
    let table = open(1);
    let mut seat = table.seat().expect("a seat");
    let (mut file, mut saved) = (Vec::new(), Saved::new());
    for length in 0..200 {
        ask(&mut seat, &["fork 1", "nspid 1 1", "getpid 1"]);
        let _ = table.save(&mut saved, Device::new(&mut file, length % 11 * 13));
    }
    save(&table, &mut saved, &mut file);
    assert_eq!((file, saved.calls()), (bytes_of(&table), 600));
}

/// A writer that takes nothing is a fault, and no loop.
#[test]
fn a_writer_that_takes_nothing() {
    let mut room = [0; 100];
    let table = example();
    let failed = table
        .save(&mut Saved::new(), &mut room[..])
        .expect_err("a fault");
    assert!(matches!(&failed.fault, SavedFault::Io(it) if it.kind() == io::ErrorKind::WriteZero));
    assert_eq!(room[..], page_bytes()[..100]);
    assert_eq!(io::Error::from(failed).kind(), io::ErrorKind::WriteZero);
}

#[test]
fn a_reader_that_fails_after_each_byte() {
    let (table, bytes) = whole();
    for left in 0..bytes.len() {
        let failed = options(1).load(Device::new(&bytes[..], left)).map(|_| ());
        assert!(is_of_the_device(&failed.expect_err("a fault")));
    }
    let (again, _) = options(1)
        .load(Device::new(&bytes[..], usize::MAX))
        .expect("a table");
    same(&again, &table);
}

#[test]
fn what_is_saved_of_another_table() {
    let (one, other) = (example(), example());
    let (mut saved, mut bytes) = (Saved::new(), Vec::new());
    save(&one, &mut saved, &mut bytes);
    let failed = other.save(&mut saved, &mut bytes).expect_err("a fault");
    assert!(matches!(failed.fault, SavedFault::OtherTable));
    assert_eq!(bytes, page_bytes());
}

#[test]
fn calls_that_were_cut_away() {
    let table = example();
    let (mut saved, mut bytes) = (Saved::new(), Vec::new());
    save(&table, &mut saved, &mut bytes);
    table.checkpoint_at(saved.calls()).expect("a cut");
    save(&table, &mut saved, &mut bytes);
    assert_eq!(bytes, page_bytes());
    let mut none = Vec::new();
    let failed = table
        .save(&mut Saved::new(), &mut none)
        .expect_err("a fault");
    assert!(matches!(failed.fault, SavedFault::Table(Error::NotKept)) && none.is_empty());
}

#[test]
fn a_torn_end_that_is_not_trimmed() {
    let kept = Kept::new(&[&page_bytes()[..], b"torn"].concat());
    let mut file = kept.open();
    let (table, mut saved) = options(1).load(&file).expect("a table");
    ask(&mut table.seat().expect("a seat"), &["getpid 1"]);
    let failed = table.save(&mut saved, &file).expect_err("a fault");
    assert!(matches!(failed.fault, SavedFault::Torn) && saved.left_out() == 4);
    file.seek(SeekFrom::Start(0)).expect("a place");
    saved.trim(&file).expect("a cut");
    save(&table, &mut saved, &file);
    assert_eq!(kept.bytes(), bytes_of(&table));
}

#[test]
fn files_that_are_begun() {
    let kept = Kept::new(&[]);
    let fresh = options(3).pid_max(400).first_stamp(9).keep(1);
    let (table, mut saved) = fresh.resume(&kept.open()).expect("a table");
    assert_eq!(facts(&saved), (0, 48, 0));
    let mut file = kept.open();
    file.seek(SeekFrom::End(0)).expect("a place");
    assert_eq!(table.seat().expect("a seat").mk(0), Ok(9));
    save(&table, &mut saved, &file);
    // The settings of the file are its own.
    let (again, saved) = options(2).resume(&kept.open()).expect("a table");
    assert_eq!(
        (again.pid_max(), again.workers(), again.first_stamp()),
        (400, 3, 9)
    );
    assert_eq!(facts(&saved), (1, 96, 0));
    for outside in [options(1).pid_max(300), options(17)] {
        let empty = Kept::new(b"\x89pid");
        let failed = outside
            .resume(&empty.open())
            .map(|_| ())
            .expect_err("a fault");
        assert!(matches!(
            failed.fault,
            SavedFault::Table(Error::Argument(_))
        ));
        assert_eq!(empty.bytes(), b"\x89pid");
    }
}

#[test]
fn what_is_no_file() {
    let folder = File::open(env::temp_dir()).expect("a folder");
    let device = |failed: SavedError| matches!(failed.fault, SavedFault::Io(_));
    assert!(options(1).load(&folder).map(|_| ()).is_err_and(device));
    let resumed = options(2).resume(&folder);
    assert!(resumed.map(|_| ()).is_err_and(device));
    let full = File::options()
        .write(true)
        .open("/dev/full")
        .expect("a device");
    let failed = example()
        .save(&mut Saved::new(), &full)
        .expect_err("a fault");
    assert_eq!(io::Error::from(failed).raw_os_error(), Some(28));
    // What cannot be written is not begun, and not cut.
    for bytes in [&[][..], &page_bytes()[..100]] {
        let kept = Kept::new(bytes);
        let file = File::open(&kept.path).expect("a file");
        let resumed = options(2).resume(&file);
        assert!(resumed.map(|_| ()).is_err_and(device));
        assert_eq!(kept.bytes(), bytes);
    }
}

#[test]
fn a_file_that_does_not_load_stays_as_it_is() {
    for bytes in [
        changed(72, &[3]),
        b"fork 1\n".to_vec(),
        [page_bytes(), vec![1; 48]].concat(),
    ] {
        let kept = Kept::new(&bytes);
        assert!(options(2).resume(&kept.open()).is_err());
        assert_eq!(kept.bytes(), bytes);
    }
}

/// A writer that waits until a call of another thread is answered: a save that is slow stops nobody.
struct Slow<'a> {
    asked: mpsc::Sender<()>,
    answered: &'a mpsc::Receiver<()>,
    bytes: Vec<u8>,
}

impl Write for Slow<'_> {
    fn write(&mut self, bytes: &[u8]) -> io::Result<usize> {
        self.asked.send(()).expect("a worker");
        self.answered.recv().expect("an answer");
        self.bytes.write(bytes)
    }

    fn flush(&mut self) -> io::Result<()> {
        Ok(())
    }
}

#[test]
fn a_slow_writer_stops_nobody() {
    let table = example();
    let ((asked, asks), (answers, answered)) = (mpsc::channel(), mpsc::channel());
    thread::scope(|scope| {
        scope.spawn(|| {
            for () in asks {
                table.counts().expect("counts");
                answers.send(()).expect("a writer");
            }
        });
        let mut slow = Slow {
            asked,
            answered: &answered,
            bytes: Vec::new(),
        };
        save(&table, &mut Saved::new(), &mut slow);
        assert_eq!(slow.bytes, page_bytes());
    });
}

/// Each save amid the calls of others is a history of one moment, and at last it is that of the table.
#[test]
fn saves_amid_calls() {
    let table = open(8);
    let file = Mutex::new((Saved::new(), Vec::new()));
    thread::scope(|scope| {
        for _ in 0..8 {
            scope.spawn(|| {
                let mut seat = table.seat().expect("a seat");
                ask(&mut seat, &["fork 1", "getpid 1", "nspid 1 1"].repeat(300));
            });
        }
        for _ in 0..2 {
            scope.spawn(|| {
                for _ in 0..50 {
                    let mut file = file.lock().expect("no panic");
                    let (saved, bytes) = &mut *file;
                    save(&table, saved, &mut *bytes);
                    assert_eq!(saved.bytes(), bytes.len() as u64);
                    drop(file);
                    let alone = bytes_of(&table);
                    assert_eq!(load(&alone).1.left_out(), 0);
                }
            });
        }
    });
    let (mut saved, mut bytes) = file.into_inner().expect("no panic");
    save(&table, &mut saved, &mut bytes);
    assert_eq!((saved.calls(), &bytes), (7200, &bytes_of(&table)));
    same(&load(&bytes).0, &table);
}

/// Of the C library.
mod c {
    pub const SIGUSR1: i32 = 10;

    extern "C" {
        pub fn fork() -> i32;
        pub fn waitpid(child: i32, status: *mut i32, options: i32) -> i32;
        pub fn _exit(status: i32) -> !;
        pub fn signal(number: i32, handler: extern "C" fn(i32)) -> usize;
        pub fn siginterrupt(number: i32, interrupts: i32) -> i32;
        pub fn pthread_self() -> usize;
        pub fn pthread_kill(thread: usize, number: i32) -> i32;
    }
}

/// A forked process has a copy of the table, and goes on with it as the other one does: what each saves is its own history.
#[test]
fn a_forked_process_saves_its_copy() {
    let table = open(2);
    ask(&mut table.seat().expect("a seat"), &["fork 1 new"]);
    let (mut saved, mut bytes) = (Saved::new(), Vec::new());
    save(&table, &mut saved, &mut bytes);
    let copy = Kept::new(&bytes);
    let mut file = copy.open();
    file.seek(SeekFrom::End(0)).expect("the end");
    // Safety: no other thread of these tests uses the table or the file, and the child ends before it returns.
    let child = unsafe { c::fork() };
    assert!(child >= 0);
    if child == 0 {
        let made = table.seat().map(|mut seat| seat.line("fork 2").is_ok());
        let done = made == Ok(true) && table.save(&mut saved, &mut file).is_ok();
        unsafe { c::_exit(i32::from(!done)) }
    }
    let mut status = -1;
    assert_eq!(unsafe { c::waitpid(child, &mut status, 0) }, child);
    assert_eq!(status, 0);
    ask(&mut table.seat().expect("a seat"), &["getpid 2"]);
    save(&table, &mut saved, &mut bytes);
    assert_eq!(bytes, bytes_of(&table));
    let twin = open(2);
    ask(&mut twin.seat().expect("a seat"), &["fork 1 new"]);
    ask(&mut twin.seat().expect("a seat"), &["fork 2"]);
    assert_eq!(copy.bytes(), bytes_of(&twin));
}

static SIGNALS: AtomicU32 = AtomicU32::new(0);

extern "C" fn count_signal(_number: i32) {
    SIGNALS.fetch_add(1, Ordering::Relaxed);
}

/// A device whose interrupted writes are counted.
struct Counted<'a> {
    to: &'a UnixStream,
    interrupted: &'a AtomicU32,
}

impl Write for Counted<'_> {
    fn write(&mut self, bytes: &[u8]) -> io::Result<usize> {
        let done = self.to.write(bytes);
        if matches!(&done, Err(fault) if fault.kind() == io::ErrorKind::Interrupted) {
            self.interrupted.fetch_add(1, Ordering::Relaxed);
        }
        done
    }

    fn flush(&mut self) -> io::Result<()> {
        Ok(())
    }
}

/// Signals interrupt the writes to a device that takes no more, twenty of them at least, and nothing is lost or doubled.
#[test]
fn signals_amid_a_write() {
    let table = open(1);
    ask(&mut table.seat().expect("a seat"), &["getpid 1"; 8000]);
    let (near, mut far) = UnixStream::pair().expect("two ends");
    let interrupted = AtomicU32::new(0);
    let ((name, names), (end, ends)) = (mpsc::channel(), mpsc::channel::<()>());
    unsafe {
        c::signal(c::SIGUSR1, count_signal);
        c::siginterrupt(c::SIGUSR1, 1);
    }
    let mut bytes = Vec::new();
    thread::scope(|scope| {
        let (table, interrupted) = (&table, &interrupted);
        let saver = scope.spawn(move || {
            name.send(unsafe { c::pthread_self() }).expect("a reader");
            let to = Counted {
                to: &near,
                interrupted,
            };
            save(table, &mut Saved::new(), to);
            near.shutdown(Shutdown::Both).expect("an end");
            // A signal to a thread that has ended would be no signal.
            let _ = ends.recv();
        });
        let writer = names.recv().expect("a writer");
        while interrupted.load(Ordering::Relaxed) < 20 && !saver.is_finished() {
            unsafe { c::pthread_kill(writer, c::SIGUSR1) };
            thread::sleep(Duration::from_millis(1));
        }
        far.read_to_end(&mut bytes).expect("the history");
        drop(end);
    });
    assert!(SIGNALS.load(Ordering::Relaxed) >= 20);
    assert_eq!(bytes, bytes_of(&table));
}

/// The folder of the library of these tests, and the repository.
fn folders() -> (PathBuf, PathBuf) {
    let here = Path::new(env!("CARGO_MANIFEST_DIR"));
    let named = env::var_os("PIDTAB_LIB_DIR").filter(|it| !it.is_empty());
    (
        here.join(named.unwrap_or("../../out".into())),
        here.join("../.."),
    )
}

/// What a command writes where it is given the bytes; none where it is not there.
fn run(command: &mut Command, bytes: &[u8]) -> Option<Vec<u8>> {
    let child = command.stdin(Stdio::piped()).stdout(Stdio::piped()).spawn();
    let Ok(mut child) = child else {
        eprintln!("skipped: no {:?}", command.get_program());
        return None;
    };
    let mut input = child.stdin.take().expect("a pipe");
    input.write_all(bytes).expect("a pipe");
    drop(input);
    let done = child.wait_with_output().expect("an end");
    assert!(done.status.success(), "{command:?}");
    Some(done.stdout)
}

/// An example of C reads what is written here.
#[test]
fn c_reads_what_is_written_here() {
    let (out, top) = folders();
    let (table, bytes) = whole();
    let code = read_page("bindings/c/examples/lines.c");
    let program = Kept::new(&[]);
    let mut compile = Command::new("cc");
    compile.args(["-x", "c", "-", "-x", "none", "-pthread"]);
    compile
        .arg("-I")
        .arg(top.join("bindings/c"))
        .arg(out.join("libpidtab.a"));
    if run(compile.arg("-o").arg(&program.path), code.as_bytes()).is_none() {
        return;
    }
    let said = run(&mut Command::new(&program.path), &bytes).expect("the program");
    let said = String::from_utf8(said).expect("a text");
    let mut lines = said.lines();
    assert_eq!(lines.next(), Some("pid_max 32768 workers 2 first stamp 1"));
    assert_eq!(lines.next(), Some("0 0 fork 1 new"));
    let told: Vec<_> = lines.skip(DEEP as usize - 2).collect();
    let wanted = (u64::from(DEEP) - 1..).zip(LINES);
    let wanted: Vec<_> = wanted.map(|it| format!("{} 1 {}", it.0, it.1)).collect();
    assert_eq!(told, wanted);
    assert_eq!(entries(&table).len(), DEEP as usize - 1 + LINES.len());
}

/// Python writes the same bytes, and loads those of here.
const PYTHON: &str = "
import sys, pidtab
path, wanted = sys.argv[1], sys.stdin.buffer.read()
open(path, 'wb').write(wanted)
with pidtab.Table.load(path) as loaded, pidtab.Table(keep=pidtab.ALL, workers=2) as table:
    seats = [table.seat(), table.seat()]
    for it in loaded.entries():
        seats[it.worker].answers([it.line])
    assert list(table.entries()) == list(loaded.entries())
    table.save(path + ' again')
sys.stdout.buffer.write(open(path + ' again', 'rb').read())
";

#[test]
fn python_writes_the_same_bytes() {
    let (out, top) = folders();
    let library = out.join("libpidtab.so");
    if !library.is_file() {
        eprintln!("skipped: no {}", library.display());
        return;
    }
    let (_, bytes) = whole();
    let kept = Kept::new(&[]);
    let mut python = Command::new("python3");
    python.args(["-B", "-c", PYTHON]).arg(&kept.path);
    python
        .env("PYTHONPATH", top.join("bindings/python"))
        .env("PIDTAB_LIBRARY", library);
    let written = run(&mut python, &bytes);
    let mut again = kept.path.clone().into_os_string();
    again.push(" again");
    let _ = fs::remove_file(again);
    assert!(written.map_or(true, |it| it == bytes));
}
