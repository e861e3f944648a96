//! Blocks of a saved history in memory, a call at a time: for a program that keeps the calls of a [`Table`] itself. `docs/SAVED.md` has their
//! form.
use crate::{raw, Argument, Call, Error, Reply, SavedFault, Table};

/// The settings at the head of a saved history.
#[derive(Clone, Copy, Debug, PartialEq, Eq, Hash)]
pub struct Head {
    /// No number of a process is as great: 301 to 4194304.
    pub pid_max: u32,
    /// How many workers there are: 1 to 16.
    pub workers: u32,
    /// The stamp of the first call after the head, from 1 on.
    pub first_stamp: u64,
}

/// How far the blocks go that were written or read: their running checksum.
///
/// ```
/// use pidtab::{Blocks, Call, Head, Table};
///
/// let head = Head { pid_max: 32768, workers: 1, first_stamp: 1 };
/// let (table, mut bytes) = (Table::open(head.pid_max)?, Vec::new());
/// let mut blocks = Blocks::begin(&head, &mut bytes)?;
/// let call = Call::Fork { caller: 1, new_space: true };
/// let reply = table.call(call)?;
/// blocks.put(0, call, &reply, &mut bytes)?;
///
/// let (read, mut blocks) = Blocks::read_head(&bytes)?;
/// let again = Table::open(read.pid_max)?;
/// let made = blocks.replay(&again, &bytes[Blocks::HEAD..])?;
/// assert_eq!((made.call, made.reply, made.size), (call, reply, 48));
/// # Ok::<(), Box<dyn std::error::Error>>(())
/// ```
#[derive(Clone, Copy, Debug, Default, PartialEq, Eq)]
pub struct Blocks {
    sum: u64,
    wrong: usize,
}

/// A saved call that a table has made again, with the saved reply.
#[derive(Clone, Debug, PartialEq, Eq, Hash)]
#[non_exhaustive]
pub struct Replayed {
    /// The number of the worker whose call it was.
    pub worker: u32,
    /// The call.
    pub call: Call,
    /// What it was answered.
    pub reply: Reply,
    /// How many bytes it has.
    pub size: usize,
}

/// An entry that is no call: what a program writes down among its calls. No table makes it, and a load of a saved history refuses it.
#[derive(Clone, Debug, Default, PartialEq, Eq, Hash)]
pub struct Note {
    /// What it says, by the program: [`Note::FIRST`] to 255, except 137, with which a head begins.
    pub kind: u8,
    /// Numbers, by the program.
    pub id: u64,
    /// Two more.
    pub numbers: [u32; 2],
    /// Bytes, [`Note::LONGEST`] at most.
    pub text: Vec<u8>,
}

impl Note {
    /// No call has an operation with this number, or a greater one.
    pub const FIRST: u8 = 128;

    /// No text has more bytes.
    pub const LONGEST: usize = 4 * raw::LEVELS_MAX;

    /// Of the first four bytes of a text each number has them with the low one first, and so on; what is after the end is 0.
    fn levels(&self) -> [u32; raw::LEVELS_MAX] {
        let mut levels = [0; raw::LEVELS_MAX];
        for (level, part) in levels.iter_mut().zip(self.text.chunks(4)) {
            let mut bytes = [0; 4];
            bytes[..part.len()].copy_from_slice(part);
            *level = u32::from_le_bytes(bytes);
        }
        levels
    }

    fn entry(&self) -> raw::Entry {
        let mut entry = raw::Entry::BLANK;
        (entry.call.operation, entry.call.choice) = (u32::from(self.kind), self.text.len() as u32);
        (entry.call.caller, entry.call.number, entry.call.id) = (self.numbers[0], self.numbers[1], self.id);
        if !self.text.is_empty() {
            entry.reply.kind = raw::LEVELS;
            entry.reply.count = self.text.len().div_ceil(4) as u32;
            entry.reply.levels = self.levels();
        }
        entry
    }

    fn of(entry: &raw::Entry) -> Note {
        let bytes = entry.reply.levels.iter().flat_map(|it| it.to_le_bytes());
        Note {
            kind: entry.call.operation as u8,
            id: entry.call.id,
            numbers: [entry.call.caller, entry.call.number],
            text: bytes.take(entry.call.choice as usize).collect(),
        }
    }
}

/// A call that a table has made, with its reply, as the library has both: what [`Table::make`] fills and [`Blocks::put_made`] writes. It is
/// used again and again, so that nothing is copied.
#[derive(Clone, Debug, PartialEq)]
pub struct Made {
    entry: raw::Entry,
}

impl Default for Made {
    fn default() -> Made {
        let entry = raw::Entry::BLANK;
        Made { entry }
    }
}

impl Made {
    /// What the call was answered.
    pub fn reply(&self) -> Reply {
        Reply::of(&self.entry.reply)
    }
}

impl Blocks {
    /// How many bytes the head has.
    pub const HEAD: usize = raw::SAVED_BLOCK;

    /// No entry has more bytes.
    pub const LONGEST: usize = raw::SAVED_LONGEST;

    /// Blocks that go on after those with this checksum, which [`Blocks::sum`] has told.
    pub fn behind(sum: u64) -> Blocks {
        Blocks { sum, wrong: 0 }
    }

    /// Writes the head after the bytes.
    ///
    /// # Errors
    /// `Argument` for settings outside their ranges.
    pub fn begin(head: &Head, to: &mut Vec<u8>) -> Result<Blocks, Error> {
        let numbers = raw::SavedHead {
            pid_max: head.pid_max,
            workers: head.workers,
            first_stamp: head.first_stamp,
        };
        let (mut block, mut sum) = ([0; raw::SAVED_BLOCK], 0);
        let outside = || Argument::settings(&numbers);
        raw::put_head(&numbers, &mut block, &mut sum)
            .map_err(|status| Error::of_argument(status, outside))?;
        to.extend_from_slice(&block);
        Ok(Blocks::behind(sum))
    }

    /// Reads the head at the front of the bytes, which has [`Blocks::HEAD`] bytes.
    ///
    /// # Errors
    /// `Torn` where there are fewer; `NotSaved`, `OtherVersion`, `WrongByte`, `Settings`.
    pub fn read_head(bytes: &[u8]) -> Result<(Head, Blocks), SavedFault> {
        let (mut size, mut sum) = (0, 0);
        let head = raw::take_head(bytes, &mut size, &mut sum).map_err(SavedFault::of)?;
        let read = Head {
            pid_max: head.pid_max,
            workers: head.workers,
            first_stamp: head.first_stamp,
        };
        Ok((read, Blocks::behind(sum)))
    }

    /// Writes a call of a worker with its reply after the bytes.
    ///
    /// # Errors
    /// `OutOfRange` for a worker from 256 on, or a reply with more numbers than a task has; then nothing is written.
    pub fn put(
        &mut self,
        worker: u32,
        call: Call,
        reply: &Reply,
        to: &mut Vec<u8>,
    ) -> Result<(), Error> {
        let entry = raw::Entry {
            worker: u64::from(worker),
            call: call.numbers(),
            reply: reply.numbers(),
        };
        self.put_made(&Made { entry }, to)
    }

    /// The same of a call as the library has it.
    ///
    /// # Errors
    /// As [`Blocks::put`].
    pub fn put_made(&mut self, made: &Made, to: &mut Vec<u8>) -> Result<(), Error> {
        let mut room = [0; raw::SAVED_LONGEST];
        let size = raw::put_entry(&made.entry, &mut room, &mut self.sum).map_err(Error::of)?;
        to.extend_from_slice(&room[..size]);
        Ok(())
    }

    /// Writes a note after the bytes.
    ///
    /// # Errors
    /// `OutOfRange` for a kind or a text outside its range; then nothing is written.
    pub fn put_note(&mut self, note: &Note, to: &mut Vec<u8>) -> Result<(), Error> {
        if note.kind < Note::FIRST || note.text.len() > Note::LONGEST {
            return Err(Error::OutOfRange);
        }
        let entry = note.entry();
        self.put_made(&Made { entry }, to)
    }

    /// Reads the note at the front of the bytes: how many it has. None: there is a call, or nothing.
    ///
    /// # Errors
    /// `Torn` where the bytes end within it; `WrongByte`, and [`Blocks::wrong`] says where.
    pub fn take_note(&mut self, bytes: &[u8]) -> Result<Option<(Note, usize)>, SavedFault> {
        match bytes.first() {
            Some(first) if *first >= Note::FIRST => {}
            _ => return Ok(None),
        }
        let (entry, size) = self.take(bytes)?;
        Ok(Some((Note::of(&entry), size)))
    }

    /// The call at the front of the bytes, which is not made. None: there is none, or it is not whole.
    pub fn next_call(&self, bytes: &[u8]) -> Option<Call> {
        let is_call = bytes.first().is_some_and(|it| u32::from(*it) <= raw::SUBREAPER);
        let (entry, _) = self.clone().take(bytes).ok().filter(|_| is_call)?;
        Some(Call::of(&entry.call))
    }

    /// The entry at the front of the bytes, and how many it has.
    fn take(&mut self, bytes: &[u8]) -> Result<(raw::Entry, usize), SavedFault> {
        let mut size = 0;
        let taken = raw::take_entry(bytes, &mut size, &mut self.sum);
        self.wrong = usize::from(taken == Err(raw::WRONG_BYTE)) * size;
        Ok((taken.map_err(SavedFault::of)?, size))
    }

    /// The running checksum.
    pub fn sum(&self) -> u64 {
        self.sum
    }

    /// After a `WrongByte` of a replay: where, in its bytes, the first block begins that is not as it was written.
    pub fn wrong(&self) -> usize {
        self.wrong
    }
}

impl Blocks {
    /// Has a table make the saved call at the front of the bytes again, and compares the reply with the saved one.
    ///
    /// # Errors
    /// `Torn` where the bytes end within it; `WrongByte`, and [`Blocks::wrong`] says where. After these the table and the blocks are as they
    /// were. `Table(Differs)`: the call was made, and has another reply. `Table(OutOfRange)` where there is no such call, `Table(NoMemory)`,
    /// `Table(Spent)`, `Table(Busy)`, `Table(Unsaved)`.
    pub fn replay(&mut self, table: &Table, bytes: &[u8]) -> Result<Replayed, SavedFault> {
        let (entry, size) = self.take(bytes)?;
        let mut reply = raw::Reply::BLANK;
        table.make_as_it_is(&entry.call, &mut reply)?;
        if reply != entry.reply {
            return Err(Error::Differs.into());
        }
        Ok(Replayed {
            worker: entry.worker as u32,
            call: Call::of(&entry.call),
            reply: Reply::of(&reply),
            size,
        })
    }
}

impl Table {
    /// Makes a call, as of a worker whose number is only written down, with its reply in the place of the last one. Labels stay as they are.
    ///
    /// # Errors
    /// Those of [`Table::call`]; then what was made is that call, without a reply.
    pub fn make(&self, worker: u32, call: Call, made: &mut Made) -> Result<(), Error> {
        made.entry.worker = u64::from(worker);
        made.entry.call = call.numbers();
        self.make_as_it_is(&made.entry.call, &mut made.entry.reply)
    }

    fn make_as_it_is(&self, call: &raw::Call, reply: &mut raw::Reply) -> Result<(), Error> {
        let _turn = self.for_calls(1)?;
        Error::unless_done(self.raw.call(call, reply))
    }
}

#[cfg(test)]
mod tests {
    use super::*;

    /// The worked example of docs/SAVED.md, without the first block.
    fn example() -> (Vec<u8>, Vec<Call>) {
        let head = Head {
            pid_max: 32768,
            workers: 2,
            first_stamp: 1,
        };
        let (caller, new_space) = (1, true);
        let calls = vec![
            Call::Fork { caller, new_space },
            Call::Nspid { caller, number: 2 },
            Call::Setpgid {
                caller,
                pid: 0,
                pgid: -1,
            },
        ];
        let table = Table::open(head.pid_max).expect("a table");
        let mut bytes = Vec::new();
        let mut blocks = Blocks::begin(&head, &mut bytes).expect("a head");
        for (place, call) in calls.iter().enumerate() {
            let reply = table.call(*call).expect("a reply");
            let worker = u32::from(place > 0);
            blocks.put(worker, *call, &reply, &mut bytes).expect("room");
        }
        (bytes, calls)
    }

    /// The checksums of the four blocks, from the page.
    #[test]
    fn the_worked_example() {
        let (bytes, _) = example();
        let sums = [
            "a8e445c4df20f536",
            "a8a50ff3ad53913a",
            "476560d94e6de33b",
            "9de0f75d8af720e0",
        ];
        let hex = |block: &[u8]| {
            block
                .iter()
                .map(|it| format!("{it:02x}"))
                .collect::<String>()
        };
        let found: Vec<_> = bytes.chunks(48).map(|block| hex(&block[40..])).collect();
        assert_eq!(found, sums);
    }

    #[test]
    fn each_call_again_and_each_end() {
        let (bytes, calls) = example();
        let (_, mut blocks) = Blocks::read_head(&bytes).expect("a head");
        let (table, mut at) = (Table::open(32768).expect("a table"), Blocks::HEAD);
        for call in calls {
            let torn = blocks.replay(&table, &bytes[at..at + 47]);
            assert!(matches!(torn, Err(SavedFault::Torn)));
            let made = blocks.replay(&table, &bytes[at..]).expect("a call");
            assert_eq!(made.call, call);
            at += made.size;
        }
        assert_eq!(at, bytes.len());
    }

    #[test]
    fn each_byte_changed() {
        let (bytes, _) = example();
        for place in 0..Blocks::HEAD {
            let mut bytes = bytes.clone();
            bytes[place] ^= 1;
            assert!(Blocks::read_head(&bytes).is_err(), "{place}");
        }
        let (_, begun) = Blocks::read_head(&bytes).expect("a head");
        for place in 0..48 {
            let mut entry = bytes[Blocks::HEAD..].to_vec();
            entry[place] ^= 1;
            let (table, mut blocks) = (Table::open(32768).expect("a table"), begun);
            let wrong = blocks.replay(&table, &entry);
            assert!(matches!(wrong, Err(SavedFault::WrongByte)), "{place}");
            assert_eq!((blocks.wrong(), blocks.sum()), (0, begun.sum()));
        }
    }

    /// Each length of a text, between calls: it is read as it was written, and no table makes it.
    #[test]
    fn notes_among_calls() {
        for length in 0..=Note::LONGEST {
            let text: Vec<u8> = (0..length).map(|it| 255 - it as u8).collect();
            let note = Note { kind: 200, id: u64::MAX, numbers: [7, u32::MAX], text };
            let (mut bytes, mut blocks) = (Vec::new(), Blocks::behind(5));
            blocks.put_note(&note, &mut bytes).expect("room");
            assert!(bytes.len() % Blocks::HEAD == 0 && bytes.len() <= Blocks::LONGEST);
            let mut read = Blocks::behind(5);
            assert!(matches!(read.take_note(&bytes[..bytes.len() - 1]), Err(SavedFault::Torn)));
            let table = Table::open(32768).expect("a table");
            let made = read.clone().replay(&table, &bytes);
            assert!(matches!(made, Err(SavedFault::Table(Error::OutOfRange))));
            let size = bytes.len();
            assert!(matches!(read.take_note(&bytes), Ok(Some((it, of))) if it == note && of == size));
            assert_eq!(read.sum(), blocks.sum());
        }
        let (bytes, _) = example();
        assert!(matches!(Blocks::behind(5).take_note(&bytes[48..]), Ok(None)));
        assert!(matches!(Blocks::behind(5).take_note(b""), Ok(None)));
        let (_, blocks) = Blocks::read_head(&bytes).expect("a head");
        let call = Call::Fork { caller: 1, new_space: true };
        assert_eq!(blocks.next_call(&bytes[48..]), Some(call));
        assert_eq!((blocks.next_call(&bytes[48..95]), blocks.next_call(&bytes[..48])), (None, None));
    }

    #[test]
    fn what_is_no_note() {
        let wrong = [(127, 0), (200, Note::LONGEST + 1)];
        for (kind, length) in wrong {
            let note = Note { kind, text: vec![1; length], ..Note::default() };
            let (mut bytes, mut blocks) = (Vec::new(), Blocks::behind(5));
            assert_eq!(blocks.put_note(&note, &mut bytes), Err(Error::OutOfRange));
            assert_eq!((bytes, blocks.sum()), (vec![], 5));
        }
    }

    #[test]
    fn another_reply() {
        let (bytes, _) = example();
        let (_, mut blocks) = Blocks::read_head(&bytes).expect("a head");
        let table = Table::open(32768).expect("a table");
        table.getpid(1).expect("a number");
        let differs = blocks.replay(&table, &bytes[Blocks::HEAD..]);
        // The namespace's id is another, and the reply is the same; a task's number is another after one more fork.
        assert!(differs.is_ok());
        let (_, mut blocks) = Blocks::read_head(&bytes).expect("a head");
        let table = Table::open(32768).expect("a table");
        table.fork(1).expect("a child");
        let differs = blocks.replay(&table, &bytes[Blocks::HEAD..]);
        assert!(matches!(differs, Err(SavedFault::Table(Error::Differs))));
    }

    #[test]
    fn what_has_no_place_in_the_form() {
        let mut bytes = vec![7];
        let call = Call::Getpid { caller: 1 };
        let many = Reply::Levels(vec![1; 34]);
        let mut blocks = Blocks::behind(5);
        let (worker, out) = (256, Err(Error::OutOfRange));
        assert_eq!(blocks.put(worker, call, &Reply::Done, &mut bytes), out);
        assert_eq!(blocks.put(0, call, &many, &mut bytes), out);
        assert_eq!((bytes, blocks.sum()), (vec![7], 5));
    }
}
