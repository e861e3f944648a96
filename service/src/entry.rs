//! An entry of the log: a call, with the note before it if there is one, or a fact. It is read whole or not at all.
use crate::facts::{Fact, FORKS};
use pidtab::{Blocks, Call, Replayed, SavedFault, Table};

/// No entry has more bytes.
pub const LONGEST: usize = Blocks::LONGEST + Blocks::HEAD;

#[derive(Debug)]
pub enum Entry {
    /// A call that was made again, and the lease of the child.
    Call {
        made: Replayed,
        lease: Option<u64>,
    },
    Fact(Fact),
}

#[derive(Debug)]
pub struct Taken {
    pub entry: Entry,
    /// So many bytes it has.
    pub size: usize,
}

/// Why no entry was taken, and where in the bytes the block begins that is not as it was written.
#[derive(Debug)]
pub struct Wrong {
    pub fault: SavedFault,
    pub place: usize,
}

/// The entry at the front of the bytes, whose call is made again. Where it is torn, or has a wrong byte, all is as it was.
pub fn take(table: &Table, blocks: &mut Blocks, bytes: &[u8]) -> Result<Taken, Wrong> {
    let mut ahead = *blocks;
    let taken = take_ahead(table, &mut ahead, bytes)?;
    *blocks = ahead;
    Ok(taken)
}

/// The call of the entry at the front of the bytes, which is not made.
pub fn next_call(blocks: &Blocks, bytes: &[u8]) -> Option<Call> {
    let mut ahead = *blocks;
    let front = match ahead.take_note(bytes) {
        Ok(Some((note, size))) if note.kind == FORKS => size,
        _ => 0,
    };
    ahead.next_call(&bytes[front..])
}

fn take_ahead(table: &Table, ahead: &mut Blocks, bytes: &[u8]) -> Result<Taken, Wrong> {
    let noted = ahead.take_note(bytes).map_err(|fault| Wrong { fault, place: ahead.wrong() })?;
    let (lease, front) = match noted {
        None => (None, 0),
        Some((note, size)) if note.kind == FORKS => (Some(note.id), size),
        Some((note, size)) => {
            let unknown = Wrong { fault: SavedFault::Table(pidtab::Error::OutOfRange), place: 0 };
            return Fact::of(note).map(|it| Taken { entry: Entry::Fact(it), size }).ok_or(unknown);
        }
    };
    let made = ahead.replay(table, &bytes[front..]);
    let made = made.map_err(|fault| Wrong { fault, place: front + ahead.wrong() })?;
    let size = front + made.size;
    Ok(Taken { entry: Entry::Call { made, lease }, size })
}

#[cfg(test)]
mod tests {
    use super::*;
    use crate::facts::forks;
    use pidtab::Head;

    /// A lease, a fork under it, and its end.
    fn log() -> (Vec<u8>, Blocks) {
        let (head, mut bytes) = (Head { pid_max: 400, workers: 1, first_stamp: 1 }, Vec::new());
        let begun = Blocks::begin(&head, &mut bytes).expect("a head");
        let (mut blocks, table) = (begun, Table::open(400).expect("a table"));
        bytes.clear();
        let fact = Fact::Lease { number: 1, user: 7, name: b"rig".to_vec(), ttl: 5 };
        blocks.put_note(&fact.note(), &mut bytes).expect("room");
        let call = Call::Fork { caller: 1, new_space: false };
        let reply = table.call(call).expect("a reply");
        blocks.put_note(&forks(1), &mut bytes).expect("room");
        blocks.put(0, call, &reply, &mut bytes).expect("room");
        blocks.put_note(&Fact::End { number: 1 }.note(), &mut bytes).expect("room");
        (bytes, begun)
    }

    /// How many bytes of the front are taken, and how many entries.
    fn read(bytes: &[u8], mut blocks: Blocks) -> (usize, usize) {
        let (table, mut at, mut count) = (Table::open(400).expect("a table"), 0, 0);
        while let Ok(taken) = take(&table, &mut blocks, &bytes[at..]) {
            at += taken.size;
            count += 1;
        }
        (at, count)
    }

    /// A fork under a lease is never taken without it, nor the lease's note without the fork, wherever the bytes end.
    #[test]
    fn each_front_has_whole_entries() {
        let (bytes, begun) = log();
        assert_eq!(bytes.len(), 4 * 48);
        for size in 0..=bytes.len() {
            let wanted = match size {
                0..48 => (0, 0),
                48..144 => (48, 1),
                144..192 => (144, 2),
                _ => (192, 3),
            };
            assert_eq!(read(&bytes[..size], begun), wanted, "{size}");
        }
    }

    #[test]
    fn the_place_of_a_wrong_byte() {
        let (bytes, begun) = log();
        let table = Table::open(400).expect("a table");
        for (place, block) in [(5, 0), (48 + 5, 0), (96 + 5, 48)] {
            let (mut other, mut blocks, from) = (bytes.clone(), begun, if place < 48 { 0 } else { 48 });
            other[place] ^= 1;
            if from > 0 {
                take(&table, &mut blocks, &other).expect("a lease");
            }
            let before = blocks;
            let wrong = take(&table, &mut blocks, &other[from..]).expect_err("a wrong byte");
            assert!(matches!(wrong, Wrong { fault: SavedFault::WrongByte, place } if place == block));
            assert_eq!(blocks, before);
        }
    }
}
