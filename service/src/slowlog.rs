//! SLOWLOG: requests that took long in the loop, which others had to wait for. What sleeps or is done by another thread takes none of its time.
use crate::commands::Command;
use crate::conn::Conn;
use crate::options::Rights;
use crate::resp::{is_word, number, Answer, Words};
use crate::service::Service;
use crate::sleepers::no_permission;
use std::collections::VecDeque;
use std::time::{Duration, Instant, SystemTime, UNIX_EPOCH};

/// So many are kept.
pub const MOST_KEPT: usize = 128;

/// So many words of each, and so many bytes of a word, as Redis keeps them.
const MOST_WORDS: usize = 32;
const LONGEST_WORD: usize = 128;

/// How many `SLOWLOG GET` tells.
const USUAL: u64 = 10;

struct Entry {
    id: u64,
    /// When it was done, in seconds of the wall clock.
    at: u64,
    took: Duration,
    words: Vec<Vec<u8>>,
    user: u32,
    name: Vec<u8>,
}

/// The last one is the first.
pub struct Slowlog {
    entries: VecDeque<Entry>,
    /// So many were slow since the start.
    pub count: u64,
    slower_than: Duration,
    began: Instant,
}

impl Slowlog {
    pub fn new(micros: u64) -> Slowlog {
        let slower_than = Duration::from_micros(micros);
        Slowlog { entries: VecDeque::new(), count: 0, slower_than, began: Instant::now() }
    }

    /// The requests of a client begin.
    pub fn begin(&mut self) {
        self.began = Instant::now();
    }

    /// A request was done, and the next one begins.
    pub fn note(&mut self, conn: &Conn, words: Words) {
        let before = std::mem::replace(&mut self.began, Instant::now());
        let took = self.began - before;
        if took < self.slower_than {
            return;
        }
        let at = SystemTime::now().duration_since(UNIX_EPOCH).map_or(0, |it| it.as_secs());
        let (id, words, user, name) = (self.count, kept(words), conn.user, conn.name.clone());
        self.count += 1;
        self.entries.truncate(MOST_KEPT - 1);
        self.entries.push_front(Entry { id, at, took, words, user, name });
    }
}

/// The words as Redis keeps them; what may be a password is not kept.
fn kept(words: Words) -> Vec<Vec<u8>> {
    let is_secret = is_word(words.at(0), "AUTH") || is_word(words.at(0), "HELLO");
    let count = words.len();
    let shown = if count > MOST_WORDS { MOST_WORDS - 1 } else { count };
    let mut those: Vec<_> = (0..shown).map(|it| kept_word(words.at(it), is_secret && it > 0)).collect();
    if shown < count {
        those.push(format!("... ({} more arguments)", count - shown).into_bytes());
    }
    those
}

fn kept_word(word: &[u8], is_secret: bool) -> Vec<u8> {
    if is_secret {
        return b"(redacted)".to_vec();
    }
    let (front, rest) = word.split_at(word.len().min(LONGEST_WORD));
    let mut kept = front.to_vec();
    if !rest.is_empty() {
        kept.extend_from_slice(format!("... ({} more bytes)", rest.len()).as_bytes());
    }
    kept
}

impl Service {
    /// Who may not do all is told of his own requests alone, and forgets none.
    pub fn run_slowlog(&mut self, conn: &mut Conn, command: &Command, words: Words) {
        let most = match words.len() {
            3 if words.at(2) == b"-1" => Some(u64::MAX),
            3 => number(words.at(2), u64::MAX),
            _ => Some(USUAL),
        };
        match (words.at(1).to_ascii_uppercase().as_slice(), words.len(), most) {
            (b"GET", _, Some(most)) => self.tell_slow(conn, most),
            (b"LEN", 2, _) => {
                let count = self.slow_of(conn).count();
                conn.out.number(count as u64);
            }
            (b"RESET", 2, _) if conn.rights != Rights::All => conn.out.line(no_permission(conn.rights)),
            (b"RESET", 2, _) => {
                self.slowlog.entries.clear();
                conn.out.ok();
            }
            _ => self.misused(conn, command),
        }
    }

    fn slow_of(&self, conn: &Conn) -> impl Iterator<Item = &Entry> {
        let (user, has_all) = (conn.user, conn.rights == Rights::All);
        self.slowlog.entries.iter().filter(move |it| has_all || it.user == user)
    }

    /// As Redis has it: a number, when, how many microseconds, the words, and whose.
    fn tell_slow(&self, conn: &mut Conn, most: u64) {
        let place = self.place();
        let those: Vec<_> = self.slow_of(conn).take(most.min(MOST_KEPT as u64) as usize).collect();
        let out = &mut conn.out;
        out.array(those.len());
        for entry in those {
            out.array(6);
            [entry.id, entry.at, entry.took.as_micros() as u64].into_iter().for_each(|it| out.number(it));
            out.array(entry.words.len());
            entry.words.iter().for_each(|it| out.bulk(it));
            out.bulk(place.as_bytes());
            out.bulk(&entry.name);
        }
    }
}
