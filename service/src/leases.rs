//! Leases: what a connection forks ends when the connections with its lease have been gone for too long. Each lease has a number, by which
//! connections hold it: another one of the same name is another lease.
//!
//! What lasts is made of the facts of the log and of its forks, here and in each copy of the table. Who holds a lease, and since when nobody does, is known
//! where clients are served alone.
use crate::facts::Fact;
use crate::resp::number;
use std::collections::{BTreeMap, BTreeSet, HashMap};

/// No name is longer, in bytes.
const LONGEST_NAME: usize = 64;

/// The greatest time to live, in ms: a day.
const LONGEST_TTL: u64 = 86_400_000;

/// The user whose lease it is, and its name.
pub type Key = (u32, Vec<u8>);

pub struct Lease {
    pub key: Key,
    pub ttl: u64,
    pub holders: usize,
    /// When it ends, in ms, while nobody holds it.
    until: u64,
    /// The root numbers of its tasks.
    pub tasks: BTreeSet<u32>,
}

#[derive(Default)]
pub struct Leases {
    /// By their numbers.
    all: BTreeMap<u64, Lease>,
    named: BTreeMap<Key, u64>,
    of_task: HashMap<u32, u64>,
    /// The greatest number that a lease has had.
    last: u64,
}

/// A name that may stand in a line.
pub fn is_name(name: &[u8]) -> bool {
    (1..=LONGEST_NAME).contains(&name.len()) && name.iter().all(|it| it.is_ascii_graphic())
}

pub fn read_ttl(word: &[u8]) -> Option<u64> {
    number(word, LONGEST_TTL)
}

impl Leases {
    /// What the log says next.
    pub fn apply(&mut self, fact: &Fact) {
        match fact {
            Fact::Lease { number, user, name, ttl } => self.add((*user, name.clone()), *number, *ttl),
            Fact::Hold { number, ttl } => {
                if let Some(lease) = self.all.get_mut(number) {
                    lease.ttl = *ttl;
                }
            }
            Fact::Bind { number, task } => self.forked(*task, Some(*number)),
            Fact::Release { number } | Fact::End { number } => self.remove(*number),
            Fact::Name { .. } => {}
        }
    }

    fn add(&mut self, key: Key, number: u64, ttl: u64) {
        let lease = Lease { key: key.clone(), ttl, holders: 0, until: ttl, tasks: BTreeSet::new() };
        let lease = self.all.entry(number).or_insert(lease);
        (lease.ttl, lease.until) = (ttl, ttl);
        self.named.insert(key, number);
        self.last = self.last.max(number);
    }

    /// The lease is there no more: its tasks stay.
    fn remove(&mut self, number: u64) {
        let Some(lease) = self.all.remove(&number) else { return };
        for task in &lease.tasks {
            self.of_task.remove(task);
        }
        if self.named.get(&lease.key) == Some(&number) {
            self.named.remove(&lease.key);
        }
    }

    /// A task was forked: it is the lease's, if it is one's, and no other's. A number is given again, so one that had it is there no more.
    pub fn forked(&mut self, task: u32, lease: Option<u64>) {
        self.gone(task);
        let Some(number) = lease else { return };
        if let Some(lease) = self.all.get_mut(&number) {
            lease.tasks.insert(task);
            self.of_task.insert(task, number);
        }
    }

    /// The task is there no more.
    pub fn gone(&mut self, task: u32) {
        if self.of_task.is_empty() {
            return;
        }
        let number = self.of_task.remove(&task);
        if let Some(lease) = number.and_then(|it| self.all.get_mut(&it)) {
            lease.tasks.remove(&task);
        }
    }

    /// What a snapshot has of them: with those tasks that are there.
    pub fn facts(&self, is_there: impl Fn(u32) -> bool) -> Vec<Fact> {
        let mut facts = Vec::new();
        for (number, Lease { key: (user, name), ttl, tasks, .. }) in &self.all {
            let number = *number;
            facts.push(Fact::Lease { number, user: *user, name: name.clone(), ttl: *ttl });
            let bound = tasks.iter().filter(|it| is_there(**it));
            facts.extend(bound.map(|task| Fact::Bind { number, task: *task }));
        }
        facts
    }

    /// Of those whose tasks are not looked at one by one: a task that is there no more is none of a lease.
    pub fn keep_those_that(&mut self, is_there: impl Fn(u32) -> bool) {
        let gone: Vec<_> = self.of_task.keys().copied().filter(|it| !is_there(*it)).collect();
        gone.into_iter().for_each(|it| self.gone(it));
    }

    pub fn count(&self) -> usize {
        self.all.len()
    }

    /// How many tasks they have.
    pub fn tasks(&self) -> usize {
        self.of_task.len()
    }

    /// How many are a user's.
    pub fn count_of(&self, user: u32) -> usize {
        self.named.range((user, Vec::new())..).take_while(|it| it.0 .0 == user).count()
    }

    pub fn is_empty(&self) -> bool {
        self.all.is_empty()
    }

    /// By their names.
    pub fn named(&self) -> impl Iterator<Item = &Lease> {
        self.named.values().filter_map(|it| self.all.get(it))
    }

    pub fn is_there(&self, number: u64) -> bool {
        self.all.contains_key(&number)
    }

    pub fn number(&self, key: &Key) -> Option<u64> {
        self.named.get(key).copied()
    }

    /// What is recorded when a connection takes the lease of that name.
    pub fn hold_of(&self, key: &Key, ttl: u64) -> Fact {
        match self.number(key) {
            Some(number) => Fact::Hold { number, ttl },
            None => Fact::Lease { number: self.last + 1, user: key.0, name: key.1.clone(), ttl },
        }
    }

    /// A connection holds the lease from now on.
    pub fn hold(&mut self, number: u64) {
        if let Some(lease) = self.all.get_mut(&number) {
            lease.holders += 1;
        }
    }

    /// A connection that has held it is gone.
    pub fn let_go(&mut self, number: u64, now: u64) {
        if let Some(lease) = self.all.get_mut(&number) {
            lease.holders = lease.holders.saturating_sub(1);
            lease.until = now + lease.ttl;
        }
    }

    /// Clients are served from now on, and each lease has its whole time.
    pub fn begin(&mut self, now: u64) {
        for lease in self.all.values_mut() {
            (lease.holders, lease.until) = (0, now + lease.ttl);
        }
    }

    /// Those whose time is over, as nobody holds them: each with its user and its tasks.
    pub fn over(&self, now: u64) -> Vec<(u64, u32, Vec<u32>)> {
        let over = self.all.iter().filter(|it| it.1.holders == 0 && it.1.until <= now);
        over.map(|(number, it)| (*number, it.key.0, it.tasks.iter().copied().collect())).collect()
    }
}

#[cfg(test)]
mod tests {
    use super::*;

    /// A lease that is new, or is taken by a connection more: its number.
    fn take(leases: &mut Leases, key: &Key, ttl: u64) -> u64 {
        let fact = leases.hold_of(key, ttl);
        leases.apply(&fact);
        let number = leases.number(key).expect("a lease");
        leases.hold(number);
        number
    }

    fn tasks(leases: &Leases, number: u64) -> Vec<u32> {
        leases.all[&number].tasks.iter().copied().collect()
    }

    /// The facts of a snapshot make the same leases, with the tasks that are there, and nobody holds one.
    #[test]
    fn they_are_made_again_of_their_facts() {
        let mut leases = Leases::default();
        let (one, other) = ((7, b"web".to_vec()), (8, b"web".to_vec()));
        let (first, second) = (take(&mut leases, &one, 500), take(&mut leases, &other, 100));
        for (task, lease) in [(2, Some(first)), (3, Some(first)), (4, Some(second)), (5, None), (6, Some(first))] {
            leases.forked(task, lease);
        }
        leases.gone(3);
        leases.forked(4, None);
        let mut again = Leases::default();
        leases.facts(|task| task != 6).iter().for_each(|it| again.apply(it));
        assert_eq!((tasks(&again, first), tasks(&again, second)), (vec![2], vec![]));
        assert_eq!(again.over(100), [(second, 8, vec![])]);
        assert_eq!(leases.over(u64::MAX), []);
        leases.keep_those_that(|task| task == 2);
        assert_eq!((tasks(&leases, first), leases.tasks()), (vec![2], 1));
        leases.begin(50);
        assert_eq!((leases.over(149), leases.over(150)), (vec![], vec![(second, 8, vec![])]));
    }

    #[test]
    fn who_holds_a_lease_that_was_released_holds_no_other() {
        let (mut leases, key) = (Leases::default(), (7, b"rig".to_vec()));
        let first = take(&mut leases, &key, 0);
        assert_eq!(take(&mut leases, &key, 0), first);
        leases.apply(&Fact::Release { number: first });
        let second = take(&mut leases, &key, 0);
        assert!(second > first);
        leases.let_go(first, 1);
        assert_eq!((leases.over(9), leases.is_there(first)), (vec![], false));
        leases.forked(2, Some(first));
        assert_eq!(leases.tasks(), 0);
        leases.let_go(second, 1);
        assert_eq!(leases.over(9), [(second, 7, vec![])]);
        leases.apply(&Fact::End { number: second });
        assert!(leases.is_empty() && leases.number(&key).is_none());
    }

    #[test]
    fn names_and_times() {
        assert!(is_name(b"web-1") && !is_name(b"") && !is_name(b"a b") && !is_name(&[b'x'; 65]) && !is_name(b"\n"));
        assert_eq!((read_ttl(b"0"), read_ttl(b"86400001"), read_ttl(b"x")), (Some(0), None, None));
    }
}
