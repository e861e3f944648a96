//! What the service must know of the table and cannot ask it: who is whose child, who has ended and was not waited for, which namespaces and
//! cgroups stand in which. Each call is noted with its reply, and the table is asked for the tasks that the call may have changed.
use pidtab::{Call, Ended, Listing, Reply, Table};
use std::collections::{BTreeSet, HashMap};
use std::hash::{BuildHasherDefault, Hasher};

/// The root init, which never ends, and so may always ask.
pub const INIT: u32 = 1;

/// An odd number without a pattern: 2^64 by the golden ratio.
const MIX: u64 = 0x9e37_79b9_7f4a_7c15;

/// Numbers are the table's own, so that nobody chooses those that collide. They are drawn one behind the other, and so they lie: a map takes its
/// place from the low bits, and tells neighbours apart by the high ones.
#[derive(Default)]
pub struct NumberHasher(u64);

impl Hasher for NumberHasher {
    fn finish(&self) -> u64 {
        let low = u64::from(u32::MAX);
        self.0 & low | self.0.wrapping_mul(MIX) & !low
    }

    fn write(&mut self, bytes: &[u8]) {
        bytes.iter().for_each(|it| self.write_u64(u64::from(*it)));
    }

    fn write_u32(&mut self, number: u32) {
        self.write_u64(u64::from(number));
    }

    fn write_u64(&mut self, number: u64) {
        self.0 = self.0.wrapping_mul(MIX).wrapping_add(number);
    }
}

type Numbers<K, V> = HashMap<K, V, BuildHasherDefault<NumberHasher>>;

/// A task. The numbers of others are root numbers, 0 for none.
#[derive(Clone, Copy, Debug, PartialEq)]
pub struct Kin {
    pub parent: u32,
    /// Its number in its parent's namespace.
    pub number: u32,
    pub space: u64,
    /// The namespace that its children go into.
    children: u64,
    pub is_zombie: bool,
    first_child: u32,
    before: u32,
    after: u32,
}

impl Kin {
    /// A task without children, in front of a sibling.
    fn new(parent: u32, number: u32, space: u64, children: u64, after: u32) -> Kin {
        let (is_zombie, first_child, before) = (false, 0, 0);
        Kin { parent, number, space, children, is_zombie, first_child, before, after }
    }
}

/// A namespace but the root's.
#[derive(Clone, Debug, PartialEq)]
struct Space {
    parent: u64,
    init: u32,
    members: BTreeSet<u32>,
    /// Those that stand directly in it.
    inside: BTreeSet<u64>,
}

impl Space {
    fn new(parent: u64, init: u32) -> Space {
        Space { parent, init, members: BTreeSet::new(), inside: BTreeSet::new() }
    }
}

/// What has happened, for those who wait for it.
#[derive(Clone, Copy, Debug, PartialEq)]
pub enum What {
    Forked { parent: u32, child: u32 },
    Ended { task: u32, ended: Ended },
    Fell,
}

/// With the namespace and the cgroup, each with all around it, the innermost first.
#[derive(Clone, Debug, PartialEq)]
pub struct Event {
    /// That of the call that has done it.
    pub ordinal: u64,
    pub what: What,
    pub spaces: Vec<u64>,
    pub controls: Vec<u64>,
}

/// Who may end by an exit, and where.
struct Doomed {
    task: u32,
    space: u64,
    controls: Vec<u64>,
}

#[derive(Default)]
pub struct Book {
    tasks: Numbers<u32, Kin>,
    /// Those that have ended, by their parents and their numbers there.
    zombies: Numbers<(u32, u32), u32>,
    spaces: Numbers<u64, Space>,
    /// Each cgroup but the root's, and the one above it.
    controls: Numbers<u64, u64>,
    /// Whether events are kept.
    pub is_watched: bool,
    pub events: Vec<Event>,
    /// Whose children, or who himself, may be another.
    pub stirred: Vec<u32>,
    /// Whether it is told who has gone: whose number may be another task's soon.
    pub tells_gone: bool,
    pub gone: Vec<u32>,
    /// Of an exit that is about to be made.
    doomed: Vec<Doomed>,
}

impl Book {
    /// The book of a table, by its list.
    pub fn of(listing: &Listing) -> Book {
        let mut book = Book::default();
        for space in &listing.spaces {
            let Some(parent) = space.parent.filter(|_| !space.fallen) else { continue };
            book.spaces.insert(space.id, Space::new(parent, 0));
        }
        let parents: Vec<_> = book.spaces.iter().map(|it| (*it.0, it.1.parent)).collect();
        parents.into_iter().for_each(|(space, parent)| book.put_inside(space, parent));
        for control in &listing.controls {
            if let Some(parent) = control.parent {
                book.controls.insert(control.id, parent);
            }
        }
        let depths: Numbers<u32, usize> = listing.tasks.iter().map(|it| (it.root(), it.numbers.len())).collect();
        for task in &listing.tasks {
            let depth = depths.get(&task.parent).copied().unwrap_or(1);
            let children = task.children.unwrap_or(task.space);
            let mut kin = Kin::new(task.parent, task.numbers[depth - 1], task.space, children, 0);
            kin.is_zombie = task.ended.is_some();
            book.add(task.root(), kin, task.numbers.last() == Some(&1));
        }
        let all: Vec<_> = book.tasks.iter().map(|it| (*it.0, it.1.parent)).collect();
        all.iter().for_each(|(task, parent)| book.link(*task, *parent));
        book.stirred.clear();
        book
    }

    pub fn tasks(&self) -> usize {
        self.tasks.len()
    }

    pub fn controls(&self) -> usize {
        self.controls.len()
    }

    /// The cgroup above that one; none for the root's, and where there is none.
    pub fn parent_of_control(&self, id: u64) -> Option<u64> {
        self.controls.get(&id).copied()
    }

    /// Whether there is such a cgroup.
    pub fn has_control(&self, id: u64) -> bool {
        id == 0 || self.controls.contains_key(&id)
    }

    pub fn kin(&self, task: u32) -> Option<&Kin> {
        self.tasks.get(&task)
    }

    /// The cgroup and those above it, to the root's.
    fn controls_above(&self, control: u64) -> Vec<u64> {
        let next = |it: &u64| self.controls.get(it).copied();
        std::iter::successors(Some(control), next).collect()
    }

    /// The namespace and those around it, to the root's.
    fn spaces_around(&self, space: u64) -> Vec<u64> {
        let next = |it: &u64| self.spaces.get(it).map(|it| it.parent);
        std::iter::successors(Some(space), next).collect()
    }

    /// Whether the cgroup is that one, or stands below it.
    pub fn is_within(&self, control: u64, top: u64) -> bool {
        let next = |it: &u64| self.controls.get(it).copied();
        std::iter::successors(Some(control), next).any(|it| it == top)
    }

    /// The children of a task, live or ended.
    pub fn children(&self, task: u32) -> impl Iterator<Item = (u32, &Kin)> {
        let mut at = self.tasks.get(&task).map_or(0, |it| it.first_child);
        std::iter::from_fn(move || {
            let this = Some(at).filter(|it| *it != 0)?;
            let kin = self.tasks.get(&this)?;
            at = kin.after;
            Some((this, kin))
        })
    }

    /// Who goes if the task ends: the members of its namespace and of those inside, where it is the init there.
    pub fn falls_with(&self, task: u32) -> Vec<u32> {
        let Some(space) = self.tasks.get(&task).map(|it| it.space) else { return Vec::new() };
        if space == 0 || self.spaces.get(&space).is_none_or(|it| it.init != task) {
            return Vec::new();
        }
        let inside = self.all_inside(space);
        inside.iter().filter_map(|it| self.spaces.get(it)).flat_map(|it| it.members.iter().copied()).collect()
    }

    /// The namespace, and those that stand within it, each behind the one around it.
    fn all_inside(&self, space: u64) -> Vec<u64> {
        let (mut all, mut at) = (vec![space], 0);
        while let Some(this) = all.get(at) {
            all.extend(self.spaces.get(this).into_iter().flat_map(|it| it.inside.iter().copied()));
            at += 1;
        }
        all
    }

    fn put_inside(&mut self, space: u64, parent: u64) {
        if let Some(around) = self.space(parent) {
            around.inside.insert(space);
        }
    }

    /// Before a call: what will not be known behind it.
    pub fn foresee(&mut self, table: &Table, call: Call) {
        let Call::Exit { caller, .. } = call else { return };
        self.doomed.clear();
        if !self.is_watched || self.tasks.get(&caller).is_none_or(|it| it.is_zombie) {
            return;
        }
        let mut those = self.falls_with(caller);
        those.retain(|it| *it != caller && self.tasks.get(it).is_some_and(|it| !it.is_zombie));
        those.push(caller);
        for task in those {
            let control = table.stat(INIT, task).map_or(0, |it| it.control());
            let space = self.tasks.get(&task).map_or(0, |it| it.space);
            let controls = self.controls_above(control);
            self.doomed.push(Doomed { task, space, controls });
        }
    }

    /// Behind a call: what has changed.
    pub fn note(&mut self, table: &Table, call: Call, reply: &Reply, stamp: u64) {
        match (call, reply) {
            (Call::Fork { caller, new_space }, Reply::Forked(child)) => {
                self.note_fork(caller, new_space, child, stamp);
                self.tell_fork(table, caller, child.root, stamp - 1);
            }
            (Call::Exit { caller, status }, Reply::Done) => {
                self.tell_ends(caller, status, stamp - 1);
                self.note_exit(table, caller);
            }
            (Call::Wait { caller, .. }, Reply::Reaped(it)) => {
                if let Some(task) = self.zombies.get(&(caller, it.child)).copied() {
                    self.remove(task);
                }
            }
            (Call::Join { caller, number }, Reply::Done) => {
                let space = table.stat(caller, number).map_or(0, |it| it.space());
                if let Some(kin) = self.tasks.get_mut(&caller) {
                    kin.children = space;
                }
            }
            (Call::Mk { parent }, Reply::Control(id)) => {
                self.controls.insert(*id, parent);
            }
            (Call::Rm { id }, Reply::Done) => {
                self.controls.remove(&id);
            }
            (Call::Setpgid { caller, .. }, Reply::Done) => self.stir(caller),
            (Call::Setsid { caller }, Reply::Number(_)) => self.stir(caller),
            _ => {}
        }
    }

    /// Another group: of the task, or of a child of it.
    fn stir(&mut self, task: u32) {
        self.stirred.push(task);
        self.stirred.extend(self.tasks.get(&task).map(|it| it.parent));
    }

    fn note_fork(&mut self, caller: u32, new_space: bool, child: &pidtab::Child, stamp: u64) {
        let Some(parent) = self.tasks.get_mut(&caller) else { return };
        let around = parent.children;
        let first = std::mem::replace(&mut parent.first_child, child.root);
        if let Some(it) = self.sibling(first) {
            it.before = child.root;
        }
        let space = if new_space { stamp } else { around };
        if new_space {
            self.spaces.insert(space, Space::new(around, child.root));
            self.put_inside(space, around);
        }
        let kin = Kin::new(caller, child.number, space, space, first);
        self.add(child.root, kin, new_space);
    }

    fn tell_fork(&mut self, table: &Table, parent: u32, child: u32, ordinal: u64) {
        if !self.is_watched {
            return;
        }
        let Some(space) = self.tasks.get(&child).map(|it| it.space) else { return };
        let control = table.stat(INIT, child).map_or(0, |it| it.control());
        let (spaces, controls) = (self.spaces_around(space), self.controls_above(control));
        self.events.push(Event { ordinal, what: What::Forked { parent, child }, spaces, controls });
    }

    /// The task ends; its children have another parent; if it is an init, its namespace falls.
    fn note_exit(&mut self, table: &Table, task: u32) {
        let space = self.tasks.get(&task).map_or(0, |it| it.space);
        let fallen = self.falls_with(task);
        self.stirred.push(task);
        let mut changed: Vec<u32> = self.children(task).map(|it| it.0).collect();
        if fallen.is_empty() {
            self.become_zombie(task);
        }
        for it in &fallen {
            changed.extend(self.children(*it).map(|it| it.0));
        }
        changed.extend(&fallen);
        changed.iter().for_each(|it| self.refresh(table, *it));
        if !fallen.is_empty() {
            let parent = self.spaces.get(&space).map_or(0, |it| it.parent);
            self.all_inside(space).iter().for_each(|it| drop(self.spaces.remove(it)));
            if let Some(around) = self.space(parent) {
                around.inside.remove(&space);
            }
        }
    }

    /// Who is no init stays his parent's until he is waited for.
    fn become_zombie(&mut self, task: u32) {
        let Some(kin) = self.tasks.get_mut(&task) else { return };
        kin.is_zombie = true;
        let (parent, number) = (kin.parent, kin.number);
        self.add_zombie(parent, number, task);
    }

    fn add_zombie(&mut self, parent: u32, number: u32, task: u32) {
        self.zombies.insert((parent, number), task);
        self.stirred.push(parent);
    }

    /// The events of those that have ended; a namespace falls behind its init.
    fn tell_ends(&mut self, task: u32, status: u8, ordinal: u64) {
        for Doomed { task: it, space, controls } in std::mem::take(&mut self.doomed) {
            let ended = if it == task { Ended::Exited(status) } else { Ended::Killed };
            let spaces = self.spaces_around(space);
            let is_init = self.spaces.get(&space).is_some_and(|around| around.init == it);
            let fell = Event { ordinal, what: What::Fell, spaces: spaces.clone(), controls: controls.clone() };
            self.events.push(Event { ordinal, what: What::Ended { task: it, ended }, spaces, controls });
            self.events.extend(is_init.then_some(fell));
        }
    }

    /// The task as the table has it now.
    fn refresh(&mut self, table: &Table, task: u32) {
        if !self.tasks.contains_key(&task) {
            return;
        }
        let Ok(stat) = table.stat(INIT, task) else { return self.remove(task) };
        let depth = table.stat(INIT, stat.parent()).map_or(1, |it| it.numbers().len());
        if let Some(kin) = self.tasks.get(&task).copied() {
            self.unlink(&kin);
        }
        if let Some(kin) = self.tasks.get_mut(&task) {
            kin.is_zombie = stat.ended().is_some();
            kin.number = stat.numbers()[depth - 1];
        }
        self.link(task, stat.parent());
    }

    fn add(&mut self, task: u32, kin: Kin, is_init: bool) {
        if let Some(space) = self.space(kin.space) {
            space.members.insert(task);
            if is_init {
                space.init = task;
            }
        }
        self.tasks.insert(task, kin);
    }

    fn remove(&mut self, task: u32) {
        let Some(kin) = self.tasks.remove(&task) else { return };
        self.unlink(&kin);
        if self.tells_gone {
            self.gone.push(task);
        }
        if let Some(space) = self.space(kin.space) {
            space.members.remove(&task);
        }
    }

    /// A namespace; none for the root's, which is most often meant, and is not looked for.
    fn space(&mut self, space: u64) -> Option<&mut Space> {
        if space == 0 {
            return None;
        }
        self.spaces.get_mut(&space)
    }

    /// A sibling, where the number is that of one.
    fn sibling(&mut self, task: u32) -> Option<&mut Kin> {
        if task == 0 {
            return None;
        }
        self.tasks.get_mut(&task)
    }

    /// Makes the task a child of the parent: the first one, and a zombie where it is one.
    fn link(&mut self, task: u32, parent: u32) {
        let first = self.tasks.get_mut(&parent).map_or(0, |it| std::mem::replace(&mut it.first_child, task));
        if let Some(it) = self.sibling(first) {
            it.before = task;
        }
        let Some(kin) = self.tasks.get_mut(&task) else { return };
        (kin.parent, kin.before, kin.after) = (parent, 0, first);
        if kin.is_zombie {
            let number = kin.number;
            self.add_zombie(parent, number, task);
        }
    }

    /// Takes a task from among its siblings.
    fn unlink(&mut self, kin: &Kin) {
        if let Some(it) = self.sibling(kin.after) {
            it.before = kin.before;
        }
        if let Some(it) = self.sibling(kin.before) {
            it.after = kin.after;
        }
        if let Some(parent) = self.tasks.get_mut(&kin.parent) {
            if kin.before == 0 {
                parent.first_child = kin.after;
            }
        }
        if kin.is_zombie {
            self.zombies.remove(&(kin.parent, kin.number));
            self.stirred.push(kin.parent);
        }
    }
}

#[cfg(test)]
mod tests {
    use super::*;
    use pidtab::Which;
    use std::collections::BTreeMap;

    /// What two books of one table must agree on.
    type Facts =
        (Vec<(u32, u32, u32, u64, u64, bool)>, Numbers<(u32, u32), u32>, BTreeMap<u64, Space>, BTreeMap<u64, u64>);

    fn facts(book: &Book) -> Facts {
        let facts = |it: (&u32, &Kin)| (*it.0, it.1.parent, it.1.number, it.1.space, it.1.children, it.1.is_zombie);
        let mut tasks: Vec<_> = book.tasks.iter().map(facts).collect();
        tasks.sort_unstable();
        let spaces = book.spaces.iter().map(|it| (*it.0, it.1.clone()));
        let controls = book.controls.iter().map(|it| (*it.0, *it.1));
        (tasks, book.zombies.clone(), spaces.collect(), controls.collect())
    }

    /// Numbers that look random: those of xorshift64.
    struct Dice(u64);

    impl Dice {
        fn below(&mut self, most: u64) -> u64 {
            self.0 ^= self.0 << 13;
            self.0 ^= self.0 >> 7;
            self.0 ^= self.0 << 17;
            self.0 % most
        }
    }

    fn random_call(dice: &mut Dice, tasks: &[u32], controls: &[u64]) -> Call {
        let caller = tasks[dice.below(tasks.len() as u64) as usize];
        let id = controls[dice.below(controls.len() as u64) as usize];
        let number = dice.below(12) as u32;
        match dice.below(20) {
            0..=6 => Call::Fork { caller, new_space: dice.below(3) == 0 },
            7..=9 => Call::Exit { caller, status: 3 },
            10..=12 => Call::Wait { caller, which: Which::Any },
            13 => Call::Wait { caller, which: Which::Pid(number) },
            14 => Call::Join { caller, number },
            15 => Call::Subreaper { caller, on: dice.below(2) == 0 },
            16 => Call::Mk { parent: id },
            17 => Call::Rm { id },
            18 => Call::Move { task: caller, id },
            _ => Call::Setsid { caller },
        }
    }

    /// Behind each of many random calls the book is the one that the list tells, and each child of it has it as its parent.
    #[test]
    fn the_book_is_that_of_the_list() {
        for seed in 1..40 {
            let (mut dice, table) = (Dice(seed), Table::open(400).expect("a table"));
            let mut book = Book::of(&table.listing().expect("a list"));
            for stamp in 1..600 {
                let listing = table.listing().expect("a list");
                let tasks: Vec<_> = listing.tasks.iter().map(|it| it.root()).collect();
                let controls: Vec<_> = listing.controls.iter().map(|it| it.id).collect();
                let call = random_call(&mut dice, &tasks, &controls);
                book.foresee(&table, call);
                let reply = table.call(call).expect("a reply");
                book.note(&table, call, &reply, stamp);
                let wanted = facts(&Book::of(&table.listing().expect("a list")));
                assert_eq!(facts(&book), wanted, "seed {seed}, call {stamp}: {call:?} {reply:?}");
                assert!(tasks.iter().all(|it| book.children(*it).all(|child| child.1.parent == *it)));
                let children: usize = tasks.iter().map(|it| book.children(*it).count()).sum();
                assert_eq!(children + 1, book.tasks().max(1));
            }
        }
    }

    #[test]
    fn events_of_a_fall() {
        let table = Table::open(400).expect("a table");
        let mut book = Book::of(&table.listing().expect("a list"));
        book.is_watched = true;
        let calls = [
            Call::Fork { caller: 1, new_space: true },
            Call::Fork { caller: 2, new_space: false },
            Call::Exit { caller: 2, status: 7 },
        ];
        for (place, call) in calls.into_iter().enumerate() {
            book.foresee(&table, call);
            let reply = table.call(call).expect("a reply");
            book.note(&table, call, &reply, place as u64 + 1);
        }
        let wanted = [
            (0, What::Forked { parent: 1, child: 2 }),
            (1, What::Forked { parent: 2, child: 3 }),
            (2, What::Ended { task: 3, ended: Ended::Killed }),
            (2, What::Ended { task: 2, ended: Ended::Exited(7) }),
            (2, What::Fell),
        ];
        let wanted = wanted.map(|(ordinal, what)| Event { ordinal, what, spaces: vec![1, 0], controls: vec![0] });
        assert_eq!(book.events, wanted);
        assert_eq!(book.zombies.keys().collect::<Vec<_>>(), [&(1, 2)]);
    }

    #[test]
    fn cgroups_and_namespaces_in_one_another() {
        let mut book = Book::default();
        book.controls.extend([(5, 0), (6, 5), (7, 6)]);
        assert!(book.is_within(7, 5) && book.is_within(7, 0) && book.is_within(5, 5) && book.is_within(0, 0));
        assert!(!book.is_within(5, 7) && !book.is_within(0, 5) && !book.is_within(9, 5));
    }
}
