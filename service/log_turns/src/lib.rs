//! What a log is to do next, and what came of it: the machine of `crates/log_turns`, which is proved there, and called here.
#![warn(missing_docs)]

/// What is to be done next. Places are bytes behind the head of the log that is written.
#[derive(Clone, Copy, Debug, PartialEq)]
pub enum Step {
    /// Nothing.
    Rest,
    /// Nothing until it is tried again.
    Wait,
    /// Nothing any more: a sync has failed, and nobody is answered.
    Lost,
    /// Nothing any more: all is on the disk.
    Ended,
    /// The file is cut back to the place.
    Cut {
        /// The place.
        to: u64,
    },
    /// The bytes of calls that follow those that are written.
    Write {
        /// Where they are written.
        at: u64,
        /// How many they are.
        size: u64,
    },
    /// What is written is synced.
    Sync,
    /// All calls up to there are answered.
    Answer {
        /// How many they are, from the first one on.
        calls: u64,
    },
    /// The file is cut behind what is written, and synced.
    Close,
    /// A new log is made, whole and with its name on the disk.
    Begin {
        /// The ordinal of its first call.
        first: u64,
    },
    /// The new log is taken away, and its name on the disk too.
    Undo,
}

/// `StepNumbers` of the machine.
#[derive(Default)]
#[repr(C)]
struct StepNumbers {
    kind: u32,
    place: u64,
    count: u64,
}

/// The state of a log: `Turns` of the machine.
#[derive(Default)]
#[repr(C)]
pub struct Turns {
    taken: u64,
    answered: u64,
    start: u64,
    synced: u64,
    written: u64,
    end: u64,
    is_always: bool,
    is_torn: bool,
    is_stuck: bool,
    is_lost: bool,
    is_turning: bool,
    is_undoing: bool,
    is_closed: bool,
    is_stopping: bool,
    is_named: bool,
    is_compacting: bool,
    has_snapshot: bool,
}

extern "C" {
    fn log_turns_begin(turns: &mut Turns, calls: u64, size: u64, is_always: bool, is_named: bool);
    fn log_turns_take(turns: &mut Turns, size: u64) -> bool;
    fn log_turns_next(turns: &Turns, step: &mut StepNumbers);
    fn log_turns_done(turns: &mut Turns, size: u64);
    fn log_turns_failed(turns: &mut Turns);
    fn log_turns_retry(turns: &mut Turns);
    fn log_turns_turn(turns: &mut Turns);
    fn log_turns_stop(turns: &mut Turns);
    fn log_turns_sync_to(turns: &mut Turns, place: u64);
    fn log_turns_lose(turns: &mut Turns);
    fn log_turns_name(turns: &mut Turns);
    fn log_turns_compact(turns: &mut Turns);
    fn log_turns_may_drop(turns: &Turns) -> bool;
    fn log_turns_rest(turns: &mut Turns);
}

// SAFETY, of each call below: the functions read and write the struct that they are given and nothing else, and keep no reference to it. Its fields
// are those of the machine, in its order.
impl Turns {
    /// A log with so many bytes of calls, all on the disk: `calls` are all up to its end, those of the logs before it among them. `is_always`: a
    /// call is synced before it is answered. `is_named`: `current` names the log.
    pub fn begin(calls: u64, size: u64, is_always: bool, is_named: bool) -> Turns {
        let mut turns = Turns::default();
        unsafe { log_turns_begin(&mut turns, calls, size, is_always, is_named) };
        turns
    }

    /// Takes a call of so many bytes, if the log goes on.
    #[must_use]
    pub fn take(&mut self, size: u64) -> bool {
        unsafe { log_turns_take(self, size) }
    }

    /// What is to be done next.
    pub fn next(&self) -> Step {
        let mut step = StepNumbers::default();
        unsafe { log_turns_next(self, &mut step) };
        match step.kind {
            0 => Step::Rest,
            1 => Step::Wait,
            3 => Step::Ended,
            4 => Step::Cut { to: step.place },
            5 => Step::Write { at: step.place, size: step.count },
            6 => Step::Sync,
            7 => Step::Answer { calls: step.count },
            8 => Step::Close,
            9 => Step::Begin { first: step.count },
            10 => Step::Undo,
            _ => Step::Lost,
        }
    }

    /// What is next was done; of a write, so many bytes.
    pub fn done(&mut self, size: u64) {
        unsafe { log_turns_done(self, size) };
    }

    /// What is next has failed, in part or in whole.
    pub fn failed(&mut self) {
        unsafe { log_turns_failed(self) };
    }

    /// There may be room again.
    pub fn retry(&mut self) {
        unsafe { log_turns_retry(self) };
    }

    /// The log is to go on in a new file, if it has a call, and no snapshot is in work.
    pub fn turn(&mut self) {
        unsafe { log_turns_turn(self) };
    }

    /// No call is taken any more, and the log ends.
    pub fn stop(&mut self) {
        unsafe { log_turns_stop(self) };
    }

    /// Another thread has synced what was written when `written` was this.
    pub fn sync_to(&mut self, written: u64) {
        unsafe { log_turns_sync_to(self, written) };
    }

    /// Another thread could not sync.
    pub fn lose(&mut self) {
        unsafe { log_turns_lose(self) };
    }

    /// `current` names the log, on the disk too.
    pub fn name(&mut self) {
        unsafe { log_turns_name(self) };
    }

    /// The snapshot of all before the log is whole, on the disk too.
    pub fn compact(&mut self) {
        unsafe { log_turns_compact(self) };
    }

    /// Whether the older logs may be dropped.
    pub fn may_drop(&self) -> bool {
        unsafe { log_turns_may_drop(self) }
    }

    /// No snapshot is in work any more, and no older log is being dropped.
    pub fn rest(&mut self) {
        unsafe { log_turns_rest(self) };
    }

    /// So many bytes of calls are written, over all files.
    pub fn written(&self) -> u64 {
        self.written
    }

    /// So many bytes of calls were taken, and are not written.
    pub fn unwritten(&self) -> u64 {
        self.end - self.written
    }

    /// Whether all calls that were taken may be answered.
    pub fn has_answered(&self) -> bool {
        self.answered == self.taken
    }

    /// Whether a snapshot is in work, or older logs are being dropped.
    pub fn is_compacting(&self) -> bool {
        self.is_compacting
    }
}

#[cfg(test)]
mod tests {
    use super::{Step, Turns};

    /// What is next, and that it was done.
    fn does(turns: &mut Turns, size: u64) -> Step {
        let step = turns.next();
        turns.done(size);
        step
    }

    #[test]
    fn fields_are_where_the_machine_has_them() {
        let mut turns = Turns::begin(3, 100, true, false);
        assert_eq!((turns.taken, turns.answered, turns.start), (3, 3, 0));
        assert_eq!((turns.synced, turns.written, turns.end), (100, 100, 100));
        assert!(turns.is_always && !turns.is_named && !turns.has_snapshot);
        turns.compact();
        turns.name();
        assert!(turns.has_snapshot && turns.is_named && turns.may_drop() && !turns.is_compacting);
        turns.stop();
        turns.lose();
        assert!(turns.is_stopping && turns.is_lost && !turns.take(1));
    }

    #[test]
    fn a_write_that_fails_is_cut_back_and_written_once() {
        let mut turns = Turns::begin(0, 0, true, true);
        assert!(turns.take(40) && turns.take(56));
        assert_eq!(does(&mut turns, 30), Step::Write { at: 0, size: 96 });
        assert_eq!(turns.next(), Step::Write { at: 30, size: 66 });
        turns.failed();
        assert_eq!(turns.next(), Step::Wait);
        turns.retry();
        assert_eq!(does(&mut turns, 0), Step::Cut { to: 30 });
        assert_eq!(does(&mut turns, 66), Step::Write { at: 30, size: 66 });
        assert_eq!(does(&mut turns, 0), Step::Sync);
        assert_eq!(does(&mut turns, 0), Step::Answer { calls: 2 });
        assert_eq!(turns.next(), Step::Rest);
    }

    #[test]
    fn a_log_goes_on_in_a_new_file_and_ends() {
        let mut turns = Turns::begin(7, 0, false, true);
        turns.turn();
        assert_eq!(turns.next(), Step::Rest, "nothing is in it");
        assert!(turns.take(48));
        turns.turn();
        let steps = [48, 0, 0, 0].map(|size| does(&mut turns, size));
        assert_eq!(
            steps,
            [Step::Write { at: 0, size: 48 }, Step::Answer { calls: 8 }, Step::Close, Step::Begin { first: 8 }]
        );
        assert!(turns.is_compacting() && !turns.may_drop());
        assert!(turns.take(48));
        turns.stop();
        let steps = [48, 0, 0, 0].map(|size| does(&mut turns, size));
        assert_eq!(steps, [Step::Write { at: 0, size: 48 }, Step::Answer { calls: 9 }, Step::Close, Step::Ended]);
    }

    #[test]
    fn after_a_sync_that_failed_nobody_is_answered() {
        let mut turns = Turns::begin(0, 0, true, true);
        assert!(turns.take(48));
        assert_eq!(does(&mut turns, 48), Step::Write { at: 0, size: 48 });
        turns.failed();
        turns.retry();
        assert_eq!(does(&mut turns, 0), Step::Lost);
        assert!(!turns.has_answered());
    }
}
