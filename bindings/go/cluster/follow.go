package cluster

import (
	"bytes"
	"fmt"
	"time"

	"pidtab"
)

const (
	// So often a table is made anew from the log without a gain of so many positions; then the replica stops.
	mostReplays = 4
	gain        = 1000
)

// The pause before a replay, times how many there were.
var replayPause = 500 * time.Millisecond

// follow applies what comes of the log, for as long as the replica goes on.
func (it *replica) follow() {
	defer close(it.followed)
	for pauses := newBackoff(it.patience); it.life.Err() == nil; pauses.pause(it.life) {
		fault, trouble := it.followOnce(pauses)
		switch {
		case it.life.Err() != nil:
		case isLoss(fault):
			it.lose(fault)
		case fault != nil:
			it.stopBy(fault)
		case isLogFault(trouble):
			it.stopBy(trouble)
		default:
			it.note(trouble)
		}
	}
}

// followOnce follows the log until something fails: the table, or the log.
func (it *replica) followOnce(pauses *backoff) (fault, trouble error) {
	if it.lost != nil {
		if fault = it.replay(); fault != nil {
			return fault, nil
		}
	}
	trouble = it.log.Follow(it.life, it.seen, func(progress Progress) error {
		if fault == nil {
			fault = it.take(progress)
		}
		if fault == nil {
			pauses.reset()
		}
		return fault
	})
	return fault, trouble
}

// take applies what has come, and answers what is this host's.
func (it *replica) take(progress Progress) error {
	if progress.Snapshot != "" {
		if err := it.takeSnapshot(progress); err != nil {
			return err
		}
	}
	for _, entry := range progress.Entries {
		if err := it.takeEntry(entry); err != nil {
			return err
		}
	}
	it.change(func() {
		if it.seen < progress.Position {
			it.seen = progress.Position
		}
	})
	return nil
}

// takeSnapshot has the table be as a snapshot says.
func (it *replica) takeSnapshot(progress Progress) error {
	position := progress.Position
	if position <= it.applied {
		return LogFault{Why: fmt.Sprintf("the log has given the snapshot of entry %d behind entry %d", position, it.applied)}
	}
	if err := it.advance(position, func() error { return it.machine.load(position, progress.Snapshot) }); err != nil {
		return err
	}
	return it.skip(position)
}

// takeEntry applies an entry, and answers it if it is this host's.
func (it *replica) takeEntry(entry Entry) error {
	var applied pidtab.Applied
	err := it.advance(entry.Position, func() (err error) {
		applied, err = it.machine.apply(entry.Position, entry.Data)
		return err
	})
	if err != nil {
		return err
	}
	return it.settle(applied, entry.Data)
}

// advance has the table go on to a position.
func (it *replica) advance(position uint64, step func() error) error {
	it.tableLock.Lock()
	defer it.tableLock.Unlock()
	if err := it.life.Err(); err != nil {
		return err
	}
	if err := step(); err != nil {
		if isLoss(err) {
			// Before anybody reads it.
			it.change(func() { it.lost = err })
		}
		return err
	}
	return it.noteAt(position)
}

// noteAt notes the digest behind an entry. Where the log is replayed, it has to be the one that was noted before.
func (it *replica) noteAt(position uint64) error {
	digest, err := it.machine.Digest(position)
	if err != nil {
		return err
	}
	it.mu.Lock()
	defer it.mu.Unlock()
	if position == it.last.position && digest != it.last.digest {
		before, now := shorten(it.last.digest), shorten(digest)
		return Diverged{Why: fmt.Sprintf("behind entry %d the digest was %s here, and after a replay it is %s", position, before, now)}
	}
	it.applied = position
	if position > it.last.position {
		it.last = place{position, digest}
	}
	return nil
}

// settle answers an entry that is this host's.
func (it *replica) settle(applied pidtab.Applied, entry []byte) error {
	it.mu.Lock()
	defer it.mu.Unlock()
	if applied.Session != it.calls.host.Session() {
		// Nobody is to be woken by what is another host's.
		return it.calls.read(applied, nil)
	}
	defer it.wake()
	var answers []string
	if applied.Outcome == pidtab.EntryMade {
		var err error
		if answers, err = it.machine.Answers(); err != nil {
			return err
		}
		if count := bytes.Count(entry, []byte("\n")); count != len(answers) {
			return fmt.Errorf("pidtab: the library has answered %d of %d lines", len(answers), count)
		}
	}
	return it.calls.read(applied, answers)
}

// skip tells what may be among the entries in whose place a snapshot has come.
func (it *replica) skip(position uint64) error {
	it.mu.Lock()
	defer it.mu.Unlock()
	defer it.wake()
	last, err := it.machine.Last(it.calls.host.Session())
	return it.calls.load(position, err == nil, last)
}

// lose counts how often the table was lost without a gain, and stops behind a bound.
func (it *replica) lose(fault error) {
	it.tableLock.Lock()
	it.change(func() {
		it.lost = fault
		if it.replays++; it.applied > it.failedAt+gain {
			it.replays = 1
		}
		if it.failedAt < it.applied {
			it.failedAt = it.applied
		}
	})
	it.tableLock.Unlock()
	// Nobody else changes these.
	if it.replays > mostReplays {
		it.stopBy(fmt.Errorf("pidtab: behind entry %d, after %d replays of the log: %w", it.failedAt, mostReplays, fault))
	}
	sleep(it.life, time.Duration(it.replays)*replayPause)
}

// replay throws the table away, and begins anew from the log's first entry.
func (it *replica) replay() error {
	it.tableLock.Lock()
	defer it.tableLock.Unlock()
	it.machine.close()
	anew, err := it.open(it.pidMax)
	if err != nil {
		return err
	}
	it.machine = anew
	it.change(func() { it.lost, it.applied, it.seen = nil, 0, 0 })
	return nil
}
