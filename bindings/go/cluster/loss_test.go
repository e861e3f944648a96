package cluster

import (
	"bytes"
	"context"
	"errors"
	"fmt"
	"sync"
	"testing"
	"time"

	"pidtab"
)

// A flaky machine has no memory for calls, as the library says it.
type flaky struct {
	stepper
	refuse func(position uint64) error
}

func (it *flaky) Apply(table *pidtab.Table, position uint64, entry []byte) (pidtab.Applied, error) {
	if bytes.HasPrefix(entry, []byte("calls ")) {
		if err := it.refuse(position); err != nil {
			return pidtab.Applied{}, err
		}
	}
	return it.stepper.Apply(table, position, entry)
}

// A source opens machines, of which each may refuse entries.
type source struct {
	sync.Mutex
	opened int
	refuse func(opened int, position uint64) error
}

func (it *source) open(pidMax uint32) (*machine, error) {
	made, err := openMachine(pidMax)
	if err != nil {
		return nil, err
	}
	it.Lock()
	defer it.Unlock()
	it.opened++
	opened := it.opened
	made.stepper = &flaky{made.stepper, func(position uint64) error { return it.refuse(opened, position) }}
	return made, nil
}

func (it *source) count() int {
	it.Lock()
	defer it.Unlock()
	return it.opened
}

// brief has replays come soon.
func brief(t *testing.T) {
	before := replayPause
	replayPause = time.Millisecond
	t.Cleanup(func() { replayPause = before })
}

// Want of memory is never an answer: the table is made anew from the log.
func TestTheTableIsMadeAnew(t *testing.T) {
	brief(t)
	for _, loss := range []error{pidtab.ErrNotRecoverable, pidtab.ErrNoMemory} {
		log := new(MemoryLog)
		from := &source{refuse: func(opened int, position uint64) error {
			if opened < 3 && position > 4 {
				return loss
			}
			return nil
		}}
		table, other := open(t, log, Options{open: from.open}), host(t, log)
		equal(t, wait(t, submit(t, table, "fork 1", "mk 0", "fork 1")), "child 2 root 2, control 2, child 3 root 3")
		equal(t, forked(t, other), 4)
		equal(t, forked(t, table), 5)
		same(t, table, other)
		equal(t, from.count(), 3)
	}
}

func TestMemoryThatNeverComes(t *testing.T) {
	brief(t)
	noLeaks(t)
	log := new(MemoryLog)
	from := &source{refuse: func(int, uint64) error { return pidtab.ErrNotRecoverable }}
	table, other := open(t, log, Options{open: from.open}), host(t, log)
	_, err := table.Fork(1, pidtab.NoNewNamespace)
	words := "behind entry 2, after 4 replays of the log"
	isNotKnown(t, err, true, words)
	if !errors.Is(err, pidtab.ErrNotRecoverable) {
		t.Error(err)
	}
	has(t, table.Exec(1), words)
	equal(t, from.count(), 5)
	// The others have made it.
	equal(t, forked(t, other), 3)
}

// A steppedLog hands on an entry at a time, behind a look at it.
type steppedLog struct {
	MemoryLog
	follows int
	before  func(follows int, position uint64)
}

func (log *steppedLog) Follow(ctx context.Context, after uint64, take func(Progress) error) error {
	log.follows++
	return log.MemoryLog.Follow(ctx, after, func(progress Progress) error {
		for _, entry := range progress.Entries {
			log.before(log.follows, entry.Position)
			if err := take(Progress{Position: entry.Position, Entries: []Entry{entry}}); err != nil {
				return err
			}
		}
		return nil
	})
}

// Amid a replay the table is as it was before, so who reads waits for its end.
func TestWhoReadsWaitsForAReplay(t *testing.T) {
	brief(t)
	again, slow := make(chan struct{}), make(chan struct{})
	log := &steppedLog{before: func(follows int, position uint64) {
		if follows == 2 && position == 3 {
			close(again)
			<-slow
		}
	}}
	from := &source{refuse: func(opened int, position uint64) error {
		if opened == 1 && position > 3 {
			return pidtab.ErrNotRecoverable
		}
		return nil
	}}
	table := open(t, log, Options{open: from.open})
	equal(t, forked(t, table), 2)
	asked := submit(t, table, "fork 1")
	<-again
	listed := make(chan int)
	go func() {
		listing, err := table.Listing()
		if err != nil {
			t.Error(err)
		}
		listed <- len(listing.Tasks)
	}()
	select {
	case count := <-listed:
		t.Fatal("a read of", count, "tasks does not wait")
	case <-after(100 * time.Millisecond):
	}
	close(slow)
	if count := <-listed; count < 2 {
		t.Error(count)
	}
	equal(t, wait(t, asked), child(3))
}

func TestASecondTableThatIsNotThere(t *testing.T) {
	brief(t)
	missing := errors.New("no library")
	from := &source{refuse: func(int, uint64) error { return pidtab.ErrNotRecoverable }}
	table := open(t, new(MemoryLog), Options{open: func(pidMax uint32) (*machine, error) {
		if from.count() > 0 {
			return nil, missing
		}
		return from.open(pidMax)
	}})
	_, err := table.Fork(1, pidtab.NoNewNamespace)
	isNotKnown(t, err, true, "the table has stopped, no library")
	equal(t, table.Exec(1), missing)
}

// A table that answers otherwise after a replay has diverged.
func TestASecondTableThatAnswersOtherwise(t *testing.T) {
	brief(t)
	log := new(MemoryLog)
	from := &source{refuse: func(opened int, position uint64) error {
		if opened == 1 && position > 3 {
			return pidtab.ErrNotRecoverable
		}
		return nil
	}}
	table := open(t, log, Options{open: func(pidMax uint32) (*machine, error) {
		made, err := from.open(pidMax)
		if err == nil && from.count() == 2 {
			// One task more, as no other host has it.
			_, err = made.table.Fork(1, pidtab.NoNewNamespace)
		}
		return made, err
	}})
	equal(t, forked(t, table), 2)
	_, err := table.Fork(1, pidtab.NoNewNamespace)
	isNotKnown(t, err, true, "behind entry 3 the digest was ")
	var diverged Diverged
	if !errors.As(err, &diverged) {
		t.Error(err)
	}
	_, err = table.List()
	has(t, err, "after a replay it is")
}

// A library that answers too few lines stops the table, and no answer goes to another line.
func TestTooFewAnswers(t *testing.T) {
	table := open(t, new(MemoryLog), Options{open: func(pidMax uint32) (*machine, error) {
		made, err := openMachine(pidMax)
		if err == nil {
			made.stepper = &brokenOff{made.stepper}
		}
		return made, err
	}})
	_, err := table.Answers(background, []string{"fork 1", "getpid 1"})
	isNotKnown(t, err, true, fmt.Sprintf("the library has answered %d of %d lines", 1, 2))
}

type brokenOff struct{ stepper }

func (it *brokenOff) Answers() ([]string, error) {
	answers, err := it.stepper.Answers()
	return answers[1:], err
}
