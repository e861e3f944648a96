package cluster

import (
	"bytes"
	"context"
	"errors"
	"strings"
	"sync/atomic"
	"testing"

	"pidtab"
)

// What a log cannot have of this host's session is a fault of the log.
func TestEntriesThatThisHostHasNotPut(t *testing.T) {
	it := newOwnCalls()
	it.add(newSubmitted(nil, []string{"fork 1"}), 50)
	equal(t, string(it.next(place{})), "open")
	it.sent(100)
	equal(t, string(it.next(place{position: 7})), "calls 100 1 1 7 "+noDigest+"\nfork 1")
	isFault(t, it.load(200, true, 3), "the snapshot of entry 200 has entry 3 of session 100, which this host has not put")
	isFault(t, it.read(pidtab.Applied{Outcome: pidtab.EntryGap, Session: 100, Sequence: 3}, nil), "the log has lost an entry of session 100 before number 3")
	check(t, it.read(pidtab.Applied{Outcome: pidtab.EntryGap, Session: 99, Sequence: 3}, nil))
	check(t, it.load(200, true, 0))
	equal(t, it.isOver(), false)
}

// long lines are bad, and go into several parts of which an entry has four.
func longLines() []string {
	lines := make([]string, 3500)
	for i := range lines {
		lines[i] = strings.Repeat("x", 200)
	}
	return lines
}

// countLong is how many of these lines are in each entry of the log that has some.
func countLong(log *switchedLog) (counts []int) {
	for _, entry := range log.Entries() {
		if count := bytes.Count(entry.Data, []byte("\nxxx")); count > 0 {
			counts = append(counts, count)
		}
	}
	return counts
}

func TestACancelOfSeveralParts(t *testing.T) {
	log := new(switchedLog)
	table := host(t, log)
	log.turn(false)
	asked := submit(t, table, longLines()...)
	equal(t, asked.Cancel(), true)
	log.turn(true)
	equal(t, forked(t, table), 2)
	equal(t, len(countLong(log)), 0)
}

// Who leaves amid several parts has those made that were put, and no others.
func TestALeaveAmidSeveralParts(t *testing.T) {
	log := new(switchedLog)
	table := host(t, log)
	_, err := table.Getpid(1)
	check(t, err)
	log.turn(false)
	_, err = table.Answers(briefly(t), longLines())
	isNotKnown(t, err, true, "the wait was ended, context deadline exceeded: the calls were made, or were not")
	if !errors.Is(err, context.DeadlineExceeded) {
		t.Error(err)
	}
	log.turn(true)
	equal(t, forked(t, table), 2)
	// A part has 128 KiB at most, where a line takes 201 bytes.
	counts := countLong(log)
	if len(counts) != 1 || counts[0] != 4*(128*1024/201) {
		t.Error(counts)
	}
}

// Where there is no memory for answers, they are read again with the log.
func TestAnswersForWhichThereIsNoMemory(t *testing.T) {
	brief(t)
	failures := int32(2)
	table := open(t, new(MemoryLog), Options{open: func(pidMax uint32) (*machine, error) {
		made, err := openMachine(pidMax)
		if err == nil {
			made.stepper = &forgetful{made.stepper, &failures}
		}
		return made, err
	}})
	equal(t, forked(t, table), 2)
	equal(t, forked(t, table), 3)
	equal(t, atomic.LoadInt32(&failures) < 0, true)
}

// A forgetful machine has no memory for answers, so many times.
type forgetful struct {
	stepper
	failures *int32
}

func (it *forgetful) Answers() ([]string, error) {
	if atomic.AddInt32(it.failures, -1) >= 0 {
		return nil, pidtab.ErrNoMemory
	}
	return it.stepper.Answers()
}
