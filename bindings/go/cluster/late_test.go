package cluster

import (
	"context"
	"errors"
	"testing"
	"time"

	"pidtab"
)

func TestALogThatDoesNotAnswerAtTheStart(t *testing.T) {
	noLeaks(t)
	log := new(switchedLog)
	log.turn(false)
	_, err := Open(background, log, Options{Patience: 200 * time.Millisecond})
	isFault(t, err, "the log was not opened: the log has not answered for 200ms (connection refused)")
	if !errors.Is(err, errRefused) {
		t.Error(err)
	}
	ctx, cancel := context.WithTimeout(background, 50*time.Millisecond)
	defer cancel()
	_, err = Open(ctx, log, Options{})
	equal(t, err, context.DeadlineExceeded)
}

func TestALogThatDoesNotAnswerAmidCalls(t *testing.T) {
	log := new(switchedLog)
	table := open(t, log, Options{Patience: time.Second})
	forked(t, table)
	log.turn(false)
	first := submit(t, table, "fork 1")
	untilSent(t, first)
	behind := submit(t, table, "fork 1")
	begun := time.Now()
	_, err := first.Wait(background)
	isNotKnown(t, err, true, "1s (connection refused): the calls were made, or were not, or will be made yet")
	_, err = behind.Wait(background)
	isNotKnown(t, err, false, "1s (connection refused): no call was made")
	_, err = table.CatchUp(background)
	isNotKnown(t, err, false, "no call was made")
	if took := time.Since(begun); took > 10*time.Second {
		t.Error(took)
	}
	log.turn(true)
	// The first one was sent, so it is made yet, and before what is asked now.
	equal(t, forked(t, table), 4)
}

func TestALogThatComesBack(t *testing.T) {
	log := new(switchedLog)
	table := host(t, log)
	equal(t, forked(t, table), 2)
	log.turn(false)
	before := log.count()
	var asked []*Submitted
	for i := 0; i < 10; i++ {
		asked = append(asked, submit(t, table, "fork 1"))
	}
	until(t, "some tries", func() bool { return log.count() > before+4 })
	log.turn(true)
	for i, it := range asked {
		equal(t, wait(t, it), child(i+3))
	}
}

func TestACloseWithoutTheLog(t *testing.T) {
	noLeaks(t)
	log := new(switchedLog)
	table := open(t, log, Options{Patience: 300 * time.Millisecond})
	log.turn(false)
	asked := submit(t, table, "fork 1")
	begun := time.Now()
	table.Close()
	if took := time.Since(begun); took > 5*time.Second {
		t.Error(took)
	}
	_, err := asked.Wait(background)
	isNotKnown(t, err, false, "no call was made")
}

// Nobody waits for anything, so a close does not either.
func TestACloseBehindANotKnown(t *testing.T) {
	log := new(switchedLog)
	table := open(t, log, Options{Patience: 2 * time.Second})
	forked(t, table)
	log.turn(false)
	_, err := table.Fork(1, pidtab.NoNewNamespace)
	isNotKnown(t, err, true, "")
	begun := time.Now()
	table.Close()
	if took := time.Since(begun); took > 1500*time.Millisecond {
		t.Error(took)
	}
}

// What is not sent within the patience goes, so that nothing heaps up.
func TestWhatIsNotSentGoes(t *testing.T) {
	log := new(switchedLog)
	table := open(t, log, Options{Patience: 200 * time.Millisecond})
	log.turn(false)
	var asked []*Submitted
	for i := 0; i < 100; i++ {
		asked = append(asked, submit(t, table, "fork 1"))
	}
	for _, it := range asked {
		_, err := it.Wait(background)
		isNotKnown(t, err, false, "")
	}
	table.own.replica.mu.Lock()
	left := len(table.own.replica.calls.live)
	table.own.replica.mu.Unlock()
	equal(t, left, 0)
	log.turn(true)
	equal(t, forked(t, table), 2)
}

// A log that can never be used stops the table.
func TestALogThatRefuses(t *testing.T) {
	log := &refusingLog{}
	table := host(t, log)
	log.fault = LogFault{Why: "the log refuses it"}
	_, err := table.Fork(1, pidtab.NoNewNamespace)
	isNotKnown(t, err, false, "the table has stopped, pidtab: the log refuses it")
	if !isLogFault(err) {
		t.Error(err)
	}
	isFault(t, table.Exec(1), "the log refuses it")
}

type refusingLog struct {
	MemoryLog
	fault error
}

func (log *refusingLog) Append(ctx context.Context, entry []byte) (uint64, error) {
	if log.fault != nil {
		return 0, log.fault
	}
	return log.MemoryLog.Append(ctx, entry)
}
