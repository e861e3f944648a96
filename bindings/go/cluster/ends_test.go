package cluster

import (
	"context"
	"errors"
	"runtime"
	"sync"
	"testing"
	"time"

	"pidtab"
)

func TestACloseWaitsForWhatWasSubmitted(t *testing.T) {
	noLeaks(t)
	table := host(t, new(MemoryLog))
	var asked []*Submitted
	for i := 0; i < 100; i++ {
		asked = append(asked, submit(t, table, "fork 1"))
	}
	table.Close()
	select {
	case <-asked[99].Done():
	default:
		t.Error("it has no answer")
	}
	equal(t, wait(t, asked[99]), child(101))
	table.Close()
	check(t, table.Shutdown(background))
	for _, ask := range everyMethod(table) {
		equal(t, ask(), pidtab.ErrClosed)
	}
	// A copy is the same table.
	again := *table
	equal(t, again.Exec(1), pidtab.ErrClosed)
}

func TestTwoThatCloseAtOnce(t *testing.T) {
	noLeaks(t)
	table := host(t, new(MemoryLog))
	forked(t, table)
	var both sync.WaitGroup
	for i := 0; i < 2; i++ {
		both.Add(1)
		go func() {
			defer both.Done()
			table.Close()
			if err := table.Exec(1); err != pidtab.ErrClosed {
				t.Error(err)
			}
		}()
	}
	both.Wait()
}

func TestOneThatNobodyHasOpened(t *testing.T) {
	var table Replicated
	for _, ask := range everyMethod(&table) {
		equal(t, ask(), pidtab.ErrClosed)
	}
	table.Close()
	equal(t, table.Position(), 0)
	check(t, table.Shutdown(background))
	done, cancel := context.WithCancel(background)
	cancel()
	for i := 0; i < 20; i++ {
		check(t, table.Shutdown(done))
	}
	var asked Submitted
	_, err := asked.Wait(background)
	equal(t, err, pidtab.ErrClosed)
	equal(t, asked.Cancel(), false)
}

func TestAShutdownThatWaitsNoLonger(t *testing.T) {
	noLeaks(t)
	log := new(switchedLog)
	table := host(t, log)
	equal(t, forked(t, table), 2)
	log.turn(false)
	sent := submit(t, table, "fork 1")
	untilSent(t, sent)
	behind := submit(t, table, "fork 1")
	ctx, cancel := context.WithTimeout(background, 50*time.Millisecond)
	defer cancel()
	begun := time.Now()
	equal(t, table.Shutdown(ctx), context.DeadlineExceeded)
	if took := time.Since(begun); took > 5*time.Second {
		t.Error(took)
	}
	_, err := sent.Wait(background)
	isNotKnown(t, err, true, "the table was closed: the calls were made, or were not, or will be made yet")
	_, err = behind.Wait(background)
	isNotKnown(t, err, false, "the table was closed: no call was made")
}

func TestACancelledOneIsNotMade(t *testing.T) {
	log := new(switchedLog)
	table := host(t, log)
	_, err := table.Getpid(1)
	check(t, err)
	log.turn(false)
	first := submit(t, table, "fork 1")
	untilSent(t, first)
	second, third, fourth := submit(t, table, "fork 1"), submit(t, table, "fork 1"), submit(t, table, "fork 1")
	equal(t, first.Cancel(), false)
	equal(t, third.Cancel(), true)
	equal(t, third.Cancel(), false)
	log.turn(true)
	equal(t, wait(t, first), child(2))
	equal(t, wait(t, second), child(3))
	equal(t, wait(t, fourth), child(4))
	equal(t, fourth.Cancel(), false)
	_, err = third.Wait(background)
	isNotKnown(t, err, false, "the calls were cancelled: no call was made")
	if !errors.Is(err, context.Canceled) {
		t.Error(err)
	}
	equal(t, len(third.Receipts()), 0)
}

// briefly is a context that is soon done.
func briefly(t *testing.T) context.Context {
	ctx, cancel := context.WithTimeout(background, 100*time.Millisecond)
	t.Cleanup(cancel)
	return ctx
}

// A context that is done ends the wait: what was not sent is not made, and what was sent is, once.
func TestAContextThatIsDone(t *testing.T) {
	log := new(switchedLog)
	table := host(t, log)
	_, err := table.Getpid(1)
	check(t, err)
	log.turn(false)
	_, err = table.With(briefly(t)).Fork(1, pidtab.NoNewNamespace)
	isNotKnown(t, err, true, "the wait was ended, context deadline exceeded: the calls were made, or were not")
	if !errors.Is(err, context.DeadlineExceeded) {
		t.Error(err)
	}
	_, err = table.With(briefly(t)).Fork(1, pidtab.NoNewNamespace)
	isNotKnown(t, err, false, "no call was made")
	_, err = table.CatchUp(briefly(t))
	equal(t, err, context.DeadlineExceeded)
	log.turn(true)
	// The first was sent.
	equal(t, forked(t, table), 3)
}

// Who waits for a Submitted loses nothing.
func TestAWaitThatIsEnded(t *testing.T) {
	log := new(switchedLog)
	table := host(t, log)
	log.turn(false)
	kept := submit(t, table, "fork 1")
	_, err := kept.Wait(briefly(t))
	equal(t, err, context.DeadlineExceeded)
	log.turn(true)
	equal(t, wait(t, kept), child(2))
	// An answer that is there is not taken away.
	done, cancel := context.WithCancel(background)
	cancel()
	answers, err := kept.Wait(done)
	check(t, err)
	equal(t, answers[0], child(2))
	_, err = table.With(done).Fork(1, pidtab.NoNewNamespace)
	isNotKnown(t, err, false, "the wait was ended, context canceled: no call was made")
	equal(t, forked(t, table), 3)
}

func TestManyGoroutines(t *testing.T) {
	table := host(t, new(MemoryLog))
	var all sync.WaitGroup
	var lock sync.Mutex
	roots := map[uint32]bool{}
	for i := 0; i < 8; i++ {
		all.Add(1)
		go func() {
			defer all.Done()
			for j := 0; j < 50; j++ {
				child, err := table.Fork(1, pidtab.NoNewNamespace)
				if err != nil {
					t.Error(err)
				}
				lock.Lock()
				roots[child.Root] = true
				lock.Unlock()
			}
		}()
	}
	all.Wait()
	equal(t, len(roots), 400)
	for root := uint32(2); root < 402; root++ {
		equal(t, roots[root], true)
	}
}

// A table that nobody has any more is closed, and not before what was submitted is answered.
func TestOneThatNobodyHasAnyMore(t *testing.T) {
	noLeaks(t)
	log := new(MemoryLog)
	asked := func() *Submitted {
		table, err := Open(background, log, Options{Patience: long})
		check(t, err)
		return submit(t, table, "fork 1")
	}()
	runtime.GC()
	equal(t, wait(t, asked), child(2))
	replica := asked.by
	until(t, "its end", func() bool {
		runtime.GC()
		select {
		case <-replica.ended:
			return true
		default:
			return false
		}
	})
}

func TestWhatIsNil(t *testing.T) {
	table := host(t, new(MemoryLog))
	asked := submit(t, table, "getpid 1")
	//lint:ignore SA1012 a context that is nil is what is tested
	var none context.Context
	for _, ask := range []func() error{
		func() error { _, err := Open(none, new(MemoryLog), Options{}); return err },
		func() error { _, err := Open(background, nil, Options{}); return err },
		func() error { _, err := table.Answers(none, []string{"fork 1"}); return err },
		func() error { _, err := table.CatchUp(none); return err },
		func() error { _, err := asked.Wait(none); return err },
		func() error { return table.With(none).Exec(1) },
		func() error { return table.Shutdown(none) },
		func() error { _, err := NewEtcdLog(nil, "web"); return err },
	} {
		equal(t, ask(), pidtab.ErrNil)
	}
	equal(t, forked(t, table), 2)
}

func TestOptionsOutOfRange(t *testing.T) {
	for _, options := range []Options{{PidMax: 300}, {PidMax: 4194305}, {Patience: -1}} {
		log := new(MemoryLog)
		if _, err := Open(background, log, options); !errors.Is(err, pidtab.ErrOutOfRange) {
			t.Error(options, err)
		}
		equal(t, len(log.Entries()), 0)
	}
}
