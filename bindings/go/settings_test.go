package pidtab

import (
	"bytes"
	"context"
	"errors"
	"sync"
	"testing"
	"time"
)

func TestWhatStandsForAZero(t *testing.T) {
	want(t, "the settings", of(open(t, Settings{}).Settings(), nil), Settings{PidMax: 32768, Workers: 1, FirstStamp: 1}, nil)
	given := Settings{PidMax: 400, Workers: 3, FirstStamp: 9, Keep: 5, Threads: true}
	want(t, "those that are given", of(open(t, given).Settings(), nil), given, nil)
	want(t, "a stamp without a history", of(open(t, Settings{FirstStamp: 7}).Mk(0)), uint64(7), nil)
	want(t, "no table", of(new(Table).Settings(), nil), Settings{}, nil)
}

// The first call beyond the bound cuts the first one, by whatever way it is made.
func TestABoundOfATable(t *testing.T) {
	table, call := open(t, Settings{Keep: 3}), Call{Operation: OpGetpid, Caller: 1}
	for _, way := range []func() error{
		func() error { _, err := table.Getpid(1); return err },
		func() error { _, err := table.Line("getpid 1"); return err },
		func() error { _, _, err := table.Told(call); return err },
		func() error { _, err := table.ForkAt(1, NoNewNamespace, Child{2, 2}); return err },
		func() error { _, err := table.Calls([]Call{call, call}); return err },
		func() error { return table.Replay([]Entry{{Call: call, Reply: Reply{Kind: ReplyNumber, First: 1}}}) },
	} {
		before, err := table.Counts()
		want(t, "made", told{err, way()}, nil, nil)
		after, err := table.Counts()
		if err != nil || after.Recorded == before.Recorded || after.Recorded-after.FirstKept > 3 {
			t.Error(before, after, err)
		}
	}
	wantCounts(t, table, 4, 7)
}

// noHistory are all that read or cut a history, of a table.
func noHistory(table *Table) map[string]error {
	_, entries := table.Entries(0, 1)
	return map[string]error{
		"counts": of(table.Counts()).err, "worker": of(table.Worker(0)).err, "a stranger": of(table.Worker(9)).err, "entry": of(table.Entry(0)).err,
		"entries": entries, "opening": of(table.Opening()).err, "replay": table.Replay(nil), "checkpoint": table.Checkpoint(),
		"checkpoint at": table.CheckpointAt(0), "follow": of(table.Follow(new(Table), 0)).err, "calls": of(table.Calls(nil)).err,
		"save": table.Save(new(bytes.Buffer), new(Saved)), "load": of3(Load(new(bytes.Buffer), Settings{})),
	}
}

func of3[A, B any](_ A, _ B, err error) error { return err }

func TestATableWithoutAHistory(t *testing.T) {
	table := open(t, Settings{})
	seat := seatOf(t, table)
	for name, err := range noHistory(table) {
		if !errors.Is(err, ErrNoHistory) {
			t.Error(name, err)
		}
	}
	want(t, "its sentence", of(ErrNoHistory.Error(), nil), "pidtab: this table keeps no history: open it with keep", nil)
	want(t, "a seat too many", of(table.Seat()), (*Seat)(nil), ErrNoSeat)
	want(t, "a call", of(seat.Mk(0)), uint64(1), nil)
	want(t, "and one of the table", of(table.Mk(0)), uint64(2), nil)
	if ordinal, made := seat.Ordinal(); ordinal != 0 || made {
		t.Error(ordinal, made)
	}
}

// waits are all that wait, or end a wait, at a table.
func waits(table *Table) map[string]error {
	ctx := context.Background()
	return map[string]error{
		"lock": of(table.Lock()).err, "changed": of(table.WaitChanged(ctx, 0)).err, "serve": table.Serve(new(bytes.Buffer), new(Saved), 0, nil),
		"saved": table.WaitSaved(0), "saved too": table.WaitSavedContext(ctx, 0), "bound": table.BoundUnsaved(1), "end": table.EndSaving(),
	}
}

func TestNobodyWaitsAtATableOfOneGoroutine(t *testing.T) {
	table := open(t, Settings{Keep: KeepAll})
	for name, err := range waits(table) {
		if !errors.Is(err, ErrNoThreads) {
			t.Error(name, err)
		}
	}
	want(t, "its sentence", of(ErrNoThreads.Error(), nil), "pidtab: this table is one thread's: open it with threads", nil)
	want(t, "a call", of(table.Mk(0)), uint64(1), nil)
	table.Close()
	for name, err := range waits(table) {
		if !errors.Is(err, ErrClosed) {
			t.Error(name, err)
		}
	}
	kept := open(t, Settings{Threads: true})
	for _, err := range []error{kept.WaitSaved(0), of(kept.WaitChanged(context.Background(), 0)).err, kept.Serve(new(bytes.Buffer), new(Saved), 0, nil)} {
		if !errors.Is(err, ErrNoHistory) {
			t.Error(err)
		}
	}
}

// Without Threads who finds another goroutine in the table is told so, and queries stand side by side.
func TestASecondGoroutine(t *testing.T) {
	table := open(t, Settings{Keep: KeepAll})
	seat := seatOf(t, table)
	table.held().Lock()
	for _, err := range []error{
		of(table.Getpid(1)).err, of(seat.Getpid(1)).err, of(table.Line("getpid 1")).err, of(table.Stat(1, 0)).err, of(table.Children(1, 0, 0)).err,
		of(table.Space(0)).err, of(table.SpacesInside(0, 0)).err, of(table.List()).err, of(table.Listing()).err, of(table.Dump()).err, of(table.Seat()).err,
		of(table.Counts()).err, of(table.Entries(0, 1)).err, of(table.Calls(nil)).err, table.Label(1, "x"), table.Checkpoint(), table.Replay(nil),
		of(table.Follow(new(Table), 0)).err,
	} {
		if err != ErrBusy {
			t.Error(err)
		}
	}
	want(t, "a save", only(table.Save(new(bytes.Buffer), new(Saved))), nil, SavedError{Err: ErrBusy})
	table.held().Unlock()
	table.held().RLock()
	want(t, "a query beside another", of(table.Ask(Call{Operation: OpGetpid, Caller: 1})), Reply{Kind: ReplyNumber, First: 1}, nil)
	want(t, "a call beside it", of(table.Getpid(1)), uint32(0), ErrBusy)
	table.held().RUnlock()
	want(t, "nothing was done", of(table.Mk(0)), uint64(1), nil)
}

// Each call of goroutines that do not wait is made, or was not.
func TestGoroutinesThatFindTheTableBusy(t *testing.T) {
	table := open(t, Settings{Keep: KeepAll})
	var all sync.WaitGroup
	var lock sync.Mutex
	made := uint64(0)
	for range [4]int{} {
		all.Add(1)
		go func() {
			defer all.Done()
			for range [2000]int{} {
				_, err := table.Fork(1, NoNewNamespace)
				if err != nil && err != ErrBusy {
					t.Error(err)
				}
				if err == nil {
					lock.Lock()
					made++
					lock.Unlock()
				}
			}
		}()
	}
	all.Wait()
	wantCounts(t, table, 0, made)
	want(t, "children", of(table.Count(0)), made+1, nil)
}

// Calls in one go, of a seat: no other goroutine's comes between them.
func TestSeveralCallsInOneGo(t *testing.T) {
	table := open(t, withHistory(2))
	seat, other := seatOf(t, table), seatOf(t, table)
	want(t, "a bound", only(table.BoundUnsaved(1)), nil, nil)
	held, err := seat.Lock()
	if err != nil {
		t.Fatal(err)
	}
	made := make(chan error, 1)
	go func() { made <- of(other.Getpid(1)).err }()
	child, err := held.Fork(1, NoNewNamespace)
	want(t, "a fork", of(child, err), Child{2, 2}, nil)
	want(t, "its group", of(held.Mk(0)), uint64(2), nil)
	want(t, "a move", only(held.Move(child.Root, 2)), nil, nil)
	want(t, "a question", of(held.ControlTasks(1, 2, 0)), []uint32{2}, nil)
	wantCounts(t, &held.Table, 0, 3)
	for name, err := range waits(&held.Table) {
		if !errors.Is(err, ErrNoThreads) {
			t.Error(name, err)
		}
	}
	if len(made) != 0 {
		t.Error("another call came between")
	}
	wantOrdinal(t, seat, 2)
	held.Unlock()
	held.Unlock()
	want(t, "a call after it", of(held.Getpid(1)), uint32(0), ErrClosed)
	want(t, "a read after it", of(held.Counts()), Counts{}, ErrClosed)
	want(t, "no more than the bound", only(table.BoundUnsaved(0)), nil, nil)
	want(t, "the other", only(soon(t, func() error { return <-made })), nil, nil)
	want(t, "the entry", of(table.Entry(1)), Entry{1, 0, Call{Operation: OpMk}, Reply{Kind: ReplyControl, First: 2}}, nil)
}

func TestWhatALockMeets(t *testing.T) {
	table := open(t, Settings{Threads: true})
	held, err := table.Lock()
	if err != nil {
		t.Fatal(err)
	}
	waiter := make(chan error, 1)
	go func() {
		other, err := table.Lock()
		if err == nil {
			other.Unlock()
		}
		waiter <- err
	}()
	time.Sleep(short)
	if len(waiter) != 0 {
		t.Error("two have the table")
	}
	held.Close()
	want(t, "closed", of(held.Getpid(1)), uint32(0), ErrClosed)
	held.Unlock()
	want(t, "who waited", only(soon(t, func() error { return <-waiter })), nil, ErrClosed)
	want(t, "of a closed table", of(table.Lock()), (*Held)(nil), ErrClosed)
	want(t, "of a seat that nobody gave", of(new(Seat).Lock()), (*Held)(nil), ErrClosed)
	new(Held).Unlock()
}
