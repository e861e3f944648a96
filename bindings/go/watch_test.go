package pidtab

import (
	"bytes"
	"context"
	"errors"
	"math"
	"runtime"
	"sync"
	"testing"
	"time"
)

const (
	watchers    = 4
	watchedEach = 2000
	short       = 30 * time.Millisecond
)

// waiting begins a wait in a goroutine, whose answer it tells.
func waiting(ctx context.Context, table *Table, ordinal uint64) <-chan told {
	answer := make(chan told, 1)
	go func() { answer <- of(table.WaitChanged(ctx, ordinal)) }()
	return answer
}

// isOver is whether a wait was answered.
func isOver(answer <-chan told) bool {
	return len(answer) != 0
}

func TestWhatIsRecordedIsNotWaitedFor(t *testing.T) {
	table := open(t, withHistory(1))
	forked(t, seatOf(t, table), 2)
	done, cancel := context.WithCancel(context.Background())
	cancel()
	for _, ctx := range []context.Context{context.Background(), done} {
		want(t, "the first", of(table.WaitChanged(ctx, 0)), uint64(2), nil)
		want(t, "the second", of(table.WaitChanged(ctx, 1)), uint64(2), nil)
	}
	want(t, "a cut", only(table.Checkpoint()), nil, nil)
	want(t, "behind it", of(table.WaitChanged(done, 0)), uint64(2), nil)
	want(t, "not recorded", of(table.WaitChanged(done, 2)), uint64(2), context.Canceled)
}

// A call wakes each that waits for it, and no query or cut does. One that waits for more goes on.
func TestEachThatWaitsIsWoken(t *testing.T) {
	table := open(t, withHistory(1))
	ctx, cancel := context.WithCancel(context.Background())
	defer cancel()
	var first []<-chan told
	for i := 0; i < 8; i++ {
		first = append(first, waiting([]context.Context{ctx, context.Background()}[i%2], table, 0))
	}
	last, seat := waiting(ctx, table, 2), seatOf(t, table)
	time.Sleep(short)
	want(t, "a query", of(table.Ask(Call{Operation: OpGetpid, Caller: 1})), Reply{Kind: ReplyNumber, First: 1}, nil)
	want(t, "a cut", only(table.Checkpoint()), nil, nil)
	time.Sleep(short)
	for _, it := range first {
		if isOver(it) {
			t.Error("woken by no call")
		}
	}
	ask(t, seat)
	for _, it := range first {
		want(t, "the first", <-it, uint64(1), nil)
	}
	want(t, "a line", of(seat.Line("getpid 1")), "1", nil)
	time.Sleep(short)
	if isOver(last) {
		t.Error("woken too early")
	}
	isTold(t, seat, exitOf(1, 0))
	want(t, "the last", <-last, uint64(3), nil)
}

// The calls of a replay are told of too.
func TestAReplayWakes(t *testing.T) {
	table, other := open(t, withHistory(1)), open(t, withHistory(1))
	forked(t, seatOf(t, table), 3)
	waiter := waiting(context.Background(), other, 0)
	time.Sleep(short)
	entries, err := table.Entries(0, 3)
	want(t, "entries", only(err), nil, nil)
	want(t, "a replay", only(other.Replay(entries)), nil, nil)
	want(t, "the waiter", <-waiter, uint64(3), nil)
}

// A context ends the wait that has it, and no other. A deadline never comes too early.
func TestAContextEndsAWait(t *testing.T) {
	table := open(t, withHistory(1))
	ctx, cancel := context.WithCancel(context.Background())
	ended, other := waiting(ctx, table, 0), waiting(context.Background(), table, 0)
	time.Sleep(short)
	cancel()
	want(t, "cancelled", <-ended, uint64(0), context.Canceled)
	begun := time.Now()
	late, end := context.WithTimeout(context.Background(), short)
	defer end()
	want(t, "too late", of(table.WaitChanged(late, 0)), uint64(0), context.DeadlineExceeded)
	if time.Since(begun) < short {
		t.Error("too early")
	}
	if isOver(other) {
		t.Error("woken by another's context")
	}
	ask(t, seatOf(t, table))
	want(t, "the other", <-other, uint64(1), nil)
	//lint:ignore SA1012 what a caller may do by mistake
	want(t, "nil", of(table.WaitChanged(nil, 0)), uint64(0), ErrNil)
}

// A wait that is over leaves no goroutine.
func TestAWaitLeavesNothing(t *testing.T) {
	table := open(t, withHistory(1))
	seat, before := seatOf(t, table), runtime.NumGoroutine()
	ctx, cancel := context.WithCancel(context.Background())
	defer cancel()
	for ordinal := uint64(0); ordinal < 50; ordinal++ {
		waiter := waiting(ctx, table, ordinal)
		time.Sleep(time.Millisecond)
		ask(t, seat)
		want(t, "a waiter", <-waiter, ordinal+1, nil)
	}
	for i := 0; runtime.NumGoroutine() > before; i++ {
		if i == 1000 {
			t.Fatal(runtime.NumGoroutine(), "goroutines, and not", before)
		}
		time.Sleep(time.Millisecond)
	}
}

func TestAClosedTableLetsNobodyWait(t *testing.T) {
	table := open(t, withHistory(1))
	ctx, cancel := context.WithCancel(context.Background())
	defer cancel()
	waiters := []<-chan told{waiting(ctx, table, 0), waiting(context.Background(), table, math.MaxUint64)}
	time.Sleep(short)
	table.Close()
	for _, it := range waiters {
		want(t, "a waiter", <-it, uint64(0), ErrClosed)
	}
	want(t, "a later one", of(table.WaitChanged(ctx, 0)), uint64(0), ErrClosed)
	want(t, "none", of(new(Table).WaitChanged(ctx, 0)), uint64(0), ErrClosed)
}

// Each call wakes the saver and who waits, and the end of one is not that of the other.
func TestAWaitBesideASaver(t *testing.T) {
	table, ended := open(t, withHistory(1)), make(chan error, 1)
	saved, seat := new(Saved), seatOf(t, table)
	go func() { ended <- table.Serve(new(bytes.Buffer), saved, 0, nil) }()
	for ordinal := uint64(0); ordinal < 200; ordinal++ {
		waiter := waiting(context.Background(), table, ordinal)
		ask(t, seat)
		want(t, "a waiter", <-waiter, ordinal+1, nil)
		want(t, "saved", only(table.WaitSaved(ordinal)), nil, nil)
	}
	waiter := waiting(context.Background(), table, 200)
	time.Sleep(short)
	table.EndSaving()
	want(t, "the saver", only(<-ended), nil, nil)
	time.Sleep(short)
	if isOver(waiter) {
		t.Error("ended with the saver")
	}
	ask(t, seat)
	want(t, "the last", <-waiter, uint64(201), nil)
}

// workOn makes children that end. One of three is left a zombie.
func workOn(t *testing.T, seat *Seat) {
	for number := 0; number < watchedEach; number++ {
		child, err := seat.Fork(1, NoNewNamespace)
		if err == nil {
			err = seat.Exit(child.Root, 7)
		}
		if err == nil && number%3 != 0 {
			_, err = seat.Wait(1, Pid(child.Number))
		}
		if err != nil {
			t.Error(err)
		}
	}
}

// followOn follows to the end of the context: the replica's text, and how many calls it has made.
func followOn(ctx context.Context, t *testing.T, table *Table, replica *Table) (string, uint64) {
	for next := uint64(0); ; {
		recorded, err := table.WaitChanged(ctx, next)
		if errors.Is(err, context.Canceled) {
			text, err := replica.Dump()
			if err != nil {
				t.Error(err)
			}
			return text, next
		}
		before := next
		if err == nil {
			next, err = table.Follow(replica, next)
		}
		if err != nil || recorded <= before || next < recorded {
			t.Fatal(before, recorded, next, err)
		}
	}
}

// The calls of four goroutines, to the last one.
func TestWhoFollowsToTheEnd(t *testing.T) {
	table, replica := open(t, withHistory(watchers)), open(t, Settings{})
	ctx, cancel := context.WithCancel(context.Background())
	var text string
	var calls uint64
	follower, busy := make(chan struct{}), new(sync.WaitGroup)
	go func() {
		defer close(follower)
		text, calls = followOn(ctx, t, table, replica)
	}()
	for i := 0; i < watchers; i++ {
		seat := seatOf(t, table)
		busy.Add(1)
		go func() {
			defer busy.Done()
			workOn(t, seat)
		}()
	}
	busy.Wait()
	cancel()
	<-follower
	want(t, "the text", of(table.Dump()), text, nil)
	want(t, "calls", of(calls, nil), uint64(watchers*(3*watchedEach-(watchedEach+2)/3)), nil)
}
