package pidtab

import (
	"bytes"
	"errors"
	"runtime"
	"sync"
	"sync/atomic"
	"syscall"
	"testing"
)

const (
	savers    = 8
	savedEach = 300
)

// A disk counts the bytes that it was given, and those that were there at the last sync.
type disk struct{ given, synced atomic.Uint64 }

func (it *disk) Write(from []byte) (int, error) {
	it.given.Add(uint64(len(from)))
	return len(from), nil
}

func (it *disk) sync() error {
	it.synced.Store(it.given.Load())
	return nil
}

// calls is how many calls survive: each of them is one block.
func (it *disk) calls() uint64 {
	if blocks := it.synced.Load() / blockSize; blocks > 0 {
		return blocks - 1
	}
	return 0
}

// A brokenDisk takes nothing.
type brokenDisk struct{}

func (brokenDisk) Write([]byte) (int, error) { return 0, syscall.ENOSPC }

// ask makes a call that is one block: its ordinal.
func ask(t *testing.T, seat *Seat) uint64 {
	t.Helper()
	if _, err := seat.Getpid(1); err != nil {
		t.Error(err)
	}
	ordinal, _ := seat.Ordinal()
	return ordinal
}

// besideTheSaver has goroutines do it at once, and the saver end after them: how many calls are saved.
func besideTheSaver(t *testing.T, table *Table, to *disk, keep uint64, does func(*Seat)) uint64 {
	t.Helper()
	saved, ended, busy := new(Saved), make(chan error, 1), new(sync.WaitGroup)
	go func() { ended <- table.Serve(to, saved, keep, to.sync) }()
	for i := 0; i < savers; i++ {
		seat := seatOf(t, table)
		busy.Add(1)
		go func() {
			defer busy.Done()
			for i := 0; i < savedEach; i++ {
				does(seat)
			}
		}()
	}
	busy.Wait()
	table.EndSaving()
	want(t, "the saver", only(<-ended), nil, nil)
	return saved.Calls()
}

// Each call is after a sync when it is answered. No goroutine has more than one that is not, so a cut leaves as many as there are goroutines.
func TestEachAnswerIsOnTheDisk(t *testing.T) {
	const keep = 256
	table, to := open(t, withHistory(savers)), new(disk)
	calls := besideTheSaver(t, table, to, keep, func(seat *Seat) {
		ordinal := ask(t, seat)
		if err := table.WaitSaved(ordinal); err != nil || to.calls() <= ordinal {
			t.Error(ordinal, to.calls(), err)
		}
	})
	counts, _ := table.Counts()
	if calls != savers*savedEach || counts.Recorded != calls || counts.Recorded-counts.FirstKept >= keep+savers {
		t.Error(calls, counts)
	}
}

// A call was made when at most so many were not saved; by now more may be.
func TestNeverTooFar(t *testing.T) {
	const bound = 16
	table, to := open(t, withHistory(savers)), new(disk)
	table.BoundUnsaved(bound)
	calls := besideTheSaver(t, table, to, 0, func(seat *Seat) {
		if ordinal := ask(t, seat); ordinal >= to.calls()+bound {
			t.Error(ordinal, to.calls())
		}
	})
	if calls != savers*savedEach {
		t.Error(calls)
	}
}

// The same by turns. One that is longer than the bound is made where all is saved.
func TestNoTurnTooFar(t *testing.T) {
	const bound = 16
	table, to := open(t, withHistory(savers)), new(disk)
	table.BoundUnsaved(bound)
	var turns atomic.Uint64
	calls := besideTheSaver(t, table, to, 0, func(seat *Seat) {
		count := 1 + turns.Add(1)%3*bound
		calls := make([]Call, count)
		for i := range calls {
			calls[i] = Call{Operation: OpGetpid, Caller: 1}
		}
		_, err := seat.Calls(calls)
		most := count
		if most < bound {
			most = bound
		}
		if ordinal, _ := seat.Ordinal(); err != nil || ordinal >= to.calls()+most {
			t.Error(ordinal, to.calls(), err)
		}
	})
	counts, err := table.Counts()
	if calls != counts.Recorded || calls < savers*savedEach || err != nil {
		t.Error(calls, counts, err)
	}
}

// What was loaded is saved.
func TestWhatWasLoadedIsSaved(t *testing.T) {
	again, _ := load(t, bytesOf(t, example(t)))
	want(t, "the last", only(again.WaitSaved(2)), nil, nil)
}

// Who waits has the fault of the saver, at once, until a save does better; and what is too far is not made.
func TestASaverThatFails(t *testing.T) {
	table, saved, to := open(t, withHistory(1)), new(Saved), new(disk)
	seat, waiter := seatOf(t, table), make(chan error, 1)
	table.BoundUnsaved(1)
	ask(t, seat)
	go func() { waiter <- table.WaitSaved(0) }()
	for _, err := range []error{table.Serve(brokenDisk{}, saved, 0, nil), <-waiter, table.WaitSaved(0)} {
		if fault := new(SavedError); !errors.Is(err, syscall.ENOSPC) || !errors.As(err, fault) {
			t.Error(err)
		}
	}
	want(t, "too far", of(seat.Getpid(1)), uint32(0), ErrUnsaved)
	want(t, "too far", of(seat.Line("getpid 1")), "", ErrUnsaved)
	isNotMade(t, seat, exitOf(2, 0), ErrUnsaved)
	want(t, "counts", of(table.Counts()), Counts{0, 1}, nil)
	// A sync that fails: the call is given to the disk, and counts as not saved.
	err := table.Serve(to, saved, 0, func() error { return syscall.EIO })
	if !errors.Is(err, syscall.EIO) || saved.Calls() != 1 || !errors.Is(table.WaitSaved(0), syscall.EIO) {
		t.Error(err, saved.Calls())
	}
	save(t, table, to, saved)
	want(t, "saved", only(table.WaitSaved(0)), nil, nil)
	want(t, "the next", of(ask(t, seat), nil), uint64(1), nil)
}

// A saver that has ended has a turn yet, and then nobody waits for it.
func TestASaverThatHasEnded(t *testing.T) {
	table, saved, file := open(t, withHistory(1)), new(Saved), new(bytes.Buffer)
	seat, waiter := seatOf(t, table), make(chan error, 1)
	table.BoundUnsaved(1)
	ask(t, seat)
	go func() { waiter <- table.WaitSaved(0) }()
	table.EndSaving()
	want(t, "the waiter", only(<-waiter), nil, ErrEnded)
	want(t, "too far", of(seat.Getpid(1)), uint32(0), ErrUnsaved)
	want(t, "a turn", only(table.Serve(file, saved, 0, nil)), nil, nil)
	if saved.Calls() != 1 || file.Len() != 2*blockSize {
		t.Error(saved.Calls(), file.Len())
	}
	want(t, "saved", only(table.WaitSaved(0)), nil, nil)
	want(t, "the next", only(table.WaitSaved(1)), nil, ErrEnded)
}

// A table that is closed lets nobody wait.
func TestASaverOfAClosedTable(t *testing.T) {
	table, ended, waiter := open(t, withHistory(1)), make(chan error, 1), make(chan error, 1)
	go func() { ended <- table.Serve(new(disk), new(Saved), 0, nil) }()
	go func() { waiter <- table.WaitSaved(0) }()
	table.Close()
	if err := <-ended; !errors.Is(err, ErrClosed) {
		t.Error(err)
	}
	want(t, "the waiter", only(<-waiter), nil, ErrClosed)
	want(t, "none", only(new(Table).WaitSaved(0)), nil, ErrClosed)
	want(t, "nil", only(table.Serve(nil, nil, 0, nil)), nil, SavedError{Err: ErrNil})
}

// Each of the busy goroutines has the lock once more at most, and then waits until the other has had it.
func TestBusyGoroutinesGiveWay(t *testing.T) {
	var lock fairLock
	var count int
	var isOver atomic.Bool
	var busy sync.WaitGroup
	for i := 0; i < savers; i++ {
		busy.Add(1)
		go func() {
			defer busy.Done()
			for !isOver.Load() {
				lock.LockForCall()
				count++
				lock.Unlock()
			}
		}()
	}
	for i := 0; i < 200; i++ {
		lock.Lock()
		before, found := count, make(chan int)
		go func() {
			lock.Lock()
			defer lock.Unlock()
			found <- count
		}()
		for !lock.isAwaited.Load() {
			runtime.Gosched()
		}
		lock.Unlock()
		if calls := <-found - before; calls > savers {
			t.Errorf("%d calls came before", calls)
		}
	}
	isOver.Store(true)
	busy.Wait()
}
