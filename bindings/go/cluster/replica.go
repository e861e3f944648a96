package cluster

import (
	"context"
	"fmt"
	"runtime"
	"sync"
	"time"

	"pidtab"
)

const (
	// A reader that waits so long for its own log asks for a mark, which the log's follower reaches by itself.
	soon = 20 * time.Millisecond

	// How long an end waits for what a log may hold up.
	lastWait = 10 * time.Second
)

// A replica is a table that follows a log, and what this host puts into it. One goroutine follows the log, and alone changes the table. One appends.
type replica struct {
	log      Log
	patience time.Duration
	pidMax   uint32
	open     func(pidMax uint32) (*machine, error)

	life     context.Context // until the replica stops
	kill     context.CancelFunc
	ending   sync.Once
	ended    chan struct{} // is closed once all has ended
	followed chan struct{} // is closed once the follower has ended; nil before it begins
	appended chan struct{} // and the appender

	// Of the table. Who has both locks takes this one first.
	tableLock sync.RWMutex
	machine   *machine

	mu      sync.Mutex
	changed chan struct{} // is closed by the next change; nil where nobody waits
	stopped bool
	closing bool
	fault   error // why it has stopped, where it was not closed
	trouble error // what the log last said that it could not do, for the words of a fault

	// How far it is. What is said of the table is written under both locks.
	seen     uint64 // the log was read up to here; entries behind it may be applied already
	applied  uint64 // the position of the machine
	last     place  // the last entry that was ever applied here: while the log is replayed, it stays
	lost     error  // why the table is not that of the log any more; nil where it is
	replays  int
	failedAt uint64

	calls *ownCalls // what this host sends
	begun time.Time // of the clock for their deadlines
}

// newReplica has a table, and has not begun.
func newReplica(log Log, options Options) (*replica, error) {
	machine, err := options.open(options.PidMax)
	if err != nil {
		return nil, err
	}
	it := &replica{
		log:      log,
		patience: options.Patience,
		pidMax:   options.PidMax,
		open:     options.open,
		ended:    make(chan struct{}),
		machine:  machine,
		calls:    newOwnCalls(),
		begun:    time.Now(),
	}
	it.life, it.kill = context.WithCancel(context.Background())
	return it, nil
}

// closedReplica is one of a table that nobody has opened.
func closedReplica() *replica {
	it := &replica{ended: make(chan struct{}), closing: true, stopped: true, calls: newOwnCalls()}
	it.ending.Do(func() { close(it.ended) })
	return it
}

// start begins, and waits until the table is as the log has it now.
func (it *replica) start(ctx context.Context) error {
	// Before the follower begins, which so gets there by itself.
	end, err := it.insist(ctx, it.log.End)
	if err != nil {
		return it.notOpened(err)
	}
	it.followed, it.appended = make(chan struct{}), make(chan struct{})
	go it.follow()
	go it.sendAll()
	if err := it.reach(ctx, end); err != nil {
		return it.notOpened(err)
	}
	return it.notOpened(it.begin(ctx))
}

// begin puts the settings into a log that is empty.
func (it *replica) begin(ctx context.Context) error {
	hasBegun := func() bool { return it.last.position > 0 }
	if locked(it, hasBegun) {
		return nil
	}
	settings := []byte(settingsEntry(it.pidMax))
	if _, err := it.insist(ctx, func(ctx context.Context) (uint64, error) { return it.log.Append(ctx, settings) }); err != nil {
		return err
	}
	return it.waitUntil(ctx, hasBegun)
}

// notOpened is what an error is at the opening.
func (it *replica) notOpened(err error) error {
	if late, isLate := err.(NotKnown); isLate {
		return LogFault{Why: "the log was not opened: " + late.Why, Err: locked(it, func() error { return it.trouble })}
	}
	return err
}

// check is why the replica takes no calls; nil where it does.
func (it *replica) check() error { return locked(it, it.refusal) }

// refusal is the same. The lock is held.
func (it *replica) refusal() error {
	if it.closing || (it.stopped && it.fault == nil) {
		return pidtab.ErrClosed
	}
	return it.fault
}

// submit has calls made.
func (it *replica) submit(submitted *Submitted) error {
	it.mu.Lock()
	defer it.mu.Unlock()
	if err := it.refusal(); err != nil {
		return err
	}
	if len(submitted.parts) == 0 {
		submitted.finish(nil)
		return nil
	}
	it.calls.add(submitted, it.clock()+uint64(it.patience))
	submitted.timer = time.AfterFunc(it.patience, func() { it.expire(submitted) })
	it.wake()
	return nil
}

// clock is the time of the deadlines, in nanoseconds.
func (it *replica) clock() uint64 { return uint64(time.Since(it.begun)) }

// expire fails what waits longer than the patience.
func (it *replica) expire(submitted *Submitted) {
	it.change(func() { it.calls.expire(submitted, it.clock(), it.whyLate()) })
}

// read has a look at the table, which nobody changes meanwhile. Amid a replay it would be as it was before, so who reads waits for its end.
func (it *replica) read(look func(table *pidtab.Table) error) error {
	for {
		if err := it.check(); err != nil {
			return err
		}
		if isDone, err := it.tryRead(look); isDone {
			return err
		}
		if err := it.waitUntil(context.Background(), it.isWhole); err != nil {
			return err
		}
	}
}

// tryRead has the look, if the table has all that was ever answered here.
func (it *replica) tryRead(look func(table *pidtab.Table) error) (bool, error) {
	it.tableLock.RLock()
	defer it.tableLock.RUnlock()
	it.mu.Lock()
	refusal, isWhole := it.refusal(), it.isWhole()
	it.mu.Unlock()
	if refusal != nil || !isWhole {
		return refusal != nil, refusal
	}
	return true, look(it.machine.table)
}

// isWhole is whether the table has all that was ever answered here. A lock is held.
func (it *replica) isWhole() bool { return it.lost == nil && it.applied >= it.last.position }

// catchUp waits until the table has all that the log had when this was asked: the position.
func (it *replica) catchUp(ctx context.Context) (uint64, error) {
	if ctx == nil {
		return 0, pidtab.ErrNil
	}
	if err := it.check(); err != nil {
		return 0, err
	}
	end, err := it.insist(ctx, it.log.End)
	if err != nil {
		return 0, err
	}
	if marker, isMarker := it.log.(Marker); isMarker && !it.isSoon(ctx, end) {
		if end, err = it.insist(ctx, marker.Mark); err != nil {
			return 0, err
		}
	}
	if err := it.reach(ctx, end); err != nil {
		return 0, err
	}
	return it.placeNow().position, nil
}

// isSoon waits a little until the log was read up to a position: whether it was.
func (it *replica) isSoon(ctx context.Context, position uint64) bool {
	ctx, cancel := context.WithTimeout(ctx, soon)
	defer cancel()
	return it.reach(ctx, position) == nil
}

// reach waits until the log was read up to a position.
func (it *replica) reach(ctx context.Context, position uint64) error {
	return it.waitUntil(ctx, func() bool { return it.seen >= position })
}

// placeNow is the last entry that was applied, and the digest behind it.
func (it *replica) placeNow() place { return locked(it, func() place { return it.last }) }

// digestAt is the digest behind an entry.
func (it *replica) digestAt(position uint64) (pidtab.LogDigest, error) {
	if err := it.check(); err != nil {
		return pidtab.LogDigest{}, err
	}
	it.tableLock.RLock()
	defer it.tableLock.RUnlock()
	return it.machine.Digest(position)
}

// How far the follower is: this changes as long as it goes on.
type progress struct {
	seen, applied uint64
	replays       int
}

// waitUntil waits for what the follower brings, as long as it goes on within the patience. The lock is held where it looks.
func (it *replica) waitUntil(ctx context.Context, holds func() bool) error {
	var before progress
	for late := time.Now().Add(it.patience); ; {
		it.mu.Lock()
		now, isThere, refusal, changed := progress{it.seen, it.applied, it.replays}, holds(), it.refusal(), it.changes()
		it.mu.Unlock()
		if isThere || refusal != nil {
			return refusal
		}
		if now != before {
			before, late = now, time.Now().Add(it.patience)
		}
		timer := time.NewTimer(time.Until(late))
		select {
		case <-changed:
			timer.Stop()
		case <-timer.C:
			return it.over()
		case <-ctx.Done():
			timer.Stop()
			return ctx.Err()
		}
	}
}

// await waits until something holds. The lock is held where it looks.
func (it *replica) await(holds func() bool) {
	for {
		it.mu.Lock()
		isThere, changed := holds(), it.changes()
		it.mu.Unlock()
		if isThere {
			return
		}
		<-changed
		// Who is about to submit does so first, and is in the same entry.
		runtime.Gosched()
	}
}

// locked reads something under the lock.
func locked[T any](it *replica, read func() T) T {
	it.mu.Lock()
	defer it.mu.Unlock()
	return read()
}

// change changes something under the lock, and wakes all that wait for a change.
func (it *replica) change(do func()) {
	it.mu.Lock()
	defer it.mu.Unlock()
	defer it.wake()
	do()
}

// changes is closed by the next change. The lock is held.
func (it *replica) changes() <-chan struct{} {
	if it.changed == nil {
		it.changed = make(chan struct{})
	}
	return it.changed
}

// wake wakes all that wait for a change. The lock is held.
func (it *replica) wake() {
	if it.changed != nil {
		close(it.changed)
		it.changed = nil
	}
}

// insist makes a step of the log until it answers, within the patience.
func (it *replica) insist(ctx context.Context, step func(context.Context) (uint64, error)) (uint64, error) {
	if ctx == nil {
		return 0, pidtab.ErrNil
	}
	within, cancel := context.WithTimeout(ctx, it.patience)
	defer cancel()
	go func() {
		select {
		case <-it.life.Done():
			cancel()
		case <-within.Done():
		}
	}()
	for pauses := newBackoff(it.patience); ; pauses.pause(within) {
		if err := it.check(); err != nil {
			return 0, err
		}
		position, err := step(within)
		switch {
		case err == nil:
			return position, nil
		case isLogFault(err):
			return 0, err
		case ctx.Err() != nil:
			return 0, ctx.Err()
		case within.Err() != nil && it.life.Err() == nil:
			return 0, it.over()
		}
		it.note(err)
	}
}

// note keeps what the log could not do.
func (it *replica) note(trouble error) { it.change(func() { it.trouble = trouble }) }

// over is what is answered when the patience is over for what makes no call.
func (it *replica) over() error { return NotKnown{Why: locked(it, it.whyLate)} }

// whyLate is why the patience is over, in words. The lock is held.
func (it *replica) whyLate() string {
	if it.trouble == nil {
		return fmt.Sprintf("the log has not answered for %v", it.patience)
	}
	return fmt.Sprintf("the log has not answered for %v (%v)", it.patience, it.trouble)
}

// stop ends the work, and fails all that waits. Where it has stopped before, that stays as it was.
func (it *replica) stop(fault error, why string) {
	it.change(func() {
		if !it.stopped {
			it.stopped, it.fault = true, fault
		}
		it.calls.stop(why, fault)
	})
	it.kill()
}

// stopBy stops for a fault of the log or of the table.
func (it *replica) stopBy(fault error) { it.stop(fault, "the table has stopped, "+fault.Error()) }

// close stops, for no fault.
func (it *replica) close() { it.stop(nil, "the table was closed") }

// shutdown waits within the patience until what was submitted is answered, and ends all. Where the context is done before, it waits no more.
func (it *replica) shutdown(ctx context.Context) error {
	it.ending.Do(func() { go it.finish() })
	select {
	case <-it.ended:
	case <-ctx.Done():
		if !isClosed(it.ended) {
			it.close()
			<-it.ended
			return ctx.Err()
		}
	}
	return nil
}

// finish ends all, once nobody waits for an answer: the patience of each who does is over at last.
func (it *replica) finish() {
	defer close(it.ended)
	it.change(func() { it.closing = true })
	it.await(func() bool { return it.stopped || it.calls.isOver() })
	if locked(it, it.calls.isIdle) {
		// It ends the session, by one try.
		waitFor(it.appended, it.life.Done())
	}
	it.close()
	waitFor(it.followed, nil)
	waitFor(it.appended, nil)
	it.tableLock.Lock()
	defer it.tableLock.Unlock()
	it.machine.close()
}

// waitFor waits for the end of a goroutine, if it has begun, which a log may hold up: for a while, and no longer than until something else has ended.
func waitFor(worker, other <-chan struct{}) {
	if worker == nil {
		return
	}
	timer := time.NewTimer(lastWait)
	defer timer.Stop()
	select {
	case <-worker:
	case <-timer.C:
	case <-other:
	}
}
