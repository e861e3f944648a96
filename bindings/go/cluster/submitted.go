package cluster

import (
	"context"
	"time"

	"pidtab"
)

// Receipt is where calls are in the log, as `pidtab-replay --answers` reads it: the session and the number of their entry, the place of the first
// in it, counted from 0, and how many.
type Receipt struct {
	Session, Sequence uint64
	Place, Count      int
}

// A part has lines of a Submit that go into one entry: a call of the machine.
type part struct {
	pidtab.HostCall
	of      *Submitted
	lines   []string
	size    uint64   // bytes in an entry
	answers []string // once it is answered
}

// call is what the machine has of it: nil of one that is over.
func (it *part) call() *pidtab.HostCall {
	if it == nil {
		return nil
	}
	return &it.HostCall
}

// Submitted are calls that were submitted to a table on many hosts, and their answers once they are there. It waits on its own at most as long as the
// patience of the table. Goroutines may share it.
type Submitted struct {
	by    *replica
	parts []*part       // whose calls the lock of the replica guards until it is over
	done  chan struct{} // is closed once it is over
	timer *time.Timer   // of the patience
	fault error         // why it has no answers, once it is over
}

// newSubmitted are lines that nobody has sent.
func newSubmitted(by *replica, lines []string) *Submitted {
	it := &Submitted{by: by, done: make(chan struct{})}
	last := &part{size: partBytes}
	for _, line := range lines {
		sent := asSent(line)
		size := uint64(len(sent)) + 1
		if last.size+size > partBytes {
			last = &part{of: it}
			it.parts = append(it.parts, last)
		}
		last.lines, last.size = append(last.lines, sent), last.size+size
	}
	return it
}

// Done is closed once there are answers, or there never will be.
func (it *Submitted) Done() <-chan struct{} { return it.done }

// Wait waits for the answers, one for each line: refusals and bad lines are answers here. A NotKnown where there will be none. A context that is done
// ends the wait, with its Err, and nothing is lost: wait again.
func (it *Submitted) Wait(ctx context.Context) ([]string, error) {
	if ctx == nil {
		return nil, pidtab.ErrNil
	}
	if it.by == nil {
		return nil, pidtab.ErrClosed
	}
	select {
	case <-it.done:
	case <-ctx.Done():
		// What is there is not taken away.
		if !it.isOver() {
			return nil, ctx.Err()
		}
	}
	return it.result()
}

// Cancel has the calls not made, if nothing of them was sent: whether that went well. Then Wait answers a NotKnown that wraps context.Canceled.
func (it *Submitted) Cancel() bool {
	if it.by == nil {
		return false
	}
	isCancelled := false
	it.by.change(func() { isCancelled = it.by.calls.cancel(it) })
	return isCancelled
}

// Receipts are where the calls are in the log, by the entries in which they are; nil where they have no answers yet.
func (it *Submitted) Receipts() []Receipt {
	if !it.isOver() || it.fault != nil {
		return nil
	}
	receipts := make([]Receipt, len(it.parts))
	for number, part := range it.parts {
		session, sequence, place := part.Entry()
		receipts[number] = Receipt{session, sequence, int(place), len(part.lines)}
	}
	return receipts
}

// isOver is whether there are answers, or there never will be.
func (it *Submitted) isOver() bool { return isClosed(it.done) }

func isClosed(it <-chan struct{}) bool {
	select {
	case <-it:
		return true
	default:
		return false
	}
}

// result is what it is answered, once it is over.
func (it *Submitted) result() ([]string, error) {
	if it.fault != nil {
		return nil, it.fault
	}
	if len(it.parts) == 1 {
		return it.parts[0].answers, nil
	}
	var all []string
	for _, part := range it.parts {
		all = append(all, part.answers...)
	}
	return all, nil
}

// waitOrLeave waits for the answers. Where the context is done before, nobody waits for them any more: what was not sent is not made.
func (it *Submitted) waitOrLeave(ctx context.Context) ([]string, error) {
	select {
	case <-it.done:
	case <-ctx.Done():
		it.by.change(func() { it.by.calls.fail(it, whyEnded(ctx.Err()), ctx.Err()) })
	}
	return it.result()
}

// whyEnded is why a wait has ended whose context is done, in words.
func whyEnded(err error) string { return "the wait was ended, " + err.Error() }

// finish ends it. The lock is held.
func (it *Submitted) finish(fault error) {
	it.fault = fault
	if it.timer != nil {
		it.timer.Stop()
	}
	close(it.done)
}
