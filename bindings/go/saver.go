package pidtab

// #include <pidtab_saved.h>
import "C"

import (
	"context"
	"io"
	"sync"
)

// A saving is how far the saver of a table is, as it has told.
type saving struct {
	told, recorded sync.Cond // the saver has told; a call was recorded while somebody slept
	saved, most    uint64    // so many calls are saved; as many may be recorded and not saved, or 0 for any number
	fault          error     // of the saver's last turn, or ErrEnded
	hasEnded       bool
	sleeps         bool // the saver, or another, waits for a call
}

// Serve is the saver of a table that goroutines work on, in a goroutine of its own. It does what Save does, sleeps until a call is recorded, and
// begins again, until EndSaving. Each turn ends with sync, as an *os.File's Sync, if it is not nil: so one sync serves all that wait, and only after
// it a turn's calls count as saved. Where keep is not 0, it cuts the history whenever that has so many entries: all others wait while the last entries
// are written and the kept ones made once more.
//
// The errors are those of Save, and that of sync in a SavedError. WaitSaved answers them too. Serve may be called again; but after a Sync of a file
// that failed, nobody knows what the disk has: load it.
func (table *Table) Serve(to io.Writer, saved *Saved, keep uint64, sync func() error) error {
	return table.ServeContext(context.Background(), to, saved, keep, sync)
}

// ServeContext is Serve until the context is done too. Then it saves what was recorded, and answers the context's Err in a SavedError, as WaitSaved does
// until a turn does better. A write or a sync that does not return is not ended.
func (table *Table) ServeContext(ctx context.Context, to io.Writer, saved *Saved, keep uint64, sync func() error) error {
	if ctx == nil || to == nil || saved == nil {
		return SavedError{Err: ErrNil}
	}
	held := table.held()
	if err := held.forThreads(); err != nil {
		return SavedError{Err: err}
	}
	defer held.watch(ctx)()
	// One turn more after the end, for what was recorded before it.
	for isLast, hasEnded := false, false; !isLast; {
		isLast = hasEnded
		err := table.serveOnce(to, saved, keep, sync)
		if err == nil {
			hasEnded, err = held.sleepUntilCall(ctx, saved)
		}
		if err != nil {
			return err
		}
	}
	return held.leave(ctx, saved)
}

// leave ends a saver: what waits is told of a context that is done, but not after EndSaving.
func (held *heldTable) leave(ctx context.Context, saved *Saved) error {
	saved.lock.Lock()
	defer saved.lock.Unlock()
	if held.isEnded() {
		return nil
	}
	return held.tell(saved, ctx.Err())
}

// isEnded is whether EndSaving was called.
func (held *heldTable) isEnded() bool {
	held.RLock()
	defer held.RUnlock()
	return held.saving.hasEnded
}

// WaitSaved waits until the call with the ordinal is saved: after the Save, the load or the turn of Serve that has it. Each of these wakes all that
// wait. It costs a lock, and a sleep where the call is not saved yet.
//
// An error is that of the saver's last turn, at once until a turn does better: whether the call is saved is not known. ErrEnded after EndSaving, and
// ErrClosed after Close. Before the first turn it waits.
func (table *Table) WaitSaved(ordinal uint64) error {
	return table.WaitSavedContext(context.Background(), ordinal)
}

// WaitSavedContext is WaitSaved, and a context that is done ends the wait for a call that is not saved, with its Err. ErrNil.
func (table *Table) WaitSavedContext(ctx context.Context, ordinal uint64) error {
	if ctx == nil {
		return ErrNil
	}
	held := table.held()
	if err := held.forThreads(); err != nil {
		return err
	}
	held.Lock()
	defer held.Unlock()
	if _, err := held.counts(); err != nil {
		return err
	}
	err := held.waitTold(ctx, func() (bool, error) { return !bool(held.raw.is_open) || held.saving.saved > ordinal, held.saving.fault })
	if err == nil && !held.raw.is_open {
		return ErrClosed
	}
	return err
}

// waitTold waits for the saver until something is so, or there is a fault, or the context is done. The table is taken, but not meanwhile.
func (held *heldTable) waitTold(ctx context.Context, look func() (bool, error)) error {
	is, err := look()
	if is {
		return nil
	}
	defer held.watch(ctx)()
	for !is {
		if err == nil {
			err = ctx.Err()
		}
		if err != nil {
			return err
		}
		held.saving.told.Wait()
		is, err = look()
	}
	return nil
}

// watch has all that wait, and the saver, look again once the context is done. What it answers ends that.
func (held *heldTable) watch(ctx context.Context) func() {
	done, over := ctx.Done(), make(chan struct{})
	if done == nil {
		return func() {}
	}
	go func() {
		select {
		case <-done:
			held.change(func(*saving) {})
		case <-over:
		}
	}()
	return func() { close(over) }
}

// BoundUnsaved has at most so many calls be recorded and not saved from now on; 0, as at first, is any number. A call that would be one
// more waits for the saver, as WaitSaved does. Where the saver's last turn failed, or it has ended, it is not made, and answers ErrUnsaved. The
// goroutine that saves makes no call then.
func (table *Table) BoundUnsaved(most uint64) error {
	return table.held().tellSaver(func(saving *saving) { saving.most = most })
}

// EndSaving ends the saver, for good: Serve saves what was recorded, and returns. What waits, or comes to wait, for a call that is not saved is
// ErrEnded. So it is called when nobody waits any more.
func (table *Table) EndSaving() error {
	return table.held().tellSaver(func(saving *saving) { saving.hasEnded, saving.fault = true, ErrEnded })
}

// tellSaver changes what the saver, and all that wait for it, look at, if the table has any.
func (held *heldTable) tellSaver(do func(*saving)) error {
	err := held.forThreads()
	if err == nil {
		held.change(do)
	}
	return err
}

// serveOnce is one turn of the saver.
func (table *Table) serveOnce(to io.Writer, saved *Saved, keep uint64, sync func() error) error {
	saved.lock.Lock()
	defer saved.lock.Unlock()
	err := table.save(to, saved)
	if err == nil {
		err = table.held().cutSaved(to, saved, keep)
	}
	if err == nil && sync != nil {
		err = sync()
	}
	return table.held().tell(saved, err)
}

// cutSaved cuts the history where it is long enough, after its last entries. Where there is no memory for that, it grows on.
func (held *heldTable) cutSaved(to io.Writer, saved *Saved, keep uint64) error {
	held.Lock()
	defer held.Unlock()
	counts, err := held.counts()
	if err != nil || keep == 0 || counts.Recorded-counts.FirstKept < keep {
		return err
	}
	if err := saved.writeUpTo(counts.Recorded, to, held.read); err != nil {
		return err
	}
	C.pidtab_checkpoint(&held.raw)
	return nil
}

// tell tells all that wait how far the saver is, and answers its fault. What ended is not taken back.
func (held *heldTable) tell(saved *Saved, err error) error {
	fault := saved.at(err)
	held.change(func(saving *saving) {
		if fault == nil {
			saving.saved = saved.calls
		}
		if !saving.hasEnded {
			saving.fault = fault
		}
	})
	return fault
}

// change changes what all that wait, and the saver, look at again then. At a busy table without Threads nobody waits.
func (held *heldTable) change(do func(*saving)) {
	if !held.enter() {
		return
	}
	defer held.Unlock()
	do(&held.saving)
	held.saving.told.Broadcast()
	held.saving.recorded.Broadcast()
}

// sleepUntilCall sleeps until a call is recorded that is not saved. Whether the saver has ended, or its context is done.
func (held *heldTable) sleepUntilCall(ctx context.Context, saved *Saved) (bool, error) {
	calls, bytes := saved.Calls(), saved.Bytes()
	held.Lock()
	defer held.Unlock()
	for !held.saving.hasEnded && ctx.Err() == nil {
		counts, err := held.counts()
		if err != nil {
			return false, SavedError{calls, bytes, err}
		}
		if counts.Recorded > calls {
			return false, nil
		}
		held.sleep()
	}
	return true, nil
}

// sleep sleeps until calls may have been recorded. The table is taken, but not meanwhile.
func (held *heldTable) sleep() {
	held.saving.sleeps = true
	held.saving.recorded.Wait()
}

// wakeSleepers has all that sleep look at what was recorded. The table is taken.
func (held *heldTable) wakeSleepers() {
	if held.saving.sleeps {
		held.saving.sleeps = false
		held.saving.recorded.Broadcast()
	}
}

// waitForSaver waits until the saver is near enough for so many calls, where there is a bound; for more than the bound, until all are saved. It
// answers why calls are not to be made: ErrUnsaved, or the Err of the context. The table is taken.
func (held *heldTable) waitForSaver(ctx context.Context, calls int) error {
	if ctx == nil && bool(held.raw.is_open) {
		return ErrNil
	}
	if !held.waits || held.isNear(calls) {
		return nil
	}
	return held.waitTold(ctx, func() (bool, error) {
		if held.saving.fault != nil {
			return held.isNear(calls), ErrUnsaved
		}
		return held.isNear(calls), nil
	})
}

// isNear is whether so many calls may be made, as the bound has it. The table is taken.
func (held *heldTable) isNear(calls int) bool {
	if held.saving.most == 0 {
		return true
	}
	counts, err := held.counts()
	return err != nil || counts.Recorded <= held.saving.saved || counts.Recorded-held.saving.saved+uint64(calls) <= held.saving.most
}
