package pidtab

import (
	"sync"
	"sync/atomic"
)

// A gate lets goroutines in to a table: queries side by side, and all else alone. Where it waits, as with Settings.Threads, each comes in at last. Else who
// finds another one there does not.
type gate struct {
	fairLock
	waits bool
}

// enter goes in alone, before those who make calls; false where the table is busy.
func (it *gate) enter() bool {
	if !it.waits {
		return it.lock.TryLock()
	}
	it.Lock()
	return true
}

// enterForCall goes in alone for a call; false where the table is busy.
func (it *gate) enterForCall() bool {
	if !it.waits {
		return it.lock.TryLock()
	}
	it.LockForCall()
	return true
}

// share goes in for a query, beside others; false where the table is busy.
func (it *gate) share() bool {
	if !it.waits {
		return it.lock.TryRLock()
	}
	it.RLock()
	return true
}

// A fairLock is a lock for readers and writers of which whoever calls Lock is before those that call LockForCall: each of these has it once more at
// most. A sync.RWMutex alone is for the writer who comes first when it is free, which is a goroutine that has just given it back; only after a
// millisecond it is for one that waits. It lets no reader pass a writer that waits, and has those that wait in before the next writer.
type fairLock struct {
	lock      sync.RWMutex
	gate      sync.Mutex
	isAwaited atomic.Bool // somebody at the gate waits for the lock
}

// Lock locks before the calls.
func (it *fairLock) Lock() {
	it.gate.Lock()
	it.isAwaited.Store(true)
	it.lock.Lock()
	it.isAwaited.Store(false)
	it.gate.Unlock()
}

// LockForCall locks for a call.
func (it *fairLock) LockForCall() {
	if it.isAwaited.Load() {
		it.gate.Lock()
		it.gate.Unlock()
	}
	it.lock.Lock()
}

// Unlock unlocks.
func (it *fairLock) Unlock() {
	it.lock.Unlock()
}

// RLock locks for a query, beside others.
func (it *fairLock) RLock() {
	it.lock.RLock()
}

// RUnlock unlocks after a query.
func (it *fairLock) RUnlock() {
	it.lock.RUnlock()
}
