package cluster

import (
	"context"
	"errors"
	"math/rand"
	"sync"
	"time"
)

const (
	// How often each trouble comes, of 1, and the longest delay.
	troubleChance = 0.08
	longestDelay  = 4 * time.Millisecond

	// A follower waits so long before it says that nothing came.
	memoryIdle = 500 * time.Millisecond
)

// What a MemoryLog with troubles answers.
var (
	errNotThere = errors.New("the log does not answer, and the entry is lost")
	errLater    = errors.New("the log does not answer, and the entry comes later")
	errThere    = errors.New("the log does not answer, and the entry is there")
	errCutOff   = errors.New("the follower is cut off")
)

// MemoryLog is a log in the memory of one process, for tests. The zero value is an empty one in which all goes well; its entries have the positions from 1
// on. It is not copied.
type MemoryLog struct {
	mu      sync.Mutex
	random  *rand.Rand // nil where there are no troubles
	entries [][]byte
	late    [][]byte
	cut     int // how many entries were cut, before those that are here
	cells   map[string][]byte
	changed chan struct{}
}

// NewTroubledLog is an empty log with troubles that the seed chooses: an Append fails and its entry is not there, or is there, or comes later; an entry is
// there twice, or again behind later ones; a follower ends, is late, or has few entries at a time.
func NewTroubledLog(seed int64) *MemoryLog {
	return &MemoryLog{random: rand.New(rand.NewSource(seed))}
}

// Append puts an entry behind the others. Behind an error it is there or not.
func (log *MemoryLog) Append(ctx context.Context, entry []byte) (uint64, error) {
	log.delay(ctx)
	if err := ctx.Err(); err != nil {
		return 0, err
	}
	log.mu.Lock()
	defer log.mu.Unlock()
	entry = append([]byte(nil), entry...)
	log.bringLate()
	if err := log.trouble(entry); err != nil {
		return 0, err
	}
	log.put(entry)
	position := log.last()
	if log.comes() {
		log.put(entry)
	}
	if log.comes() {
		log.late = append(log.late, entry)
	}
	return position, nil
}

// Follow hands on all entries behind the position, and then each that comes.
func (log *MemoryLog) Follow(ctx context.Context, after uint64, take func(Progress) error) error {
	for {
		log.delay(ctx)
		progress, err := log.next(ctx, after)
		if err == nil {
			err = take(progress)
		}
		if err != nil {
			return err
		}
		after = progress.Position
	}
}

// End is the position of the last entry.
func (log *MemoryLog) End(ctx context.Context) (uint64, error) {
	log.mu.Lock()
	defer log.mu.Unlock()
	return log.last(), ctx.Err()
}

// Entries are all entries with their positions, as they are now.
func (log *MemoryLog) Entries() []Entry {
	log.mu.Lock()
	defer log.mu.Unlock()
	return log.behind(0, len(log.entries))
}

// behind are so many entries behind a position, or those that there are. The lock is held.
func (log *MemoryLog) behind(position uint64, most int) []Entry {
	first := 0
	if int(position) > log.cut {
		first = int(position) - log.cut
	}
	var found []Entry
	for place := first; place < len(log.entries) && len(found) < most; place++ {
		found = append(found, Entry{uint64(log.cut + place + 1), log.entries[place]})
	}
	return found
}

// next is what comes behind the position. Where nothing does for a while, it has no entries.
func (log *MemoryLog) next(ctx context.Context, after uint64) (Progress, error) {
	if err := log.wait(ctx, after); err != nil {
		return Progress{}, err
	}
	log.mu.Lock()
	defer log.mu.Unlock()
	if log.comes() {
		return Progress{}, errCutOff
	}
	if after == 0 || after < uint64(log.cut) {
		loaded, err := loadBehind(ctx, log.cell, after)
		if err != nil {
			return Progress{}, err
		}
		if loaded != nil {
			return *loaded, nil
		}
	}
	most := len(log.entries)
	if log.random != nil {
		most = 1 + log.random.Intn(5)
	}
	found := log.behind(after, most)
	if len(found) == 0 {
		return Progress{Position: after}, nil
	}
	return Progress{Position: found[len(found)-1].Position, Entries: found}, nil
}

// wait waits for an entry behind a position, or for a while.
func (log *MemoryLog) wait(ctx context.Context, after uint64) error {
	idle := time.NewTimer(memoryIdle)
	defer idle.Stop()
	for {
		log.mu.Lock()
		isThere, changed := log.last() > after, log.changes()
		log.mu.Unlock()
		if isThere {
			return ctx.Err()
		}
		select {
		case <-changed:
		case <-idle.C:
			return ctx.Err()
		case <-ctx.Done():
			return ctx.Err()
		}
	}
}

// cell is a value beside the entries. The lock is held.
func (log *MemoryLog) cell(_ context.Context, name string) ([]byte, error) {
	return log.cells[name], nil
}

func (log *MemoryLog) last() uint64 { return uint64(log.cut + len(log.entries)) }

func (log *MemoryLog) changes() <-chan struct{} {
	if log.changed == nil {
		log.changed = make(chan struct{})
	}
	return log.changed
}

func (log *MemoryLog) put(entry []byte) {
	log.entries = append(log.entries, entry)
	if log.changed != nil {
		close(log.changed)
		log.changed = nil
	}
}

// comes is whether a trouble comes now. The lock is held.
func (log *MemoryLog) comes() bool { return log.random != nil && log.random.Float64() < troubleChance }

// delay is late, where there are troubles.
func (log *MemoryLog) delay(ctx context.Context) {
	if log.random == nil {
		return
	}
	log.mu.Lock()
	long := time.Duration(log.random.Int63n(int64(longestDelay)))
	log.mu.Unlock()
	sleep(ctx, long)
}

// bringLate brings some of the entries that are late. The lock is held.
func (log *MemoryLog) bringLate() {
	for len(log.late) > 0 && log.comes() {
		log.put(log.late[0])
		log.late = log.late[1:]
	}
}

// trouble is what goes wrong with an Append, if anything does. The lock is held.
func (log *MemoryLog) trouble(entry []byte) error {
	switch {
	case log.comes():
		return errNotThere
	case log.comes():
		log.late = append(log.late, entry)
		return errLater
	case log.comes():
		log.put(entry)
		return errThere
	}
	return nil
}
