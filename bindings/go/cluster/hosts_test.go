package cluster

import (
	"context"
	"errors"
	"fmt"
	"runtime"
	"strings"
	"sync"
	"sync/atomic"
	"testing"
	"time"

	"pidtab"
)

// Longer than any answer of a log that goes.
const long = 20 * time.Second

var background = context.Background()

// The settings of a log, and what an entry has where nobody knows a digest.
const (
	settings = "pidtab-log 2 pid_max 32768 model 1"
	noDigest = "0000000000000000"
)

// open opens a host, which is closed behind the test.
func open(t *testing.T, log Log, options Options) *Replicated {
	t.Helper()
	if options.Patience == 0 {
		options.Patience = long
	}
	table, err := Open(background, log, options)
	if err != nil {
		t.Fatal(err)
	}
	t.Cleanup(table.Close)
	return table
}

// host opens a host with all defaults.
func host(t *testing.T, log Log) *Replicated {
	t.Helper()
	return open(t, log, Options{})
}

func check(t *testing.T, err error) {
	t.Helper()
	if err != nil {
		t.Fatal(err)
	}
}

func equal[T any](t *testing.T, found, wanted T) {
	t.Helper()
	if any(found) != any(wanted) {
		t.Fatalf("%v, and not %v", found, wanted)
	}
}

// forked makes a fork by process 1: the child's number in the root namespace.
func forked(t *testing.T, table *Replicated) uint32 {
	t.Helper()
	child, err := table.Fork(1, pidtab.NoNewNamespace)
	check(t, err)
	return child.Root
}

// submit has calls made, and does not wait.
func submit(t *testing.T, table *Replicated, lines ...string) *Submitted {
	t.Helper()
	submitted, err := table.Submit(lines)
	check(t, err)
	return submitted
}

// wait is what calls are answered, with a space between two.
func wait(t *testing.T, submitted *Submitted) string {
	t.Helper()
	ctx, cancel := context.WithTimeout(background, long)
	defer cancel()
	answers, err := submitted.Wait(ctx)
	check(t, err)
	return strings.Join(answers, ", ")
}

// child is the answer to a fork by process 1 in the root namespace.
func child(number int) string { return fmt.Sprintf("child %d root %d", number, number) }

// until waits for what comes soon.
func until(t *testing.T, what string, holds func() bool) {
	t.Helper()
	for end := time.Now().Add(long); !holds(); time.Sleep(5 * time.Millisecond) {
		if time.Now().After(end) {
			t.Fatalf("%s: not within %v", what, long)
		}
	}
}

// untilStopped waits until a table has stopped: why.
func untilStopped(t *testing.T, table *Replicated) error {
	t.Helper()
	until(t, "a table that stops", func() bool { return table.own.replica.check() != nil })
	_, err := table.Getpid(1)
	return err
}

// has is whether an error says something.
func has(t *testing.T, err error, words string) {
	t.Helper()
	if err == nil || !strings.Contains(err.Error(), words) {
		t.Fatalf("%v, and not .. %s ..", err, words)
	}
}

// isFault sees to it that an error is a LogFault with these words.
func isFault(t *testing.T, err error, words string) {
	t.Helper()
	var fault LogFault
	if !errors.As(err, &fault) {
		t.Fatalf("%v is no LogFault", err)
	}
	has(t, err, words)
}

// isNotKnown sees to it that an error is a NotKnown.
func isNotKnown(t *testing.T, err error, sent bool, words string) {
	t.Helper()
	var found NotKnown
	if !errors.As(err, &found) {
		t.Fatalf("%v is no NotKnown", err)
	}
	has(t, err, words)
	equal(t, found.Sent, sent)
}

// same sees to it that all hosts have the same table, and have answered the same.
func same(t *testing.T, tables ...*Replicated) {
	t.Helper()
	var digest, text string
	for i, table := range tables {
		_, err := table.CatchUp(background)
		check(t, err)
		dumped, err := table.Dump()
		check(t, err)
		if i == 0 {
			digest, text = table.Digest(), dumped
		}
		equal(t, table.Digest(), digest)
		equal(t, dumped, text)
	}
}

// put puts an entry into a log by hand.
func put(t *testing.T, log Log, entry string) uint64 {
	t.Helper()
	position, err := log.Append(background, []byte(entry))
	check(t, err)
	return position
}

// noLeaks sees to it that a test leaves no goroutine, once all of its tables are closed.
func noLeaks(t *testing.T) {
	before := runtime.NumGoroutine()
	t.Cleanup(func() {
		for end := time.Now().Add(long); runtime.NumGoroutine() > before; time.Sleep(5 * time.Millisecond) {
			if time.Now().After(end) {
				stacks := make([]byte, 1<<20)
				t.Fatalf("%d goroutines, and before %d\n%s", runtime.NumGoroutine(), before, stacks[:runtime.Stack(stacks, true)])
			}
		}
	})
}

// A switchedLog answers no Append and no End while it is off.
type switchedLog struct {
	MemoryLog
	lock  sync.Mutex
	isOff bool
	tries int
}

var errRefused = errors.New("connection refused")

func (log *switchedLog) turn(isOn bool) {
	log.lock.Lock()
	defer log.lock.Unlock()
	log.isOff = !isOn
}

func (log *switchedLog) count() int {
	log.lock.Lock()
	defer log.lock.Unlock()
	return log.tries
}

func (log *switchedLog) try() error {
	log.lock.Lock()
	defer log.lock.Unlock()
	log.tries++
	if log.isOff {
		return errRefused
	}
	return nil
}

func (log *switchedLog) Append(ctx context.Context, entry []byte) (uint64, error) {
	if err := log.try(); err != nil {
		return 0, err
	}
	return log.MemoryLog.Append(ctx, entry)
}

func (log *switchedLog) End(ctx context.Context) (uint64, error) {
	if err := log.try(); err != nil {
		return 0, err
	}
	return log.MemoryLog.End(ctx)
}

// untilSent waits until some of the calls may be in the log.
func untilSent(t *testing.T, submitted *Submitted) {
	t.Helper()
	until(t, "calls that are sent", func() bool {
		submitted.by.mu.Lock()
		defer submitted.by.mu.Unlock()
		return submitted.parts[0].IsSent()
	})
}

// A heldLog has followers that can be held up.
type heldLog struct {
	MemoryLog
	gate    sync.RWMutex
	waiting atomic.Int64 // at the gate
}

func (log *heldLog) Follow(ctx context.Context, after uint64, take func(Progress) error) error {
	return log.MemoryLog.Follow(ctx, after, func(progress Progress) error {
		log.waiting.Add(1)
		log.gate.RLock()
		log.waiting.Add(-1)
		defer log.gate.RUnlock()
		return take(progress)
	})
}

// hold holds all followers up, of which one has come.
func (log *heldLog) hold(t *testing.T) {
	t.Helper()
	log.gate.Lock()
	put(t, log, "open")
	until(t, "a follower that is held up", func() bool { return log.waiting.Load() > 0 })
}

// after is a while later.
func after(long time.Duration) <-chan time.Time { return time.After(long) }
