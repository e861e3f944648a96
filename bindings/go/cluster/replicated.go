// Package cluster has one table of package pidtab on many hosts, by a log that they share: each host has the whole table in its own process, and makes
// the calls of the log in their order. docs/CLUSTER.md has its promises; hosts in Python and in Go may share a log.
//
// What an entry of the log makes of a host, and what a host does with a call, the library says, and that is proved. This package is not: it puts entries
// into the log, reads them, watches the time, and hands each answer to who has asked.
package cluster

import (
	"context"
	"encoding/hex"
	"fmt"
	"runtime"
	"strings"
	"time"

	"pidtab"
)

// What Options are where nobody names them.
const (
	DefaultPidMax   = 32768
	DefaultPatience = time.Minute
)

// Options are with what a table is opened. The zero value has the defaults.
type Options struct {
	PidMax   uint32        // all numbers are below it, the same on all hosts: 301 to 4194304; 0 is for DefaultPidMax
	Patience time.Duration // until a call that has no answer is given up; 0 is for DefaultPatience

	open func(pidMax uint32) (*machine, error) // what a test has in the place of openMachine
}

// Replicated is one table on many hosts: on each of them, Open of the same log is the same table. Each call is a method, as of a pidtab.Table.
//
// A call goes into the log, is made on each host in the log's order, and is answered when it was made here. It is made exactly once as long as
// this table is open, also where the log answers late or twice. The queries that have no call, as Ask, Stat and List, are this host's alone: they
// may be behind the log, and never behind what this host has answered.
//
// Where the log does not answer within the patience, a call is a NotKnown, and the table goes on once the log does. A Diverged, a LogFault, and, where this
// host has no memory for what others have made, pidtab.ErrNoMemory or pidtab.ErrNotRecoverable stop it: each later method answers the same. What
// waited meanwhile gets a NotKnown. Nothing is lost by any of them: the log has all calls, and a new Open makes them again.
//
// Goroutines may share it. A copy is the same table. Behind a Close each method answers pidtab.ErrClosed.
type Replicated struct {
	pidtab.Calls
	own *handle
}

// A handle is what callers have of a replica. The goroutines of the replica have none, so a table that nobody has any more is closed.
type handle struct{ replica *replica }

// Open opens the table of a log, or begins one in a log that is empty. It loads the newest snapshot that the log has, plays what is behind it, and waits
// for that, as long as ctx lets it. The log stays the caller's.
//
// pidtab.ErrOutOfRange for options out of their ranges; pidtab.ErrNil; LogFault, where the log cannot be used or does not answer within the
// patience; Diverged; pidtab.ErrNoMemory; the Err of ctx.
func Open(ctx context.Context, log Log, options Options) (*Replicated, error) {
	if ctx == nil || log == nil {
		return nil, pidtab.ErrNil
	}
	if options.Patience < 0 {
		return nil, fmt.Errorf("a patience of %v: %w", options.Patience, pidtab.ErrOutOfRange)
	}
	replica, err := newReplica(log, options.orDefault())
	if err != nil {
		return nil, err
	}
	if err := replica.start(ctx); err != nil {
		replica.close()
		_ = replica.shutdown(context.Background())
		return nil, err
	}
	own := &handle{replica}
	runtime.SetFinalizer(own, func(own *handle) { go own.replica.shutdown(context.Background()) })
	return &Replicated{own.calls(context.Background()), own}, nil
}

// orDefault are the options, with what nobody has named.
func (options Options) orDefault() Options {
	if options.PidMax == 0 {
		options.PidMax = DefaultPidMax
	}
	if options.Patience == 0 {
		options.Patience = DefaultPatience
	}
	if options.open == nil {
		options.open = openMachine
	}
	return options
}

// Close waits, at most as long as the patience, until what was submitted is answered, and ends. The log stays as it is, and open. What has no answer then
// gets a NotKnown. A second time nothing is done. A table that nobody has any more is closed at some time.
func (table *Replicated) Close() {
	_ = table.Shutdown(context.Background())
}

// Shutdown is a Close that waits no longer than ctx lets it: then what has no answer gets a NotKnown, and it answers the Err of ctx.
func (table *Replicated) Shutdown(ctx context.Context) error {
	if ctx == nil {
		return pidtab.ErrNil
	}
	return table.held().replica.shutdown(ctx)
}

// With has the calls with a context. One that is done ends the wait for an answer with a NotKnown that wraps its Err: what was not sent is not made, and
// what was sent is made without an answer. To keep the answer, use Submit.
func (table *Replicated) With(ctx context.Context) pidtab.Calls {
	return table.held().calls(ctx)
}

// Submit has the calls on lines of the script language made, and does not wait. All that waits goes into the log as one entry. So who submits much before a
// wait pays the log's time once.
//
// pidtab.ErrEmptyLine or pidtab.ErrBadLine, wrapped with its place, for a line that is empty or more than one; then none is made. Of a line of more than 200
// bytes, which is bad, only the first 201 are in the log.
func (table *Replicated) Submit(lines []string) (*Submitted, error) {
	return table.held().submit(lines)
}

// Answers has the calls on lines made, and waits for the answers: refusals and bad lines are answers here. NotKnown; what Submit answers.
func (table *Replicated) Answers(ctx context.Context, lines []string) ([]string, error) {
	return table.held().answers(ctx, lines)
}

// Line makes the call on a line of the script language. What the table refuses is an answer, as `ESRCH no-caller`. pidtab.ErrEmptyLine, pidtab.ErrBadLine,
// pidtab.ErrSpent; NotKnown.
func (table *Replicated) Line(line string) (string, error) {
	answers, err := table.held().answers(context.Background(), []string{line})
	if err != nil {
		return "", err
	}
	switch answers[0] {
	case "bad line":
		return "", pidtab.ErrBadLine
	case "spent":
		return "", pidtab.ErrSpent
	}
	return answers[0], nil
}

// CatchUp waits until this host has all that the log had when this was called, and answers the position. So the queries behind it are not behind any call
// that was answered anywhere before. NotKnown, where the log does not answer within the patience; the Err of ctx.
func (table *Replicated) CatchUp(ctx context.Context) (uint64, error) {
	own := table.held()
	defer runtime.KeepAlive(own)
	return own.replica.catchUp(ctx)
}

// Position is that of the last entry of the log that this host has applied.
func (table *Replicated) Position() uint64 { return table.held().replica.placeNow().position }

// Digest is the SHA-256 of all calls and answers up to the position, in hexadecimal. It is the same on each host.
func (table *Replicated) Digest() string {
	place := table.held().replica.placeNow()
	return hex.EncodeToString(place.digest[:])
}

// DigestAt is the digest behind the entry at a position, of the last 4,096 entries; else pidtab.ErrNotKept. So hosts that are not equally far can be
// compared.
func (table *Replicated) DigestAt(position uint64) (string, error) {
	digest, err := table.held().replica.digestAt(position)
	if err != nil {
		return "", err
	}
	return hex.EncodeToString(digest[:]), nil
}

// held is what the caller has of a replica; of one that was closed where nobody has opened the table.
func (table *Replicated) held() *handle {
	if table.own == nil {
		return &handle{closedReplica()}
	}
	return table.own
}

// calls are the calls with a context.
func (own *handle) calls(ctx context.Context) pidtab.Calls {
	return pidtab.CallsBy(func(call pidtab.Call) (pidtab.Reply, error) {
		line, err := call.Line()
		if err != nil {
			return pidtab.Reply{}, err
		}
		answers, err := own.answers(ctx, []string{line})
		if err != nil {
			return pidtab.Reply{}, err
		}
		return pidtab.ReadReply(call.Operation, answers[0])
	})
}

// answers has calls made, and waits for what they are answered.
func (own *handle) answers(ctx context.Context, lines []string) ([]string, error) {
	if ctx == nil {
		return nil, pidtab.ErrNil
	}
	if err := ctx.Err(); err != nil {
		return nil, NotKnown{Why: whyEnded(err), Err: err}
	}
	submitted, err := own.submit(lines)
	if err != nil {
		return nil, err
	}
	return submitted.waitOrLeave(ctx)
}

// submit has calls made.
func (own *handle) submit(lines []string) (*Submitted, error) {
	defer runtime.KeepAlive(own)
	for place, line := range lines {
		if line == "" {
			return nil, fmt.Errorf("line %d: %w", place, pidtab.ErrEmptyLine)
		}
		if strings.Contains(line, "\n") {
			return nil, fmt.Errorf("line %d is more than one: %w", place, pidtab.ErrBadLine)
		}
	}
	submitted := newSubmitted(own.replica, lines)
	if err := own.replica.submit(submitted); err != nil {
		return nil, err
	}
	return submitted, nil
}
