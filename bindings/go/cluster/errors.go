package cluster

import (
	"errors"
	"fmt"

	"pidtab"
)

// NotKnown says that calls have no answer: the log did not answer within the patience, the context of the caller was done, the calls were cancelled, the
// table was closed or stopped, or the log was cut before this host had read it.
//
// Where Sent is false, nothing of them was put into the log: they were not made, and may be asked again. Else they were made, or were not, or will be
// made yet. Read the table once the log answers again, behind a CatchUp, and then decide.
type NotKnown struct {
	Why  string
	Sent bool  // some of it may be in the log
	Err  error // the Err of a context, or what has stopped the table; nil where there is none
}

// Error tells why, and whether the calls may be made.
func (it NotKnown) Error() string {
	if it.Sent {
		return fmt.Sprintf("pidtab: %s: the calls were made, or were not, or will be made yet", it.Why)
	}
	return fmt.Sprintf("pidtab: %s: no call was made", it.Why)
}

// Unwrap is the cause, where there is one.
func (it NotKnown) Unwrap() error { return it.Err }

// Diverged says that two hosts have answered the same calls otherwise, or have other tables, and that this one has stopped. It does not say which of them
// is wrong.
//
// Stop all hosts of the log. pidtab-replay(1) plays it by one thread, and names the entries whose writers had answered otherwise: the hosts that wrote
// them have another version of pidtab, or memory that fails. Repair them, and open all tables again.
type Diverged struct{ Why string }

// Error tells at which entry.
func (it Diverged) Error() string { return "pidtab: " + it.Why }

// LogFault says that the log cannot be used, and that the table has stopped, or was not opened. No call was put into the log after that.
//
//   - It has other settings: open it with the PidMax that the sentence has, or by the release that has its model, or take another name.
//   - It was trimmed, changed or lost an entry: take its table to a log of another name, by the --salvage and --begin of pidtab-keep(1).
//   - etcd was set back to an earlier state: what it has not was answered, and is lost. New hosts go on with what it has.
//   - An entry cannot be read: a later release has written it, or something else writes below the log's name.
//   - It refuses what it is asked, or did not answer when the table was opened: the sentence has its reason.
//
// A Log of yours answers one where no later try can go well.
type LogFault struct {
	Why string
	Err error // what the log has said; nil where that is not why
}

// Error tells what is the matter.
func (it LogFault) Error() string { return "pidtab: " + it.Why }

// Unwrap is what the log has said, if that is why.
func (it LogFault) Unwrap() error { return it.Err }

// isLogFault is whether no later try of the log goes well.
func isLogFault(err error) bool {
	var fault LogFault
	return errors.As(err, &fault)
}

// isLoss is whether the table is not that of the log any more, for want of memory.
func isLoss(err error) bool {
	return errors.Is(err, pidtab.ErrNotRecoverable) || errors.Is(err, pidtab.ErrNoMemory)
}
