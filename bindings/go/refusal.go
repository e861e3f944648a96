package pidtab

// #include <pidtab_saved.h>
import "C"

import (
	"errors"
	"fmt"
	"os"
	"strconv"
	"syscall"
)

// Why a call was not made, or another function not done. The table and its history are as they were, except where a Replay has ErrDiffers.
var (
	// ErrClosed is os.ErrClosed too, by errors.Is.
	ErrClosed     = error(&special{"pidtab: the table is closed", os.ErrClosed})
	ErrNoMemory   = errors.New("pidtab: no memory")
	ErrSpent      = errors.New("pidtab: spent: the table has made 2^64 - 2 calls")
	ErrOutOfRange = errors.New("pidtab: out of range") // most often in a RangeError, which names the argument
	// ErrNoSeat is ErrOutOfRange too, by errors.Is, as ErrNoNamespace is.
	ErrNoSeat      = error(&special{"pidtab: each seat is given: there are as many as Settings.Workers", ErrOutOfRange})
	ErrNoNamespace = error(&special{"pidtab: no namespace has the id", ErrOutOfRange})
	ErrEmptyLine   = errors.New("pidtab: an empty line has no answer")
	ErrBadLine     = errors.New("pidtab: bad line")
	ErrBusy        = errors.New("pidtab: busy: another goroutine uses the table, which was opened without Threads; or a thread of which a forked child has only the mark")
	ErrNotKept     = errors.New("pidtab: no entry with the ordinal is kept: it was cut away, or is not reached yet")
	ErrAgain       = errors.New("pidtab: another number of calls was recorded by now")
	ErrNoHistory   = errors.New("pidtab: this table keeps no history: open it with keep")
	ErrNoThreads   = errors.New("pidtab: this table is one thread's: open it with threads")
	ErrDiffers     = errors.New("pidtab: a reply is not the saved one")
	ErrUnsaved     = errors.New("pidtab: too many calls are not saved, and the saver has failed or ended")
)

// ReplayError is why a replay stopped: the entries before the place were made again, and none after it. ErrDiffers says that the call of the
// one at the place was made, and has another reply. Any other says that it was not made: ErrOutOfRange where there is no such worker or call;
// ErrNoMemory, ErrSpent.
type ReplayError struct {
	Place int   // of the entry among the saved ones, from 0 on
	Err   error // which errors.Is finds
}

// Error tells the place and what is the matter.
func (stopped ReplayError) Error() string {
	return fmt.Sprintf("%v: saved entry %d", stopped.Err, stopped.Place)
}

// Unwrap is what is the matter.
func (stopped ReplayError) Unwrap() error {
	return stopped.Err
}

// Word is why the table refuses a call, as the script language has it.
type Word string

// Written by tools/interface: refusals.

// The words, in the order of their numbers. After NoNumber is the id of a namespace, after PidsLimit that of a control group.
const (
	NoCaller     Word = "no-caller"     // no live task has the caller's root number
	NoTask       Word = "no-task"       // no task is there, or none that the call may be made on
	NoChild      Word = "no-child"      // no child matches
	NoNumber     Word = "no-number"     // the namespace with the id has no free number
	PidsLimit    Word = "pids-limit"    // the control group with the id has as many tasks as its limit allows
	SpaceFallen  Word = "space-fallen"  // the namespace for the caller's children has fallen
	TooDeep      Word = "too-deep"      // a namespace below one of level 32, the deepest
	Elsewhere    Word = "elsewhere"     // a new namespace from a caller whose children go into another namespace
	BadGroup     Word = "bad-group"     // a negative process group
	OtherSession Word = "other-session" // a child in another session
	IsLeader     Word = "is-leader"     // a session leader, or a process group leader
	NoGroup      Word = "no-group"      // no such process group in the caller's session
	Executed     Word = "executed"      // a child that has executed
	RootInit     Word = "root-init"     // the exit of the root namespace's init
	NoControl    Word = "no-control"    // no control group has the id
	ControlBusy  Word = "control-busy"  // a control group with live tasks or children
	RootControl  Word = "root-control"  // the root control group, which has no limit and stays
	BadLimit     Word = "bad-limit"     // a limit above 4194304
	ControlDepth Word = "control-depth" // a control group below one of level 64, the deepest
)

// The words of the refusals, by their numbers from 1 on.
var words = [...]Word{
	"", NoCaller, NoTask, NoChild, NoNumber, PidsLimit, SpaceFallen, TooDeep, Elsewhere, BadGroup, OtherSession, IsLeader, NoGroup, Executed,
	RootInit, NoControl, ControlBusy, RootControl, BadLimit, ControlDepth,
}

// hasID is whether an id is after the word.
func (word Word) hasID() bool {
	return word == NoNumber || word == PidsLimit
}

// The errors of the words: errors.Is finds each in a Refusal that has its word.
var (
	ErrNoCaller     = errors.New("pidtab: no-caller: no live task has the caller's root number")
	ErrNoTask       = errors.New("pidtab: no-task: no task is there, or none that the call may be made on")
	ErrNoChild      = errors.New("pidtab: no-child: no child matches")
	ErrNoNumber     = errors.New("pidtab: no-number: the namespace with the id has no free number")
	ErrPidsLimit    = errors.New("pidtab: pids-limit: the control group with the id has as many tasks as its limit allows")
	ErrSpaceFallen  = errors.New("pidtab: space-fallen: the namespace for the caller's children has fallen")
	ErrTooDeep      = errors.New("pidtab: too-deep: a namespace below one of level 32, the deepest")
	ErrElsewhere    = errors.New("pidtab: elsewhere: a new namespace from a caller whose children go into another namespace")
	ErrBadGroup     = errors.New("pidtab: bad-group: a negative process group")
	ErrOtherSession = errors.New("pidtab: other-session: a child in another session")
	ErrIsLeader     = errors.New("pidtab: is-leader: a session leader, or a process group leader")
	ErrNoGroup      = errors.New("pidtab: no-group: no such process group in the caller's session")
	ErrExecuted     = errors.New("pidtab: executed: a child that has executed")
	ErrRootInit     = errors.New("pidtab: root-init: the exit of the root namespace's init")
	ErrNoControl    = errors.New("pidtab: no-control: no control group has the id")
	ErrControlBusy  = errors.New("pidtab: control-busy: a control group with live tasks or children")
	ErrRootControl  = errors.New("pidtab: root-control: the root control group, which has no limit and stays")
	ErrBadLimit     = errors.New("pidtab: bad-limit: a limit above 4194304")
	ErrControlDepth = errors.New("pidtab: control-depth: a control group below one of level 64, the deepest")
)

// The error of each word.
var wordErrors = map[Word]error{
	NoCaller:     ErrNoCaller,
	NoTask:       ErrNoTask,
	NoChild:      ErrNoChild,
	NoNumber:     ErrNoNumber,
	PidsLimit:    ErrPidsLimit,
	SpaceFallen:  ErrSpaceFallen,
	TooDeep:      ErrTooDeep,
	Elsewhere:    ErrElsewhere,
	BadGroup:     ErrBadGroup,
	OtherSession: ErrOtherSession,
	IsLeader:     ErrIsLeader,
	NoGroup:      ErrNoGroup,
	Executed:     ErrExecuted,
	RootInit:     ErrRootInit,
	NoControl:    ErrNoControl,
	ControlBusy:  ErrControlBusy,
	RootControl:  ErrRootControl,
	BadLimit:     ErrBadLimit,
	ControlDepth: ErrControlDepth,
}

// The end of refusals.

// Refusal is an error of a call that the table refuses, which changes nothing except that the call is counted. errors.Is finds the error of its
// word in it, as ErrNoTask, and its errno, as syscall.ESRCH.
type Refusal struct {
	Errno syscall.Errno // the error that the kernel would give
	Why   string        // the word, and after it the id if there is one, as the script language has them
	Word  Word          // the word alone, as NoCaller
	ID    uint64        // after NoNumber and PidsLimit: the id of what refuses; else 0
	Call  string        // what was asked, as `fork 99` or `stat 1 99`; empty where a Reply tells the refusal
}

// Error tells the call, the errno and the word.
func (refusal Refusal) Error() string {
	if refusal.Call == "" {
		return fmt.Sprintf("pidtab: %v: %s", refusal.Errno, refusal.Why)
	}
	return fmt.Sprintf("pidtab: %s: %v: %s", refusal.Call, refusal.Errno, refusal.Why)
}

// Is tells errors.Is that the error of the word is in it.
func (refusal Refusal) Is(target error) bool {
	return target != nil && target == wordErrors[refusal.Word]
}

// Unwrap is the errno.
func (refusal Refusal) Unwrap() error {
	return refusal.Errno
}

// withCall is the error, with what was asked where it is a refusal: a name and its numbers.
func withCall(err error, name string, numbers ...uint64) error {
	refusal, isRefusal := err.(Refusal)
	if !isRefusal {
		return err
	}
	refusal.Call = name
	for _, number := range numbers {
		refusal.Call += " " + strconv.FormatUint(number, 10)
	}
	return refusal
}

// refusalOf is what a reply says that is a refusal.
func refusalOf(reply *C.struct_pidtab_reply) error {
	refusal := Refusal{Errno: syscall.Errno(reply.error), Word: words[reply.refusal]}
	refusal.Why = string(refusal.Word)
	if refusal.Word.hasID() {
		refusal.ID = uint64(reply.first)
		refusal.Why = fmt.Sprintf("%s %d", refusal.Word, refusal.ID)
	}
	return refusal
}

// faultOf is what a status says; nothing where it is done.
func faultOf(status uint32) error {
	switch status {
	// Written by tools/interface: errors.
	case C.PIDTAB_DONE:
		return nil
	case C.PIDTAB_CLOSED:
		return ErrClosed
	case C.PIDTAB_NO_MEMORY:
		return ErrNoMemory
	case C.PIDTAB_BUSY:
		return ErrBusy
	case C.PIDTAB_OUT_OF_RANGE:
		return ErrOutOfRange
	case C.PIDTAB_EMPTY_LINE:
		return ErrEmptyLine
	case C.PIDTAB_BAD_LINE:
		return ErrBadLine
	case C.PIDTAB_SPENT:
		return ErrSpent
	case C.PIDTAB_DIFFERS:
		return ErrDiffers
	case C.PIDTAB_NOT_KEPT:
		return ErrNotKept
	case C.PIDTAB_AGAIN:
		return ErrAgain
	case C.PIDTAB_NO_HISTORY:
		return ErrNoHistory
	case C.PIDTAB_NO_THREADS:
		return ErrNoThreads
	case C.PIDTAB_NOT_SAVED:
		return ErrNotSaved
	case C.PIDTAB_ENDED:
		return ErrUnsaved
	case C.PIDTAB_TORN:
		return ErrTorn
	case C.PIDTAB_WRONG_BYTE:
		return ErrWrongByte
	case C.PIDTAB_OTHER_VERSION:
		return ErrOtherVersion
		// The end of errors.
	}
	return fmt.Errorf("pidtab: the library answers with the status %d", status)
}
