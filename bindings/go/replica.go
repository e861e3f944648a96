package pidtab

/*
#include <pidtab_replica.h>
*/
import "C"

import (
	"errors"
	"runtime"
	"strings"
	"sync"
	"unsafe"
)

// Why an entry of a log was not applied, or what is asked of a Replica is not there. The replica and its table are as they were, but where it is
// ErrNotRecoverable.
var (
	ErrNoSession      = errors.New("pidtab: no open session has the number")
	ErrNoEntry        = errors.New("pidtab: the bytes are no entry of a log")
	ErrMissing        = errors.New("pidtab: the writer of the entry had an entry that the log has no more")
	ErrDiverged       = errors.New("pidtab: the writer of the entry has answered the same calls otherwise")
	ErrOtherSettings  = errors.New("pidtab: the log has other settings than the replica, or another form")
	ErrNotRising      = errors.New("pidtab: the position is not behind that of the last entry")
	ErrNotRecoverable = errors.New("pidtab: there was no memory amid an entry, so the table is not that of the log any more")
)

// Model is the number of the rules by which the library answers. All hosts of a log have the same.
const Model = C.PIDTAB_REPLICA_MODEL

// Replica is what a host knows of a log of entries, as docs/CLUSTER.md has them. It has a table beside it, which changes by Apply alone. So all hosts
// that give the entries of one log to a replica and its table, in their order, have one table and the same answers. Package pidtab/cluster has
// the rest of a host.
//
// Goroutines may share a replica. A copy is the same replica. Each method may answer ErrClosed and ErrBusy, beside what it names.
type Replica struct {
	own *heldReplica
}

// A heldReplica is a replica of the library, with its lock. It stays where it is, and is never copied.
type heldReplica struct {
	lock sync.RWMutex
	raw  C.struct_pidtab_replica
}

// Outcome is what became of an entry.
type Outcome uint32

// What became of an entry.
const (
	EntryNoted    Outcome = C.PIDTAB_ENTRY_NOTED    // it has no calls
	EntryMade     Outcome = C.PIDTAB_ENTRY_MADE     // its calls were made
	EntryRepeated Outcome = C.PIDTAB_ENTRY_REPEATED // they were made before: its session has had an entry with this number
	EntryGone     Outcome = C.PIDTAB_ENTRY_GONE     // its session is not open, so they were not made
	EntryGap      Outcome = C.PIDTAB_ENTRY_GAP      // the session has had no entry with the number before, so they were not made
)

// Applied is what became of an entry that was applied.
type Applied struct {
	Outcome  Outcome
	Session  uint64 // of calls: the position of the entry that opened it; else 0
	Sequence uint64 // the number of the calls in their session, from 1 on; else 0
}

// LogState is what a replica knows of its log.
type LogState struct {
	Form     uint64 // of the settings of the log; 0 before the log has begun
	PidMax   uint64
	Model    uint64
	Position uint64 // of the last entry that was applied; 0 before the first
	Calls    uint64 // how many lines were made
	Begun    bool   // the settings were applied
	Lost     bool   // each entry is ErrNotRecoverable
}

// LogDigest is the SHA-256 of all calls and answers up to an entry.
type LogDigest [32]byte

// OpenReplica makes a replica of a log that has not begun, whose table is one of Open with the same PidMax. The model is Model. ErrNoMemory.
func OpenReplica(pidMax uint32, model uint64) (*Replica, error) {
	if err := compareVersions(); err != nil {
		return nil, err
	}
	held := new(heldReplica)
	if err := replicaFaultOf(C.pidtab_replica_open(&held.raw, C.uint64_t(pidMax), C.uint64_t(model))); err != nil {
		return nil, err
	}
	runtime.SetFinalizer(held, (*heldReplica).close)
	return &Replica{held}, nil
}

// Close frees the replica, and leaves its table. A second time nothing is done. A replica that nobody has any more is closed at some time.
func (replica *Replica) Close() {
	replica.held().close()
}

// Apply applies the next entry of the log to the replica and its table, and tells what became of it. The positions rise from entry to entry.
//
// ErrClosed where the replica or the table is not open; ErrNotRising; ErrNoEntry; ErrOtherSettings; ErrMissing; ErrDiverged; ErrNoMemory where there was
// none for a session. ErrNotRecoverable where there was none amid the calls of this entry or of one before: then both are made anew, of the log
// from its beginning, or of a snapshot.
func (replica *Replica) Apply(table *Table, position uint64, entry []byte) (Applied, error) {
	held, of, bytes, applied := replica.held(), table.held(), entry, new(C.struct_pidtab_applied)
	if len(bytes) == 0 {
		// C takes no pointer to nothing.
		bytes = []byte{0}
	}
	held.lock.Lock()
	defer held.lock.Unlock()
	if !of.enter() {
		return Applied{}, ErrBusy
	}
	defer of.Unlock()
	status := C.pidtab_replica_apply(&held.raw, &of.raw, C.uint64_t(position), unsafe.Pointer(&bytes[0]), C.size_t(len(entry)), applied)
	if err := replicaFaultOf(status); err != nil {
		return Applied{}, err
	}
	// Which numbers the forks of the entry have drawn, only its answers tell.
	of.labels = nil
	return Applied{Outcome(applied.outcome), uint64(applied.session), uint64(applied.sequence)}, nil
}

// Answers are the answers to the calls of the entry that was applied last; none where its calls were not made.
func (replica *Replica) Answers() ([]string, error) {
	text, err := replica.text(func(held *heldReplica, room unsafe.Pointer, most C.size_t, size *C.size_t) C.uint32_t {
		return C.pidtab_replica_answers(&held.raw, room, most, size)
	})
	if err != nil || text == "" {
		return nil, err
	}
	return strings.Split(strings.TrimSuffix(text, "\n"), "\n"), nil
}

// Log is what the replica knows of its log.
func (replica *Replica) Log() (LogState, error) {
	held, log := replica.held(), new(C.struct_pidtab_log)
	held.lock.RLock()
	defer held.lock.RUnlock()
	if err := replicaFaultOf(C.pidtab_replica_log(&held.raw, log)); err != nil {
		return LogState{}, err
	}
	return LogState{
		Form:     uint64(log.form),
		PidMax:   uint64(log.pid_max),
		Model:    uint64(log.model),
		Position: uint64(log.position),
		Calls:    uint64(log.calls),
		Begun:    log.begun == 1,
		Lost:     log.lost == 1,
	}, nil
}

// Digest is the digest after the entry at the position. Those of the last 4,096 entries are kept: ErrNotKept for each other position.
func (replica *Replica) Digest(position uint64) (LogDigest, error) {
	held, found := replica.held(), new(C.struct_pidtab_digest)
	held.lock.RLock()
	defer held.lock.RUnlock()
	if err := replicaFaultOf(C.pidtab_replica_digest(&held.raw, C.uint64_t(position), found)); err != nil {
		return LogDigest{}, err
	}
	var digest LogDigest
	for i, it := range found.bytes {
		digest[i] = byte(it)
	}
	return digest, nil
}

// Last is the number of the session's last entry that was made; 0 where none was. ErrNoSession.
func (replica *Replica) Last(session uint64) (uint64, error) {
	held, last := replica.held(), new(C.uint64_t)
	held.lock.RLock()
	defer held.lock.RUnlock()
	err := replicaFaultOf(C.pidtab_replica_last(&held.raw, C.uint64_t(session), last))
	return uint64(*last), err
}

// Write is the head of a snapshot: the settings, the position, the digest, the number of calls, and the sessions. A snapshot is this with what
// Dump writes of the table after it. ErrOtherSettings where the log has not begun; ErrNoMemory.
func (replica *Replica) Write() (string, error) {
	return replica.text(func(held *heldReplica, room unsafe.Pointer, most C.size_t, size *C.size_t) C.uint32_t {
		return C.pidtab_replica_write(&held.raw, room, most, size)
	})
}

// Read gives the replica what the head of a snapshot says, in the place of all that it knows, and answers the length of that head: the table is
// FromDump of the text after it. ErrBadText where the text begins with no such head; ErrOtherSettings; ErrNoMemory.
func (replica *Replica) Read(snapshot string) (int, error) {
	held, bytes, used := replica.held(), withByte(snapshot), new(C.size_t)
	held.lock.Lock()
	defer held.lock.Unlock()
	status := C.pidtab_replica_read(&held.raw, unsafe.Pointer(&bytes[0]), C.size_t(len(snapshot)), used)
	return int(*used), replicaFaultOf(status)
}

// text is what a function of the library writes of the replica.
func (replica *Replica) text(write func(*heldReplica, unsafe.Pointer, C.size_t, *C.size_t) C.uint32_t) (string, error) {
	held := replica.held()
	held.lock.RLock()
	defer held.lock.RUnlock()
	var fault error
	text, err := wholeText(func(room unsafe.Pointer, most C.size_t, size *C.size_t) C.uint32_t {
		status := write(held, room, most, size)
		if status != C.PIDTAB_NO_ROOM {
			fault = replicaFaultOf(status)
		}
		return status
	})
	if fault != nil {
		return "", fault
	}
	return text, err
}

// held is the replica of the library; one that is not open where nobody has opened it.
func (replica *Replica) held() *heldReplica {
	if replica.own == nil {
		return new(heldReplica)
	}
	return replica.own
}

func (held *heldReplica) close() {
	held.lock.Lock()
	defer held.lock.Unlock()
	C.pidtab_replica_close(&held.raw)
}

// replicaFaultOf is what a status of a replica's function says; nothing where it is done.
func replicaFaultOf(status C.uint32_t) error {
	switch status {
	case C.PIDTAB_NO_SESSION:
		return ErrNoSession
	case C.PIDTAB_NO_ENTRY:
		return ErrNoEntry
	case C.PIDTAB_MISSING:
		return ErrMissing
	case C.PIDTAB_DIVERGED:
		return ErrDiverged
	case C.PIDTAB_OTHER_SETTINGS:
		return ErrOtherSettings
	case C.PIDTAB_NOT_RISING:
		return ErrNotRising
	case C.PIDTAB_NOT_RECOVERABLE:
		return ErrNotRecoverable
	case C.PIDTAB_BAD_TEXT:
		return ErrBadText
	}
	return faultOf(uint32(status))
}
