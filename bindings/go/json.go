package pidtab

// #include <pidtab.h>
import "C"

import (
	"encoding/json"
	"syscall"
)

// Written by tools/interface: errnos.

// The names of the errnos that a refusal may have.
var errnoNames = map[syscall.Errno]string{
	syscall.ESRCH:  "ESRCH",
	syscall.ECHILD: "ECHILD",
	syscall.EAGAIN: "EAGAIN",
	syscall.ENOMEM: "ENOMEM",
	syscall.ENOSPC: "ENOSPC",
	syscall.EPERM:  "EPERM",
	syscall.EACCES: "EACCES",
	syscall.EBUSY:  "EBUSY",
	syscall.ENOENT: "ENOENT",
	syscall.EINVAL: "EINVAL",
}

// The end of errnos.

// stateOf is the word for how a task stands, and the status of one that exited, as docs/list.schema.json has them.
func stateOf(live, killed bool, status *uint8) (string, *uint8) {
	if live {
		return "live", nil
	}
	if killed {
		return "killed", nil
	}
	return "exited", status
}

// MarshalJSON is the child as docs/list.schema.json has it, with null for the status of a killed one.
func (reaped Reaped) MarshalJSON() ([]byte, error) {
	status := &reaped.Status
	if reaped.Killed {
		status = nil
	}
	return json.Marshal(struct {
		Child  uint32 `json:"child"`
		Status *uint8 `json:"status"`
	}{reaped.Child, status})
}

// MarshalJSON is the refusal as docs/list.schema.json has it: the name of its errno, its word, and its id or null.
func (refusal Refusal) MarshalJSON() ([]byte, error) {
	var id *uint64
	if refusal.Word == NoNumber || refusal.Word == PidsLimit {
		id = &refusal.ID
	}
	return json.Marshal(struct {
		Error string  `json:"error"`
		Word  Word    `json:"word"`
		ID    *uint64 `json:"id"`
	}{errnoNames[refusal.Errno], refusal.Word, id})
}

// MarshalJSON is what the reply tells, as docs/list.schema.json has it: an object, a number, numbers, or null for nothing.
func (reply Reply) MarshalJSON() ([]byte, error) {
	return json.Marshal(reply.told())
}

// told is what the reply tells, nil for nothing.
func (reply Reply) told() any {
	switch reply.Kind {
	case ReplyForked:
		return Child{uint32(reply.First), uint32(reply.Second)}
	case ReplyNumber, ReplyCounted, ReplyControl:
		return reply.First
	case ReplyLevels:
		return reply.Levels[:least(int(reply.Count), len(reply.Levels))]
	case ReplyReaped:
		return reapedOf(reply.First, reply.Second)
	case ReplyRefused:
		return reply.Err()
	}
	return nil
}

// reapedOf is an ended child, by its number and the status that the library tells.
func reapedOf(child, status uint64) *Reaped {
	if status == C.PIDTAB_KILLED {
		return &Reaped{Child: uint32(child), Killed: true}
	}
	return &Reaped{Child: uint32(child), Status: uint8(status)}
}
