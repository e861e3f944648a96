package pidtab

// #include <pidtab.h>
import "C"

import (
	"syscall"
	"unsafe"
)

// Operation is what a Call asks for.
type Operation uint32

// Written by tools/interface: operations.

// The operations, by their names in the script language, with the fields of a Call that each takes; the others are not looked at. A query is
// one that Ask answers too.
const (
	OpFork      Operation = C.PIDTAB_FORK      // Caller; Choice 1: into a new namespace
	OpGetpid    Operation = C.PIDTAB_GETPID    // Caller; a query
	OpNspid     Operation = C.PIDTAB_NSPID     // Caller, Number: of the task; a query
	OpExec      Operation = C.PIDTAB_EXEC      // Caller
	OpExit      Operation = C.PIDTAB_EXIT      // Caller, Number: the status, 0 to 255
	OpWait      Operation = C.PIDTAB_WAIT      // Caller, Number, Choice: 0 for any child, 1 for the child with the number, 2 for the children in the caller's process group, 3 for the children in the process group with the number
	OpGetppid   Operation = C.PIDTAB_GETPPID   // Caller; a query
	OpSetpgid   Operation = C.PIDTAB_SETPGID   // Caller, Pid, Pgid
	OpSetsid    Operation = C.PIDTAB_SETSID    // Caller
	OpMk        Operation = C.PIDTAB_MK        // ID: of the parent
	OpRm        Operation = C.PIDTAB_RM        // ID
	OpLimit     Operation = C.PIDTAB_LIMIT     // ID; Choice 1: Number is the limit, 0: no limit
	OpMove      Operation = C.PIDTAB_MOVE      // Caller: who is moved, ID
	OpCount     Operation = C.PIDTAB_COUNT     // ID; a query
	OpGetpgid   Operation = C.PIDTAB_GETPGID   // Caller, Number: of the task, 0 for the caller; a query
	OpGetsid    Operation = C.PIDTAB_GETSID    // Caller, Number: of the task, 0 for the caller; a query
	OpNext      Operation = C.PIDTAB_NEXT      // Caller, Choice: a Kind, Number: where to begin; a query
	OpJoin      Operation = C.PIDTAB_JOIN      // Caller, Number: of the task
	OpSubreaper Operation = C.PIDTAB_SUBREAPER // Caller; Choice 1: on, 0: off
)

// The end of operations.

// Call is a call as a value; == compares two.
type Call struct {
	Operation Operation
	Caller    uint32 // a root number; all other numbers of processes are the caller's own
	ID        uint64 // of a control group
	Number    uint32
	Choice    uint32
	Pid       int32
	Pgid      int32
}

// ReplyKind is what a Reply tells.
type ReplyKind uint32

// Written by tools/interface: kinds.

// The kinds of a Reply, with its fields that each tells.
const (
	ReplyForked  ReplyKind = C.PIDTAB_FORKED   // First: the child's number to the caller, Second: its root number
	ReplyOK      ReplyKind = C.PIDTAB_OK       // nothing
	ReplyNumber  ReplyKind = C.PIDTAB_NUMBER   // First
	ReplyLevels  ReplyKind = C.PIDTAB_LEVELS   // the first Count of Levels, outermost first
	ReplyReaped  ReplyKind = C.PIDTAB_REAPED   // First: the child, Second: its status, or 256 where its namespace fell
	ReplyNoneYet ReplyKind = C.PIDTAB_NONE_YET // nothing: children match, and none of them has ended
	ReplyCounted ReplyKind = C.PIDTAB_COUNTED  // First
	ReplyControl ReplyKind = C.PIDTAB_CONTROL  // First: the id
	ReplyEnd     ReplyKind = C.PIDTAB_END      // nothing: no number follows
	ReplyRefused ReplyKind = C.PIDTAB_REFUSED  // Errno, Refusal: its number, First: the id of what refused, if it has one
)

// The end of kinds.

// Reply is a reply as a value; == compares two. What its kind does not tell is 0.
type Reply struct {
	Kind    ReplyKind
	Errno   syscall.Errno // the error that the kernel would give
	Refusal uint32        // its number, as enum pidtab_refusal of pidtab.h has it
	Count   uint32
	First   uint64
	Second  uint64
	Levels  [33]uint32
}

// Err is the Refusal of a reply that refuses, and nil of each other.
func (reply Reply) Err() error {
	if reply.Kind != ReplyRefused {
		return nil
	}
	numbers := reply.numbers()
	return refusalOf(&numbers)
}

// Line is the reply as the answer of the script language, as Line of a table answers. ErrOutOfRange where the kind, or what it tells, is out of its
// range.
func (reply Reply) Line() (string, error) {
	var line [C.PIDTAB_LONGEST_ANSWER]C.uint8_t
	var size C.size_t
	numbers := reply.numbers()
	status := C.pidtab_reply_line(&numbers, unsafe.Pointer(&line[0]), C.size_t(len(line)), &size)
	return written(status, line[:], size)
}

// Line is the call as a line of the script language: Line of a table makes the same call of it. It needs no table. ErrOutOfRange where there is no
// such operation, or it does not take such a choice or number.
func (call Call) Line() (string, error) {
	var line [C.PIDTAB_LONGEST_CALL]C.uint8_t
	var size C.size_t
	numbers := call.numbers()
	status := C.pidtab_call_line(&numbers, unsafe.Pointer(&line[0]), C.size_t(len(line)), &size)
	return written(status, line[:], size)
}

// numbers is the call as the library takes it.
func (call Call) numbers() C.struct_pidtab_call {
	return C.struct_pidtab_call{
		operation: C.uint32_t(call.Operation),
		caller:    C.uint32_t(call.Caller),
		id:        C.uint64_t(call.ID),
		number:    C.uint32_t(call.Number),
		choice:    C.uint32_t(call.Choice),
		pid:       C.int32_t(call.Pid),
		pgid:      C.int32_t(call.Pgid),
	}
}

// callOf is the call that the library's numbers say.
func callOf(numbers *C.struct_pidtab_call) Call {
	return Call{
		Operation: Operation(numbers.operation),
		Caller:    uint32(numbers.caller),
		ID:        uint64(numbers.id),
		Number:    uint32(numbers.number),
		Choice:    uint32(numbers.choice),
		Pid:       int32(numbers.pid),
		Pgid:      int32(numbers.pgid),
	}
}

// numbers is the reply as the library tells it.
func (reply Reply) numbers() C.struct_pidtab_reply {
	numbers := C.struct_pidtab_reply{
		kind:    C.uint32_t(reply.Kind),
		error:   C.uint32_t(reply.Errno),
		refusal: C.uint32_t(reply.Refusal),
		count:   C.uint32_t(reply.Count),
		first:   C.uint64_t(reply.First),
		second:  C.uint64_t(reply.Second),
	}
	for i, level := range reply.Levels {
		numbers.levels[i] = C.uint32_t(level)
	}
	return numbers
}

// replyOf is the reply that the library's numbers say.
func replyOf(numbers *C.struct_pidtab_reply) Reply {
	reply := Reply{
		Kind:    ReplyKind(numbers.kind),
		Errno:   syscall.Errno(numbers.error),
		Refusal: uint32(numbers.refusal),
		Count:   uint32(numbers.count),
		First:   uint64(numbers.first),
		Second:  uint64(numbers.second),
	}
	for i, level := range numbers.levels {
		reply.Levels[i] = uint32(level)
	}
	return reply
}
