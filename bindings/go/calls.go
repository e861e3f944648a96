package pidtab

// #include <pidtab.h>
import "C"

// Child has the numbers of a new task.
type Child struct {
	Number uint32 `json:"child"` // in the caller's namespace
	Root   uint32 `json:"root"`  // in the root namespace, by which it is named as a caller
}

// Reaped is an ended child that a wait has taken away.
type Reaped struct {
	Child  uint32 // its number in the caller's namespace
	Status uint8  // of its exit
	Killed bool   // by the fall of its namespace; then the status is 0
}

// Which selects the children of a wait. Its zero value is Any.
type Which struct {
	choice, number C.uint32_t
}

// Any selects all children.
func Any() Which { return Which{C.PIDTAB_ANY, 0} }

// Pid selects the child with the number in the caller's namespace.
func Pid(number uint32) Which { return Which{C.PIDTAB_CHILD, C.uint32_t(number)} }

// OwnGroup selects the children in the caller's process group.
func OwnGroup() Which { return Which{C.PIDTAB_OWN_GROUP, 0} }

// Group selects the children in the process group with the number in the caller's namespace.
func Group(number uint32) Which { return Which{C.PIDTAB_GROUP, C.uint32_t(number)} }

// Kind is what a number is in use as.
type Kind uint32

// A task, live or ended; a process group; a session.
const (
	Tasks    Kind = C.PIDTAB_TASKS
	Groups   Kind = C.PIDTAB_GROUPS
	Sessions Kind = C.PIDTAB_SESSIONS
)

// What Fork takes: a new namespace for the child, or none.
const (
	NewNamespace   = true
	NoNewNamespace = false
)

// calls are the calls of a table, and of a seat of a table that goroutines share: what makes them is within.
type calls struct{ by maker }

// A maker makes a call.
type maker interface {
	step(call *C.struct_pidtab_call, reply *C.struct_pidtab_reply) error
}

// Calls are the calls of a table that is elsewhere, as one on many hosts: the methods of a Table, by a function that makes each call.
type Calls struct{ calls }

// CallsBy has each call made by the function. What that answers, the method answers: its reply, or its error as it is.
func CallsBy(do func(Call) (Reply, error)) Calls { return Calls{calls{madeBy(do)}} }

// madeBy makes a call by a function of Go.
type madeBy func(Call) (Reply, error)

func (do madeBy) step(call *C.struct_pidtab_call, reply *C.struct_pidtab_reply) error {
	made, err := do(callOf(call))
	*reply = made.numbers()
	return err
}

// Call makes the call that the value says. What the table refuses is a reply here, of the kind ReplyRefused, and an error of each method
// below. ErrOutOfRange where there is no such operation, or it does not take such a choice or number.
func (it calls) Call(call Call) (Reply, error) {
	numbers, reply := call.numbers(), new(C.struct_pidtab_reply)
	if err := it.step(&numbers, reply); err != nil {
		return Reply{}, err
	}
	return replyOf(reply), nil
}

// Written by tools/interface: calls.

// Fork is fork(2), or clone(2) with CLONE_NEWPID: a child in the namespace for the caller's children, or in a new one. Refused as
// no-caller, too-deep, elsewhere, space-fallen, no-number, pids-limit; ErrNoMemory.
func (it calls) Fork(caller uint32, newSpace bool) (Child, error) {
	return childOf(it.do(C.struct_pidtab_call{operation: C.PIDTAB_FORK, caller: C.uint32_t(caller), choice: number(newSpace)}))
}

// Getpid is getpid(2): the caller's number in its own namespace. Refused as no-caller.
func (it calls) Getpid(caller uint32) (uint32, error) {
	return numberOf(it.do(C.struct_pidtab_call{operation: C.PIDTAB_GETPID, caller: C.uint32_t(caller)}))
}

// Nspid is NSpid of proc(5): the numbers of the task number from the caller's namespace inwards, outermost first: 1 to 33 of them. Refused
// as no-caller, no-task.
func (it calls) Nspid(caller, number uint32) ([]uint32, error) {
	return levelsOf(it.do(C.struct_pidtab_call{operation: C.PIDTAB_NSPID, caller: C.uint32_t(caller), number: C.uint32_t(number)}))
}

// Exec is execve(2): the caller executes a program. Refused as no-caller.
func (it calls) Exec(caller uint32) error {
	return nothingOf(it.do(C.struct_pidtab_call{operation: C.PIDTAB_EXEC, caller: C.uint32_t(caller)}))
}

// Exit is _exit(2): the caller ends, and its namespace falls if it is the init there; status is 0 to 255. Refused as no-caller, root-init.
func (it calls) Exit(caller uint32, status uint8) error {
	return nothingOf(it.do(C.struct_pidtab_call{operation: C.PIDTAB_EXIT, caller: C.uint32_t(caller), number: C.uint32_t(status)}))
}

// Wait is waitpid(2) with WNOHANG: takes an ended child away; none where children match and none of them has ended. Refused as no-caller,
// no-child.
func (it calls) Wait(caller uint32, which Which) (*Reaped, error) {
	return endedOf(it.do(C.struct_pidtab_call{operation: C.PIDTAB_WAIT, caller: C.uint32_t(caller), number: which.number, choice: which.choice}))
}

// Getppid is getppid(2): the number of the caller's parent, 0 for one that it cannot see. Refused as no-caller.
func (it calls) Getppid(caller uint32) (uint32, error) {
	return numberOf(it.do(C.struct_pidtab_call{operation: C.PIDTAB_GETPPID, caller: C.uint32_t(caller)}))
}

// Setpgid is setpgid(2): the task pid goes into the group pgid; 0 is the caller, and the task. Refused as no-caller, bad-group, no-task,
// other-session, executed, is-leader, no-group.
func (it calls) Setpgid(caller uint32, pid, pgid int32) error {
	return nothingOf(it.do(C.struct_pidtab_call{operation: C.PIDTAB_SETPGID, caller: C.uint32_t(caller), pid: C.int32_t(pid), pgid: C.int32_t(pgid)}))
}

// Setsid is setsid(2): the caller leads a new session and a new group; its number. Refused as no-caller, is-leader.
func (it calls) Setsid(caller uint32) (uint32, error) {
	return numberOf(it.do(C.struct_pidtab_call{operation: C.PIDTAB_SETSID, caller: C.uint32_t(caller)}))
}

// Mk is the call mk: a new control group below the one with the id parent, of which 0 is the root: its id. Refused as no-control,
// control-depth; ErrNoMemory.
func (it calls) Mk(parent uint64) (uint64, error) {
	return longOf(it.do(C.struct_pidtab_call{operation: C.PIDTAB_MK, id: C.uint64_t(parent)}))
}

// Rm is the call rm: removes a control group without live tasks and children. Refused as no-control, root-control, control-busy.
func (it calls) Rm(id uint64) error {
	return nothingOf(it.do(C.struct_pidtab_call{operation: C.PIDTAB_RM, id: C.uint64_t(id)}))
}

// Limit is the call limit: how many tasks the control group may have, 0 to 4194304, or none for no limit. Refused as no-control,
// root-control, bad-limit.
func (it calls) Limit(id uint64, limit uint32) error {
	return nothingOf(it.do(C.struct_pidtab_call{operation: C.PIDTAB_LIMIT, id: C.uint64_t(id), number: C.uint32_t(limit), choice: 1}))
}

// LimitMax is the call limit for no limit. Refused as no-control, root-control, bad-limit.
func (it calls) LimitMax(id uint64) error {
	return nothingOf(it.do(C.struct_pidtab_call{operation: C.PIDTAB_LIMIT, id: C.uint64_t(id)}))
}

// Move is the call move: the task, by its root number, goes into the control group. Refused as no-task, no-control.
func (it calls) Move(task uint32, id uint64) error {
	return nothingOf(it.do(C.struct_pidtab_call{operation: C.PIDTAB_MOVE, caller: C.uint32_t(task), id: C.uint64_t(id)}))
}

// Count is the call count: how many tasks the control group and those below it have. Refused as no-control.
func (it calls) Count(id uint64) (uint64, error) {
	return longOf(it.do(C.struct_pidtab_call{operation: C.PIDTAB_COUNT, id: C.uint64_t(id)}))
}

// Getpgid is getpgid(2): the process group of the task pid, where 0 is the caller; 0 where it cannot be seen. Refused as no-caller,
// no-task.
func (it calls) Getpgid(caller, pid uint32) (uint32, error) {
	return numberOf(it.do(C.struct_pidtab_call{operation: C.PIDTAB_GETPGID, caller: C.uint32_t(caller), number: C.uint32_t(pid)}))
}

// Getsid is getsid(2): the session of the task pid, where 0 is the caller; 0 where it cannot be seen. Refused as no-caller, no-task.
func (it calls) Getsid(caller, pid uint32) (uint32, error) {
	return numberOf(it.do(C.struct_pidtab_call{operation: C.PIDTAB_GETSID, caller: C.uint32_t(caller), number: C.uint32_t(pid)}))
}

// Next is the call next: the least number from from on that is in use as that kind in the caller's namespace. Refused as no-caller.
func (it calls) Next(caller uint32, kind Kind, from uint32) (uint32, error) {
	return numberOf(it.do(C.struct_pidtab_call{operation: C.PIDTAB_NEXT, caller: C.uint32_t(caller), choice: C.uint32_t(kind), number: C.uint32_t(from)}))
}

// Join is setns(2) with CLONE_NEWPID: the caller's later children go into the namespace of the task number. Refused as no-caller, no-task.
func (it calls) Join(caller, number uint32) error {
	return nothingOf(it.do(C.struct_pidtab_call{operation: C.PIDTAB_JOIN, caller: C.uint32_t(caller), number: C.uint32_t(number)}))
}

// Subreaper is PR_SET_CHILD_SUBREAPER of prctl(2): the caller takes orphans of its namespace, or no more. Refused as no-caller.
func (it calls) Subreaper(caller uint32, on bool) error {
	return nothingOf(it.do(C.struct_pidtab_call{operation: C.PIDTAB_SUBREAPER, caller: C.uint32_t(caller), choice: number(on)}))
}

// The end of calls.

// What a call tells where it is not refused: a child, a number, an id or a count, the numbers of a task, a child that has ended, or nothing.

func childOf(reply *C.struct_pidtab_reply, err error) (Child, error) {
	if err != nil {
		return Child{}, err
	}
	return Child{uint32(reply.first), uint32(reply.second)}, nil
}

func longOf(reply *C.struct_pidtab_reply, err error) (uint64, error) {
	if err != nil {
		return 0, err
	}
	return uint64(reply.first), nil
}

func numberOf(reply *C.struct_pidtab_reply, err error) (uint32, error) {
	number, err := longOf(reply, err)
	return uint32(number), err
}

func levelsOf(reply *C.struct_pidtab_reply, err error) ([]uint32, error) {
	if err != nil {
		return nil, err
	}
	numbers := make([]uint32, reply.count)
	for i := range numbers {
		numbers[i] = uint32(reply.levels[i])
	}
	return numbers, nil
}

func endedOf(reply *C.struct_pidtab_reply, err error) (*Reaped, error) {
	if err != nil || reply.kind == C.PIDTAB_NONE_YET {
		return nil, err
	}
	return reapedOf(uint64(reply.first), uint64(reply.second)), nil
}

func nothingOf(_ *C.struct_pidtab_reply, err error) error { return err }

// number is 1 for true.
func number(of bool) C.uint32_t {
	if of {
		return 1
	}
	return 0
}

// do makes the call. The reply is no refusal.
func (it calls) do(call C.struct_pidtab_call) (*C.struct_pidtab_reply, error) {
	reply := new(C.struct_pidtab_reply)
	if err := it.step(&call, reply); err != nil {
		return reply, err
	}
	if reply.kind == C.PIDTAB_REFUSED {
		return reply, withCall(refusalOf(reply), callOf(&call).text())
	}
	return reply, nil
}

// step makes the call, which is one of nobody where there is no table.
func (it calls) step(call *C.struct_pidtab_call, reply *C.struct_pidtab_reply) error {
	if it.by == nil {
		return ErrClosed
	}
	return it.by.step(call, reply)
}
