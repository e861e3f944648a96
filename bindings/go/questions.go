package pidtab

// #include <pidtab.h>
import "C"

// Written by tools/interface: questions.

// Ask answers a query as its call would be answered, refusals too. Nothing changes, and it is not counted. It takes no memory. The
// operations say which are queries; ErrOutOfRange for each other call. ErrClosed, ErrBusy.
func (table *Table) Ask(query Call) (Reply, error) {
	numbers, reply := query.numbers(), new(C.struct_pidtab_reply)
	status := table.beside(func(held *heldTable) C.uint32_t {
		return C.pidtab_ask(&held.raw, &numbers, reply)
	})
	if err := named(status, query.queryFault); err != nil {
		return Reply{}, err
	}
	return replyOf(reply), nil
}

// Stat reads the task pid of the caller's namespace, where 0 is the caller, and a zombie too, as getpgid finds it. It costs what a getpgid
// costs. It is no call, as Ask makes none. Refused as no-caller, no-task. ErrClosed, ErrBusy.
func (table *Table) Stat(caller, pid uint32) (Stat, error) {
	task := new(C.struct_pidtab_task)
	status := table.beside(func(held *heldTable) C.uint32_t {
		return C.pidtab_stat(&held.raw, C.uint32_t(caller), C.uint32_t(pid), task)
	})
	found, err := statOf(status, task)
	return found, withCall(err, "stat", uint64(caller), uint64(pid))
}

// Children tells the children of the task pid, where 0 is the caller, zombies too: their numbers in the caller's namespace, in rising order
// and not below from. Who is not visible there is left out, and a number that is nobody's has none. It costs what is read of each of them.
// It takes memory for a list. It is no call, as Ask makes none. Refused as no-caller. ErrNoMemory, ErrClosed, ErrBusy.
func (table *Table) Children(caller, pid, from uint32) ([]uint32, error) {
	found, err := table.numbers(func(held *heldTable, numbers *C.uint32_t, room C.size_t, reply *C.struct_pidtab_reply) C.uint32_t {
		return C.pidtab_page(&held.raw, C.uint32_t(caller), C.PIDTAB_CHILDREN, C.uint32_t(pid), C.uint32_t(from), numbers, room, reply)
	})
	return found, withCall(err, "children", uint64(caller), uint64(pid), uint64(from))
}

// GroupMembers tells the members of the process group with the number group, where 0 is the caller's own, as Children has those of a task.
// It takes memory for a list. It is no call, as Ask makes none. Refused as no-caller. ErrNoMemory, ErrClosed, ErrBusy.
func (table *Table) GroupMembers(caller, group, from uint32) ([]uint32, error) {
	found, err := table.numbers(func(held *heldTable, numbers *C.uint32_t, room C.size_t, reply *C.struct_pidtab_reply) C.uint32_t {
		return C.pidtab_page(&held.raw, C.uint32_t(caller), C.PIDTAB_GROUP_MEMBERS, C.uint32_t(group), C.uint32_t(from), numbers, room, reply)
	})
	return found, withCall(err, "group members", uint64(caller), uint64(group), uint64(from))
}

// SessionMembers tells the members of the session with the number session, where 0 is the caller's own, as Children has those of a task. It
// takes memory for a list. It is no call, as Ask makes none. Refused as no-caller. ErrNoMemory, ErrClosed, ErrBusy.
func (table *Table) SessionMembers(caller, session, from uint32) ([]uint32, error) {
	found, err := table.numbers(func(held *heldTable, numbers *C.uint32_t, room C.size_t, reply *C.struct_pidtab_reply) C.uint32_t {
		return C.pidtab_page(&held.raw, C.uint32_t(caller), C.PIDTAB_SESSION_MEMBERS, C.uint32_t(session), C.uint32_t(from), numbers, room, reply)
	})
	return found, withCall(err, "session members", uint64(caller), uint64(session), uint64(from))
}

// NamespaceMembers tells the tasks of the namespace that the task pid is in, where 0 is the caller, those in namespaces inside it too, as
// Children has those of a task. Of the caller's own namespace these are all that it sees, whom kill(2) of -1 reaches, and only what is told
// of them is read. It takes memory for a list. It is no call, as Ask makes none. Refused as no-caller. ErrNoMemory, ErrClosed, ErrBusy.
func (table *Table) NamespaceMembers(caller, pid, from uint32) ([]uint32, error) {
	found, err := table.numbers(func(held *heldTable, numbers *C.uint32_t, room C.size_t, reply *C.struct_pidtab_reply) C.uint32_t {
		return C.pidtab_page(&held.raw, C.uint32_t(caller), C.PIDTAB_NAMESPACE_MEMBERS, C.uint32_t(pid), C.uint32_t(from), numbers, room, reply)
	})
	return found, withCall(err, "namespace members", uint64(caller), uint64(pid), uint64(from))
}

// NamespaceOwn tells of NamespaceMembers those that are in no namespace inside it. It takes memory for a list. It is no call, as Ask makes
// none. Refused as no-caller. ErrNoMemory, ErrClosed, ErrBusy.
func (table *Table) NamespaceOwn(caller, pid, from uint32) ([]uint32, error) {
	found, err := table.numbers(func(held *heldTable, numbers *C.uint32_t, room C.size_t, reply *C.struct_pidtab_reply) C.uint32_t {
		return C.pidtab_page(&held.raw, C.uint32_t(caller), C.PIDTAB_NAMESPACE_OWN, C.uint32_t(pid), C.uint32_t(from), numbers, room, reply)
	})
	return found, withCall(err, "namespace own", uint64(caller), uint64(pid), uint64(from))
}

// Space reads the namespace id, where 0 is the root namespace. It takes no memory, and costs two searches and a few reads. It is no call,
// as Ask makes none. ErrNoNamespace, by errors.Is, where no namespace has the id, or it is gone. ErrClosed, ErrBusy.
func (table *Table) Space(id uint64) (SpaceStat, error) {
	space := new(C.struct_pidtab_space)
	status := table.beside(func(held *heldTable) C.uint32_t {
		return C.pidtab_space(&held.raw, C.uint64_t(id), space)
	})
	return spaceOf(noSpace(id), status, space)
}

// SpacesInside tells the ids of the namespaces directly in the namespace id, where 0 is the root, in rising order and not below from. One
// that has fallen is among them as long as Space reads it. It costs what is read of each of them. It takes memory for a list. It is no
// call, as Ask makes none. ErrNoNamespace, by errors.Is, where no namespace has the id, or it is gone. ErrNoMemory, ErrClosed, ErrBusy.
func (table *Table) SpacesInside(id, from uint64) ([]uint64, error) {
	return table.ids(noSpace(id), func(held *heldTable, ids *C.uint64_t, room C.size_t, count *C.uint64_t) C.uint32_t {
		return C.pidtab_inside(&held.raw, C.PIDTAB_SPACES, C.uint64_t(id), C.uint64_t(from), ids, room, count)
	})
}

// ControlsInside tells the ids of the control groups directly in the control group id, where 0 is the root, as SpacesInside has those of a
// namespace. It takes memory for a list. It is no call, as Ask makes none. ErrNoControl, by errors.Is, where no control group has the id,
// or it is gone. ErrNoMemory, ErrClosed, ErrBusy.
func (table *Table) ControlsInside(id, from uint64) ([]uint64, error) {
	return table.ids(noControl(id), func(held *heldTable, ids *C.uint64_t, room C.size_t, count *C.uint64_t) C.uint32_t {
		return C.pidtab_inside(&held.raw, C.PIDTAB_CONTROLS, C.uint64_t(id), C.uint64_t(from), ids, room, count)
	})
}

// ControlTasks tells the live tasks directly in the control group with the id control, where 0 is the root, as Children has those of a
// task: cgroup.procs, in which no zombie appears. It takes memory for a list. It is no call, as Ask makes none. Refused as no-caller,
// no-control. ErrNoMemory, ErrClosed, ErrBusy.
func (table *Table) ControlTasks(caller uint32, control uint64, from uint32) ([]uint32, error) {
	found, err := table.numbers(func(held *heldTable, numbers *C.uint32_t, room C.size_t, reply *C.struct_pidtab_reply) C.uint32_t {
		return C.pidtab_control_tasks(&held.raw, C.uint32_t(caller), C.uint64_t(control), C.uint32_t(from), numbers, room, reply)
	})
	return found, withCall(err, "control tasks", uint64(caller), control, uint64(from))
}

// Would tells the reply that the call would get now, refusals too: the numbers of a fork, and whom a wait would reap, as waitid(2) with
// WNOWAIT. Nothing changes, and it is not counted. It takes no memory, and does not tell whether the call would find some. It is no call,
// as Ask makes none. ErrOutOfRange for what is no call. ErrSpent, ErrClosed, ErrBusy.
func (table *Table) Would(call Call) (Reply, error) {
	numbers, reply := call.numbers(), new(C.struct_pidtab_reply)
	status := table.beside(func(held *heldTable) C.uint32_t {
		return C.pidtab_would(&held.raw, &numbers, reply)
	})
	if err := named(status, call.rangeFault); err != nil {
		return Reply{}, err
	}
	return replyOf(reply), nil
}

// The end of questions.
