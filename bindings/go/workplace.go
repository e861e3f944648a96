package pidtab

// #include <pidtab.h>
import "C"

import (
	"context"
	"math"
	"sync/atomic"
	"unsafe"
)

// A workplace has the calls of a worker: those of a Table are worker 0's, and each Seat has its own.
type workplace struct {
	calls
	at *place
}

// A place is where a worker makes calls: at a table, and with a context for what waits.
type place struct {
	held   *heldTable
	worker uint32
	next   *atomic.Uint64 // one more than the ordinal of its last call; 0 before the first
	ctx    context.Context
}

func newPlace(held *heldTable, worker uint32) *place {
	return &place{held, worker, new(atomic.Uint64), context.Background()}
}

func (at *place) workplace() workplace {
	return workplace{calls{at}, at}
}

// place is where the calls are made; at a table that is not open where nobody has opened it.
func (it *workplace) place() *place {
	if it.at == nil {
		return newPlace(newHeld(Settings{}), 0)
	}
	return it.at
}

// Line makes the call on a line of the script language, without its newline. What the table refuses is an answer, as `ESRCH no-caller`.
// ErrEmptyLine, ErrBadLine, and ErrNoMemory for fork and mk.
func (it *workplace) Line(line string) (string, error) {
	at, said := it.place(), ""
	err := at.make(1, func(held *heldTable, worker C.uint32_t) (err error) {
		said, err = answer(line, func(line unsafe.Pointer, length C.size_t, room unsafe.Pointer, size *C.size_t) C.uint32_t {
			return C.pidtab_line_by(&held.raw, worker, line, length, room, C.PIDTAB_LONGEST_ANSWER, size, &held.ordinal)
		})
		held.labels.answered(said)
		return err
	})
	return said, err
}

// ForkAt makes a fork, if its child gets exactly these numbers, as Would has told them. Else nothing changes or is recorded, and it is false. So who
// prepares for a child before it is there has the one that he has prepared for, or none. ErrNoMemory.
func (it *workplace) ForkAt(caller uint32, newSpace bool, child Child) (bool, error) {
	at, reply := it.place(), new(C.struct_pidtab_reply)
	numbers := [...]C.uint32_t{C.uint32_t(caller), number(newSpace), C.uint32_t(child.Number), C.uint32_t(child.Root)}
	err := at.make(1, func(held *heldTable, worker C.uint32_t) error {
		status := C.pidtab_fork_at_by(&held.raw, worker, numbers[0], numbers[1], numbers[2], numbers[3], reply, &held.ordinal)
		return faultOf(uint32(held.noted(status, reply)))
	})
	if err == ErrDiffers {
		return false, nil
	}
	return err == nil, err
}

// Told makes the call, and tells what it did beside its reply, which may be a refusal: first which tasks ended, have another parent or are gone, by root
// numbers in rising order, then which process groups and which sessions have no member any more, and then which namespaces have fallen or are gone, by
// rising ids. Of a task that ended and is gone, and of a namespace that fell and is gone, there are both, in this order. So the exit of a namespace's
// init tells whom the kernel would kill, and each other exit who takes the children.
//
// It costs what the call costs, and some searches for each task that it may touch. ErrOutOfRange, and ErrNoMemory for a fork, a mk, an exit, a wait, a
// setpgid and a setsid: then the call was not made.
func (it *workplace) Told(call Call) (Reply, []Effect, error) {
	at, numbers, reply := it.place(), call.numbers(), new(C.struct_pidtab_reply)
	var told []Effect
	err := at.make(1, func(held *heldTable, worker C.uint32_t) error {
		effects, status := tellEffects(func(effects *C.struct_pidtab_effect, room C.size_t, count *C.uint64_t) C.uint32_t {
			return C.pidtab_call_told_by(&held.raw, worker, &numbers, reply, &held.ordinal, effects, room, count)
		})
		told = effects
		return named(held.noted(status, reply), call.rangeFault)
	})
	if err != nil {
		return Reply{}, nil, err
	}
	return replyOf(reply), told, nil
}

// Calls makes the calls in their order, and none of another worker comes between them. It answers the replies of those that were made, refusals too:
// those of all, and after ErrNoMemory or ErrSpent those of the calls before that one. ErrOutOfRange where one of them is none: then none is made.
//
// With a bound of BoundUnsaved it waits until there is room for all of them, or all that was recorded is saved.
func (it *workplace) Calls(calls []Call) ([]Reply, error) {
	at, replies := it.place(), []Reply{}
	// C takes no pointer to nothing.
	numbers, told := make([]C.struct_pidtab_call, len(calls)+1), make([]C.struct_pidtab_reply, len(calls)+1)
	for i, call := range calls {
		numbers[i] = call.numbers()
	}
	err := at.make(len(calls), func(held *heldTable, worker C.uint32_t) error {
		var made C.size_t
		count := C.size_t(len(calls))
		status := C.pidtab_calls(&held.raw, worker, &numbers[0], count, &told[0], count, &made, &held.ordinal)
		for i := range told[:made] {
			held.labels.replied(&told[i])
			replies = append(replies, replyOf(&told[i]))
		}
		return named(status, func() error { return callsFault(calls) })
	})
	return replies, err
}

// step makes a call.
func (at *place) step(call *C.struct_pidtab_call, reply *C.struct_pidtab_reply) error {
	return at.make(1, func(held *heldTable, worker C.uint32_t) error {
		status := held.noted(C.pidtab_call_by(&held.raw, worker, call, reply, &held.ordinal), reply)
		if status == C.PIDTAB_DONE {
			return nil
		}
		return named(status, callOf(call).rangeFault)
	})
}

// No call has this ordinal.
const noOrdinal = math.MaxUint64

// make makes so many calls by a function of the library, once the saver is near enough for them, and keeps the ordinal of the last one that was recorded.
func (at *place) make(calls int, do func(held *heldTable, worker C.uint32_t) error) error {
	held := at.held
	if !held.enterForCall() {
		return ErrBusy
	}
	defer held.Unlock()
	if err := held.waitForSaver(at.ctx, calls); err != nil {
		return err
	}
	held.ordinal = noOrdinal
	err := do(held, C.uint32_t(at.worker))
	if held.ordinal != noOrdinal {
		at.next.Store(uint64(held.ordinal) + 1)
		held.wakeSleepers()
	}
	return err
}

// noted is the status of a call, whose reply may tell a new task.
func (held *heldTable) noted(status C.uint32_t, reply *C.struct_pidtab_reply) C.uint32_t {
	if status == C.PIDTAB_DONE {
		held.labels.replied(reply)
	}
	return status
}

// Seat is a worker's place at a table, with those methods of Table that make calls. With a history each call is recorded, the refused ones too, with its
// ordinal. A seat is meant for one goroutine; where several use it, each call is made, and Ordinal is that of the last one of them. A copy is the same seat.
type Seat struct {
	workplace
}

// Seat is a seat for the next worker. Each worker's number is given once, from 0 on. ErrNoSeat where all are given.
func (table *Table) Seat() (*Seat, error) {
	var worker C.uint32_t
	err := table.alone(func(held *heldTable) C.uint32_t { return C.pidtab_seat(&held.raw, &worker) })
	if err == ErrOutOfRange {
		return nil, ErrNoSeat
	}
	if err != nil {
		return nil, err
	}
	return &Seat{newPlace(table.held(), uint32(worker)).workplace()}, nil
}

// With is the same seat with a context. A call of it that waits for the saver, as BoundUnsaved says, is not made where the context is done before, and
// answers its Err. Each other call does not look at it. ErrNil of each call where it is nil.
func (seat *Seat) With(ctx context.Context) *Seat {
	at := *seat.place()
	at.ctx = ctx
	return &Seat{at.workplace()}
}

// Worker is the worker's number, from 0 on.
func (seat *Seat) Worker() uint32 {
	return seat.place().worker
}

// Ordinal is that of the seat's last recorded call, which may be a refused one; false before the first, and without a history. A call that was not made,
// as for want of memory, leaves it.
func (seat *Seat) Ordinal() (uint64, bool) {
	next := seat.place().next.Load()
	if next == 0 {
		return 0, false
	}
	return next - 1, true
}

// Held is a table that one goroutine has alone for several calls in one go. Its calls are those of the seat that was asked for it, or of worker 0.
type Held struct {
	Table
	outside *heldTable // whose lock is taken; none after Unlock
}

// Lock has the table alone for several calls in one go, as a fork and a move of its child: no other goroutine's comes between them. It waits for those that
// are in it.
//
// Up to Unlock this goroutine uses Held, and neither the table nor a seat: it would wait for itself. Held is as a table without Threads: what waits, as
// WaitChanged, is ErrNoThreads. No call of it waits for the saver, whatever the bound of BoundUnsaved. ErrNoThreads where no other goroutine may come.
func (it *workplace) Lock() (*Held, error) {
	at := it.place()
	if err := at.held.forThreads(); err != nil {
		return nil, err
	}
	at.held.Lock()
	if !at.held.raw.is_open {
		at.held.Unlock()
		return nil, ErrClosed
	}
	inside := *at
	inside.held = &heldTable{new(gate), at.held.body, at.held.settings}
	return &Held{Table{inside.workplace()}, at.held}, nil
}

// Unlock lets the others in. From then on each method of Held answers ErrClosed, and the table stays. A second time nothing is done.
func (held *Held) Unlock() {
	inside := held.held()
	inside.Lock()
	defer inside.Unlock()
	if held.outside != nil {
		inside.body = new(body)
		held.outside.Unlock()
		held.outside = nil
	}
}
