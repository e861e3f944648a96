package pidtab

import (
	"errors"
	"fmt"
	"reflect"
	"sync"
	"testing"
)

// lister is what a Table answers lists by.
type lister interface {
	Children(caller, pid, from uint32) ([]uint32, error)
	GroupMembers(caller, group, from uint32) ([]uint32, error)
	SessionMembers(caller, session, from uint32) ([]uint32, error)
	NamespaceMembers(caller, pid, from uint32) ([]uint32, error)
	NamespaceOwn(caller, pid, from uint32) ([]uint32, error)
	ControlTasks(caller uint32, control uint64, from uint32) ([]uint32, error)
}

// listsOf are its lists, in the order of the numbers of the header.
func listsOf(of lister) [5]func(caller, number, from uint32) ([]uint32, error) {
	return [...]func(caller, number, from uint32) ([]uint32, error){of.Children, of.GroupMembers, of.SessionMembers, of.NamespaceMembers, of.NamespaceOwn}
}

// numbered has a list of these numbers.
func numbered(numbers ...uint32) []uint32 { return append([]uint32{}, numbers...) }

// openBoth has the same tasks in a table and in a kept one. 3 is 1 of a new namespace, and its child 4 is 2 there. 2 leads a session, of which is its
// child 5, a zombie.
func openBoth(t *testing.T) (*Table, *Table) {
	t.Helper()
	table := open(t, Settings{})
	kept, err := Open(withHistory(1))
	if err != nil {
		t.Fatal(err)
	}
	t.Cleanup(kept.Close)
	seat, err := kept.Seat()
	if err != nil {
		t.Fatal(err)
	}
	made := []Call{
		forkOf(1), {Operation: OpFork, Caller: 1, Choice: 1}, forkOf(3), {Operation: OpSetsid, Caller: 2}, forkOf(2), {Operation: OpExit, Caller: 5},
	}
	for _, call := range made {
		if _, err := table.Call(call); err != nil {
			t.Fatal(err)
		}
		if _, err := seat.Call(call); err != nil {
			t.Fatal(err)
		}
	}
	return table, kept
}

func TestWhomAPageLists(t *testing.T) {
	table, kept := openBoth(t)
	for _, it := range []lister{table, kept} {
		for _, row := range []struct {
			ask                  func(caller, number, from uint32) ([]uint32, error)
			caller, number, from uint32
			wanted               []uint32
		}{
			{it.Children, 1, 0, 0, numbered(2, 3)}, {it.Children, 1, 1, 3, numbered(3)}, {it.Children, 2, 0, 0, numbered(5)},
			{it.Children, 1, 3, 0, numbered(4)}, {it.Children, 3, 0, 0, numbered(2)}, {it.Children, 1, 9, 0, numbered()},
			{it.GroupMembers, 1, 0, 0, numbered(1, 3, 4)}, {it.GroupMembers, 2, 2, 3, numbered(5)},
			{it.SessionMembers, 1, 2, 0, numbered(2, 5)}, {it.SessionMembers, 1, 0, 5, numbered()},
			// The namespace of 4 sees no number of the group and the session of 1.
			{it.GroupMembers, 4, 0, 0, numbered(1, 2)}, {it.GroupMembers, 4, 1, 0, numbered()}, {it.SessionMembers, 3, 0, 2, numbered(2)},
			{it.NamespaceMembers, 1, 0, 0, numbered(1, 2, 3, 4, 5)}, {it.NamespaceMembers, 1, 4, 4, numbered(4)}, {it.NamespaceMembers, 4, 0, 0, numbered(1, 2)},
			{it.NamespaceOwn, 1, 0, 2, numbered(2, 5)}, {it.NamespaceOwn, 1, 3, 0, numbered(3, 4)}, {it.NamespaceOwn, 3, 3, 0, numbered()},
		} {
			if found, err := row.ask(row.caller, row.number, row.from); err != nil || !reflect.DeepEqual(found, row.wanted) {
				t.Error(row.caller, row.number, row.from, found, row.wanted, err)
			}
		}
		var refusal Refusal
		for _, list := range listsOf(it) {
			if found, err := list(5, 0, 0); found != nil || !errors.As(err, &refusal) || refusal.Word != NoCaller {
				t.Error(found, err)
			}
		}
	}
	if counts, err := kept.Counts(); err != nil || counts.Recorded != 6 {
		t.Error(counts, err)
	}
	table.Close()
	kept.Close()
	for _, it := range []lister{table, kept} {
		for _, list := range listsOf(it) {
			if _, err := list(1, 0, 0); !errors.Is(err, ErrClosed) {
				t.Error(err)
			}
		}
	}
}

func TestMoreThanThereIsRoomForAtFirst(t *testing.T) {
	table, wanted := open(t, Settings{}), numbered()
	for number := uint32(2); number < 3*shortPage; number++ {
		if _, err := table.Fork(1, NoNewNamespace); err != nil {
			t.Fatal(err)
		}
		wanted = append(wanted, number)
		if found, err := table.Children(1, 0, 0); err != nil || !reflect.DeepEqual(found, wanted) {
			t.Fatal(found, err)
		}
		if found, err := table.ControlTasks(1, 0, 2); err != nil || !reflect.DeepEqual(found, wanted) {
			t.Fatal(found, err)
		}
	}
}

// The control group 2 is in 1. 3 is the init of a namespace, and its child 4 is 2 there. 2 and 4 are in 1, 5 in 2, and 6 is a zombie there.
func TestTasksOfControlGroups(t *testing.T) {
	table, kept := open(t, Settings{}), open(t, withHistory(1))
	makeBoth(t, table, seatOf(t, kept), "mk 0", "mk 1", "fork 1", "fork 1 new", "fork 3", "move 2 1", "move 4 1", "fork 1", "move 5 2", "fork 5", "exit 6 0")
	for _, it := range []lister{table, kept} {
		for _, row := range []struct {
			caller  uint32
			control uint64
			from    uint32
			wanted  []uint32
		}{
			{1, 0, 0, numbered(1, 3)}, {1, 1, 0, numbered(2, 4)}, {1, 1, 3, numbered(4)}, {1, 1, 1<<32 - 1, numbered()}, {1, 2, 0, numbered(5)},
			// 3 and 4 see each other alone.
			{3, 0, 0, numbered(1)}, {4, 1, 0, numbered(2)}, {3, 2, 0, numbered()},
		} {
			if found, err := it.ControlTasks(row.caller, row.control, row.from); err != nil || !reflect.DeepEqual(found, row.wanted) {
				t.Error(row, found, err)
			}
		}
		isListRefused(t, it, 6, 9, NoCaller)
		isListRefused(t, it, 9, 1, NoCaller)
		// 4 is the id of a namespace.
		isListRefused(t, it, 1, 4, NoControl)
		isListRefused(t, it, 1, 1<<64-1, NoControl)
	}
	wantCounts(t, kept, 0, 11)
	table.Close()
	kept.Close()
	for _, it := range []lister{table, kept} {
		if _, err := it.ControlTasks(1, 0, 0); !errors.Is(err, ErrClosed) {
			t.Error(err)
		}
	}
}

// isListRefused is that the live tasks of the control group are not told, for this reason.
func isListRefused(t *testing.T, it lister, caller uint32, control uint64, wanted Word) {
	t.Helper()
	var refusal Refusal
	if found, err := it.ControlTasks(caller, control, 0); found != nil || !errors.As(err, &refusal) || refusal.Word != wanted {
		t.Error(found, err)
	}
}

// As in a forked child, where the thread whose call was under way is not.
func TestAListBesideACallThatDoesNotEnd(t *testing.T) {
	table := open(t, Settings{})
	table.held().raw.in_use = 255
	if found, err := table.ControlTasks(1, 0, 0); found != nil || err != ErrBusy {
		t.Error(found, err)
	}
	table.held().raw.in_use = 0
}

// besideAWriter has goroutines read while another one forks children of 1: each reads how many it has seen by now, until it has seen all.
func besideAWriter(t *testing.T, newSpace bool, read func(table *Table, before int) (int, error)) {
	t.Helper()
	const forks, readers = 300, 3
	table := open(t, withHistory(1))
	seat := seatOf(t, table)
	var all sync.WaitGroup
	for range [readers]int{} {
		all.Add(1)
		go func() {
			defer all.Done()
			for before := 0; before < forks; {
				now, err := read(table, before)
				if err != nil || now < before {
					t.Error(before, now, err)
					return
				}
				before = now
			}
		}()
	}
	for range [forks]int{} {
		if _, err := seat.Fork(1, newSpace); err != nil {
			t.Fatal(err)
		}
	}
	all.Wait()
}

// inOrder is how many numbers were told, which are all from the first on.
func inOrder[Number uint32 | uint64](found []Number, err error, first Number) (int, error) {
	for place, number := range found {
		if number != Number(place)+first {
			return 0, fmt.Errorf("%v", found)
		}
	}
	return len(found), err
}

func TestListsBesideAWriter(t *testing.T) {
	besideAWriter(t, NoNewNamespace, func(table *Table, before int) (int, error) {
		found, err := table.Children(1, 0, 0)
		return inOrder(found, err, 2)
	})
	besideAWriter(t, NoNewNamespace, func(table *Table, before int) (int, error) {
		found, err := table.ControlTasks(1, 0, 2)
		return inOrder(found, err, 2)
	})
}
