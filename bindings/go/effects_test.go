package pidtab

import (
	"errors"
	"reflect"
	"runtime"
	"sort"
	"sync"
	"syscall"
	"testing"
)

// teller is what a Table and a Seat make calls by that tell their effects.
type teller interface {
	Told(call Call) (Reply, []Effect, error)
	Line(line string) (string, error)
}

func exitOf(caller, status uint32) Call {
	return Call{Operation: OpExit, Caller: caller, Number: status}
}

func waitOf(caller, child uint32) Call {
	return Call{Operation: OpWait, Caller: caller, Choice: 1, Number: child}
}

func ended(number uint32, status uint8) Effect {
	return Effect{Kind: EffectEnded, Number: number, Status: status}
}

func killed(number uint32) Effect { return Effect{Kind: EffectEnded, Number: number, Killed: true} }

func adopted(number, parent uint32) Effect {
	return Effect{Kind: EffectAdopted, Number: number, Parent: parent}
}

func gone(number uint32) Effect { return Effect{Kind: EffectGone, Number: number} }

func groupGone(number uint32) Effect { return Effect{Kind: EffectGroupGone, Number: number} }

func sessionGone(number uint32) Effect { return Effect{Kind: EffectSessionGone, Number: number} }

func spaceFell(id uint64) Effect { return Effect{Kind: EffectSpaceFell, Space: id} }

func spaceGone(id uint64) Effect { return Effect{Kind: EffectSpaceGone, Space: id} }

// isTold is that a call has the effects, and no fault.
func isTold(t *testing.T, it teller, call Call, wanted ...Effect) Reply {
	t.Helper()
	reply, effects, err := it.Told(call)
	if err != nil || !reflect.DeepEqual(effects, append([]Effect{}, wanted...)) {
		t.Error(call, effects, wanted, err)
	}
	return reply
}

// isNotMade is that nothing is told but the error.
func isNotMade(t *testing.T, it teller, call Call, wanted error) {
	t.Helper()
	if reply, effects, err := it.Told(call); err != wanted || effects != nil || reply != (Reply{}) {
		t.Error(reply, effects, err)
	}
}

// 2 is the init of the namespace 1, in which are its child 3 and the children 4 and 5 of that. 5 is the init of 4 within.
func TestWhatCallsDoToTasks(t *testing.T) {
	table, kept := open(t, Settings{}), open(t, withHistory(1))
	seat := seatOf(t, kept)
	for _, it := range []teller{table, seat} {
		play(t, it, "fork 1 new", "fork 2", "fork 3", "fork 3 new")
		isTold(t, it, exitOf(4, 255), ended(4, 255))
		isTold(t, it, exitOf(3, 1), ended(3, 1), adopted(4, 2), adopted(5, 2))
		isTold(t, it, exitOf(2, 9), ended(2, 9), gone(3), gone(4), killed(5), gone(5), spaceFell(1), spaceFell(4), spaceGone(4))
		if reply := isTold(t, it, waitOf(1, 2), gone(2), spaceGone(1)); reply != (Reply{Kind: ReplyReaped, First: 2, Second: 9}) {
			t.Error(reply)
		}
		if reply := isTold(t, it, exitOf(1, 0)); !errors.Is(reply.Err(), syscall.EBUSY) {
			t.Error(reply)
		}
		if reply := isTold(t, it, forkOf(1)); childIn(reply) != (Child{6, 6}) {
			t.Error(reply)
		}
		isNotMade(t, it, exitOf(6, 256), RangeError{"Call.Number (status)", "256", "0 to 255"})
		isNotMade(t, it, Call{Operation: 99}, RangeError{"Call.Operation", "99", "0 to 18"})
	}
	if ordinal, made := seat.Ordinal(); ordinal != 9 || !made {
		t.Error(ordinal, made)
	}
	want(t, "an entry", of(kept.Entry(8)), Entry{8, 0, exitOf(1, 0), refusedBy(t, table, exitOf(1, 0))}, nil)
	table.Close()
	kept.Close()
	for _, it := range []teller{table, seat, new(Table), new(Seat)} {
		isNotMade(t, it, exitOf(6, 0), ErrClosed)
	}
}

// 2 leads a session, of which are its children 3 and 4, and 4 leads a group. A zombie is a member until it is reaped.
func TestWhatCallsDoToGroupsAndSessions(t *testing.T) {
	table, kept := open(t, Settings{}), open(t, withHistory(1))
	for _, it := range []teller{table, seatOf(t, kept)} {
		play(t, it, "fork 1", "setsid 2", "fork 2", "fork 2", "setpgid 2 4 4")
		isTold(t, it, setpgidOf(2, 3, 0))
		isTold(t, it, setpgidOf(2, 3, 2), groupGone(3))
		isTold(t, it, exitOf(2, 1), ended(2, 1), adopted(3, 1), adopted(4, 1))
		isTold(t, it, waitOf(1, 2), gone(2))
		isTold(t, it, Call{Operation: OpSetsid, Caller: 3}, groupGone(2))
		isTold(t, it, exitOf(4, 2), ended(4, 2))
		isTold(t, it, waitOf(1, 4), gone(4), groupGone(4), sessionGone(2))
	}
}

// 3 is the init of the namespace 2, and 2 is in its group, whose number keeps the namespace.
func TestAGroupKeepsANamespace(t *testing.T) {
	table, kept := open(t, Settings{}), open(t, withHistory(1))
	for _, it := range []teller{table, seatOf(t, kept)} {
		play(t, it, "fork 1", "fork 2 new", "setpgid 2 3 0", "setpgid 2 0 3")
		isTold(t, it, exitOf(3, 0), ended(3, 0), spaceFell(2))
		isTold(t, it, waitOf(2, 3), gone(3))
		isTold(t, it, setpgidOf(2, 0, 1), groupGone(3), spaceGone(2))
	}
}

func setpgidOf(caller uint32, pid, group int32) Call {
	return Call{Operation: OpSetpgid, Caller: caller, Pid: pid, Pgid: group}
}

// refusedBy is the reply to a call that is refused.
func refusedBy(t *testing.T, table *Table, call Call) Reply {
	t.Helper()
	reply, err := table.Call(call)
	if err != nil || reply.Err() == nil {
		t.Error(reply, err)
	}
	return reply
}

func TestMoreEffectsThanThereIsRoomForAtFirst(t *testing.T) {
	// Of each task there may be two effects, and one of their group and of their session.
	for _, count := range []int{shortRoom/2 - 3, shortRoom/2 - 2, shortRoom/2 - 1, 5 * shortRoom} {
		table, wanted := open(t, Settings{}), []Effect{ended(2, 7)}
		play(t, table, "fork 1")
		for i := 0; i < count; i++ {
			play(t, table, "fork 2")
			wanted = append(wanted, adopted(uint32(i)+3, 1))
		}
		isTold(t, table, exitOf(2, 7), wanted...)
	}
}

// As in a forked child, where the thread whose call was under way is not.
func TestACallThatTellsAndDoesNotEnd(t *testing.T) {
	table := open(t, Settings{})
	table.held().raw.in_use = 255
	isNotMade(t, table, exitOf(2, 0), ErrBusy)
	table.held().raw.in_use = 0
	isTold(t, table, forkOf(1))
}

func TestALabelGoesByAForkThatTells(t *testing.T) {
	table, kept := open(t, Settings{PidMax: 301}), open(t, Settings{PidMax: 301, Keep: KeepAll, Threads: true})
	seat := seatOf(t, kept)
	for _, it := range []struct {
		teller
		listed interface {
			Label(task uint32, text string) error
			Listing() (Listing, error)
		}
	}{{table, table}, {seat, kept}} {
		for i := 2; i <= 300; i++ {
			play(t, it, "fork 1")
		}
		want(t, "a label", only(it.listed.Label(300, "before")), nil, nil)
		play(t, it, "exit 300 0", "wait 1 pid 300")
		if reply := isTold(t, it, forkOf(1)); childIn(reply) != (Child{300, 300}) {
			t.Error(reply)
		}
		if listing, err := it.listed.Listing(); err != nil || listing.Tasks[299].Label != "" {
			t.Error(listing.Tasks[299], err)
		}
	}
}

// Goroutines fork children of a task that ends: each child that was made has another parent after it.
func TestNoEffectIsLostBesideForks(t *testing.T) {
	const workers, enough = 3, 100
	table := open(t, Settings{PidMax: 5000, Workers: workers + 1, Keep: KeepAll, Threads: true})
	seat := seatOf(t, table)
	play(t, seat, "fork 1")
	var lock sync.Mutex
	var all sync.WaitGroup
	var children []int
	for range [workers]int{} {
		worker := seatOf(t, table)
		all.Add(1)
		go func() {
			defer all.Done()
			for {
				child, err := worker.Fork(2, NoNewNamespace)
				if err != nil {
					return
				}
				lock.Lock()
				children = append(children, int(child.Root))
				lock.Unlock()
			}
		}()
	}
	for counts, err := table.Counts(); err == nil && counts.Recorded < enough; counts, err = table.Counts() {
		runtime.Gosched()
	}
	_, effects, err := seat.Told(exitOf(2, 3))
	all.Wait()
	sort.Ints(children)
	wanted := []Effect{ended(2, 3)}
	for _, child := range children {
		wanted = append(wanted, adopted(uint32(child), 1))
	}
	if err != nil || !reflect.DeepEqual(effects, wanted) {
		t.Error(effects, err)
	}
}
