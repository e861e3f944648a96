package pidtab

import (
	"encoding/json"
	"fmt"
	"reflect"
	"syscall"
	"testing"
)

func asJSON(t *testing.T, value any) string {
	t.Helper()
	text, err := json.Marshal(value)
	if err != nil {
		t.Fatal(err)
	}
	return string(text)
}

func TestAnswersAsJSON(t *testing.T) {
	table := open(t, Settings{})
	play(t, table, "fork 1 new", "join 1 2", "fork 1", "exit 2 7")
	ended, _ := table.Wait(1, Pid(2))
	killed, _ := table.Wait(1, Pid(3))
	_, refusal := table.Getpid(9)
	wanted := `[{"child":2,"root":3},{"child":2,"status":7},{"child":3,"status":null},{"error":"ESRCH","word":"no-caller","id":null}]`
	if got := asJSON(t, []any{Child{2, 3}, ended, killed, refusal}); got != wanted {
		t.Error(got)
	}
	numbered := Refusal{Errno: syscall.EAGAIN, Word: NoNumber, ID: 1<<64 - 1}
	if got := asJSON(t, numbered); got != `{"error":"EAGAIN","word":"no-number","id":18446744073709551615}` {
		t.Error(got)
	}
}

// labelsOf has the labels of all tasks that have one.
func labelsOf(t *testing.T, table interface{ Listing() (Listing, error) }) map[uint32]string {
	t.Helper()
	listing, err := table.Listing()
	if err != nil {
		t.Fatal(err)
	}
	labels := map[uint32]string{}
	for _, task := range listing.Tasks {
		if task.Label != "" {
			labels[task.Root()] = task.Label
		}
	}
	return labels
}

func label(t *testing.T, table *Table, task uint32, text string) {
	t.Helper()
	if err := table.Label(task, text); err != nil {
		t.Fatal(err)
	}
}

func TestLabelsOfATable(t *testing.T) {
	table := open(t, Settings{})
	play(t, table, "fork 1", "fork 1", "exit 3 0")
	before, _ := table.Dump()
	label(t, table, 2, "web 1")
	label(t, table, 3, "ended")
	label(t, table, 1, "x")
	label(t, table, 1, "systemd")
	if got := labelsOf(t, table); !reflect.DeepEqual(got, map[uint32]string{1: "systemd", 2: "web 1", 3: "ended"}) {
		t.Error(got)
	}
	if after, _ := table.Dump(); after != before {
		t.Error("a label is in the text of the table")
	}
	label(t, table, 2, "")
	if got := labelsOf(t, table); len(got) != 2 {
		t.Error(got)
	}
}

// The last number below the least pid_max: the search for a number begins there again.
const last = 300

// goUp forks children that end, up to the one with the last number, which then comes again and again.
func goUp(t *testing.T, it calls) {
	t.Helper()
	for {
		child, err := it.Fork(1, false)
		if err != nil {
			t.Fatal(err)
		}
		if child.Root == last {
			return
		}
		it.Exit(child.Root, 0)
		it.Wait(1, Any())
	}
}

func TestALabelGoesWithItsTask(t *testing.T) {
	table := open(t, Settings{PidMax: 301})
	goUp(t, table.calls)
	for name, fork := range map[string]func(){
		"fork": func() { table.Fork(1, false) },
		"call": func() { table.Call(Call{Operation: OpFork, Caller: 1}) },
		"line": func() { table.Line("fork 1") },
	} {
		label(t, table, last, "short")
		play(t, table, fmt.Sprint("exit ", last, " 0"))
		if got := labelsOf(t, table); got[last] != "short" {
			t.Error(name, got)
		}
		play(t, table, "wait 1 any")
		fork()
		if _, err := table.Getpid(last); err != nil {
			t.Fatal(name, err)
		}
		if got := labelsOf(t, table); len(got) != 0 {
			t.Error(name, got)
		}
	}
}

func TestLabelsThatAreNone(t *testing.T) {
	table := open(t, Settings{})
	want(t, "nobody", only(table.Label(9, "x")), nil, Refusal{syscall.ESRCH, "no-task", NoTask, 0, "label 9"})
	for _, text := range []string{"a\nb", "\x07", "\xff", "\u2028"} {
		want(t, text, only(table.Label(1, text)), nil, ErrBadLabel)
	}
	table.Close()
	want(t, "closed", only(table.Label(1, "x")), nil, ErrClosed)
	want(t, "none", only(new(Table).Label(1, "x")), nil, ErrClosed)
}

func TestLabelsOfATableWithItsHistory(t *testing.T) {
	table, err := Open(Settings{PidMax: 301, Workers: 2, Keep: KeepAll, Threads: true})
	if err != nil {
		t.Fatal(err)
	}
	t.Cleanup(table.Close)
	seat, _ := table.Seat()
	goUp(t, seat.calls)
	counts, _ := table.Counts()
	saved, err := table.Entries(counts.Recorded-1, 1)
	if err != nil {
		t.Fatal(err)
	}
	for name, fork := range map[string]func(){
		"call":   func() { seat.Fork(1, false) },
		"line":   func() { seat.Line("fork 1") },
		"replay": func() { table.Replay(saved) },
	} {
		if err := table.Label(last, "short"); err != nil {
			t.Fatal(err)
		}
		seat.Exit(last, 0)
		want(t, name, of(labelsOf(t, table), nil), map[uint32]string{last: "short"}, nil)
		seat.Wait(1, Any())
		fork()
		if _, err := seat.Getpid(last); err != nil {
			t.Fatal(name, err)
		}
		want(t, name, of(labelsOf(t, table), nil), map[uint32]string{}, nil)
	}
	want(t, "nobody", only(table.Label(9, "x")), nil, Refusal{syscall.ESRCH, "no-task", NoTask, 0, "label 9"})
	want(t, "no label", only(table.Label(1, "a\nb")), nil, ErrBadLabel)
}
