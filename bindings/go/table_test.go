package pidtab

import (
	"errors"
	"io/fs"
	"reflect"
	"sort"
	"strconv"
	"strings"
	"sync"
	"syscall"
	"testing"
)

func open(t *testing.T, settings Settings) *Table {
	t.Helper()
	table, err := Open(settings)
	if err != nil {
		t.Fatal(err)
	}
	t.Cleanup(table.Close)
	return table
}

// told is what a call answers, with its error.
type told struct {
	answer any
	err    error
}

func of[T any](answer T, err error) told { return told{answer, err} }

func only(err error) told { return told{nil, err} }

func want(t *testing.T, what string, got told, answer any, err error) {
	t.Helper()
	if wanted := (told{answer, err}); !reflect.DeepEqual(got, wanted) {
		t.Errorf("%s: %v and not %v", what, got, wanted)
	}
}

// play asks lines, of which none may be refused.
func play(t *testing.T, table interface{ Line(string) (string, error) }, lines ...string) {
	t.Helper()
	for _, line := range lines {
		answer, err := table.Line(line)
		if err != nil || strings.HasPrefix(answer, "E") {
			t.Fatalf("%s: %s %v", line, answer, err)
		}
	}
}

// refused is the refusal with the words of an answer: one, and perhaps an id after it.
func refused(errno syscall.Errno, why string) Refusal {
	word, id, _ := strings.Cut(why, " ")
	number, _ := strconv.ParseUint(id, 10, 64)
	return Refusal{Errno: errno, Why: why, Word: Word(word), ID: number}
}

// The constants are those of docs/SCRIPT.md, and tell a refusal from another.
func TestWords(t *testing.T) {
	table := open(t, Settings{})
	play(t, table, "mk 0", "limit 1 1", "move 1 1")
	_, err := table.Fork(1, NoNewNamespace)
	var refusal Refusal
	if !errors.As(err, &refusal) || refusal.Word != PidsLimit || refusal.ID != 1 || refusal.Why != "pids-limit 1" {
		t.Errorf("%v", err)
	}
	if _, err := table.Getpid(9); !errors.As(err, &refusal) || refusal.Word != NoCaller || refusal.ID != 0 {
		t.Errorf("%v", err)
	}
}

func TestWhatErrorsSay(t *testing.T) {
	table := open(t, Settings{})
	_, err := table.Getpid(9)
	if err == nil || err.Error() != "pidtab: getpid 9: no such process: no-caller" {
		t.Error(err)
	}
	if errors.Is(err, syscall.EPERM) || !errors.Is(table.Rm(7), fs.ErrNotExist) || !errors.Is(table.Setpgid(1, 0, 5), fs.ErrPermission) {
		t.Error("the errors of the kernel are those of Go")
	}
}

// Each other status comes about in the cases.
func TestStatuses(t *testing.T) {
	if err := faultOf(12); err != ErrNoMemory {
		t.Error(err)
	}
	if err := faultOf(99); err == nil || err.Error() != "pidtab: the library answers with the status 99" {
		t.Error(err)
	}
}

func TestWhatIsNoCall(t *testing.T) {
	table := open(t, Settings{})
	want(t, "two lines", of(table.Line("fork 1\n")), "", ErrBadLine)
	want(t, "no kind", of(table.Next(1, Kind(3), 0)), uint32(0), RangeError{"Call.Choice (kind)", "3", "0 to 2"})
	want(t, "no operation", of(table.Call(Call{Operation: 99})), Reply{}, RangeError{"Call.Operation", "99", "0 to 18"})
	want(t, "mk", of(table.Mk(0)), uint64(1), nil)
}

func TestAClosedTable(t *testing.T) {
	table := open(t, Settings{})
	table.Close()
	table.Close()
	for operation := OpFork; operation <= OpSubreaper; operation++ {
		if err := byItsMethod(table.calls, Call{Operation: operation}).err; err != ErrClosed {
			t.Errorf("%d: %v", operation, err)
		}
	}
	want(t, "line", of(table.Line("getpid 1")), "", ErrClosed)
	want(t, "empty line", of(table.Line("")), "", ErrClosed)
	want(t, "list", of(table.List()), "", ErrClosed)
	want(t, "stat", of(table.Stat(1, 0)), Stat{}, ErrClosed)
	want(t, "no table", of(new(Table).Getpid(1)), uint32(0), ErrClosed)
	want(t, "stat of no table", of(new(Table).Stat(1, 0)), Stat{}, ErrClosed)
}

// As in a forked child, where the thread whose call was under way is not.
func TestACallThatDoesNotEnd(t *testing.T) {
	table := open(t, Settings{})
	table.held().raw.in_use = 255
	want(t, "getpid", of(table.Getpid(1)), uint32(0), ErrBusy)
	want(t, "line", of(table.Line("getpid 1")), "", ErrBusy)
	want(t, "list", of(table.List()), "", ErrBusy)
	want(t, "stat", of(table.Stat(1, 0)), Stat{}, ErrBusy)
	table.held().raw.in_use = 0
	want(t, "getpid", of(table.Getpid(1)), uint32(1), nil)
}

// forks puts the root numbers of children of the root init where there is room for them.
func forks(t *testing.T, table *Table, roots []int) {
	for i := range roots {
		child, err := table.Fork(1, false)
		if err != nil {
			t.Error(err)
		}
		roots[i] = int(child.Root)
	}
}

func TestEightGoroutinesUseATable(t *testing.T) {
	const each = 2000
	table := open(t, Settings{Threads: true})
	roots := make([]int, 8*each)
	var workers sync.WaitGroup
	for i := 0; i < 8; i++ {
		workers.Add(1)
		go func(part []int) {
			defer workers.Done()
			forks(t, table, part)
		}(roots[i*each : (i+1)*each])
	}
	workers.Wait()
	sort.Ints(roots)
	for i, root := range roots {
		if root != i+2 {
			t.Fatalf("%d is not given once", i+2)
		}
	}
	want(t, "count", of(table.Count(0)), uint64(8*each+1), nil)
}
