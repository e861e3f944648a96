package pidtabtest

import (
	"errors"
	"math/rand"
	"strconv"
	"strings"
	"testing"

	"pidtab"
)

// A family is a table of forks, exits and parents alone, by getppid(2) and _exit(2). With a bug, the parent of who has ended takes orphans.
type family struct {
	parents map[int]int
	ended   map[int]bool
	bug     bool
}

func newFamily(bug bool) *family {
	return &family{map[int]int{1: 0}, map[int]bool{}, bug}
}

// What it answers.
var familyCalls = []string{"fork", "exit", "getppid"}

func (family *family) Answer(line string) string {
	words := strings.Split(line, " ")
	caller, _ := strconv.Atoi(words[1])
	if _, known := family.parents[caller]; !known || family.ended[caller] {
		return "ESRCH no-caller"
	}
	switch words[0] {
	case "fork":
		child := len(family.parents) + 1
		family.parents[child] = caller
		return "child " + strconv.Itoa(child)
	case "exit":
		return family.exit(caller)
	}
	return strconv.Itoa(family.parents[caller])
}

func (family *family) exit(caller int) string {
	if caller == 1 {
		return "EBUSY"
	}
	heir := 1
	if family.bug {
		heir = family.parents[caller]
	}
	for child, parent := range family.parents {
		if parent == caller {
			family.parents[child] = heir
		}
	}
	family.ended[caller] = true
	return "ok"
}

// search is the first difference of random cases.
func search(bug bool, cases int) error {
	dice := rand.New(rand.NewSource(1))
	for i := 0; i < cases; i++ {
		data := make([]byte, 4*12)
		dice.Read(data)
		if err := Compare(data, newFamily(bug), familyCalls...); err != nil {
			return err
		}
	}
	return nil
}

func TestABugIsFound(t *testing.T) {
	var different Different
	if err := search(true, 2000); !errors.As(err, &different) {
		t.Fatal(err)
	}
	// The script shows it again.
	table, err := pidtab.Open(pidtab.Settings{PidMax: pidMax})
	if err != nil {
		t.Fatal(err)
	}
	defer table.Close()
	again := newFamily(true)
	for i, line := range different.Script {
		yours, answer := again.Answer(line), lines{table}.Answer(line)
		if isLast := i == len(different.Script)-1; agree(yours, answer) == isLast {
			t.Errorf("%s: %s, %s", line, yours, answer)
		}
	}
}

func TestNoneIsFoundWhereThereIsNone(t *testing.T) {
	if err := search(false, 500); err != nil {
		t.Error(err)
	}
}

func TestTheShortestCaseOfTheBug(t *testing.T) {
	// Each task forks, the one before the newest ends, and the newest is asked for its parent: the picks are 0, 0, 0, 1 and 0.
	data := []byte{0, 0, 0, 0, 0, 0, 0, 0, 0, 0, 0, 0, 1, 1, 0, 0, 2, 0, 0, 0}
	err := Compare(data, newFamily(true), familyCalls...)
	wanted := "getppid 4\n  yours  2\n  pidtab 1\nthe script:\n  fork 1\n  fork 2\n  fork 3\n  exit 3 0\n  getppid 4"
	if err == nil || err.Error() != wanted {
		t.Error(err)
	}
}

func TestNamesOfCalls(t *testing.T) {
	if err := Compare(nil, newFamily(false), "frok"); err != ErrNoCalls {
		t.Error(err)
	}
	if got := len(selectForms(nil)); got != 27 {
		t.Error(got)
	}
	var names []string
	for _, form := range selectForms([]string{"fork", "wait"}) {
		names = append(names, form.name())
	}
	if got := strings.Join(names, ", "); got != "fork, wait any, wait pid, wait own, wait group" {
		t.Error(got)
	}
}

// go test -fuzz finds cases by what they reach, and shortens one that differs.
func FuzzFamily(f *testing.F) {
	f.Add([]byte{0, 0, 0, 0, 1, 1, 0, 0})
	f.Fuzz(func(t *testing.T, data []byte) {
		if err := Compare(data, newFamily(false), familyCalls...); err != nil {
			t.Error(err)
		}
	})
}

func TestPidtabItselfDoesNotDiffer(t *testing.T) {
	dice := rand.New(rand.NewSource(2))
	for i := 0; i < 200; i++ {
		data := make([]byte, 4*40+i%4)
		dice.Read(data)
		table, err := pidtab.Open(pidtab.Settings{PidMax: pidMax})
		if err != nil {
			t.Fatal(err)
		}
		if err := Compare(data, lines{table}); err != nil {
			t.Error(err)
		}
		table.Close()
	}
}

// lines is a table by its lines.
type lines struct{ table *pidtab.Table }

func (it lines) Answer(line string) string {
	answer, err := it.table.Line(line)
	if err != nil {
		return err.Error()
	}
	return answer
}
