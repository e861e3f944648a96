package cluster

import (
	"errors"
	"reflect"
	"strings"
	"testing"

	"pidtab"
)

func TestTwoHosts(t *testing.T) {
	noLeaks(t)
	log := new(MemoryLog)
	one, two := host(t, log), host(t, log)
	equal(t, forked(t, one), 2)
	equal(t, forked(t, two), 3)
	child, err := one.Fork(3, pidtab.NoNewNamespace)
	check(t, err)
	equal(t, child, pidtab.Child{Number: 4, Root: 4})
	control, err := two.Mk(0)
	check(t, err)
	equal(t, control, 4)
	_, err = one.Getpid(99)
	var refusal pidtab.Refusal
	if !errors.As(err, &refusal) || refusal.Word != pidtab.NoCaller {
		t.Error(err)
	}
	same(t, one, two)
	equal(t, one.Position(), two.Position())
	digest, err := one.DigestAt(one.Position())
	check(t, err)
	equal(t, digest, two.Digest())
	_, err = one.DigestAt(99)
	equal(t, err, pidtab.ErrNotKept)
}

func TestLines(t *testing.T) {
	log := new(MemoryLog)
	table := host(t, log)
	equal(t, wait(t, submit(t, table, "fork 1", "frok", "getpid 9")), "child 2 root 2, bad line, ESRCH no-caller")
	answers, err := table.Answers(background, nil)
	if len(answers) != 0 || err != nil {
		t.Error(answers, err)
	}
	answer, err := table.Line("getpid 9")
	check(t, err)
	equal(t, answer, "ESRCH no-caller")
	for _, line := range []string{"frok", strings.Repeat("x", 100_000), "\xff", "fork 1\r"} {
		_, err := table.Line(line)
		equal(t, err, pidtab.ErrBadLine)
	}
	// What is too long does not go into the log whole.
	for _, entry := range log.Entries() {
		if len(entry.Data) > 400 {
			t.Error(len(entry.Data))
		}
	}
	equal(t, forked(t, table), 3)
}

func TestWhatIsRefusedBeforeTheLog(t *testing.T) {
	log := new(MemoryLog)
	table := host(t, log)
	forked(t, table)
	before := len(log.Entries())
	for line, wanted := range map[string]error{"": pidtab.ErrEmptyLine, "a\nb": pidtab.ErrBadLine} {
		for _, ask := range []func() error{
			func() error { _, err := table.Line(line); return err },
			func() error { _, err := table.Answers(background, []string{"fork 1", line}); return err },
			func() error { _, err := table.Submit([]string{"fork 1", line}); return err },
		} {
			if err := ask(); !errors.Is(err, wanted) {
				t.Errorf("%q: %v", line, err)
			}
		}
	}
	_, err := table.Next(1, 7, 0)
	equal(t, err, pidtab.ErrOutOfRange)
	_, err = table.Call(pidtab.Call{Operation: 99})
	equal(t, err, pidtab.ErrOutOfRange)
	equal(t, len(log.Entries()), before)
}

func TestMuchAtOnce(t *testing.T) {
	log := new(MemoryLog)
	table := host(t, log)
	var lines []string
	for i := 0; i < 20_000; i++ {
		lines = append(lines, "fork 1")
	}
	for i := 0; i < 3000; i++ {
		lines = append(lines, strings.Repeat("x", 200))
	}
	asked := submit(t, table, lines...)
	answers := strings.Split(wait(t, asked), ", ")
	equal(t, len(answers), 23_000)
	for i := 0; i < 20_000; i++ {
		equal(t, answers[i], child(i+2))
	}
	equal(t, answers[22_999], "bad line")
	if len(asked.Receipts()) < 4 {
		t.Error(asked.Receipts())
	}
	for _, entry := range log.Entries() {
		if len(entry.Data) > 600_000 {
			t.Error(len(entry.Data))
		}
	}
}

func TestWhatWaitsIsOneEntry(t *testing.T) {
	log := new(switchedLog)
	table := host(t, log)
	log.turn(false)
	var asked []*Submitted
	for i := 0; i < 50; i++ {
		asked = append(asked, submit(t, table, "fork 1", "getpid 1"))
	}
	log.turn(true)
	for i, it := range asked {
		equal(t, wait(t, it), child(i+2)+", 1")
	}
	if count := countCalls(log.Entries()); count > 2 {
		t.Error(count)
	}
}

// countCalls is how many entries have calls.
func countCalls(entries []Entry) (count int) {
	for _, entry := range entries {
		if strings.HasPrefix(string(entry.Data), "calls ") {
			count++
		}
	}
	return count
}

func TestALateHost(t *testing.T) {
	log := new(MemoryLog)
	one := host(t, log)
	for i := 0; i < 300; i++ {
		submit(t, one, "fork 1", "mk 0")
	}
	equal(t, forked(t, one), 302)
	two := host(t, log)
	equal(t, two.Position(), one.Position())
	same(t, one, two)
}

// queries are those of a host's own table, as a pidtab.Table has them.
type queries interface {
	Ask(pidtab.Call) (pidtab.Reply, error)
	Stat(caller, pid uint32) (pidtab.Stat, error)
	Space(id uint64) (pidtab.SpaceStat, error)
	SpacesInside(id, from uint64) ([]uint64, error)
	ControlsInside(id, from uint64) ([]uint64, error)
	Children(caller, pid, from uint32) ([]uint32, error)
	GroupMembers(caller, group, from uint32) ([]uint32, error)
	SessionMembers(caller, session, from uint32) ([]uint32, error)
	NamespaceMembers(caller, pid, from uint32) ([]uint32, error)
	NamespaceOwn(caller, pid, from uint32) ([]uint32, error)
	ControlTasks(caller uint32, control uint64, from uint32) ([]uint32, error)
	List() (string, error)
	Listing() (pidtab.Listing, error)
	Dump() (string, error)
}

// tell is what each query tells.
func tell(it queries) (told []any) {
	of := func(found any, err error) { told = append(told, found, err) }
	for _, operation := range []pidtab.Operation{pidtab.OpGetpid, pidtab.OpNspid, pidtab.OpCount, pidtab.OpFork} {
		of(it.Ask(pidtab.Call{Operation: operation, Caller: 1, Number: 3}))
	}
	of(it.Stat(1, 4))
	of(it.Stat(9, 4))
	of(it.Space(1))
	of(it.Space(77))
	of(it.SpacesInside(0, 0))
	of(it.ControlsInside(0, 0))
	of(it.Children(1, 2, 0))
	of(it.GroupMembers(1, 1, 0))
	of(it.SessionMembers(1, 3, 0))
	of(it.NamespaceMembers(1, 2, 0))
	of(it.NamespaceOwn(1, 2, 0))
	of(it.ControlTasks(1, 6, 0))
	of(it.List())
	of(it.Listing())
	of(it.Dump())
	return told
}

// Each query of a host answers what a table does on which the same calls were made. None is a call.
func TestQueries(t *testing.T) {
	table, err := pidtab.Open(pidtab.Settings{})
	check(t, err)
	defer table.Close()
	replicated := host(t, new(MemoryLog))
	for _, line := range []string{"fork 1 new", "fork 2", "fork 2", "setsid 3", "mk 0", "mk 5", "move 3 6", "exit 4 7", "fork 2 new"} {
		wanted, err := table.Line(line)
		check(t, err)
		found, err := replicated.Line(line)
		check(t, err)
		equal(t, found, wanted)
	}
	position := replicated.Position()
	found, wanted := tell(replicated), tell(table)
	for i := range wanted {
		if !reflect.DeepEqual(found[i], wanted[i]) {
			t.Errorf("%d: %v, and not %v", i, found[i], wanted[i])
		}
	}
	_, err = replicated.CatchUp(background)
	check(t, err)
	equal(t, replicated.Position(), position)
}

// A read behind a CatchUp waits for what any host was answered.
func TestAReadWaitsForWhatWasAnswered(t *testing.T) {
	log := new(heldLog)
	table := host(t, log)
	log.gate.Lock()
	last := put(t, log, "open")
	done := make(chan uint64)
	go func() {
		position, err := table.CatchUp(background)
		if err != nil {
			t.Error(err)
		}
		done <- position
	}()
	select {
	case position := <-done:
		t.Fatal("a read at", position, "does not wait")
	case <-after(3 * soon):
	}
	log.gate.Unlock()
	equal(t, <-done, last)
}

// The entries of two hosts have the same number: each has the answer to its own.
func TestTwoHostsThatWaitAtOnce(t *testing.T) {
	log := new(heldLog)
	tables := []*Replicated{host(t, log), host(t, log)}
	for _, table := range tables {
		_, err := table.Getpid(1)
		check(t, err)
	}
	log.gate.Lock()
	before := len(log.Entries())
	asked := []*Submitted{submit(t, tables[0], "fork 1"), submit(t, tables[1], "fork 1")}
	until(t, "two entries", func() bool { return len(log.Entries()) == before+2 })
	first := string(log.Entries()[before].Data)
	log.gate.Unlock()
	answers := []string{wait(t, asked[0]), wait(t, asked[1])}
	wanted := []string{child(2), child(3)}
	if !strings.HasPrefix(first, "calls "+decimal(asked[0].Receipts()[0].Session)+" 2 1 ") {
		wanted = []string{child(3), child(2)}
	}
	if !reflect.DeepEqual(answers, wanted) {
		t.Errorf("%v, and not %v", answers, wanted)
	}
}

// A log of somebody else needs three methods.
func TestAnotherLog(t *testing.T) {
	log := struct{ Log }{new(MemoryLog)}
	table := host(t, log)
	equal(t, forked(t, table), 2)
	same(t, table, host(t, log))
}
