package pidtab

import (
	"context"
	"errors"
	"fmt"
	"math"
	"os"
	"strings"
	"syscall"
	"testing"
	"time"
)

// tableRows are the rows of a table of the interface, without the head: a row is its cells.
func tableRows(t *testing.T, name string) [][]string {
	t.Helper()
	text, err := os.ReadFile("../../interface/" + name)
	if errors.Is(err, os.ErrNotExist) {
		t.Skip("the tables of the interface are those of a checkout")
	}
	var rows [][]string
	for _, line := range strings.Split(string(text), "\n") {
		if line != "" && !strings.HasPrefix(line, "#") {
			cells := strings.Split(line, "|")
			for i := range cells {
				cells[i] = strings.TrimSpace(cells[i])
			}
			rows = append(rows, cells)
		}
	}
	return rows[1:]
}

// The error of each word is found in the refusal with its number, by its name, and no other is.
func TestEachRefusalHasAnError(t *testing.T) {
	rows := tableRows(t, "refusals.tbl")
	for _, row := range rows {
		var number uint32
		fmt.Sscan(row[0], &number)
		err := Reply{Kind: ReplyRefused, Errno: syscall.ESRCH, Refusal: number}.Err()
		for word, itsError := range wordErrors {
			if errors.Is(err, itsError) != (string(word) == row[2]) {
				t.Error(row[2], itsError)
			}
		}
		if wanted := "pidtab: " + row[2] + ": "; !strings.HasPrefix(wordErrors[Word(row[2])].Error(), wanted) {
			t.Error(wordErrors[Word(row[2])])
		}
	}
	if len(rows) != len(wordErrors) || errors.Is(Refusal{}, ErrNoCaller) || (Refusal{}).Is(nil) {
		t.Error(len(rows), len(wordErrors))
	}
}

// By their names, as calls meet them.
func TestErrorsByWord(t *testing.T) {
	table := open(t, Settings{})
	play(t, table, "fork 1", "mk 0", "limit 2 0")
	for wanted, err := range map[error]error{
		ErrNoCaller:    table.Exec(99),
		ErrNoTask:      of(table.Nspid(1, 99)).err,
		ErrNoChild:     of(table.Wait(2, Any())).err,
		ErrRootInit:    table.Exit(1, 0),
		ErrNoControl:   table.Rm(7),
		ErrRootControl: table.Limit(0, 1),
		ErrBadLimit:    table.Limit(2, 4194305),
		ErrBadGroup:    table.Setpgid(1, 0, -1),
		ErrIsLeader:    of(table.Setsid(1)).err,
	} {
		if refusal := new(Refusal); !errors.Is(err, wanted) || !errors.As(err, refusal) || !errors.Is(err, refusal.Errno) {
			t.Error(wanted, err)
		}
	}
}

// A refusal names what was asked: the line of a call, or the name and the numbers of what is no call.
func TestARefusalNamesItsCall(t *testing.T) {
	table := open(t, Settings{})
	kept := open(t, withHistory(1))
	for wanted, err := range map[string]error{
		"fork 99 new":              of(table.Fork(99, NewNamespace)).err,
		"wait 1 pid 7":             of(table.Wait(1, Pid(7))).err,
		"setpgid 1 -1 -2147483648": table.Setpgid(1, -1, math.MinInt32),
		"limit 7 max":              table.LimitMax(7),
		"stat 1 99":                of(table.Stat(1, 99)).err,
		"label 98":                 kept.Label(98, "x"),
		"children 97 0 3":          of(kept.Children(97, 0, 3)).err,
		"control tasks 1 7 0":      of(table.ControlTasks(1, 7, 0)).err,
	} {
		var refusal Refusal
		if !errors.As(err, &refusal) || refusal.Call != wanted || !strings.HasPrefix(err.Error(), "pidtab: "+wanted+": ") {
			t.Errorf("%q: %v", wanted, err)
		}
	}
	reply, err := table.Call(Call{Operation: OpExec, Caller: 9})
	want(t, "a reply knows no call", only(reply.Err()), nil, refused(syscall.ESRCH, "no-caller"))
	want(t, "no error", only(err), nil, nil)
}

// Each status has an error of its own but the two that the functions of the package see to.
func TestEachStatusHasAnError(t *testing.T) {
	met := map[error]string{}
	for number := uint32(1); number < 200; number++ {
		err := faultOf(number)
		if strings.Contains(err.Error(), "with the status") {
			continue
		}
		if other, isMet := met[err]; isMet {
			t.Error(err, other)
		}
		met[err] = fmt.Sprint(number)
	}
	apart := map[string]bool{"DONE": true, "NO_ROOM": true, "BAD_TEXT": true, "DEVICE": true, "NOT_EMPTY": true}
	count := 0
	for _, row := range tableRows(t, "statuses.tbl") {
		if !apart[row[0]] && row[2] != "replica" {
			count++
		}
	}
	if count != len(met) {
		t.Error(count, met)
	}
}

// The library says which numbers are a call, and the package which of them is at fault.
func TestEachFieldOfACallHasItsRange(t *testing.T) {
	for operation := Operation(0); operation <= lastOperation+2; operation++ {
		for _, value := range []uint32{0, 1, 2, 3, 4, 255, 256, math.MaxUint32} {
			for _, call := range []Call{{Operation: operation, Choice: value}, {Operation: operation, Number: value}} {
				_, err := call.Line()
				if fault := call.rangeFault(); (fault == nil) != (err == nil) {
					t.Errorf("%+v: %v, %v", call, err, fault)
				}
			}
		}
	}
}

// A bad argument is named, with its range, and is out of range.
func TestABadArgumentIsNamed(t *testing.T) {
	table := open(t, withHistory(2))
	seat := seatOf(t, table)
	dump, _ := table.Dump()
	for wanted, err := range map[string]error{
		"Settings.PidMax is 300, and not 301 to 4194304":                                            of(Open(Settings{PidMax: 300})).err,
		"Settings.PidMax is 4194305, and not 301 to 4194304":                                        of(Open(Settings{PidMax: 4194305, Keep: 1, Threads: true})).err,
		"Settings.Workers is 17, and not 1 to 16":                                                   of(Open(Settings{Workers: 17, Keep: KeepAll})).err,
		"Settings.Workers is 18, and not 1 to 16":                                                   of(Open(Settings{Workers: 18})).err,
		"Settings.Workers is 4, and not 1: workers count the calls of a history: open it with keep": of(Open(Settings{Workers: 4, Threads: true})).err,
		"worker is 2, and not 0 to 1":                                                               of(table.Worker(2)).err,
		"most is -1, and not 0 or more":                                                             of(table.Entries(0, -1)).err,
		"Call is fork 1 new, and not a query, as the operations say":                                of(table.Ask(Call{Operation: OpFork, Caller: 1, Choice: 1})).err,
		"Call.Choice (which) is 4, and not 0 to 3":                                                  of(table.Would(Call{Operation: OpWait, Choice: 4})).err,
		"Call.Choice (new_space) is 2, and not 0 to 1":                                              of(seat.Call(Call{Operation: OpFork, Choice: 2})).err,
		"calls[1].Number (status) is 256, and not 0 to 255":                                         of(seat.Calls([]Call{{Operation: OpExec}, {Operation: OpExit, Number: 256}})).err,
		"len(counts) is 1, and not 2, as Settings.Workers":                                          of(FromDump(dump, Settings{Keep: 1, Workers: 2}, 7)).err,
		"len(counts) is 2, and not 0: counts are of a history: open it with keep":                   of(FromDump(dump, Settings{}, 0, 0)).err,
		"Settings.Workers is 2, and not 1: workers count the calls of a history":                    of(FromDump(dump, Settings{Workers: 2})).err,
		"Settings.Workers is 19, and not 1 to 16":                                                   of(FromDump(dump, Settings{Keep: 1}, make([]uint64, 19)...)).err,
		"the sum of counts is 7, and not less than the stamp of the text":                           of(FromDump(dump, Settings{Keep: KeepAll}, 7)).err,
		"saved entry 0: Entry.Worker is 2, and not 0 to 1":                                          table.Replay([]Entry{{Worker: 2}}),
	} {
		if fault := new(RangeError); !errors.Is(err, ErrOutOfRange) || !errors.As(err, fault) || !saysAll(err, wanted) {
			t.Errorf("%s: %v", wanted, err)
		}
	}
	if counts, err := table.Counts(); counts != (Counts{}) || err != nil {
		t.Error(counts, err)
	}
}

// saysAll is whether the text of an error has all parts.
func saysAll(err error, wanted string) bool {
	for _, part := range strings.Split(wanted, ": ") {
		if !strings.Contains(err.Error(), part) {
			return false
		}
	}
	return true
}

// The more general errors are found too.
func TestErrorsOfAKind(t *testing.T) {
	table := open(t, Settings{})
	_, noSpace := table.Space(7)
	_, noControl := table.ControlsInside(7, 0)
	if !errors.Is(noSpace, ErrNoNamespace) || errors.Is(noSpace, ErrNoControl) || !errors.Is(ErrNoNamespace, ErrOutOfRange) {
		t.Error(noSpace)
	}
	if !errors.Is(noControl, ErrNoControl) || errors.Is(noControl, ErrNoNamespace) || !errors.Is(ErrNoSeat, ErrOutOfRange) {
		t.Error(noControl)
	}
	table.Close()
	if _, err := table.Getpid(1); !errors.Is(err, os.ErrClosed) || err != ErrClosed {
		t.Error(err)
	}
}

// soon is what a wait answers, which must end within some seconds.
func soon(t *testing.T, wait func() error) error {
	t.Helper()
	answer := make(chan error, 1)
	go func() { answer <- wait() }()
	select {
	case err := <-answer:
		return err
	case <-time.After(20 * time.Second):
		t.Fatal("the wait does not end")
		return nil
	}
}

// A context ends each wait for the saver, and neither a call nor a wait that needs none.
func TestAContextEndsEachWait(t *testing.T) {
	table := open(t, withHistory(1))
	seat := seatOf(t, table)
	ctx, cancel := context.WithTimeout(context.Background(), short)
	defer cancel()
	done, over := context.WithCancel(context.Background())
	over()
	table.BoundUnsaved(1)
	want(t, "near enough", of(seat.With(done).Getpid(1)), uint32(1), nil)
	waits := []func(*Seat) error{
		func(seat *Seat) error { _, err := seat.Getpid(1); return err },
		func(seat *Seat) error { _, err := seat.Line("getpid 1"); return err },
		func(seat *Seat) error { _, err := seat.Calls([]Call{{Operation: OpGetpid}}); return err },
		func(seat *Seat) error { _, err := seat.ForkAt(1, false, Child{2, 2}); return err },
		func(seat *Seat) error { _, _, err := seat.Told(Call{Operation: OpGetpid}); return err },
		func(*Seat) error { return table.WaitSavedContext(ctx, 0) },
	}
	for place, wait := range waits {
		if err := soon(t, func() error { return wait(seat.With(ctx)) }); err != context.DeadlineExceeded {
			t.Error(place, err)
		}
		if err := soon(t, func() error { return wait(seat.With(done)) }); place < 5 && err != context.Canceled {
			t.Error(place, err)
		}
	}
	want(t, "one call", of(table.Counts()), Counts{0, 1}, nil)
	for place, wait := range waits[:5] {
		if err := wait(seat.With(nil)); err != ErrNil {
			t.Error(place, err)
		}
	}
	want(t, "nil", only(table.WaitSavedContext(nil, 0)), nil, ErrNil)
}

// A saver whose context is done has a turn yet. Who waits has its error, until another saver does better.
func TestAContextEndsASaver(t *testing.T) {
	table, saved, to := open(t, withHistory(1)), new(Saved), new(disk)
	seat, ended, waiter := seatOf(t, table), make(chan error, 1), make(chan error, 1)
	ctx, cancel := context.WithCancel(context.Background())
	go func() { ended <- table.ServeContext(ctx, to, saved, 0, to.sync) }()
	first := ask(t, seat)
	want(t, "served", only(table.WaitSavedContext(ctx, first)), nil, nil)
	go func() { waiter <- table.WaitSaved(first + 1) }()
	time.Sleep(short)
	cancel()
	later := func() error { return table.WaitSaved(first + 1) }
	for _, wait := range []func() error{func() error { return <-ended }, func() error { return <-waiter }, later} {
		err := soon(t, wait)
		if fault := new(SavedError); !errors.Is(err, context.Canceled) || !errors.As(err, fault) || fault.Calls != 1 {
			t.Error(err)
		}
	}
	want(t, "what is saved", only(table.WaitSavedContext(ctx, first)), nil, nil)
	ask(t, seat)
	if err := table.ServeContext(ctx, to, saved, 0, to.sync); !errors.Is(err, context.Canceled) || saved.Calls() != 2 {
		t.Error(err, saved.Calls())
	}
	want(t, "all is saved", only(soon(t, later)), nil, nil)
	table.EndSaving()
	want(t, "behind the end", only(table.ServeContext(ctx, to, saved, 0, nil)), nil, nil)
	want(t, "nil", only(table.ServeContext(nil, to, saved, 0, nil)), nil, SavedError{Err: ErrNil})
}
