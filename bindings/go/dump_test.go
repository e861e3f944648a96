package pidtab

import (
	"errors"
	"fmt"
	"math/rand"
	"strings"
	"testing"
)

// The text of docs/SCRIPT.md.
const dumpText = `pidtab table 1 pid-max 32768 stamp 7
task 1@0 parent - group 1@0 session 1@0 control 0 children 0 live
task 2@0 parent 1@0 group 3,1@2 session 1@0 control 0 children 0 live
space 0 parent - cursor 4
space 2 parent 0 cursor 2 fallen
control 0 parent - limit max
end sha256 43e4b011666adfc0327747421276975e151ed4aaf6d8c75e33dcc6843cccb951
`

func fromDump(t *testing.T, text string) *Table {
	t.Helper()
	table, err := FromDump(text, Settings{})
	if err != nil {
		t.Fatal(err)
	}
	t.Cleanup(table.Close)
	return table
}

// keptFromDump is a table that keeps the history after the text.
func keptFromDump(t *testing.T, keep uint64, counts ...uint64) *Table {
	t.Helper()
	table, err := FromDump(dumpText, Settings{Keep: keep}, counts...)
	if err != nil {
		t.Fatal(err)
	}
	t.Cleanup(table.Close)
	return table
}

// randomCall is a line with small numbers, so that most calls name what is there.
func randomCall(chance *rand.Rand) string {
	forms := []string{"fork %[1]d", "fork %[1]d", "fork %[1]d new", "exit %[1]d %[2]d", "wait %[1]d any", "setpgid %[1]d %[2]d %[3]d",
		"setsid %[1]d", "mk %[1]d", "move %[1]d %[2]d", "limit %[1]d %[2]d", "getpgid %[1]d %[2]d"}
	line := fmt.Sprintf(forms[chance.Intn(len(forms))], chance.Intn(12), chance.Intn(12), chance.Intn(12))
	line, _, _ = strings.Cut(line, "%!")
	return line
}

func TestCallsBehindAText(t *testing.T) {
	chance := rand.New(rand.NewSource(40))
	for round := 0; round < 10; round++ {
		table := open(t, Settings{PidMax: 301})
		for i := 0; i < 300; i++ {
			table.Line(randomCall(chance))
		}
		text, err := table.Dump()
		if err != nil {
			t.Fatal(err)
		}
		again := fromDump(t, text)
		for i := 0; i < 300; i++ {
			line := randomCall(chance)
			answer, err := table.Line(line)
			want(t, line, of(again.Line(line)), answer, err)
		}
		text, err = table.Dump()
		want(t, "dump", of(again.Dump()), text, err)
	}
}

func TestATableOfATextIsSavedToNoWriter(t *testing.T) {
	for _, counts := range [][]uint64{nil, {0}, {6}} {
		var bytes strings.Builder
		err := keptFromDump(t, KeepAll, counts...).Save(&bytes, new(Saved))
		if !errors.Is(err, ErrNotKept) || bytes.Len() != 0 {
			t.Errorf("%v, %q", err, bytes.String())
		}
	}
}

func TestATableOfATextCutsWhatItHas(t *testing.T) {
	table := keptFromDump(t, 2, 0)
	seat := seatOf(t, table)
	for i := 0; i < 5; i++ {
		want(t, "getpid", of(seat.Getpid(1)), uint32(1), nil)
	}
	wantCounts(t, table, 3, 5)
}

func TestAClosedTableHasNoText(t *testing.T) {
	table := fromDump(t, dumpText)
	table.Close()
	if _, err := table.Dump(); err != ErrClosed {
		t.Error(err)
	}
	kept := keptFromDump(t, KeepAll)
	kept.Close()
	if _, err := kept.Dump(); err != ErrClosed {
		t.Error(err)
	}
	if _, err := new(Table).Dump(); err != ErrClosed {
		t.Error(err)
	}
}

func TestNilWhereSomethingIsNeeded(t *testing.T) {
	table := open(t, withHistory(1))
	_, _, loaded := Load(nil, withHistory(1))
	_, _, resumed := Resume(nil, withHistory(1))
	for _, err := range []error{table.Save(nil, new(Saved)), table.Save(new(strings.Builder), nil), loaded, resumed} {
		if !errors.Is(err, ErrNil) {
			t.Error(err)
		}
	}
}
