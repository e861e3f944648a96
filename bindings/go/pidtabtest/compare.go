// Package pidtabtest compares a process table of yours with one of pidtab. A case is bytes, so `go test -fuzz` finds a difference and shortens it.
package pidtabtest

import (
	"errors"
	"fmt"
	"strings"

	"pidtab"
)

// A Peer is a table that is compared. It answers a line of docs/SCRIPT.md as `pidtab run` does; a refusal may be the errno's name alone.
type Peer interface {
	Answer(line string) string
}

// Different is the first answer of a case that differs.
type Different struct {
	Script []string // the lines up to the one that shows it
	Yours  string   // your answer to the last line
	Pidtab string   // pidtab's
}

// Error tells the last line with both answers, and the script.
func (different Different) Error() string {
	last := different.Script[len(different.Script)-1]
	return fmt.Sprintf("%s\n  yours  %s\n  pidtab %s\nthe script:\n  %s", last, different.Yours, different.Pidtab, strings.Join(different.Script, "\n  "))
}

// pidMax is that of the table.
const pidMax = 32768

// stepBytes is how many bytes a call takes: one for its form, and three for the numbers that it may have.
const stepBytes = 4

// ErrNoCalls is the error of names that are those of no call.
var ErrNoCalls = errors.New("pidtabtest: no call has one of these names")

// Compare asks a new table and yours the calls that the bytes mean: a Different where an answer differs, and else nil, or what the table fails with.
//
// The calls are those that are named, each by its form, as "fork", "fork new" or "wait pid", or all of "wait"; all where none is. They are aimed at the
// tasks and control groups that are there. It costs a list of the table for each call.
func Compare(data []byte, yours Peer, names ...string) error {
	chosen := selectForms(names)
	if len(chosen) == 0 {
		return ErrNoCalls
	}
	table, err := pidtab.Open(pidtab.Settings{PidMax: pidMax})
	if err != nil {
		return err
	}
	defer table.Close()
	var script []string
	for ; len(data) >= stepBytes; data = data[stepBytes:] {
		listing, err := table.Listing()
		if err != nil {
			return err
		}
		aim := aim{form: chosen[int(data[0])%len(chosen)], listing: listing}
		script = append(script, aim.line(data[1:stepBytes]))
		if err := step(table, yours, script); err != nil {
			return err
		}
	}
	return nil
}

// step asks both the last line.
func step(table *pidtab.Table, yours Peer, script []string) error {
	line := script[len(script)-1]
	answer, err := table.Line(line)
	if err != nil {
		return err
	}
	if told := yours.Answer(line); !agree(told, answer) {
		return Different{script, told, answer}
	}
	return nil
}

// agree is whether two answers are the same, where yours may leave out the end of a refusal, and the root number of a child.
func agree(yours, answer string) bool {
	isPart := strings.HasPrefix(answer, "E") || strings.HasPrefix(answer, "child ")
	return yours == answer || isPart && yours != "child" && strings.HasPrefix(answer, yours+" ")
}
