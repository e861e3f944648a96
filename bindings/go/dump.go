package pidtab

// #include <pidtab.h>
import "C"

import (
	"errors"
	"fmt"
	"strconv"
	"strings"
	"unsafe"
)

// ErrBadText is why no table was made of a text: the text is that of no table. errors.Is finds it in a TextError.
var ErrBadText = errors.New("pidtab: the text is that of no table")

// TextError is why a text is that of no table. More reasons may come.
type TextError struct {
	Line uint64 // the first line at fault, from 1 on
	Why  string // what is wrong with it, in the words of docs/SCRIPT.md, as `unknown parent`
}

// Error tells the line and what is the matter with it.
func (fault TextError) Error() string {
	return fmt.Sprintf("%v: line %d: %s", ErrBadText, fault.Line, fault.Why)
}

// Unwrap is ErrBadText.
func (fault TextError) Unwrap() error {
	return ErrBadText
}

// Written by tools/interface: faults.

// The words of the faults, by their numbers.
var textFaults = [...]string{
	1:  "bad line",
	2:  "wrong digest",
	3:  "bad settings",
	4:  "out of order",
	5:  "unknown parent",
	6:  "unknown namespace",
	7:  "unknown control group",
	8:  "bad name",
	9:  "number in use twice",
	10: "namespace without an init",
	11: "no number left",
	12: "impossible line",
}

// The end of faults.

// textFaultOf is what a status says of a text; nothing where it is done.
func textFaultOf(status C.uint32_t, fault *C.struct_pidtab_fault) error {
	if status == C.PIDTAB_BAD_TEXT {
		return TextError{uint64(fault.line), textFaults[fault.kind]}
	}
	return faultOf(uint32(status))
}

// withByte is the bytes of the text and one more, so that there is one to point to.
func withByte(text string) []byte {
	return append([]byte(text), '\n')
}

// FromDump makes a table as a text of Dump says: each later call has the answer, and the stamp, that it would have had there. Any text may be given; a
// TextError says why one is that of no table. PidMax and FirstStamp of the settings are not looked at. It costs some ten times what the forks cost that made
// the tasks, with a history twice that.
//
// A history begins with the text. counts has how many calls of each worker were recorded before; their sum is the ordinal of the next call. None are zeroes.
// The text has no workers: who dumps a table asks Worker of each, while no call is made. Such a history is saved to no writer, as the calls before are not
// there: Save answers ErrNotKept.
//
// ErrOutOfRange for Workers outside their range, for counts of another number of workers, and where they add up to the stamp of the text or more; ErrNoMemory.
func FromDump(text string, settings Settings, counts ...uint64) (*Table, error) {
	if settings.Workers == 0 {
		settings.Workers = uint32(len(counts))
	}
	settings = settings.filled()
	if err := settings.countsFault(counts); err != nil {
		return nil, err
	}
	recorded, before := make([]C.uint64_t, settings.Workers), uint64(0)
	for i, count := range counts {
		recorded[i] = C.uint64_t(count)
		before += count
	}
	numbers, fault, bytes := settings.numbers(), new(C.struct_pidtab_fault), withByte(text)
	table, err := openBy(settings, func(held *heldTable) error {
		status := C.pidtab_load_with(&held.raw, unsafe.Pointer(&bytes[0]), C.size_t(len(text)), &numbers, &recorded[0], fault)
		if status == C.PIDTAB_OUT_OF_RANGE {
			return RangeError{"the sum of counts", fmt.Sprint(before), "less than the stamp of the text"}
		}
		return textFaultOf(status, fault)
	})
	if err != nil {
		return nil, err
	}
	pidMax, stamp := headOf(text)
	held := table.held()
	held.settings.PidMax, held.settings.FirstStamp, held.goesOn = pidMax, stamp-before, true
	return table, nil
}

// countsFault is why no table that a text makes has the settings and these counts; nothing where one has them.
func (settings Settings) countsFault(counts []uint64) error {
	if len(counts) > 0 && settings.Keep == 0 {
		return RangeError{"len(counts)", fmt.Sprint(len(counts)), "0: counts are of a history: open it with keep"}
	}
	if err := settings.workersFault(); err != nil {
		return err
	}
	if len(counts) > 0 && len(counts) != int(settings.Workers) {
		return RangeError{"len(counts)", fmt.Sprint(len(counts)), fmt.Sprintf("%d, as Settings.Workers", settings.Workers)}
	}
	return nil
}

// Dump is all that there is to know of the table, as text, without its history: docs/SCRIPT.md has the form. One table has one text, on every machine. It
// costs a copy of the whole table, and two where it is longer than 4,096 bytes. ErrNoMemory.
func (table *Table) Dump() (string, error) {
	return table.text(func(held *heldTable, room unsafe.Pointer, most C.size_t, size *C.size_t) C.uint32_t {
		return C.pidtab_dump(&held.raw, room, most, size)
	})
}

// headOf is pid_max and the stamp of the next call, of a text that was loaded: `pidtab table 1 pid-max N stamp S`.
func headOf(text string) (uint32, uint64) {
	line, _, _ := strings.Cut(text, "\n")
	words := strings.Split(line, " ")
	pidMax, _ := strconv.ParseUint(words[4], 10, 32)
	stamp, _ := strconv.ParseUint(words[6], 10, 64)
	return uint32(pidMax), stamp
}
