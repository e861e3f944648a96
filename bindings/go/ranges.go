package pidtab

// #include <pidtab.h>
import "C"

import (
	"fmt"
	"strings"
)

// RangeError is an argument that is out of its range. errors.Is finds ErrOutOfRange in it.
type RangeError struct {
	Argument string // as `pidMax`, or `Call.Number (status)` for a field of a call
	Value    string // as it was given
	Range    string // what it may be, as `301 to 4194304`
}

// Error tells the argument, its value and its range.
func (fault RangeError) Error() string {
	return fmt.Sprintf("pidtab: %s is %s, and not %s", fault.Argument, fault.Value, fault.Range)
}

// Unwrap is ErrOutOfRange.
func (fault RangeError) Unwrap() error {
	return ErrOutOfRange
}

// A special is an error with a text of its own, in which errors.Is finds a more general one.
type special struct {
	text    string
	general error
}

// Error is its text.
func (it *special) Error() string {
	return it.text
}

// Unwrap is the more general error.
func (it *special) Unwrap() error {
	return it.general
}

// A bound is the greatest value of a field of a call, with what the argument of the method is called.
type bound struct {
	field, argument string
	most            uint32
}

// Written by tools/interface: ranges.

// The bounds of pid_max, and what it is where none is given.
const (
	defaultPidMax  = 32768
	leastPidMax    = 301
	greatestPidMax = 4194304
)

// The greatest operation.
const lastOperation = OpSubreaper

// The field of a call that is bounded, by its operation. All others may have any value.
var bounded = map[Operation]bound{
	OpFork:      {"Choice", "new_space", 1},
	OpExit:      {"Number", "status", 255},
	OpWait:      {"Choice", "which", 3},
	OpLimit:     {"Choice", "limit", 1},
	OpNext:      {"Choice", "kind", 2},
	OpSubreaper: {"Choice", "on", 1},
}

// The end of ranges.

// outside is an argument that is not from the least to the greatest value.
func outside[T, L, G any](argument string, value T, least L, greatest G) error {
	return RangeError{argument, fmt.Sprint(value), fmt.Sprintf("%v to %v", least, greatest)}
}

// rangeFault is why no table has the settings; nothing where one has them.
func (settings Settings) rangeFault() error {
	if settings.PidMax < leastPidMax || settings.PidMax > greatestPidMax {
		return outside("Settings.PidMax", settings.PidMax, leastPidMax, greatestPidMax)
	}
	return settings.workersFault()
}

// workersFault is why no table has so many workers; nothing where one has them.
func (settings Settings) workersFault() error {
	if settings.Workers > C.PIDTAB_MOST_WORKERS {
		return outside("Settings.Workers", settings.Workers, 1, C.PIDTAB_MOST_WORKERS)
	}
	if settings.Workers > 1 && settings.Keep == 0 {
		return RangeError{"Settings.Workers", fmt.Sprint(settings.Workers), "1: workers count the calls of a history: open it with keep"}
	}
	return nil
}

// rangeFault is why the value is no call; nothing where it is one.
func (call Call) rangeFault() error {
	if call.Operation > lastOperation {
		return outside("Call.Operation", uint32(call.Operation), uint32(OpFork), uint32(lastOperation))
	}
	value := map[string]uint32{"Number": call.Number, "Choice": call.Choice}
	if it, is := bounded[call.Operation]; is && value[it.field] > it.most {
		return outside(fmt.Sprintf("Call.%s (%s)", it.field, it.argument), value[it.field], 0, it.most)
	}
	return nil
}

// queryFault is why the value is no query, where the library takes it for none.
func (call Call) queryFault() error {
	if err := call.rangeFault(); err != nil {
		return err
	}
	return RangeError{"Call", call.text(), "a query, as the operations say"}
}

// callsFault is which of the calls is none, with its place; nothing where each is one.
func callsFault(calls []Call) error {
	for place, call := range calls {
		if fault, is := call.rangeFault().(RangeError); is {
			fault.Argument = fmt.Sprintf("calls[%d]%s", place, strings.TrimPrefix(fault.Argument, "Call"))
			return fault
		}
	}
	return nil
}

// workerFault is why there is no such worker; nothing where there is.
func (settings Settings) workerFault(argument string, worker uint32) error {
	if worker >= settings.Workers {
		return outside(argument, worker, 0, settings.Workers-1)
	}
	return nil
}

// entryFault is why the entry is not made again: its worker, or its call.
func (settings Settings) entryFault(entry Entry) error {
	if err := settings.workerFault("Entry.Worker", entry.Worker); err != nil {
		return err
	}
	return entry.Call.rangeFault()
}

// text is the call as its line, for errors.
func (call Call) text() string {
	line, err := call.Line()
	if err != nil {
		return fmt.Sprintf("%+v", call)
	}
	return line
}

// named is what a status says, and of an argument that is out of its range which one it is, as the function finds it.
func named(status C.uint32_t, find func() error) error {
	err := faultOf(uint32(status))
	if err != ErrOutOfRange {
		return err
	}
	if which := find(); which != nil {
		return which
	}
	return err
}
