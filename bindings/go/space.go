package pidtab

// #include <pidtab.h>
import "C"

import (
	"encoding/json"
	"fmt"
	"unsafe"
)

// SpaceStat is a namespace in one read.
type SpaceStat struct {
	ID     uint64  // its id
	Parent *uint64 // the id of the namespace that it is in, nil for the root
	Level  uint32  // how many namespaces are around it: 0 for the root, 32 for the deepest
	Init   uint32  // the root number of its init, ended or not; 0 where that was reaped
	Fallen bool    // its init has ended: it takes no task any more, and is gone with the last number in it
}

// ids are all ids of a function of the library that writes as many as there is room for, and counts all; or the error for an id that nothing has.
// Nothing changes between two tries.
func (table *Table) ids(absent error, page func(held *heldTable, ids *C.uint64_t, room C.size_t, count *C.uint64_t) C.uint32_t) ([]uint64, error) {
	held, count := table.held(), new(C.uint64_t)
	if !held.share() {
		return nil, ErrBusy
	}
	defer held.RUnlock()
	for there := shortPage; ; there *= growth {
		ids := make([]uint64, there)
		status := page(held, (*C.uint64_t)(unsafe.Pointer(&ids[0])), C.size_t(there), count)
		if status == C.PIDTAB_OUT_OF_RANGE {
			return nil, absent
		}
		if err := faultOf(uint32(status)); err != nil {
			return nil, err
		}
		if told := int(*count); told <= there {
			return ids[:told], nil
		}
	}
}

// noControl is an id that no control group has.
type noControl uint64

// Error tells the id.
func (id noControl) Error() string {
	return fmt.Sprintf("pidtab: no control group has the id %d: it is gone, or there was none", uint64(id))
}

// Unwrap is the error of all that is out of range.
func (id noControl) Unwrap() error {
	return ErrOutOfRange
}

// Is tells errors.Is that ErrNoControl is in it.
func (id noControl) Is(target error) bool {
	return target == ErrNoControl
}

// noSpace is an id that no namespace has.
type noSpace uint64

// Error tells the id.
func (id noSpace) Error() string {
	return fmt.Sprintf("pidtab: no namespace has the id %d: it is gone, or there was none", uint64(id))
}

// Unwrap is the error of each such id.
func (id noSpace) Unwrap() error {
	return ErrNoNamespace
}

// spaceOf is the namespace that the library has read, or the error for an id that nothing has.
func spaceOf(absent error, status C.uint32_t, space *C.struct_pidtab_space) (SpaceStat, error) {
	if status == C.PIDTAB_OUT_OF_RANGE {
		return SpaceStat{}, absent
	}
	if err := faultOf(uint32(status)); err != nil {
		return SpaceStat{}, err
	}
	told := SpaceStat{ID: uint64(space.id), Level: uint32(space.level), Init: uint32(space.init), Fallen: space.fallen == 1}
	if told.Level != 0 {
		parent := uint64(space.parent)
		told.Parent = &parent
	}
	return told, nil
}

// MarshalJSON is the namespace as docs/list.schema.json has it, with null for an init that was reaped.
func (space SpaceStat) MarshalJSON() ([]byte, error) {
	var root *uint32
	if space.Init != 0 {
		root = &space.Init
	}
	return json.Marshal(struct {
		ID     uint64  `json:"id"`
		Parent *uint64 `json:"parent"`
		Level  uint32  `json:"level"`
		Init   *uint32 `json:"init"`
		Fallen bool    `json:"fallen"`
	}{space.ID, space.Parent, space.Level, root, space.Fallen})
}
