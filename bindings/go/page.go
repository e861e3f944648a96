package pidtab

// #include <pidtab.h>
import "C"

import "unsafe"

// shortPage is the room for a first try, in numbers.
const shortPage = 64

// growth is how many times as long the next room is: so all tries of a list together cost little more than the last one.
const growth = 4

// numbers are all numbers of a function of the library that writes as many as there is room for, and whose reply counts one more where there are more.
// Nothing changes between two tries.
func (table *Table) numbers(page func(held *heldTable, numbers *C.uint32_t, room C.size_t, reply *C.struct_pidtab_reply) C.uint32_t) ([]uint32, error) {
	held, reply := table.held(), new(C.struct_pidtab_reply)
	if !held.share() {
		return nil, ErrBusy
	}
	defer held.RUnlock()
	for there := shortPage; ; there *= growth {
		numbers := make([]uint32, there)
		status := page(held, (*C.uint32_t)(unsafe.Pointer(&numbers[0])), C.size_t(there), reply)
		if err := faultOf(uint32(status)); err != nil {
			return nil, err
		}
		if reply.kind == C.PIDTAB_REFUSED {
			return nil, refusalOf(reply)
		}
		if count := int(reply.first); count <= there {
			return numbers[:count], nil
		}
	}
}
