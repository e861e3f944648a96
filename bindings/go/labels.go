package pidtab

// #include <pidtab.h>
import "C"

import (
	"errors"
	"strconv"
	"strings"
	"unicode"
)

// ErrBadLabel is why a task was not named.
var ErrBadLabel = errors.New("pidtab: a label is printable text of one line")

// Label names a task, by its root number, in Listing and in its JSON; an empty text takes the name away. It is no call: the table, its text and
// its history know nothing of it. The name goes when the number is another task's, and all go with a Replay that stops. Refused as no-task; ErrBadLabel.
func (table *Table) Label(task uint32, text string) error {
	held := table.held()
	if !held.enter() {
		return ErrBusy
	}
	defer held.Unlock()
	err := held.labels.put(text, func(found *C.struct_pidtab_task) C.uint32_t {
		return C.pidtab_stat(&held.raw, 1, C.uint32_t(task), found)
	})
	return withCall(err, "label", uint64(task))
}

// labels are names of tasks by their root numbers.
type labels map[uint32]string

// put names the task that is found by its number in the root namespace, of which 0 is the root init's, or takes its name away.
func (it *labels) put(text string, find func(*C.struct_pidtab_task) C.uint32_t) error {
	for _, letter := range text {
		if !unicode.IsPrint(letter) || letter == unicode.ReplacementChar {
			return ErrBadLabel
		}
	}
	found := new(C.struct_pidtab_task)
	if err := foundIn(find(found), found); err != nil {
		return err
	}
	root := uint32(found.levels[0])
	if *it == nil {
		*it = labels{}
	}
	(*it)[root] = text
	if text == "" {
		delete(*it, root)
	}
	return nil
}

// replied notes the fork that a reply may tell: nobody has named its task.
func (it labels) replied(reply *C.struct_pidtab_reply) {
	if len(it) > 0 && reply.kind == C.PIDTAB_FORKED {
		delete(it, uint32(reply.second))
	}
}

// answered notes the same of an answer to a line, as `child 2 root 3`.
func (it labels) answered(answer string) {
	if len(it) == 0 || !strings.HasPrefix(answer, "child ") {
		return
	}
	root, err := strconv.ParseUint(answer[strings.LastIndexByte(answer, ' ')+1:], 10, 32)
	if err == nil {
		delete(it, uint32(root))
	}
}

// listing is what a list says, if there is one, with the names.
func (it labels) listing(list string, err error) (Listing, error) {
	listing, err := readListOf(list, err)
	if err != nil || len(it) == 0 {
		return listing, err
	}
	return listing.WithLabels(it), nil
}
