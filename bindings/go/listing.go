package pidtab

import (
	"encoding/json"
	"fmt"
	"regexp"
	"strconv"
	"strings"
)

// Written by tools/interface: struct of a task.

// Task is a task of a list.
type Task struct {
	Numbers   []uint32 // its numbers, that of the root namespace first
	Space     uint64   // the id of its namespace
	Parent    uint32   // the root number of its parent, 0 for none
	Group     uint32   // the root number of its process group
	Session   uint32   // the root number of its session
	Control   uint64   // the id of its control group
	Live      bool     // a task that is not has ended, and was not yet waited for
	Killed    bool     // it ended by the fall of its namespace
	Status    uint8    // of its exit, where it ended by one
	Executed  bool     // it has executed
	Children  *uint64  // the id of the namespace that its children go into, nil for its own
	Subreaper bool     // it takes orphans of its namespace
	Label     string   // a name from outside of the table, empty for none: WithLabels gives it
}

// The end of struct of a task.

// Root is the task's number in the root namespace, by which it is named as a caller.
func (task Task) Root() uint32 { return task.Numbers[0] }

// Written by tools/interface: struct of a namespace.

// Space is a namespace of a list.
type Space struct {
	ID     uint64  `json:"id"`     // its id, 0 for the root
	Parent *uint64 `json:"parent"` // the id of the namespace around it, nil for the root
	Cursor uint32  `json:"cursor"` // where the search for its next number begins
	Fallen bool    `json:"fallen"` // its init has ended
}

// The end of struct of a namespace.

// Written by tools/interface: struct of a control group.

// Control is a control group of a list.
type Control struct {
	ID     uint64  `json:"id"`     // its id, 0 for the root
	Parent *uint64 `json:"parent"` // the id of the control group above it, nil for the root
	Limit  *uint32 `json:"limit"`  // how many tasks it may have, nil for no limit
	Count  uint64  `json:"count"`  // how many tasks it and those below it have
}

// The end of struct of a control group.

// Listing is all that stands in a table: tasks by root number, namespaces and control groups by id.
type Listing struct {
	Tasks    []Task
	Spaces   []Space
	Controls []Control
}

// Written by tools/interface: object of a task.

// A taskObject is a task as docs/list.schema.json has it.
type taskObject struct {
	Numbers   []uint32 `json:"numbers"`
	Space     uint64   `json:"space"`
	Parent    uint32   `json:"parent"`
	Group     uint32   `json:"group"`
	Session   uint32   `json:"session"`
	Control   uint64   `json:"control"`
	State     string   `json:"state"`
	Status    *uint8   `json:"status"`
	Executed  bool     `json:"executed"`
	Children  *uint64  `json:"children"`
	Subreaper bool     `json:"subreaper"`
	Label     string   `json:"label,omitempty"`
}

// The end of object of a task.

// MarshalJSON is the task as docs/list.schema.json has it.
func (task Task) MarshalJSON() ([]byte, error) {
	state, status := stateOf(task.Live, task.Killed, &task.Status)
	return json.Marshal(taskObject{task.Numbers, task.Space, task.Parent, task.Group, task.Session, task.Control,
		state, status, task.Executed, task.Children, task.Subreaper, task.Label})
}

// WithLabels is the list with names of its tasks, by root number. The list itself stays as it is, and a number that is no task's is left out.
func (listing Listing) WithLabels(labels map[uint32]string) Listing {
	listing.Tasks = append([]Task(nil), listing.Tasks...)
	for at := range listing.Tasks {
		if label, found := labels[listing.Tasks[at].Root()]; found {
			listing.Tasks[at].Label = label
		}
	}
	return listing
}

// MarshalJSON is the list as docs/list.schema.json has it.
func (listing Listing) MarshalJSON() ([]byte, error) {
	return json.Marshal(struct {
		Tasks    []Task    `json:"tasks"`
		Spaces   []Space   `json:"spaces"`
		Controls []Control `json:"controls"`
	}{some(listing.Tasks), some(listing.Spaces), some(listing.Controls)})
}

// some is the slice, which JSON writes as a list also where it is nil.
func some[T any](items []T) []T {
	if items == nil {
		return []T{}
	}
	return items
}

// BadList is the error of a text that `pidtab list` does not write.
type BadList struct {
	Line int    // the first that is at fault, from 1 on
	Why  string // what is the matter with it
}

// Error tells the line and what is the matter with it.
func (bad BadList) Error() string {
	return fmt.Sprintf("pidtab: line %d: %s", bad.Line, bad.Why)
}

// Written by tools/interface: forms.

var (
	taskLine = regexp.MustCompile(`^task (\d+(?:,\d+)*) space (\d+) parent (\d+) group (\d+) session (\d+) control (\d+)` +
		` (live|killed|exit (\d+))( executed)?(?: children (\d+))?( subreaper)?$`)
	spaceLine   = regexp.MustCompile(`^space (\d+) parent (-|\d+) cursor (\d+)( fallen)?$`)
	controlLine = regexp.MustCompile(`^control (\d+) parent (-|\d+) limit (max|\d+) count (\d+)$`)
)

// The end of forms.

// ReadList is what the text of a list says, as Table.List or `pidtab list` writes it; a BadList where it is none.
func ReadList(text string) (Listing, error) {
	var listing Listing
	if text == "" {
		return Listing{}, BadList{1, "no list"}
	}
	lines := strings.Split(text, "\n")
	last := len(lines) - 1
	for i, line := range lines[:last] {
		if !listing.add(line) {
			return Listing{}, BadList{i + 1, "not a line of `pidtab list`"}
		}
	}
	if lines[last] != "" {
		return Listing{}, BadList{last + 1, "cut off, without a newline"}
	}
	return listing, nil
}

// add puts in what a line says, if it is one of a list.
func (listing *Listing) add(line string) bool {
	var read reader
	if found := taskLine.FindStringSubmatch(line); found != nil {
		listing.Tasks = append(listing.Tasks, read.task(found))
		return !read.failed
	}
	if found := spaceLine.FindStringSubmatch(line); found != nil {
		listing.Spaces = append(listing.Spaces, read.space(found))
		return !read.failed
	}
	if found := controlLine.FindStringSubmatch(line); found != nil {
		listing.Controls = append(listing.Controls, read.control(found))
		return !read.failed
	}
	return false
}

// A reader reads the numbers of a line. It has failed where one is too great.
type reader struct{ failed bool }

func (read *reader) number(word string, bits int) uint64 {
	number, err := strconv.ParseUint(word, 10, bits)
	read.failed = read.failed || err != nil
	return number
}

// id is the number that a word is, nil for the word that stands for none.
func (read *reader) id(word, none string) *uint64 {
	if word == none {
		return nil
	}
	number := read.number(word, 64)
	return &number
}

func (read *reader) limit(word string) *uint32 {
	if word == "max" {
		return nil
	}
	number := uint32(read.number(word, 32))
	return &number
}

func (read *reader) numbers(word string) []uint32 {
	var numbers []uint32
	for _, it := range strings.Split(word, ",") {
		numbers = append(numbers, uint32(read.number(it, 32)))
	}
	return numbers
}

// status is that of an exit, 0 where there was none.
func (read *reader) status(word string) uint8 {
	if word == "" {
		return 0
	}
	return uint8(read.number(word, 8))
}

// Written by tools/interface: readers.

func (read *reader) task(found []string) Task {
	return Task{
		Numbers:   read.numbers(found[1]),
		Space:     read.number(found[2], 64),
		Parent:    uint32(read.number(found[3], 32)),
		Group:     uint32(read.number(found[4], 32)),
		Session:   uint32(read.number(found[5], 32)),
		Control:   read.number(found[6], 64),
		Live:      found[7] == "live",
		Killed:    found[7] == "killed",
		Status:    read.status(found[8]),
		Executed:  found[9] != "",
		Children:  read.id(found[10], ""),
		Subreaper: found[11] != "",
	}
}

func (read *reader) space(found []string) Space {
	return Space{
		ID:     read.number(found[1], 64),
		Parent: read.id(found[2], "-"),
		Cursor: uint32(read.number(found[3], 32)),
		Fallen: found[4] != "",
	}
}

func (read *reader) control(found []string) Control {
	return Control{
		ID:     read.number(found[1], 64),
		Parent: read.id(found[2], "-"),
		Limit:  read.limit(found[3]),
		Count:  read.number(found[4], 64),
	}
}

// The end of readers.
