package pidtabtest

import (
	"sort"
	"strconv"
	"strings"

	"pidtab"
)

// forms are the calls of docs/SCRIPT.md. C is a caller and T a task, P and G are process numbers, I is the id of a control group, S a status, N a limit.
// Written by tools/interface: forms.
var forms = []string{
	"fork C", "fork C new", "exec C", "exit C S", "wait C any", "wait C pid P", "wait C own", "wait C group P",
	"setpgid C G G", "setsid C", "getpid C", "getppid C", "getpgid C P", "getsid C P", "nspid C P",
	"next C task P", "next C group P", "next C session P", "join C P", "subreaper C on", "subreaper C off",
	"mk I", "rm I", "limit I N", "limit I max", "move T I", "count I",
}

// The end of forms.

const kinds = "CTPGISN"

// A pick is a number from 0 to 31, which counts the tasks from the newest back; the last ones become an odd number.
const (
	mostPick = 31
	oddFrom  = 28
)

// odd are numbers that are nobody's, or at an edge.
var odd = []int64{0, 1, 2, 300, 1<<31 - 1, 1<<32 - 1}

var statuses = []int64{0, 1, 7, 255}

// A form is a call with letters in the place of its numbers.
type form []string

// name is that of the form: its words without the letters.
func (form form) name() string {
	var words []string
	for _, word := range form {
		if !isKind(word) {
			words = append(words, word)
		}
	}
	return strings.Join(words, " ")
}

func isKind(word string) bool { return len(word) == 1 && strings.Contains(kinds, word) }

// allForms are the forms, in the order of docs/SCRIPT.md.
func allForms() []form {
	var found []form
	for _, text := range forms {
		found = append(found, strings.Split(text, " "))
	}
	return found
}

// selectForms are those that are named, each by its name, as "fork" or "wait pid", or all of a command that has no form of its name; all where none is.
func selectForms(names []string) []form {
	if len(names) == 0 {
		return allForms()
	}
	var found []form
	for _, name := range names {
		found = append(found, formsOf(name)...)
	}
	return found
}

func formsOf(name string) []form {
	var ofCommand []form
	for _, it := range allForms() {
		if it.name() == name {
			return []form{it}
		}
		if it[0] == name {
			ofCommand = append(ofCommand, it)
		}
	}
	return ofCommand
}

// An aim is a call that goes to what stands in a table.
type aim struct {
	form    form
	listing pidtab.Listing
	numbers []int64
}

// line is the call that the picks mean.
func (aim *aim) line(picks []byte) string {
	words := make([]string, len(aim.form))
	for i, word := range aim.form {
		words[i] = word
		if isKind(word) {
			number := aim.number(word, int(picks[len(aim.numbers)]&mostPick))
			aim.numbers = append(aim.numbers, number)
			words[i] = strconv.FormatInt(number, 10)
		}
	}
	return strings.Join(words, " ")
}

// number is the number that a pick means at a place.
func (aim *aim) number(kind string, pick int) int64 {
	switch kind {
	case "C", "T":
		return picked(aim.live(), pick)
	case "P":
		return picked(aim.seen(), pick)
	case "G":
		if pick == mostPick {
			return -1
		}
		return least(picked(append([]int64{0}, aim.seen()...), pick), 1<<31-1)
	case "I":
		return picked(aim.controls(), pick)
	case "S":
		return statuses[pick%len(statuses)]
	}
	return picked([]int64{0, 1, 2, 4}, pick)
}

func least(a, b int64) int64 {
	if a < b {
		return a
	}
	return b
}

// picked is the number that a pick means, of those that are there, or an odd one.
func picked(pool []int64, pick int) int64 {
	if pick >= oddFrom || len(pool) == 0 {
		return odd[pick%len(odd)]
	}
	return pool[pick%len(pool)]
}

// newest are the numbers, the newest first: so a pick means the same where earlier calls are left out.
func newest(numbers []int64) []int64 {
	sort.Slice(numbers, func(i, j int) bool { return numbers[i] > numbers[j] })
	return numbers
}

// live are the root numbers of the tasks that may make a call.
func (aim *aim) live() []int64 {
	var found []int64
	for _, task := range aim.listing.Tasks {
		if task.Live {
			found = append(found, int64(task.Root()))
		}
	}
	return newest(found)
}

// seen are the numbers of the tasks in the namespace of the caller.
func (aim *aim) seen() []int64 {
	caller := aim.task(aim.numbers[0])
	if caller == nil {
		return nil
	}
	var found []int64
	for _, task := range aim.listing.Tasks {
		if aim.isWithin(task.Space, caller.Space) {
			found = append(found, int64(task.Numbers[len(caller.Numbers)-1]))
		}
	}
	return newest(found)
}

func (aim *aim) task(root int64) *pidtab.Task {
	for i := range aim.listing.Tasks {
		if int64(aim.listing.Tasks[i].Root()) == root {
			return &aim.listing.Tasks[i]
		}
	}
	return nil
}

// isWithin is whether a namespace is another one, or inside it.
func (aim *aim) isWithin(space, other uint64) bool {
	for space != other {
		parent := aim.parent(space)
		if parent == nil {
			return false
		}
		space = *parent
	}
	return true
}

func (aim *aim) parent(space uint64) *uint64 {
	for _, it := range aim.listing.Spaces {
		if it.ID == space {
			return it.Parent
		}
	}
	return nil
}

func (aim *aim) controls() []int64 {
	var found []int64
	for _, control := range aim.listing.Controls {
		found = append(found, int64(control.ID))
	}
	return newest(found)
}
