package cluster

import (
	"fmt"
	"math/rand"
	"reflect"
	"strings"
	"testing"

	"pidtab"
)

const (
	runs     = 300
	runSteps = 150
	mostSize = 512 * 1024 // of several parts in an entry
)

// A run has the calls of one host, and a log in which all goes wrong that may: an entry is lost, late or there twice, its acknowledgement is lost, a session
// ends, and a snapshot comes in the place of entries. What the log makes of an entry is what docs/CLUSTER.md says.
type run struct {
	*testing.T
	random    *rand.Rand
	own       *ownCalls
	asked     []*Submitted
	lines     int // that were submitted, each with its number
	log, late []string
	read      int               // so many entries of the log
	open      map[uint64]uint64 // the sessions there, each with its last number
	put       map[string]bool   // the lines of all entries that were ever put
	made      map[string]Receipt
}

// comes is whether something comes that does so once in so many times.
func (it *run) comes(of int) bool { return it.random.Intn(of) == 0 }

// submit submits some parts of some lines.
func (it *run) submit() {
	submitted := newSubmitted(nil, nil)
	for count := 1 + it.random.Intn(3); count > 0; count-- {
		one := &part{of: submitted, size: uint64(it.random.Intn(mostSize))}
		for more := true; more; more = it.comes(2) {
			it.lines++
			one.lines = append(one.lines, fmt.Sprint("line ", it.lines))
		}
		submitted.parts = append(submitted.parts, one)
	}
	it.own.add(submitted, uint64(it.random.Intn(runSteps)))
	it.asked = append(it.asked, submitted)
}

// append puts what the host has to put, of which this becomes.
func (it *run) append(isThere, isTold bool) {
	entry := string(it.own.next(place{}))
	if entry == "" {
		return
	}
	for _, line := range strings.Split(entry, "\n")[1:] {
		it.put[line] = true
	}
	if isThere {
		it.log = append(it.log, entry)
	} else if it.comes(2) {
		it.late = append(it.late, entry)
	}
	if isThere && isTold {
		it.own.sent(uint64(len(it.log)))
		if it.comes(4) {
			it.late = append(it.late, entry)
		}
	}
}

// apply has the log make its next entry.
func (it *run) apply() (applied pidtab.Applied, lines []string) {
	lines = strings.Split(it.log[it.read], "\n")
	it.read++
	head, lines := lines[0], lines[1:]
	if head == "open" {
		it.open[uint64(it.read)] = 0
		return applied, nil
	}
	if count, _ := fmt.Sscanf(head, "end %d", &applied.Session); count == 1 {
		delete(it.open, applied.Session)
		return pidtab.Applied{}, nil
	}
	_, err := fmt.Sscanf(head, "calls %d %d", &applied.Session, &applied.Sequence)
	check(it.T, err)
	last, isOpen := it.open[applied.Session]
	switch {
	case !isOpen:
		applied.Outcome = pidtab.EntryGone
	case applied.Sequence <= last:
		applied.Outcome = pidtab.EntryRepeated
	case applied.Sequence > last+1:
		it.Fatal("a gap before ", head)
	default:
		applied.Outcome, it.open[applied.Session] = pidtab.EntryMade, applied.Sequence
		it.make(applied, lines)
	}
	return applied, lines
}

func (it *run) make(applied pidtab.Applied, lines []string) {
	for at, line := range lines {
		if before, isTwice := it.made[line]; isTwice {
			it.Fatal(line, " is made twice: ", before, applied)
		}
		it.made[line] = Receipt{applied.Session, applied.Sequence, at, 1}
	}
}

// follow has the host read an entry, if the log has one more.
func (it *run) follow() {
	if it.read < len(it.log) {
		applied, lines := it.apply()
		check(it.T, it.own.read(applied, answersTo(lines)))
	}
}

// load has the host read a snapshot in the place of some entries.
func (it *run) load() {
	if it.read == len(it.log) {
		return
	}
	for end := it.read + 1 + it.random.Intn(len(it.log)-it.read); it.read < end; {
		it.apply()
	}
	last, isOpen := it.open[it.own.host.Session()]
	check(it.T, it.own.load(uint64(it.read), isOpen, last))
}

func answersTo(lines []string) (answers []string) {
	for _, line := range lines {
		answers = append(answers, "answer to "+line)
	}
	return answers
}

// end has somebody want no answer any more, or be late.
func (it *run) end(time int) {
	if len(it.asked) == 0 {
		return
	}
	submitted := it.asked[it.random.Intn(len(it.asked))]
	switch it.random.Intn(3) {
	case 0:
		if it.own.cancel(submitted) {
			isNotKnown(it.T, submitted.fault, false, "the calls were cancelled")
		}
	case 1:
		it.own.fail(submitted, "left", nil)
	case 2:
		it.own.expire(submitted, uint64(time), "late")
	}
}

// step does one thing.
func (it *run) step(time int) {
	switch it.random.Intn(10) {
	case 0, 1:
		it.submit()
	case 2, 3, 4:
		it.append(!it.comes(3), !it.comes(3))
	case 5, 6:
		it.follow()
	case 7:
		it.end(time)
	case 8:
		if len(it.late) > 0 {
			it.log, it.late = append(it.log, it.late[0]), it.late[1:]
		}
	case 9:
		if it.comes(2) {
			it.load()
		} else {
			it.log = append(it.log, endEntry(it.own.host.Session()))
		}
	}
}

// settle has the log go well from now on: who waits yet gets answers.
func (it *run) settle() {
	var waiting []*Submitted
	for _, submitted := range it.asked {
		if !submitted.isOver() {
			waiting = append(waiting, submitted)
		}
	}
	for i := 0; i < 10*runSteps && !(it.own.isIdle() && it.read == len(it.log)); i++ {
		it.append(true, true)
		it.follow()
	}
	for _, submitted := range waiting {
		if !submitted.isOver() || submitted.fault != nil {
			it.Fatal("somebody has no answer: ", submitted.fault)
		}
	}
}

// judge sees to it that each of what was submitted has what it was promised.
func (it *run) judge(submitted *Submitted) {
	var lines []string
	var receipts []Receipt
	isPut := false
	for _, part := range submitted.parts {
		receipt := it.made[part.lines[0]]
		receipt.Count = len(part.lines)
		receipts, lines = append(receipts, receipt), append(lines, part.lines...)
		isPut = isPut || it.put[part.lines[0]]
	}
	answers, err := submitted.result()
	if err != nil {
		isNotKnown(it.T, err, isPut, "")
	} else if !reflect.DeepEqual(answers, answersTo(lines)) || !reflect.DeepEqual(submitted.Receipts(), receipts) {
		it.Fatal(answers, submitted.Receipts(), " and not the answers to ", lines, receipts)
	}
}

// Over all that may happen a call is made once at most, an answer is that of its call, and what is said not to be sent was never put. Once the log goes well,
// or the host has stopped, nobody waits any more.
func TestRuns(t *testing.T) {
	for seed := int64(0); seed < runs; seed++ {
		it := &run{T: t, random: rand.New(rand.NewSource(seed)), own: newOwnCalls()}
		it.open, it.put, it.made = map[uint64]uint64{}, map[string]bool{}, map[string]Receipt{}
		for time := 0; time < runSteps; time++ {
			it.step(time)
		}
		if seed%4 == 0 {
			it.own.stop("stopped", nil)
		}
		it.settle()
		for _, submitted := range it.asked {
			it.judge(submitted)
		}
	}
}
