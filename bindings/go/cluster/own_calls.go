package cluster

import (
	"context"
	"fmt"

	"pidtab"
)

// ownCalls are the calls of this host that are not over. What becomes of them the proved machine says, and here it is done. Who asks anything here has the
// lock of the replica.
type ownCalls struct {
	host  *pidtab.HostCalls
	live  map[uint64]*part // those that are not over, by their tickets
	parts []*part          // of the entry that is made up
	entry []byte           // that is put
	step  pidtab.HostPutStep
}

func newOwnCalls() *ownCalls {
	return &ownCalls{host: pidtab.BeginHostCalls(), live: map[uint64]*part{}}
}

// isOver is whether nobody waits for an answer, and isIdle whether nothing is put either.
func (it *ownCalls) isOver() bool { return len(it.live) == 0 }
func (it *ownCalls) isIdle() bool {
	kind := it.host.NextPut().Kind
	return it.isOver() && kind != pidtab.HostPutOpen && kind != pidtab.HostPutEntry
}

// add has calls made, for whose answers somebody waits until the deadline.
func (it *ownCalls) add(submitted *Submitted, deadline uint64) {
	for _, part := range submitted.parts {
		if it.host.Submit(&part.HostCall, uint64(len(part.lines)), part.size, deadline) {
			it.live[part.Ticket()] = part
		}
	}
}

// next is what goes into the log now; nil where nothing does. Behind a try with an unknown end it is the same again. This host is at the place.
func (it *ownCalls) next(at place) []byte {
	for {
		it.step = it.host.NextPut()
		switch it.step.Kind {
		case pidtab.HostPutOpen:
			return []byte(openEntry)
		case pidtab.HostPutEntry:
			return it.entry
		case pidtab.HostPutTake:
			it.take(it.live[it.step.First])
		case pidtab.HostPutSeal:
			it.seal(at)
		default:
			return nil
		}
	}
}

// sent says that the log has what was put, at a position.
func (it *ownCalls) sent(position uint64) {
	if it.step.Kind == pidtab.HostPutOpen {
		it.host.Opened(position)
	} else {
		it.host.Acknowledge(it.step.First, it.step.Second)
		it.entry = nil
	}
}

// take gives the part that has its turn to the entry that is made up.
func (it *ownCalls) take(part *part) {
	if it.host.Take(part.call()) {
		it.parts = append(it.parts, part)
	}
}

// seal has the entry put that is made up.
func (it *ownCalls) seal(at place) {
	it.host.Seal()
	var lines []string
	for _, part := range it.parts {
		lines = append(lines, part.lines...)
	}
	session, sequence, _ := it.parts[0].Entry()
	it.entry, it.parts = []byte(callsEntry(session, sequence, lines, at)), nil
}

// read tells calls what the log has made of an entry, with the answers to all of its lines.
func (it *ownCalls) read(applied pidtab.Applied, answers []string) error {
	if !it.host.Read(applied) {
		return LogFault{Why: fmt.Sprintf("the log has lost an entry of session %d before number %d", applied.Session, applied.Sequence)}
	}
	it.tell(answers, "", nil)
	return nil
}

// load tells the calls in whose place a snapshot has come that nobody knows: in it this host's session has the last number, or is not open.
func (it *ownCalls) load(position uint64, isOpen bool, last uint64) error {
	if !it.host.Load(position, isOpen, last) {
		const words = "the snapshot of entry %d has entry %d of session %d, which this host has not put"
		return LogFault{Why: fmt.Sprintf(words, position, last, it.host.Session())}
	}
	it.tell(nil, "the log was cut before this host had read it", nil)
	return nil
}

// stop has nothing put any more, and fails all that waits.
func (it *ownCalls) stop(why string, cause error) {
	it.host.Stop()
	it.tell(nil, why, cause)
}

// tell tells calls what they are told now: their answers, or why there are none.
func (it *ownCalls) tell(answers []string, why string, cause error) {
	for it.host.IsTelling() {
		part := it.live[it.host.ToTell()]
		switch it.host.Tell(part.call()) {
		case pidtab.HostToldAnswers:
			it.answer(part, answers)
		case pidtab.HostToldLoses, pidtab.HostToldDrops:
			it.fail(part.of, why, cause)
		}
	}
}

// answer hands a part those of the answers to an entry that are its own. The last part of a Submitted comes last.
func (it *ownCalls) answer(part *part, answers []string) {
	delete(it.live, part.Ticket())
	_, _, first := part.Entry()
	end := first + uint64(len(part.lines))
	part.answers = answers[first:end:end]
	if all := part.of.parts; part == all[len(all)-1] {
		part.of.finish(nil)
	}
}

// cancel has calls not made, if no entry has the first of them: whether that is so.
func (it *ownCalls) cancel(submitted *Submitted) bool {
	if submitted.isOver() || !submitted.parts[0].Cancel() {
		return false
	}
	it.fail(submitted, "the calls were cancelled", context.Canceled)
	return true
}

// expire fails calls that are late by a time.
func (it *ownCalls) expire(submitted *Submitted, time uint64, why string) {
	if !submitted.isOver() && submitted.parts[0].Expire(time) {
		it.fail(submitted, why, nil)
	}
}

// fail has nobody wait for the answers any more, where they are not all there.
func (it *ownCalls) fail(submitted *Submitted, why string, cause error) {
	if submitted.isOver() {
		return
	}
	isSent := false
	for _, part := range submitted.parts {
		part.GiveUp()
		delete(it.live, part.Ticket())
		isSent = isSent || part.IsSent()
	}
	submitted.finish(NotKnown{Why: why, Sent: isSent, Err: cause})
}
