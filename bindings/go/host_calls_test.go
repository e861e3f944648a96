package pidtab

import (
	"os"
	"regexp"
	"strings"
	"testing"
)

const (
	theSession, laterSession = 100, 200
	theDeadline              = 50
	mostBytes                = 512 * 1024 // of an entry with several calls, as docs/CLUSTER.md has its host put them
)

// A world is a host with its calls, each by its ticket.
type world struct {
	*testing.T
	*HostCalls
	calls []*HostCall
}

func beginWorld(t *testing.T) *world { return &world{T: t, HostCalls: BeginHostCalls()} }

// expect sees to it that all of these hold.
func (it *world) expect(all ...bool) {
	it.Helper()
	for number, holds := range all {
		if !holds {
			it.Fatalf("number %d of these does not hold", number)
		}
	}
}

func (it *world) submit(lines, size uint64) *HostCall {
	it.Helper()
	call := new(HostCall)
	it.expect(it.Submit(call, lines, size, theDeadline), call.Ticket() == uint64(len(it.calls)), !call.IsSent())
	it.calls = append(it.calls, call)
	return call
}

// open opens the session for which there is one to open.
func (it *world) open(session uint64) {
	it.Helper()
	it.expect(it.NextPut().Kind == HostPutOpen, it.Opened(session), !it.Opened(session), it.Session() == session)
}

func (it *world) take() bool {
	it.Helper()
	step := it.NextPut()
	it.expect(step.Kind == HostPutTake)
	return it.Take(it.calls[step.First])
}

// seal seals the entry that is made up: however often it is asked, it is the same.
func (it *world) seal(session, sequence uint64) {
	it.Helper()
	put := HostPutStep{HostPutEntry, session, sequence}
	it.expect(it.NextPut().Kind == HostPutSeal, it.Seal(), it.NextPut() == put, it.NextPut() == put)
}

func (it *world) tell() HostTold {
	it.Helper()
	it.expect(it.IsTelling())
	return it.Tell(it.calls[it.ToTell()])
}

func (it *world) isAt(call *HostCall, session, sequence, place uint64) bool {
	s, n, p := call.Entry()
	return s == session && n == sequence && p == place
}

// putOne has the only entry of a host put, with one call.
func putOne(t *testing.T) (*world, *HostCall) {
	t.Helper()
	it := beginWorld(t)
	it.expect(it.NextPut().Kind == HostPutRest)
	call := it.submit(1, 7)
	it.open(theSession)
	it.expect(it.take())
	it.seal(theSession, 1)
	return it, call
}

func madeOf(session, sequence uint64) Applied { return Applied{EntryMade, session, sequence} }

// Two calls are in one entry, and each is answered at its place, once.
func TestHostCallsThatAreAnswered(t *testing.T) {
	it := beginWorld(t)
	first, second := it.submit(2, 14), it.submit(1, 7)
	it.open(theSession)
	it.expect(it.take(), it.take())
	it.seal(theSession, 1)
	it.expect(it.Read(Applied{}), it.Read(madeOf(theSession+1, 1)))
	it.expect(it.Read(madeOf(theSession, 1)), !it.Read(madeOf(theSession, 2)))
	it.expect(it.tell() == HostToldAnswers, it.tell() == HostToldAnswers, !it.IsTelling())
	it.expect(it.isAt(first, theSession, 1, 0), it.isAt(second, theSession, 1, 2), first.IsSent())
	// The log's own answer comes after it was read.
	it.expect(!it.Acknowledge(theSession, 1), it.Read(Applied{EntryRepeated, theSession, 1}), it.NextPut().Kind == HostPutRest)
}

// The session has ended before the entry came: its call goes into a new one.
func TestHostCallsOfASessionThatHasEnded(t *testing.T) {
	it, call := putOne(t)
	it.expect(it.Acknowledge(theSession, 1), it.NextPut().Kind == HostPutRest, it.Read(Applied{EntryGone, theSession, 1}))
	it.expect(call.IsSent(), !call.Cancel())
	it.open(laterSession)
	it.expect(it.take())
	it.seal(laterSession, 1)
	it.expect(it.Read(madeOf(laterSession, 1)), it.tell() == HostToldAnswers, it.isAt(call, laterSession, 1, 0))
}

// A call that no entry has can be cancelled, and none has it then: nil stands for it.
func TestHostCallsThatAreCancelled(t *testing.T) {
	it := beginWorld(t)
	first, second := it.submit(1, 7), it.submit(1, 7)
	it.expect(first.Cancel(), !first.Cancel(), !first.IsSent())
	it.open(theSession)
	it.expect(!it.Take(second), !it.Take(nil), it.take(), !second.Cancel())
	it.seal(theSession, 1)
	it.expect(it.Read(madeOf(theSession, 1)), it.Tell(second) == HostToldRefused)
	it.expect(it.Tell(nil) == HostToldPasses, it.tell() == HostToldAnswers, it.isAt(second, theSession, 1, 0))
}

// Who is late waits no more: a call is not made, or is in an entry that is put yet.
func TestHostCallsThatAreLate(t *testing.T) {
	it, entered := putOne(t)
	queued, left := it.submit(1, 7), it.submit(1, 7)
	it.expect(!queued.Expire(theDeadline-1), queued.Expire(theDeadline), !queued.IsSent(), entered.Expire(theDeadline+1), entered.IsSent())
	left.GiveUp()
	it.expect(!left.IsSent(), !left.Cancel(), it.NextPut().Kind == HostPutEntry)
	it.expect(it.Read(madeOf(theSession, 1)), it.tell() == HostToldPasses)
	it.expect(!it.take(), !it.take(), it.NextPut().Kind == HostPutRest)
}

// An entry has at most so many bytes, if it has several calls.
func TestHostCallsThatFillAnEntry(t *testing.T) {
	it := beginWorld(t)
	for _, size := range []uint64{mostBytes - 1, 1, 1} {
		it.submit(1, size)
	}
	it.open(theSession)
	it.expect(it.take(), it.take(), !it.take())
	it.seal(theSession, 1)
	it.expect(it.Acknowledge(theSession, 1), it.take())
	it.seal(theSession, 2)
}

// A snapshot is where the entry was: nobody knows. One that the log cannot have is missed.
func TestHostCallsBeforeASnapshot(t *testing.T) {
	it, call := putOne(t)
	it.expect(it.Load(theSession-1, true, 1), !it.Load(theSession+9, true, 2))
	it.expect(!it.Read(Applied{EntryGap, theSession, 3}), it.Load(theSession+9, true, 1))
	it.expect(it.tell() == HostToldLoses, call.IsSent(), it.NextPut().Kind == HostPutRest)
	it, _ = putOne(t)
	it.expect(it.Load(theSession+9, false, 0), it.tell() == HostToldLoses, it.Session() == 0)
}

// Each call that is not over is told, and none is taken any more.
func TestHostCallsOfAHostThatHasStopped(t *testing.T) {
	it, entered := putOne(t)
	queued := it.submit(1, 7)
	it.Stop()
	it.expect(it.tell() == HostToldLoses, it.tell() == HostToldDrops, !it.IsTelling(), entered.IsSent(), !queued.IsSent())
	it.expect(it.NextPut().Kind == HostPutRest, !it.Submit(new(HostCall), 1, 7, theDeadline))
}

// Each function of the header has its call.
func TestEachFunctionOfHostCalls(t *testing.T) {
	header, fault := os.ReadFile("../c/host_calls.h")
	code, err := os.ReadFile("host_calls.go")
	names := regexp.MustCompile(`\bhost_calls_\w+\(`).FindAllString(string(header), -1)
	if fault != nil || err != nil || len(names) < 15 {
		t.Fatal(fault, err, names)
	}
	for _, name := range names {
		if !strings.Contains(string(code), "C."+name) {
			t.Error(name)
		}
	}
}
