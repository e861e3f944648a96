package pidtab

/*
#include <host_calls.h>
*/
import "C"

// HostCalls is what one host of a log does with the calls that are submitted to it: a proved machine. docs/CLUSTER.md has the states of a call.
// BeginHostCalls makes one. It has no sockets, clocks and goroutines, and C keeps nothing of it. It stays where it is, and one goroutine at a time uses
// it and its calls. Package pidtab/cluster has the rest of a host.
type HostCalls struct {
	raw  C.struct_host_calls
	step C.struct_host_put_step
	over C.struct_host_call // what stands for each call that is over
}

// HostCall is a call of a host: lines that go into one entry. The zero value was not submitted.
type HostCall struct{ raw C.struct_host_call }

// HostPut is what is to be put next.
type HostPut uint32

// What is to be put next.
const (
	HostPutRest  HostPut = C.HOST_PUT_REST  // nothing
	HostPutOpen  HostPut = C.HOST_PUT_OPEN  // the entry that opens a session; then Opened
	HostPutTake  HostPut = C.HOST_PUT_TAKE  // the call with the ticket First has its turn: Take
	HostPutSeal  HostPut = C.HOST_PUT_SEAL  // the entry that is made up has all that it will have: Seal
	HostPutEntry HostPut = C.HOST_PUT_ENTRY // the entry that was sealed last, with the session First and the number Second: until Acknowledge
)

// HostPutStep is what is to be put next, and of what.
type HostPutStep struct {
	Kind          HostPut
	First, Second uint64
}

// HostTold is what a call is told.
type HostTold uint32

// What a call is told.
const (
	HostToldRefused HostTold = C.HOST_TOLD_REFUSED // it is not its turn
	HostToldPasses  HostTold = C.HOST_TOLD_PASSES  // it was over before
	HostToldAnswers HostTold = C.HOST_TOLD_ANSWERS // the answers of the entry at its place
	HostToldLoses   HostTold = C.HOST_TOLD_LOSES   // nobody knows whether it was made
	HostToldDrops   HostTold = C.HOST_TOLD_DROPS   // it was not made
	HostToldEnds    HostTold = C.HOST_TOLD_ENDS    // nothing: it is not in the entry, and nothing more is told
)

// BeginHostCalls makes a host without calls.
func BeginHostCalls() *HostCalls {
	host := new(HostCalls)
	C.host_calls_begin(&host.raw)
	C.host_calls_cancel(&host.over)
	return host
}

// Session is the number of the session that is open, or 0. ToTell is the ticket of the call that is told next.
func (host *HostCalls) Session() uint64 { return uint64(host.raw.session) }
func (host *HostCalls) ToTell() uint64  { return uint64(host.raw.told) }

// Submit has a call made, of so many lines, at least one, which take so many bytes in an entry. The deadline is by the clock of Expire. False once the host
// has stopped.
func (host *HostCalls) Submit(call *HostCall, lines, size, deadline uint64) bool {
	return bool(C.host_calls_submit(&host.raw, &call.raw, C.uint64_t(lines), C.uint64_t(size), C.uint64_t(deadline)))
}

// NextPut is what is to be put next. From the first Take of an entry up to its Seal the caller keeps its lock.
func (host *HostCalls) NextPut() HostPutStep {
	C.host_calls_next_put(&host.raw, &host.step)
	return HostPutStep{HostPut(host.step.kind), uint64(host.step.first), uint64(host.step.second)}
}

// Opened says at which position the log has the entry that opens a session. False where none was to be opened.
func (host *HostCalls) Opened(session uint64) bool {
	return bool(C.host_calls_opened(&host.raw, C.uint64_t(session)))
}

// Take gives the call that has its turn to the entry that is made up: whether the entry has its lines. Else it was over, or does not fit in, and begins the
// next entry, or it is not its turn. nil is one that is over.
func (host *HostCalls) Take(call *HostCall) bool {
	taken := C.host_calls_take(&host.raw, host.orOver(call, host.raw.taken))
	return taken == C.HOST_TAKEN_BEGINS || taken == C.HOST_TAKEN_JOINS
}

// Seal has the entry put that is made up, from now on always the same. False where none is.
func (host *HostCalls) Seal() bool { return bool(C.host_calls_seal(&host.raw)) }

// Acknowledge says that the log has answered that it has the entry. False where that is not the one that is put.
func (host *HostCalls) Acknowledge(session, sequence uint64) bool {
	return bool(C.host_calls_acknowledge(&host.raw, C.uint64_t(session), C.uint64_t(sequence)))
}

// Read says what the log has made of an entry that was read. False where the log lacks an entry of this host's session, or where calls are to be told
// first, and nothing was read.
func (host *HostCalls) Read(applied Applied) bool {
	if applied.Outcome == EntryNoted {
		return true
	}
	outcome := C.uint32_t(applied.Outcome - EntryMade)
	return isGood(C.host_calls_read(&host.raw, outcome, C.uint64_t(applied.Session), C.uint64_t(applied.Sequence)))
}

// Load says that a snapshot was loaded of all up to the position, in which the session of this host is open with this last number, or is not open. False
// where this host has put no entry with the number, or where calls are to be told first, and nothing was loaded.
func (host *HostCalls) Load(position uint64, isOpen bool, last uint64) bool {
	return isGood(C.host_calls_load(&host.raw, C.uint64_t(position), C.bool(isOpen), C.uint64_t(last)))
}

// isGood is whether what was read can follow.
func isGood(reading C.uint32_t) bool {
	return reading != C.HOST_READING_MISSES && reading != C.HOST_READING_BUSY
}

// IsTelling is whether the call with the ticket ToTell is to be told. After each Read, Load and Stop: as long as this is so, Tell.
func (host *HostCalls) IsTelling() bool { return bool(C.host_calls_is_telling(&host.raw)) }

// Tell tells the call that is told next. nil is one that is over.
func (host *HostCalls) Tell(call *HostCall) HostTold {
	return HostTold(C.host_calls_tell(&host.raw, host.orOver(call, host.raw.told)))
}

// Stop has nothing put any more, and each call that is not over is to be told.
func (host *HostCalls) Stop() { C.host_calls_stop(&host.raw) }

// orOver is what C has of a call, or of the one with the ticket, which is over.
func (host *HostCalls) orOver(call *HostCall, ticket C.uint64_t) *C.struct_host_call {
	if call != nil {
		return &call.raw
	}
	host.over.ticket = ticket
	return &host.over
}

// Ticket is how many calls were submitted to the host before.
func (call *HostCall) Ticket() uint64 { return uint64(call.raw.ticket) }

// Entry is where the call is in the log: the session and the number of the entry that has it, and how many lines are before it there.
func (call *HostCall) Entry() (session, sequence, place uint64) {
	return uint64(call.raw.session), uint64(call.raw.sequence), uint64(call.raw.place)
}

// IsSent is whether the call is in an entry, which is made up, or was put: whether its lines may be made.
func (call *HostCall) IsSent() bool {
	return call.raw.state == C.HOST_CALL_ENTERED || call.raw.state == C.HOST_CALL_ANSWERED || call.raw.state == C.HOST_CALL_NOT_KNOWN
}

// Cancel cancels the call, if no entry has it: whether that is so.
func (call *HostCall) Cancel() bool { return bool(C.host_calls_cancel(&call.raw)) }

// GiveUp has nobody wait for the call any more: it is not made, or nobody knows. One that is over stays so.
func (call *HostCall) GiveUp() { C.host_calls_give_up(&call.raw) }

// Expire gives the call up if the time is that of its deadline or later: whether it is.
func (call *HostCall) Expire(time uint64) bool {
	return bool(C.host_calls_expire(&call.raw, C.uint64_t(time)))
}
