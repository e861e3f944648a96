package pidtab

import (
	"crypto/sha256"
	"encoding/hex"
	"errors"
	"fmt"
	"reflect"
	"strings"
	"testing"
)

const logSettings = "pidtab-log 2 pid_max 32768 model 1"

// A logWorld is a replica with its table.
type logWorld struct {
	*testing.T
	replica *Replica
	table   *Table
}

func openReplica(t *testing.T, pidMax uint32) logWorld {
	t.Helper()
	replica, err := OpenReplica(pidMax, Model)
	if err != nil {
		t.Fatal(err)
	}
	t.Cleanup(replica.Close)
	return logWorld{t, replica, open(t, Settings{PidMax: pidMax})}
}

// apply applies an entry: what became of it, and its answers.
func (it logWorld) apply(position uint64, entry string) (Applied, string) {
	it.Helper()
	applied, err := it.replica.Apply(it.table, position, []byte(entry))
	if err != nil {
		it.Fatal(entry, err)
	}
	answers, err := it.replica.Answers()
	if err != nil {
		it.Fatal(entry, err)
	}
	return applied, strings.Join(answers, ", ")
}

// refuses sees to it that an entry is not applied.
func (it logWorld) refuses(position uint64, entry string, wanted error) {
	it.Helper()
	before, err := it.replica.Log()
	if err != nil {
		it.Fatal(err)
	}
	if _, err := it.replica.Apply(it.table, position, []byte(entry)); err != wanted {
		it.Errorf("%d %q: %v, and not %v", position, entry, err, wanted)
	}
	if found, err := it.replica.Log(); found != before || err != nil {
		it.Errorf("%v, and before %v: %v", found, before, err)
	}
}

// digest is that after a position, in hexadecimal.
func (it logWorld) digest(position uint64) string {
	it.Helper()
	digest, err := it.replica.Digest(position)
	if err != nil {
		it.Fatal(err)
	}
	return hex.EncodeToString(digest[:])
}

// calls is an entry of calls, by a writer that had the digest at a position.
func (it logWorld) calls(session, sequence, position uint64, lines ...string) string {
	it.Helper()
	digest := it.digest(position)[:16]
	return fmt.Sprintf("calls %d %d %d %d %s\n%s", session, sequence, len(lines), position, digest, strings.Join(lines, "\n"))
}

func (it logWorld) same(found, wanted any) {
	it.Helper()
	if !reflect.DeepEqual(found, wanted) {
		it.Errorf("%v, and not %v", found, wanted)
	}
}

// What docs/CLUSTER.md has of entries, sessions and digests.
func TestReplica(t *testing.T) {
	it := openReplica(t, 32768)
	state, err := it.replica.Log()
	it.same(told{state, err}, told{LogState{PidMax: 32768, Model: 1}, nil})
	applied, answers := it.apply(2, logSettings)
	it.same([]any{applied, answers}, []any{Applied{}, ""})
	sum := sha256.Sum256([]byte(logSettings))
	it.same(it.digest(2), hex.EncodeToString(sum[:]))
	it.apply(5, "open")
	it.same(of(it.replica.Last(5)), told{uint64(0), nil})
	applied, answers = it.apply(7, it.calls(5, 1, 2, "fork 1", "frok", "getpid 9"))
	it.same([]any{applied, answers}, []any{Applied{EntryMade, 5, 1}, "child 2 root 2, bad line, ESRCH no-caller"})
	sum = sha256.Sum256([]byte(string(sum[:]) + "fork 1\nchild 2 root 2\nfrok\nbad line\ngetpid 9\nESRCH no-caller\n"))
	it.same(it.digest(7), hex.EncodeToString(sum[:]))
	for position, row := range []struct {
		session, sequence uint64
		wanted            Outcome
	}{{5, 1, EntryRepeated}, {5, 3, EntryGap}, {4, 1, EntryGone}, {5, 2, EntryMade}} {
		applied, _ := it.apply(uint64(10+position), it.calls(row.session, row.sequence, 7, "getpid 1"))
		it.same(applied, Applied{row.wanted, row.session, row.sequence})
	}
	it.same(of(it.replica.Last(5)), told{uint64(2), nil})
	it.same(of(it.replica.Last(4)), told{uint64(0), ErrNoSession})
	state, err = it.replica.Log()
	it.same(told{state, err}, told{LogState{Form: 2, PidMax: 32768, Model: 1, Position: 13, Calls: 4, Begun: true}, nil})
	it.same(of(it.table.Ask(Call{Operation: OpCount})), told{Reply{Kind: ReplyCounted, First: 2}, nil})
	it.apply(14, "end 5")
	it.same(of(it.replica.Last(5)), told{uint64(0), ErrNoSession})
	_, err = it.replica.Digest(6)
	it.same(err, ErrNotKept)
}

func TestWhatIsNotApplied(t *testing.T) {
	it := openReplica(t, 32768)
	for entry, wanted := range map[string]error{
		"": ErrNoEntry, "hello": ErrNoEntry, "open": ErrOtherSettings, "pidtab-log 3 pid_max 32768 model 1": ErrOtherSettings,
		"pidtab-log 2 pid_max 400 model 1": ErrOtherSettings, "pidtab-log 2 pid_max 32768 model 2": ErrOtherSettings,
	} {
		it.refuses(1, entry, wanted)
	}
	_, err := it.replica.Write()
	it.same(err, ErrOtherSettings)
	it.apply(3, logSettings)
	it.refuses(3, "open", ErrNotRising)
	it.refuses(2, "open", ErrNotRising)
	it.apply(4, "open")
	it.refuses(5, "calls 4 1 1 3 0000000000000000\nfork 1", ErrDiverged)
	it.refuses(6, "calls 4 1 1 5 "+it.digest(4)[:16]+"\nfork 1", ErrMissing)
	it.refuses(6, "calls 4 1 2 3 "+it.digest(3)[:16]+"\nfork 1", ErrNoEntry)
	_, answers := it.apply(6, it.calls(4, 1, 4, "fork 1"))
	it.same(answers, "child 2 root 2")
	if errors.Is(ErrMissing, ErrDiverged) {
		t.Error("one error for two")
	}
}

// A snapshot is what a replica has written with its table's text after it, and makes both again.
func TestASnapshotOfAReplica(t *testing.T) {
	it := openReplica(t, 32768)
	it.apply(2, logSettings)
	it.apply(3, "open")
	it.apply(4, "open")
	it.apply(5, it.calls(4, 1, 2, "fork 1 new", "mk 0"))
	it.apply(6, it.calls(3, 1, 2, "fork 2"))
	head, err := it.replica.Write()
	it.same(told{head, err}, told{fmt.Sprintf("pidtab-snapshot 2 pid_max 32768 model 1 position 6 digest %s calls 3 sessions 2\n4 1\n3 1\n", it.digest(6)), nil})
	text, err := it.table.Dump()
	it.same(err, nil)
	again := openReplica(t, 32768)
	used, err := again.replica.Read(head + text)
	it.same(told{used, err}, told{len(head), nil})
	again.table = fromDump(t, (head + text)[used:])
	it.same(again.digest(6), it.digest(6))
	for _, host := range []logWorld{it, again} {
		applied, answers := host.apply(9, host.calls(4, 2, 6, "fork 2"))
		it.same([]any{applied, answers}, []any{Applied{EntryMade, 4, 2}, "child 3 root 4"})
	}
	it.same(again.digest(9), it.digest(9))
	_, err = again.replica.Read("hello")
	it.same(err, ErrBadText)
	other := openReplica(t, 400)
	_, err = other.replica.Read(head + text)
	it.same(err, ErrOtherSettings)
}

func TestAReplicaThatIsClosed(t *testing.T) {
	it := openReplica(t, 32768)
	it.table.Close()
	_, err := it.replica.Apply(it.table, 1, []byte(logSettings))
	it.same(err, ErrClosed)
	it.replica.Close()
	it.replica.Close()
	for _, replica := range []*Replica{it.replica, new(Replica)} {
		_, applies := replica.Apply(open(t, Settings{}), 1, []byte(logSettings))
		_, answers := replica.Answers()
		_, log := replica.Log()
		_, digest := replica.Digest(1)
		_, last := replica.Last(1)
		_, write := replica.Write()
		_, read := replica.Read("hello")
		for _, err := range []error{applies, answers, log, digest, last, write, read} {
			it.same(err, ErrClosed)
		}
	}
}
