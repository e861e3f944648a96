package cluster

import (
	"errors"
	"fmt"
	"strings"
	"testing"

	"pidtab"
)

// openFails is why a host is not opened.
func openFails(t *testing.T, log Log, options Options) error {
	t.Helper()
	options.Patience = long
	table, err := Open(background, log, options)
	if err == nil {
		table.Close()
		t.Fatal("it is opened")
	}
	return err
}

func TestAnotherPidMax(t *testing.T) {
	noLeaks(t)
	log := new(MemoryLog)
	host(t, log)
	err := openFails(t, log, Options{PidMax: 400})
	isFault(t, err, `the log has "pidtab-log 2 pid_max 32768 model 1", and this host "pidtab-log 2 pid_max 400 model 1"`)
}

func TestAnotherFormOrModel(t *testing.T) {
	for _, head := range []string{"pidtab-log 3 pid_max 32768 model 1", "pidtab-log 2 pid_max 32768 model 2", "pidtab-log 0 pid_max 32768 model 1"} {
		log := new(MemoryLog)
		put(t, log, head)
		isFault(t, openFails(t, log, Options{}), fmt.Sprintf("the log has %q, and this host", head))
	}
}

// A log that an earlier release has begun goes on without snapshots.
func TestAnEarlierForm(t *testing.T) {
	log := new(MemoryLog)
	put(t, log, "pidtab-log 1 pid_max 32768 model 1")
	table := host(t, log)
	equal(t, forked(t, table), 2)
	put(t, log, "snap")
	isFault(t, untilStopped(t, table), "of the log cannot be read: form 1 has no snapshots")
}

// A new log has the settings that docs/CLUSTER.md has, with which Python begins it too.
func TestANewLog(t *testing.T) {
	log := new(MemoryLog)
	host(t, log)
	equal(t, string(log.Entries()[0].Data), settings)
}

func TestTwoThatBeginAtOnce(t *testing.T) {
	log := new(MemoryLog)
	put(t, log, settings)
	put(t, log, settings)
	equal(t, forked(t, host(t, log)), 2)
}

func TestWhatIsNoLog(t *testing.T) {
	for entry, why := range map[string]string{"open": "it was trimmed", "hello": `entry 1 of the log cannot be read: it begins with "hello"`, "": "cannot be read"} {
		log := new(MemoryLog)
		put(t, log, entry)
		isFault(t, openFails(t, log, Options{}), why)
	}
}

func TestAnEntryThatCannotBeRead(t *testing.T) {
	log := new(MemoryLog)
	table := host(t, log)
	forked(t, table)
	put(t, log, "calls 2 2 2 2 "+noDigest+"\nfork 1")
	words := "entry 4 of the log cannot be read"
	isFault(t, untilStopped(t, table), words)
	for _, ask := range everyMethod(table) {
		isFault(t, ask(), words)
	}
	table.Close()
	equal(t, table.Exec(1), pidtab.ErrClosed)
}

// everyMethod has methods of a table that is not open any more.
func everyMethod(table *Replicated) []func() error {
	return []func() error{
		func() error { return table.Exec(1) },
		func() error { return table.With(background).Exec(1) },
		func() error { _, err := table.Line("fork 1"); return err },
		func() error { _, err := table.Answers(background, []string{"fork 1"}); return err },
		func() error { _, err := table.Submit([]string{"fork 1"}); return err },
		func() error { _, err := table.Submit(nil); return err },
		func() error { _, err := table.CatchUp(background); return err },
		func() error { _, err := table.DigestAt(1); return err },
		func() error { _, err := table.Ask(pidtab.Call{Operation: pidtab.OpGetpid, Caller: 1}); return err },
		func() error { _, err := table.Stat(1, 0); return err },
		func() error { _, err := table.List(); return err },
		func() error { _, err := table.Listing(); return err },
		func() error { _, err := table.Dump(); return err },
	}
}

// The writer had an entry that is not here.
func TestALogThatHasLostAnEntry(t *testing.T) {
	log := new(MemoryLog)
	table := host(t, log)
	forked(t, table)
	put(t, log, "calls 9 1 1 9 "+noDigest+"\nfork 1")
	isFault(t, untilStopped(t, table), "the writer of entry 4 had an entry 9, which the log has no more")
}

func TestAnotherDigest(t *testing.T) {
	log := new(MemoryLog)
	table := host(t, log)
	forked(t, table)
	here := table.Digest()[:16]
	put(t, log, "calls 9 1 1 3 "+noDigest+"\nfork 1")
	err := untilStopped(t, table)
	var diverged Diverged
	if !errors.As(err, &diverged) {
		t.Fatal(err)
	}
	has(t, err, fmt.Sprintf("behind entry 3 the digest is %s here, and %s with the writer of entry 4", here, noDigest))
}

// A session ends with the table, and is opened by the first call.
func TestASessionEnds(t *testing.T) {
	log := new(MemoryLog)
	table := host(t, log)
	table.Close()
	equal(t, len(log.Entries()), 1)
	table = host(t, log)
	forked(t, table)
	table.Close()
	var all []string
	for _, entry := range log.Entries() {
		head, _, _ := strings.Cut(string(entry.Data), "\n")
		all = append(all, head)
	}
	equal(t, len(all), 4)
	equal(t, all[1], "open")
	equal(t, strings.Join(strings.Split(all[2], " ")[:4], " "), "calls 2 1 1")
	equal(t, all[3], "end 2")
}

// Of more than 4,096 sessions the one that was used the longest ago ends, and what was sent in it is sent in a new one.
func TestTooManySessions(t *testing.T) {
	log := new(MemoryLog)
	table, other := host(t, log), host(t, log)
	forked(t, table)
	for i := 0; i < 4096; i++ {
		put(t, log, "open")
	}
	var asked []*Submitted
	for i := 0; i < 30; i++ {
		asked = append(asked, submit(t, table, "fork 1", "mk 0"))
	}
	for i, it := range asked {
		equal(t, strings.Split(wait(t, it), ", ")[0], child(i+3))
		equal(t, it.Receipts()[0].Session, asked[0].Receipts()[0].Session)
	}
	same(t, table, other)
}

func TestASessionThatIsUsedStays(t *testing.T) {
	log := new(MemoryLog)
	table := host(t, log)
	forked(t, table)
	for i := 0; i < 3; i++ {
		for j := 0; j < 2048; j++ {
			put(t, log, "open")
		}
		forked(t, table)
	}
	equal(t, countCalls(log.Entries()), 4)
}
