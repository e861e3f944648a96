package cluster

import (
	"bytes"
	"errors"
	"fmt"

	"pidtab"
)

// A place is an entry of the log, and the digest behind it.
type place struct {
	position uint64
	digest   pidtab.LogDigest
}

// stepper is a pidtab.Replica, or what a test has in its place.
type stepper interface {
	Apply(table *pidtab.Table, position uint64, entry []byte) (pidtab.Applied, error)
	Answers() ([]string, error)
	Digest(position uint64) (pidtab.LogDigest, error)
	Last(session uint64) (uint64, error)
	Log() (pidtab.LogState, error)
	Read(snapshot string) (int, error)
	Close()
}

// A machine is this host's table, with what it knows of the log beside it.
type machine struct {
	stepper
	table *pidtab.Table
}

// openMachine makes one of a log that has not begun.
func openMachine(pidMax uint32) (*machine, error) {
	table, err := pidtab.Open(pidtab.Settings{PidMax: pidMax})
	if err != nil {
		return nil, err
	}
	replica, err := pidtab.OpenReplica(pidMax, pidtab.Model)
	if err != nil {
		table.Close()
		return nil, err
	}
	return &machine{replica, table}, nil
}

func (it *machine) close() {
	it.Close()
	it.table.Close()
}

// apply applies the next entry. Its error says in a sentence what is wrong with the log, or is want of memory.
func (it *machine) apply(position uint64, entry []byte) (pidtab.Applied, error) {
	applied, err := it.Apply(it.table, position, entry)
	if err != nil && !isLoss(err) {
		err = it.faultOf(err, position, entry)
	}
	return applied, err
}

// load takes a snapshot, which is behind what is here, in the place of all that is here.
func (it *machine) load(position uint64, snapshot string) error {
	used, err := it.Read(snapshot)
	if err != nil {
		return snapshotFault(err, position)
	}
	state, err := it.Log()
	if err == nil && state.Position != position {
		err = fmt.Errorf("it is that of entry %d", state.Position)
	}
	if err != nil {
		return snapshotFault(err, position)
	}
	table, err := pidtab.FromDump(snapshot[used:], pidtab.Settings{})
	if err != nil {
		return snapshotFault(err, position)
	}
	it.table.Close()
	it.table = table
	return nil
}

// snapshotFault is why a snapshot is not loaded, in a sentence, or want of memory.
func snapshotFault(err error, position uint64) error {
	if isLoss(err) {
		return err
	}
	return LogFault{Why: fmt.Sprintf("the snapshot of entry %d cannot be read: %v", position, err), Err: err}
}

// faultOf says in a sentence why an entry was not applied.
func (it *machine) faultOf(err error, position uint64, entry []byte) error {
	state, fault := it.Log()
	if fault != nil {
		return fault
	}
	head, _, _ := bytes.Cut(entry, []byte("\n"))
	switch {
	case errors.Is(err, pidtab.ErrNotRising):
		return LogFault{Why: fmt.Sprintf("the log has given entry %d behind entry %d", position, state.Position), Err: err}
	case errors.Is(err, pidtab.ErrNoEntry):
		return LogFault{Why: fmt.Sprintf("entry %d of the log cannot be read: it begins with %.40q", position, head), Err: err}
	case errors.Is(err, pidtab.ErrOtherSettings):
		return LogFault{Why: settingsFault(state, position, string(head)), Err: err}
	case errors.Is(err, pidtab.ErrMissing):
		at, _, _ := writerAt(head)
		return LogFault{Why: fmt.Sprintf("the writer of entry %d had an entry %d, which the log has no more", position, at), Err: err}
	case errors.Is(err, pidtab.ErrDiverged):
		return Diverged{Why: it.divergence(position, head)}
	}
	return err
}

// settingsFault says why an entry does not fit the settings of the log, or these do not fit the host.
func settingsFault(state pidtab.LogState, position uint64, head string) string {
	if state.Begun {
		return fmt.Sprintf("entry %d of the log cannot be read: form %d has no snapshots", position, state.Form)
	}
	if len(head) < 10 || head[:10] != "pidtab-log" {
		return "the log does not begin with its settings: it was trimmed, its snapshots are lost, or it is none of pidtab's"
	}
	return fmt.Sprintf("the log has %.100q, and this host %q", head, settingsEntry(uint32(state.PidMax)))
}

// divergence says of which entry two hosts have other digests.
func (it *machine) divergence(position uint64, head []byte) string {
	at, theirs, isCalls := writerAt(head)
	if !isCalls {
		return fmt.Sprintf("the digest is not the one here in the snapshot that entry %d announces", position)
	}
	digest, err := it.Digest(at)
	if err != nil {
		return fmt.Sprintf("behind entry %d the digest is another one with the writer of entry %d", at, position)
	}
	return fmt.Sprintf("behind entry %d the digest is %s here, and %s with the writer of entry %d", at, shorten(digest), theirs, position)
}

// writerAt is the position that the writer of calls had reached, and its digest there; false of another entry.
func writerAt(head []byte) (at uint64, digest string, isCalls bool) {
	var session, sequence, count uint64
	_, err := fmt.Sscanf(string(head), "calls %d %d %d %d %s", &session, &sequence, &count, &at, &digest)
	return at, digest, err == nil
}
