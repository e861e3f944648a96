package cluster

import "context"

// Log has entries in one order, the same for each host: an EtcdLog, or another that keeps these promises. Positions are above 0, and rise.
//
// An entry whose Append has answered is never lost, and is before each entry whose Append began later. None is changed or taken away. Goroutines may
// share a log. A LogFault says that it cannot be used any more; each other error says nothing, and the same is tried again.
type Log interface {
	// Append puts an entry of at most 600,000 bytes behind all others, and answers its position. It is one try. Behind an error the entry is
	// there, or is not, or comes later; the caller puts it again, so it may be there twice. The entry is not changed, or kept.
	Append(ctx context.Context, entry []byte) (uint64, error)

	// Follow hands to take all entries behind the position, each once and in their order, and then each that comes. 0 is before all of them.
	// Where nothing comes for some seconds, it hands on a Progress without entries. It goes on until ctx is done, or take or the log fails, and
	// answers why: what take has answered, or an error behind which a new Follow goes on, or a LogFault.
	Follow(ctx context.Context, after uint64, take func(Progress) error) error

	// End is a position behind which there is no entry whose Append had answered before this was asked. An error says nothing.
	End(ctx context.Context) (uint64, error)
}

// Marker is a Log with a Mark: as its End, but each follower reaches the position soon, also if no entry comes. It may cost a write, and puts no entry into
// the log. A CatchUp that has waited for a while asks for one.
type Marker interface {
	Mark(ctx context.Context) (uint64, error)
}

// Progress is what has come of a log: entries, and the position up to which these and all before are the whole log.
//
// Of a log that is cut it may be a snapshot, the text of all that the log up to the position has made. Then it has no entries.
type Progress struct {
	Position uint64
	Entries  []Entry
	Snapshot string // empty where it is none
}

// Entry is an entry of a log with its position.
type Entry struct {
	Position uint64
	Data     []byte
}
