package cluster

import (
	"runtime"

	"pidtab"
)

// read has a look at this host's own table.
func read[T any](of *Replicated, look func(table *pidtab.Table) (T, error)) (found T, err error) {
	own := of.held()
	defer runtime.KeepAlive(own)
	err = own.replica.read(func(table *pidtab.Table) error {
		found, err = look(table)
		return err
	})
	return found, err
}

// Written by tools/interface: questions.

// Ask is Ask of a pidtab.Table, of this host's own table. It is no call, and nothing goes into the log.
func (table *Replicated) Ask(query pidtab.Call) (pidtab.Reply, error) {
	return read(table, func(own *pidtab.Table) (pidtab.Reply, error) { return own.Ask(query) })
}

// Stat is Stat of a pidtab.Table, of this host's own table. It is no call, and nothing goes into the log.
func (table *Replicated) Stat(caller, pid uint32) (pidtab.Stat, error) {
	return read(table, func(own *pidtab.Table) (pidtab.Stat, error) { return own.Stat(caller, pid) })
}

// Children is Children of a pidtab.Table, of this host's own table. It is no call, and nothing goes into the log.
func (table *Replicated) Children(caller, pid, from uint32) ([]uint32, error) {
	return read(table, func(own *pidtab.Table) ([]uint32, error) { return own.Children(caller, pid, from) })
}

// GroupMembers is GroupMembers of a pidtab.Table, of this host's own table. It is no call, and nothing goes into the log.
func (table *Replicated) GroupMembers(caller, group, from uint32) ([]uint32, error) {
	return read(table, func(own *pidtab.Table) ([]uint32, error) { return own.GroupMembers(caller, group, from) })
}

// SessionMembers is SessionMembers of a pidtab.Table, of this host's own table. It is no call, and nothing goes into the log.
func (table *Replicated) SessionMembers(caller, session, from uint32) ([]uint32, error) {
	return read(table, func(own *pidtab.Table) ([]uint32, error) { return own.SessionMembers(caller, session, from) })
}

// NamespaceMembers is NamespaceMembers of a pidtab.Table, of this host's own table. It is no call, and nothing goes into the log.
func (table *Replicated) NamespaceMembers(caller, pid, from uint32) ([]uint32, error) {
	return read(table, func(own *pidtab.Table) ([]uint32, error) { return own.NamespaceMembers(caller, pid, from) })
}

// NamespaceOwn is NamespaceOwn of a pidtab.Table, of this host's own table. It is no call, and nothing goes into the log.
func (table *Replicated) NamespaceOwn(caller, pid, from uint32) ([]uint32, error) {
	return read(table, func(own *pidtab.Table) ([]uint32, error) { return own.NamespaceOwn(caller, pid, from) })
}

// Space is Space of a pidtab.Table, of this host's own table. It is no call, and nothing goes into the log.
func (table *Replicated) Space(id uint64) (pidtab.SpaceStat, error) {
	return read(table, func(own *pidtab.Table) (pidtab.SpaceStat, error) { return own.Space(id) })
}

// SpacesInside is SpacesInside of a pidtab.Table, of this host's own table. It is no call, and nothing goes into the log.
func (table *Replicated) SpacesInside(id, from uint64) ([]uint64, error) {
	return read(table, func(own *pidtab.Table) ([]uint64, error) { return own.SpacesInside(id, from) })
}

// ControlsInside is ControlsInside of a pidtab.Table, of this host's own table. It is no call, and nothing goes into the log.
func (table *Replicated) ControlsInside(id, from uint64) ([]uint64, error) {
	return read(table, func(own *pidtab.Table) ([]uint64, error) { return own.ControlsInside(id, from) })
}

// ControlTasks is ControlTasks of a pidtab.Table, of this host's own table. It is no call, and nothing goes into the log.
func (table *Replicated) ControlTasks(caller uint32, control uint64, from uint32) ([]uint32, error) {
	return read(table, func(own *pidtab.Table) ([]uint32, error) { return own.ControlTasks(caller, control, from) })
}

// Would is Would of a pidtab.Table, of this host's own table. It is no call, and nothing goes into the log.
func (table *Replicated) Would(call pidtab.Call) (pidtab.Reply, error) {
	return read(table, func(own *pidtab.Table) (pidtab.Reply, error) { return own.Would(call) })
}

// The end of questions.

// List is the list of this host's table, as `pidtab list` writes it.
func (table *Replicated) List() (string, error) {
	return read(table, func(own *pidtab.Table) (string, error) { return own.List() })
}

// Listing is the same list, read.
func (table *Replicated) Listing() (pidtab.Listing, error) {
	return read(table, func(own *pidtab.Table) (pidtab.Listing, error) { return own.Listing() })
}

// Dump is all that there is to know of this host's table, as text.
func (table *Replicated) Dump() (string, error) {
	return read(table, func(own *pidtab.Table) (string, error) { return own.Dump() })
}
