package cluster

import "context"

// sendAll puts what waits into the log, an entry at a time, each until the log has it, and ends the session.
func (it *replica) sendAll() {
	defer close(it.appended)
	pauses := newBackoff(it.patience)
	for entry := it.nextEntry(); entry != nil; entry = it.nextEntry() {
		position, err := it.log.Append(it.life, entry)
		switch {
		case err == nil:
			it.change(func() { it.calls.sent(position) })
			pauses.reset()
		case isLogFault(err):
			it.stopBy(err)
		default:
			it.note(err)
			pauses.pause(it.life)
		}
	}
	if session := locked(it, it.calls.host.Session); session != 0 && it.life.Err() == nil {
		ctx, cancel := context.WithTimeout(it.life, lastWait)
		defer cancel()
		// One try: a session that nobody ends goes when there are too many.
		_, _ = it.log.Append(ctx, []byte(endEntry(session)))
	}
}

// nextEntry waits until there is something to put; nil where nothing more comes.
func (it *replica) nextEntry() (entry []byte) {
	it.await(func() bool {
		if it.stopped || (it.closing && it.calls.isIdle()) {
			return true
		}
		entry = it.calls.next(it.last)
		return entry != nil
	})
	return entry
}
