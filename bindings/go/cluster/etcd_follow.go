package cluster

import (
	"context"
	"errors"
	"fmt"
	"sort"
	"strings"
	"time"

	clientv3 "go.etcd.io/etcd/client/v3"
)

const (
	// A quiet follower that cannot know that it has all asks for a mark so many times less often.
	quietTimes = 12

	// Bytes that a page of entries should have.
	pageBytes = 4 * 1024 * 1024
)

// The bounds of the entries of a page.
var (
	firstPage   = int64(100)
	longestPage = int64(10_000)
)

var (
	errQuiet     = errors.New("the watch is quiet")
	errCompacted = errors.New("the history from which a watch should begin is no more")
)

// An etcdWalk goes over a log in etcd: first by its keys, and then by a watch.
type etcdWalk struct {
	log  *EtcdLog
	take func(Progress) error
	seen int64
	cut  int64 // only entries with an earlier revision in their keys may be deleted
	last int64 // the revision of the newest entry that was read
	head *headRead
}

// run goes on until something fails.
func (it *etcdWalk) run(ctx context.Context) error {
	if it.seen == 0 {
		if err := it.readKeys(ctx); err != nil {
			return err
		}
	}
	for quiet := 0; ; {
		before := it.seen
		err := it.watch(ctx)
		if it.seen > before {
			quiet = 0
		}
		switch {
		case errors.Is(err, errQuiet):
			quiet++
			err = it.hand(Progress{Position: uint64(it.seen)})
		case errors.Is(err, errCompacted):
			err = it.readKeys(ctx)
		}
		if err == nil && quiet > 0 && quiet%quietTimes == 0 {
			err = it.markWhereBehind(ctx)
		}
		if err != nil {
			return err
		}
	}
}

// markWhereBehind has the log marked, if etcd is further: others may write to etcd, so that its revision alone does not say that nothing was missed.
func (it *etcdWalk) markWhereBehind(ctx context.Context) error {
	end, err := it.log.End(ctx)
	if err == nil && end > uint64(it.seen) {
		_, err = it.log.Mark(ctx)
	}
	return err
}

// hand hands on what has come.
func (it *etcdWalk) hand(progress Progress) error {
	if err := it.take(progress); err != nil {
		return err
	}
	if it.seen < int64(progress.Position) {
		it.seen = int64(progress.Position)
	}
	return nil
}

// found are entries in the order in which their keys were read.
type found []Entry

// upTo takes the entries up to a revision, in their order.
func (it *found) upTo(revision int64) []Entry {
	all := *it
	sort.Slice(all, func(i, j int) bool { return all[i].Position < all[j].Position })
	count := sort.Search(len(all), func(i int) bool { return int64(all[i].Position) > revision })
	*it = all[count:]
	return all[:count:count]
}

// readKeys hands on all that is behind the place, as it is at one revision: a snapshot, where what was there is cut or much, and then all entries.
//
// They are read in the order of their keys. No entry has a revision up to that in its key. So what was read up to a key has all entries up to there.
func (it *etcdWalk) readKeys(ctx context.Context) error {
	at, _, err := it.log.look(ctx, true)
	if err != nil {
		return err
	}
	loaded, err := loadBehind(ctx, it.log.cellsAt(at), uint64(it.seen))
	if err == nil && loaded != nil {
		err = it.hand(*loaded)
	}
	if err != nil {
		return err
	}
	start, err := it.firstBehind(ctx, at)
	if err != nil {
		return err
	}
	return it.readPages(ctx, start, at)
}

// readPages hands on the entries from a key on.
func (it *etcdWalk) readPages(ctx context.Context, start string, at int64) error {
	var waiting found
	after := it.seen
	for most := firstPage; ; {
		page, err := it.page(ctx, start, at, most)
		if err != nil {
			return err
		}
		bound, err := it.push(&waiting, page, after, at)
		if err != nil {
			return err
		}
		if !page.More {
			bound, err = at, it.readHead(page, at)
		}
		if err == nil {
			err = it.hand(Progress{Position: uint64(bound), Entries: waiting.upTo(bound)})
		}
		if err != nil || !page.More {
			return err
		}
		start, most = page.next(), page.longer(most)
	}
}

// push keeps the entries of a page that are behind the place, and none behind the revision; up to which all have come.
func (it *etcdWalk) push(waiting *found, page page, after, at int64) (int64, error) {
	bound := after
	for _, kv := range page.Kvs {
		hint, isEntry, err := it.readKey(kv.Key, kv.CreateRevision, kv.Version)
		if err != nil {
			return 0, err
		}
		if isEntry && bound < hint && hint <= at {
			bound = hint
		}
		if isEntry && after < kv.CreateRevision && kv.CreateRevision <= at {
			*waiting = append(*waiting, Entry{uint64(kv.CreateRevision), kv.Value})
		}
	}
	return bound, nil
}

// readKey notes a key that was read: the revision in that of an entry, and whether it is one.
func (it *etcdWalk) readKey(key []byte, revision, version int64) (int64, bool, error) {
	if it.log.isMark(key) || it.log.isHead(key) {
		return 0, false, nil
	}
	hint, err := it.log.checkEntry(key, revision, version)
	if it.last < revision {
		it.last = revision
	}
	return hint, err == nil, err
}

// readHead takes the head, which is in the last page, and sees to it that its entry is there. One by hand has no value, and is of no entry.
// A later one is not that of the revision at which the log is read.
func (it *etcdWalk) readHead(page page, at int64) error {
	it.head = nil
	for _, kv := range page.Kvs {
		if !it.log.isHead(kv.Key) || kv.ModRevision > at {
			continue
		}
		if len(kv.Value) > 0 && kv.ModRevision > it.last && kv.ModRevision > it.seen {
			return LogFault{Why: fmt.Sprintf("the newest entry of the log %s, at revision %d, was deleted", it.log.name, kv.ModRevision)}
		}
		it.takeHead(kv.ModRevision, kv.Value)
	}
	return nil
}

// takeHead goes on behind a head.
func (it *etcdWalk) takeHead(revision int64, key []byte) {
	it.head = &headRead{revision, string(key)}
	it.log.noteHead(it.head)
}

// followHead sees to it that a head comes behind the one that was read last: before its entry, and none is left out. The last one has that entry's key.
func (it *etcdWalk) followHead(ctx context.Context, event *clientv3.Event) error {
	last, before := it.head, event.PrevKv
	if last == nil || before == nil {
		if _, _, err := it.log.look(ctx, false); err != nil {
			return err
		}
	} else if before.ModRevision != last.revision || string(before.Value) != last.key {
		return it.log.setBack(fmt.Sprintf("another entry behind that of revision %d", last.revision))
	}
	it.takeHead(event.Kv.ModRevision, event.Kv.Value)
	return nil
}

// firstBehind is the first key whose entry is behind the place; read without the entries themselves.
func (it *etcdWalk) firstBehind(ctx context.Context, at int64) (string, error) {
	start := it.log.prefix
	for it.seen > 0 {
		page, err := it.page(ctx, start, at, longestPage, clientv3.WithKeysOnly())
		if err != nil {
			return "", err
		}
		for _, kv := range page.Kvs {
			if kv.CreateRevision > it.seen {
				return string(kv.Key), nil
			}
		}
		if !page.More {
			return it.log.last, nil
		}
		start = page.next()
	}
	return start, nil
}

// A page has some keys of a log.
type page struct{ *clientv3.GetResponse }

// next is the first key behind it.
func (it page) next() string { return string(it.Kvs[len(it.Kvs)-1].Key) + "\x00" }

// longer is of how many entries the next page is.
func (it page) longer(most int64) int64 {
	bytes := 1
	for _, kv := range it.Kvs {
		bytes += len(kv.Key) + len(kv.Value)
	}
	longer := most * pageBytes / int64(bytes)
	for _, bound := range []int64{2 * most, longestPage} {
		if longer > bound {
			longer = bound
		}
	}
	if longer < 1 {
		return 1
	}
	return longer
}

// page reads some keys from the start on, as they are at a revision.
func (it *etcdWalk) page(ctx context.Context, start string, at, most int64, options ...clientv3.OpOption) (page, error) {
	if start >= it.log.last {
		return page{new(clientv3.GetResponse)}, nil
	}
	options = append(options, clientv3.WithRange(it.log.last), clientv3.WithLimit(most))
	told, err := it.log.get(ctx, start, append(options, clientv3.WithRev(at))...)
	if err != nil && strings.Contains(err.Error(), "revision has been compacted") {
		return it.pageNow(ctx, clientv3.OpGet(start, options...))
	}
	return page{told}, err
}

// pageNow reads some keys as they are now: with later ones, and, by the same read, none of those behind the place is cut.
func (it *etcdWalk) pageNow(ctx context.Context, read clientv3.Op) (page, error) {
	told, err := it.log.commit(ctx, transaction{done: []clientv3.Op{read, readOf(it.log.prefix + cellMark + servedCell)}})
	if err != nil {
		return page{}, err
	}
	all, err := servedBy((*clientv3.GetResponse)(told.Responses[1].GetResponseRange()))
	if err == nil && int64(all.cut()) > it.seen {
		err = errors.New("etcd: the log was cut while it was read, and is read anew from a snapshot")
	}
	return page{(*clientv3.GetResponse)(told.Responses[0].GetResponseRange())}, err
}

// watch hands on what comes behind the place, until it is quiet, or ends.
func (it *etcdWalk) watch(ctx context.Context) error {
	within, cancel := context.WithCancel(clientv3.WithRequireLeader(ctx))
	defer cancel()
	// A watcher of its own has a connection of its own to some member, which may be another one than before.
	watcher := clientv3.NewWatcher(it.log.client)
	defer watcher.Close()
	// A member that hangs makes no watch.
	quiet := time.AfterFunc(it.log.timeout(), cancel)
	defer quiet.Stop()
	for told := range watcher.Watch(within, it.log.prefix, it.wish()...) {
		quiet.Stop()
		if err := it.handTold(ctx, told); err != nil {
			return err
		}
		quiet.Reset(it.log.timeout())
	}
	if err := ctx.Err(); err != nil {
		return err
	}
	if within.Err() != nil {
		return errQuiet
	}
	return errors.New("etcd: the watch has ended")
}

// wish is what a watch is asked for: what comes behind the place, and what it was before.
func (it *etcdWalk) wish() []clientv3.OpOption {
	return []clientv3.OpOption{clientv3.WithRange(it.log.last), clientv3.WithRev(it.seen + 1), clientv3.WithPrevKV()}
}

// handTold hands on what a watch tells.
func (it *etcdWalk) handTold(ctx context.Context, told clientv3.WatchResponse) error {
	if told.CompactRevision != 0 {
		return errCompacted
	}
	if err := told.Err(); err != nil {
		return it.log.faultOf(err)
	}
	// The revision in its head does not say how far the watch is: only events do.
	if err := it.log.note(told.Header.ClusterId); err != nil {
		return err
	}
	var progress Progress
	for _, event := range told.Events {
		entry, err := it.readEvent(ctx, event)
		if err != nil {
			return err
		}
		if entry != nil {
			progress.Entries = append(progress.Entries, *entry)
		}
		if progress.Position < uint64(event.Kv.ModRevision) {
			progress.Position = uint64(event.Kv.ModRevision)
		}
	}
	if len(told.Events) == 0 {
		return nil
	}
	return it.hand(progress)
}

// readEvent is the entry of an event; nil where it has none.
func (it *etcdWalk) readEvent(ctx context.Context, event *clientv3.Event) (*Entry, error) {
	kv := event.Kv
	if event.Type == clientv3.EventTypeDelete {
		return nil, it.checkDeleted(ctx, kv.Key, kv.ModRevision)
	}
	if it.log.isHead(kv.Key) {
		return nil, it.followHead(ctx, event)
	}
	if _, isEntry, err := it.readKey(kv.Key, kv.CreateRevision, kv.Version); !isEntry {
		return nil, err
	}
	return &Entry{uint64(kv.CreateRevision), kv.Value}, nil
}

// checkDeleted sees to it that what was deleted is behind a snapshot. This follower had it before.
func (it *etcdWalk) checkDeleted(ctx context.Context, key []byte, revision int64) error {
	if it.log.isMark(key) {
		return nil
	}
	if it.log.isHead(key) {
		const words = "the head of the log %s was deleted, at revision %d: open it again, and it goes on without"
		return LogFault{Why: fmt.Sprintf(words, it.log.name, revision)}
	}
	hint, isEntry := it.log.hintOf(key)
	if isEntry && hint >= it.cut {
		all, err := it.log.cellsAt(0).served(ctx)
		if err != nil {
			return err
		}
		it.cut = int64(all.cut())
	}
	if !isEntry || hint >= it.cut {
		return LogFault{Why: fmt.Sprintf("an entry of the log %s was deleted, at revision %d", it.log.name, revision)}
	}
	return nil
}
