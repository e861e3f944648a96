package cluster

import (
	"context"
	"errors"
	"fmt"

	clientv3 "go.etcd.io/etcd/client/v3"
)

// Each entry puts the head too, which so has the revision of the newest one. It is beside the entries, and each follower sees it.
const headName = "~head"

// A newest entry is the last one that was read or put here: as long as etcd has it, etcd was not set back.
type newest struct {
	key            string
	hint, revision int64
}

// behind is a revision that is before that of what is put behind it: 0 where nothing was read.
func (it *newest) behind() int64 {
	if it == nil {
		return 0
	}
	return it.revision
}

// A headRead is the head as it was read: its revision, and the key of the entry that has put it.
type headRead struct {
	revision int64
	key      string
}

// errBehind says that the newest entry that was read here is cut: this host has to read on before it puts anything.
var errBehind = errors.New("pidtab: the log was cut behind what this host has read, and it reads on first")

// A transaction has what is to hold, what is done then, and what is read where it does not hold.
type transaction struct {
	holds           []clientv3.Cmp
	done, otherwise []clientv3.Op
}

// readOf reads a key, by a read that a majority confirms.
func readOf(key string, wishes ...clientv3.OpOption) clientv3.Op {
	return clientv3.OpGet(key, wishes...)
}

// transact does a transaction, which is behind a revision. Where etcd has not what was read of it, nothing is done: a LogFault, or errBehind.
func (log *EtcdLog) transact(ctx context.Context, plan func(behind int64) transaction) (*clientv3.TxnResponse, error) {
	newest := log.newest.Load()
	it := plan(newest.behind())
	if newest != nil {
		it.holds = append(it.holds, clientv3.Compare(clientv3.CreateRevision(newest.key), "=", newest.revision))
		it.otherwise = append(it.otherwise, readOf(newest.key, clientv3.WithKeysOnly()), readOf(log.prefix+cellMark+servedCell))
	}
	told, err := log.commit(ctx, it)
	if err == nil && newest != nil && !told.Succeeded {
		err = log.checkThere(newest, told)
	}
	return told, err
}

// commit does a transaction as it is.
func (log *EtcdLog) commit(ctx context.Context, it transaction) (*clientv3.TxnResponse, error) {
	ctx, cancel := log.within(ctx)
	defer cancel()
	told, err := log.client.Txn(ctx).If(it.holds...).Then(it.done...).Else(it.otherwise...).Commit()
	if err != nil {
		return nil, log.faultOf(err)
	}
	return told, log.note(told.Header.ClusterId)
}

// checkThere sees to it that etcd has what was read of it: it may be cut by a keeper. What was read then are the entry and the snapshots that serve.
func (log *EtcdLog) checkThere(newest *newest, told *clientv3.TxnResponse) error {
	read := told.Responses[len(told.Responses)-2:]
	for _, kv := range read[0].GetResponseRange().Kvs {
		if kv.CreateRevision == newest.revision {
			return nil
		}
	}
	all, err := servedBy((*clientv3.GetResponse)(read[1].GetResponseRange()))
	if err != nil {
		return err
	}
	if newest.hint < int64(all.cut()) {
		return errBehind
	}
	return log.setBack(fmt.Sprintf("the entry of revision %d no more", newest.revision))
}

// servedBy are the snapshots that serve, by what was read of their cell.
func servedBy(read *clientv3.GetResponse) (served, error) {
	var text []byte
	for _, kv := range read.Kvs {
		text = kv.Value
	}
	return readServed(text)
}

// setBack is what is said where etcd has not what was read of it.
func (log *EtcdLog) setBack(what string) LogFault {
	const words = "the log %s has %s: etcd was set back to an earlier state, or the entry was deleted; nothing was put"
	return LogFault{Why: fmt.Sprintf(words, log.name, what)}
}

// putHead puts the head with an entry, if the log has one: it gets one with its first entry.
func (log *EtcdLog) putHead(key string, behind int64) clientv3.Op {
	put := []clientv3.Op{clientv3.OpPut(log.prefix+headName, key[len(log.prefix):])}
	ifThere := clientv3.OpTxn([]clientv3.Cmp{clientv3.Compare(clientv3.Version(log.prefix+headName), ">", 0)}, put, nil)
	if behind > 0 {
		return ifThere
	}
	isEmpty := clientv3.Compare(clientv3.CreateRevision(log.prefix).WithRange(log.prefix+cellMark), "=", 0)
	return clientv3.OpTxn([]clientv3.Cmp{isEmpty}, put, []clientv3.Op{ifThere})
}

// look is the revision of etcd now, by a read that a majority confirms, and that of the head, or 0 where the log has none. Who reads on from there may be
// behind a cut.
func (log *EtcdLog) look(ctx context.Context, readsOn bool) (revision, head int64, err error) {
	it := transaction{done: []clientv3.Op{readOf(log.prefix+headName, clientv3.WithKeysOnly())}}
	told, err := log.transact(ctx, func(int64) transaction { return it })
	if readsOn && errors.Is(err, errBehind) {
		told, err = log.commit(ctx, it)
	}
	if err != nil {
		return 0, 0, err
	}
	for _, kv := range told.Responses[0].GetResponseRange().Kvs {
		head = kv.ModRevision
	}
	return told.Header.Revision, head, nil
}

// noteEntry notes an entry that was read, or that is put: it is there.
func (log *EtcdLog) noteEntry(it *newest) {
	for before := log.newest.Load(); before.behind() < it.revision; before = log.newest.Load() {
		if log.newest.CompareAndSwap(before, it) {
			return
		}
	}
}

// noteHead notes the head that was read, for who follows the log anew.
func (log *EtcdLog) noteHead(it *headRead) {
	for before := log.head.Load(); before == nil || before.revision < it.revision; before = log.head.Load() {
		if log.head.CompareAndSwap(before, it) {
			return
		}
	}
}

// headAt is the head as who has read up to a revision has it; nil where that is not known.
func (log *EtcdLog) headAt(revision int64) *headRead {
	if it := log.head.Load(); it != nil && it.revision <= revision {
		return it
	}
	return nil
}
