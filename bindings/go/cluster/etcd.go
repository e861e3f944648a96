package cluster

import (
	"context"
	"crypto/rand"
	"encoding/hex"
	"errors"
	"fmt"
	"regexp"
	"strconv"
	"strings"
	"sync/atomic"
	"time"
	"unicode/utf8"

	clientv3 "go.etcd.io/etcd/client/v3"
	"google.golang.org/grpc/codes"
	"google.golang.org/grpc/status"

	"pidtab"
)

// DefaultTimeout is the Timeout of an EtcdLog that names none.
const DefaultTimeout = 5 * time.Second

// ErrBadName is why there is no log of a name.
var ErrBadName = errors.New("pidtab: a log's name has 1 to 200 printable characters and no colon")

// EtcdLog is a log in etcd 3.4 or later, as docs/CLUSTER.md has it: the same that EtcdLog of the package for Python has. The key of each entry begins with
// the log's name and a colon. Nothing but pidtab-keep(1) may change or delete a key there. The history of etcd may be compacted at any time.
type EtcdLog struct {
	// Timeout is for one answer of etcd; and a watch that is quiet for so long is opened anew, at another member. 0 is for DefaultTimeout. It is
	// set before the log is used.
	Timeout time.Duration

	client  *clientv3.Client
	name    string
	prefix  string // of each key
	last    string // behind each key of the log, but those of its cells
	newest  atomic.Pointer[newest]
	head    atomic.Pointer[headRead]
	cluster atomic.Uint64
	served  atomic.Bool // whether etcd has ever done what was asked
}

// Behind the log's name is a revision that was before that of the entry, and something that no other entry has; or the name of a cell.
const (
	cellMark = "~"
	markName = "~mark"
	lastName = "~n"
)

var (
	keyForm  = regexp.MustCompile(`^([0-9a-f]{16})-[0-9a-f]{16}$`)
	nameForm = regexp.MustCompile(`^[^:\x00-\x1f\x7f]{1,200}$`)
)

// NewEtcdLog names a log in the etcd of the client; nothing is asked yet. The client stays the caller's, and open: it has the members, the user and TLS, and
// no namespace. Give it a DialKeepAliveTime of some seconds, so that it leaves a member that hangs. pidtab.ErrNil; ErrBadName.
func NewEtcdLog(client *clientv3.Client, name string) (*EtcdLog, error) {
	if client == nil {
		return nil, pidtab.ErrNil
	}
	if !utf8.ValidString(name) || !nameForm.MatchString(name) {
		return nil, fmt.Errorf("%w: not %q", ErrBadName, name)
	}
	prefix := name + ":"
	return &EtcdLog{client: client, name: name, prefix: prefix, last: prefix + lastName}, nil
}

// Append puts an entry behind all others, by one transaction at one member; nothing where etcd has not what was read of it here.
func (log *EtcdLog) Append(ctx context.Context, entry []byte) (uint64, error) {
	var chance [8]byte
	if _, err := rand.Read(chance[:]); err != nil {
		return 0, err
	}
	return log.put(ctx, hex.EncodeToString(chance[:]), string(entry))
}

// put puts an entry, and answers at which revision. The client may send it to a second member, which finds that it is there.
func (log *EtcdLog) put(ctx context.Context, chance, entry string) (uint64, error) {
	var key string
	var last int64
	told, err := log.transact(ctx, func(behind int64) transaction {
		last, key = behind, fmt.Sprintf("%s%016x-%s", log.prefix, behind, chance)
		isNew := clientv3.Compare(clientv3.CreateRevision(key), "=", 0)
		return transaction{
			[]clientv3.Cmp{isNew}, []clientv3.Op{log.putHead(key, behind), clientv3.OpPut(key, entry)},
			[]clientv3.Op{clientv3.OpGet(key, clientv3.WithKeysOnly())},
		}
	})
	if err != nil {
		return 0, err
	}
	position := told.Header.Revision
	if !told.Succeeded {
		for _, kv := range told.Responses[0].GetResponseRange().Kvs {
			position = kv.CreateRevision
		}
	}
	log.noteEntry(&newest{key, last, position})
	return uint64(position), nil
}

// Follow hands on all entries behind the revision, and then each that comes.
func (log *EtcdLog) Follow(ctx context.Context, after uint64, take func(Progress) error) error {
	walk := &etcdWalk{log: log, take: take, seen: int64(after), head: log.headAt(int64(after))}
	return walk.run(ctx)
}

// End is the position of the newest entry, or, of a log without a head, the revision of etcd now: by a read that a majority confirms.
func (log *EtcdLog) End(ctx context.Context) (uint64, error) {
	revision, head, err := log.look(ctx, false)
	if head > 0 {
		return uint64(head), err
	}
	return uint64(revision), err
}

// Mark is the same. Each follower sees the head; in a log without one it sees a put of a key that is none of an entry.
func (log *EtcdLog) Mark(ctx context.Context) (uint64, error) {
	_, head, err := log.look(ctx, false)
	if head > 0 || err != nil {
		return uint64(head), err
	}
	told, err := log.transact(ctx, func(int64) transaction {
		return transaction{done: []clientv3.Op{clientv3.OpPut(log.prefix+markName, "")}}
	})
	if err != nil {
		return 0, err
	}
	return uint64(told.Header.Revision), nil
}

// String is the name of the log.
func (log *EtcdLog) String() string { return fmt.Sprintf("the log %q in etcd", log.name) }

// get reads keys, by a read that a majority confirms.
func (log *EtcdLog) get(ctx context.Context, key string, options ...clientv3.OpOption) (*clientv3.GetResponse, error) {
	ctx, cancel := log.within(ctx)
	defer cancel()
	told, err := log.client.Get(ctx, key, options...)
	if err != nil {
		return nil, log.faultOf(err)
	}
	return told, log.note(told.Header.ClusterId)
}

// cellsAt are the cells of the log as they were at a revision, or, where that is 0, as they are.
func (log *EtcdLog) cellsAt(revision int64) cells {
	return func(ctx context.Context, name string) ([]byte, error) {
		told, err := log.get(ctx, log.prefix+cellMark+name, clientv3.WithRev(revision))
		if err != nil || len(told.Kvs) == 0 {
			return nil, err
		}
		return append([]byte{}, told.Kvs[0].Value...), nil
	}
}

// hintOf is the revision in the key of an entry; false for a key that is none of one.
func (log *EtcdLog) hintOf(key []byte) (int64, bool) {
	found := keyForm.FindStringSubmatch(strings.TrimPrefix(string(key), log.prefix))
	if found == nil {
		return 0, false
	}
	hint, err := strconv.ParseInt(found[1], 16, 64)
	return hint, err == nil
}

// isMark is whether the key is that of the mark, and isHead whether that of the head.
func (log *EtcdLog) isMark(key []byte) bool { return string(key) == log.prefix+markName }
func (log *EtcdLog) isHead(key []byte) bool { return string(key) == log.prefix+headName }

// checkEntry sees to it that a key is that of an entry which nobody has changed, and notes that it was read: the revision in it.
func (log *EtcdLog) checkEntry(key []byte, revision, version int64) (int64, error) {
	hint, isEntry := log.hintOf(key)
	if !isEntry || hint >= revision {
		name := strings.TrimPrefix(string(key), log.prefix)
		return 0, LogFault{Why: fmt.Sprintf("the log %s has a key that is none of an entry: %.60q", log.name, name)}
	}
	if version != 1 {
		return 0, LogFault{Why: fmt.Sprintf("the entry at revision %d was overwritten", revision)}
	}
	log.noteEntry(&newest{string(key), hint, revision})
	return hint, nil
}

// note reads the head of an answer. All members have to be those of one cluster.
func (log *EtcdLog) note(cluster uint64) error {
	if !log.cluster.CompareAndSwap(0, cluster) && log.cluster.Load() != cluster {
		return LogFault{Why: "the members are not those of one etcd cluster"}
	}
	log.served.Store(true)
	return nil
}

// within bounds a call on etcd.
func (log *EtcdLog) within(ctx context.Context) (context.Context, context.CancelFunc) {
	return context.WithTimeout(ctx, log.timeout())
}

func (log *EtcdLog) timeout() time.Duration {
	if log.Timeout > 0 {
		return log.Timeout
	}
	return DefaultTimeout
}

// faultOf is what an error of etcd says: a LogFault where the same never goes well. What a user may not do may be allowed again, if it ever was.
func (log *EtcdLog) faultOf(err error) error {
	words := err.Error()
	code := codeOf(err)
	isRefused := code == codes.PermissionDenied || strings.Contains(words, "user name is empty") || strings.Contains(words, "authentication failed")
	switch {
	case strings.Contains(words, "revision of auth store is old"):
		// The client takes a new token.
		return fmt.Errorf("etcd: %w", err)
	case isRefused && log.served.Load():
		return fmt.Errorf("etcd refuses: %w", err)
	case isRefused, code == codes.InvalidArgument, code == codes.Unimplemented:
		return LogFault{Why: "etcd refuses: " + words, Err: err}
	}
	return fmt.Errorf("etcd: %w", err)
}

// codeOf is the code that etcd has given an error.
func codeOf(err error) codes.Code {
	var coded interface{ Code() codes.Code }
	if errors.As(err, &coded) {
		return coded.Code()
	}
	return status.Code(err)
}
