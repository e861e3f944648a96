package cluster

import (
	"context"
	"errors"
	"fmt"
	"net"
	"os/exec"
	"path/filepath"
	"strings"
	"syscall"
	"testing"
	"time"

	clientv3 "go.etcd.io/etcd/client/v3"

	"pidtab"
)

// A member is one of an etcd on this machine's loopback.
type member struct {
	t       *testing.T
	url     string
	words   []string
	running *exec.Cmd
}

// startEtcd starts an etcd of one member, which ends behind the test; what needs it is skipped where there is no etcd.
func startEtcd(t *testing.T, words ...string) *member {
	t.Helper()
	return startMembers(t, 1, words...)[0]
}

// startMembers starts an etcd of some members.
func startMembers(t *testing.T, count int, words ...string) (all []*member) {
	t.Helper()
	program, err := exec.LookPath("etcd")
	if err != nil {
		t.Skip("no etcd on PATH (Debian: etcd-server)")
	}
	var peers, names []string
	for place := 0; place < count; place++ {
		peers = append(peers, "http://"+freePort(t))
		names = append(names, fmt.Sprintf("m%d=%s", place, peers[place]))
	}
	for place, peer := range peers {
		it := &member{t: t, url: "http://" + freePort(t)}
		it.words = append([]string{
			program, fmt.Sprintf("--name=m%d", place), "--data-dir=" + filepath.Join(t.TempDir(), "m"), "--listen-client-urls=" + it.url,
			"--advertise-client-urls=" + it.url, "--listen-peer-urls=" + peer, "--initial-advertise-peer-urls=" + peer,
			"--initial-cluster=" + strings.Join(names, ","), "--log-level=error",
		}, words...)
		it.run()
		t.Cleanup(it.kill)
		all = append(all, it)
	}
	for _, it := range all {
		it.untilReady()
	}
	return all
}

// start starts it again, with what it has on disk.
func (it *member) start() {
	it.t.Helper()
	it.run()
	it.untilReady()
}

func (it *member) run() {
	it.t.Helper()
	it.running = exec.Command(it.words[0], it.words[1:]...)
	// It ends with a test that is killed.
	it.running.SysProcAttr = &syscall.SysProcAttr{Pdeathsig: syscall.SIGKILL}
	check(it.t, it.running.Start())
}

func (it *member) untilReady() {
	it.t.Helper()
	client := it.client(clientv3.Config{})
	until(it.t, "etcd", func() bool {
		ctx, cancel := context.WithTimeout(background, time.Second)
		defer cancel()
		_, err := client.Get(ctx, "none")
		return err == nil || strings.Contains(err.Error(), "user name is empty")
	})
	check(it.t, client.Close())
}

func (it *member) kill() {
	_ = it.running.Process.Kill()
	_ = it.running.Wait()
}

// client is a client of the member, which is closed behind the test.
func (it *member) client(config clientv3.Config) *clientv3.Client {
	it.t.Helper()
	if config.Endpoints == nil {
		config.Endpoints = []string{it.url}
	}
	config.DialTimeout = long
	client, err := clientv3.New(config)
	check(it.t, err)
	it.t.Cleanup(func() { _ = client.Close() })
	return client
}

// log is the log of a host of its own.
func (it *member) log(name string) *EtcdLog {
	it.t.Helper()
	return logOf(it.t, it.client(clientv3.Config{}), name)
}

func logOf(t *testing.T, client *clientv3.Client, name string) *EtcdLog {
	t.Helper()
	log, err := NewEtcdLog(client, name)
	check(t, err)
	return log
}

func freePort(t *testing.T) string {
	t.Helper()
	listener, err := net.Listen("tcp", "127.0.0.1:0")
	check(t, err)
	defer listener.Close()
	return listener.Addr().String()
}

// keys are the keys of the log's entries, in the order of these.
func keys(t *testing.T, log *EtcdLog) (all []string) {
	t.Helper()
	byPosition := clientv3.WithSort(clientv3.SortByCreateRevision, clientv3.SortAscend)
	told, err := log.client.Get(background, log.prefix, clientv3.WithRange(log.prefix+cellMark), byPosition)
	check(t, err)
	for _, kv := range told.Kvs {
		all = append(all, string(kv.Key))
	}
	return all
}

// isMarked is whether the log has a mark, which a read puts into a log without a head.
func isMarked(t *testing.T, log *EtcdLog) bool {
	t.Helper()
	told, err := log.client.Get(background, log.prefix+markName)
	check(t, err)
	return len(told.Kvs) > 0
}

func TestEtcd(t *testing.T) {
	noLeaks(t)
	etcd := startEtcd(t)
	one, two := host(t, etcd.log("web")), host(t, etcd.log("web"))
	for number := uint32(2); number < 40; number++ {
		equal(t, forked(t, one), number)
		_, err := two.CatchUp(background)
		check(t, err)
		stat, err := two.Stat(1, number)
		check(t, err)
		equal(t, stat.Root, number)
		// Others write to etcd too, so its revision alone does not say how far the log is.
		_, err = two.own.replica.log.(*EtcdLog).client.Put(background, "other", decimal(uint64(number)))
		check(t, err)
		_, err = two.CatchUp(background)
		check(t, err)
	}
	same(t, one, two, host(t, etcd.log("web")))
	equal(t, isMarked(t, etcd.log("web")), false)
	// Another log is another table.
	equal(t, forked(t, host(t, etcd.log("we"))), 2)
}

// A member that is lost holds no host up for longer than the choice of another leader, and two seconds.
func TestAMemberIsLost(t *testing.T) {
	members := startMembers(t, 3)
	var urls []string
	for _, it := range members {
		urls = append(urls, it.url)
	}
	var hosts []*Replicated
	config := clientv3.Config{Endpoints: urls, DialKeepAliveTime: 2 * time.Second, DialKeepAliveTimeout: time.Second}
	for range members {
		hosts = append(hosts, host(t, logOf(t, members[0].client(config), "web")))
	}
	for lost, it := range members {
		it.kill()
		untilLed(t, members[(lost+1)%3])
		end := time.Now().Add(2 * time.Second)
		var asked []*Submitted
		for _, table := range hosts {
			asked = append(asked, submit(t, table, "fork 1"))
		}
		answers := map[string]bool{}
		for _, it := range asked {
			answers[wait(t, it)] = true
		}
		for number := 3*lost + 2; number < 3*lost+5; number++ {
			equal(t, answers[child(number)], true)
		}
		if late := time.Since(end); late > 0 {
			t.Errorf("without member %d the answers came %v late", lost, late)
		}
		it.start()
	}
	same(t, hosts...)
}

// A member that cannot ask the others is not believed: a read that is not behind gets no answer from it.
func TestAMemberThatIsAlone(t *testing.T) {
	members := startMembers(t, 3)
	table := open(t, members[0].log("web"), Options{Patience: time.Second})
	equal(t, forked(t, table), 2)
	for _, it := range members[1:] {
		check(t, it.running.Process.Signal(syscall.SIGSTOP))
	}
	// The signals may come late.
	var err error
	until(t, "no answer", func() bool { _, err = table.CatchUp(background); return err != nil })
	isNotKnown(t, err, false, "no call was made")
	for _, it := range members[1:] {
		check(t, it.running.Process.Signal(syscall.SIGCONT))
	}
	until(t, "an answer", func() bool { _, err = table.CatchUp(background); return err == nil })
	equal(t, forked(t, table), 3)
}

// untilLed waits until a member has a leader.
func untilLed(t *testing.T, it *member) {
	t.Helper()
	client := it.client(clientv3.Config{})
	until(t, "a leader", func() bool {
		ctx, cancel := context.WithTimeout(background, time.Second)
		defer cancel()
		_, err := client.Get(ctx, "none")
		return err == nil
	})
}

// The client may send an entry to a second member: it is there once, and at its first place.
func TestAnEntryIsPutOnce(t *testing.T) {
	etcd := startEtcd(t)
	log := etcd.log("web")
	first, err := log.put(background, "0123456789abcdef", settings)
	check(t, err)
	put(t, log, "open")
	// What is sent again is what was sent first.
	log.newest.Store(nil)
	again, err := log.put(background, "0123456789abcdef", settings)
	check(t, err)
	equal(t, again, first)
	equal(t, len(keys(t, log)), 2)
	equal(t, forked(t, host(t, log)), 2)
}

// The keys of entries are those of docs/CLUSTER.md.
func TestKeys(t *testing.T) {
	etcd := startEtcd(t)
	log := etcd.log("web")
	equal(t, forked(t, host(t, log)), 2)
	for i, key := range keys(t, log) {
		var hint, chance uint64
		_, err := fmt.Sscanf(key, "web:%016x-%016x", &hint, &chance)
		// The first revision of a store that was made is 2.
		if err != nil || len(key) != len("web:")+33 || hint >= uint64(i+2) {
			t.Error(i, key, err)
		}
	}
}

// walk has the entries behind a position, up to one. None is above the position up to which a progress says that all have come.
func walk(t *testing.T, log *EtcdLog, after, last uint64) (all []Entry) {
	t.Helper()
	ctx, cancel := context.WithTimeout(background, long)
	defer cancel()
	err := log.Follow(ctx, after, func(progress Progress) error {
		for _, entry := range progress.Entries {
			if entry.Position > progress.Position {
				t.Errorf("entry %d above %d", entry.Position, progress.Position)
			}
		}
		all = append(all, progress.Entries...)
		if progress.Position >= last {
			return context.Canceled
		}
		return nil
	})
	equal(t, err, context.Canceled)
	return all
}

// fillLog puts entries of which some come late: their keys have revisions of long ago.
func fillLog(t *testing.T, log *EtcdLog, count int) (all []Entry) {
	t.Helper()
	for number := 0; number < count; number++ {
		if number > 5 {
			// A host that has read this one last, or one of long ago.
			last := number - 1
			if number%3 == 0 {
				last = number % 5
			}
			log.newest.Store(newestAt(t, log, all[last].Position))
		}
		data := fmt.Sprintf("entry %d", number)
		all = append(all, Entry{put(t, log, data), []byte(data)})
	}
	return all
}

// newestAt is an entry, for a host that has read no later one.
func newestAt(t *testing.T, log *EtcdLog, position uint64) *newest {
	t.Helper()
	told, err := log.client.Get(background, log.prefix, clientv3.WithRange(log.prefix+cellMark))
	check(t, err)
	for _, kv := range told.Kvs {
		if hint, isEntry := log.hintOf(kv.Key); isEntry && uint64(kv.CreateRevision) == position {
			return &newest{string(kv.Key), hint, kv.CreateRevision}
		}
	}
	t.Fatal("no entry", position)
	return nil
}

// A follower gets each entry once and in order, wherever it begins and however long etcd's history is.
func TestWalks(t *testing.T) {
	etcd := startEtcd(t)
	log := etcd.log("web")
	entries := fillLog(t, log, 60)
	_, err := log.Mark(background)
	check(t, err)
	last := entries[59].Position
	first, longest := firstPage, longestPage
	t.Cleanup(func() { firstPage, longestPage = first, longest })
	for compactions := 0; compactions < 2; compactions++ {
		for _, most := range []int64{1, 7, 1000} {
			firstPage, longestPage = most, most
			for _, begin := range []int{0, 1, 30, 59} {
				after, wanted := uint64(0), entries
				if begin > 0 {
					after, wanted = entries[begin].Position, entries[begin+1:]
				}
				found := walk(t, log, after, last)
				equal(t, fmt.Sprint(found), fmt.Sprint(wanted))
			}
		}
		if compactions == 0 {
			end, err := log.End(background)
			check(t, err)
			_, err = log.client.Compact(background, int64(end), clientv3.WithCompactPhysical())
			check(t, err)
		}
	}
}

// What comes while a follower walks, it gets too, also where etcd has ended meanwhile.
func TestWhatComesWhileItWalks(t *testing.T) {
	etcd := startEtcd(t)
	log := etcd.log("web")
	entries := fillLog(t, log, 10)
	came, ended := make(chan Entry), make(chan struct{})
	ctx, cancel := context.WithCancel(background)
	go func() {
		defer close(ended)
		seen := uint64(0)
		for ctx.Err() == nil {
			_ = log.Follow(ctx, seen, func(progress Progress) error {
				for _, entry := range progress.Entries {
					select {
					case came <- entry:
					case <-ctx.Done():
						return ctx.Err()
					}
				}
				seen = progress.Position
				return nil
			})
		}
	}()
	t.Cleanup(func() { cancel(); <-ended })
	var found []Entry
	for i := 0; i < 3; i++ {
		for len(found) < len(entries) {
			select {
			case entry := <-came:
				found = append(found, entry)
			case <-after(long):
				t.Fatalf("%d of %d entries", len(found), len(entries))
			}
		}
		etcd.kill()
		etcd.start()
		until(t, "an answer", func() bool { _, err := log.End(background); return err == nil })
		entries = append(entries, fillLog(t, log, 10)...)
	}
	equal(t, fmt.Sprint(found), fmt.Sprint(entries[:30]))
}

func TestAFollowerThatIsEnded(t *testing.T) {
	noLeaks(t)
	etcd := startEtcd(t)
	log := etcd.log("web")
	ctx, cancel := context.WithTimeout(background, 300*time.Millisecond)
	defer cancel()
	begun := time.Now()
	err := log.Follow(ctx, 0, func(Progress) error { return nil })
	if !errors.Is(err, context.DeadlineExceeded) {
		t.Error(err)
	}
	if took := time.Since(begun); took > 3*time.Second {
		t.Error(took)
	}
}

// A quiet watch is opened anew, and says that nothing came. A follower that cannot know whether it has all asks for a mark.
func TestAQuietLog(t *testing.T) {
	etcd := startEtcd(t)
	log := etcd.log("web")
	last := beginEarlier(t, log)
	log.Timeout = 200 * time.Millisecond
	times, all := 0, 0
	err := log.Follow(background, 0, func(progress Progress) error {
		if times++; times == 1 {
			_, err := log.client.Put(background, "other", "1")
			return err
		}
		all += len(progress.Entries)
		if progress.Position > last+1 {
			return context.Canceled
		}
		return nil
	})
	equal(t, err, context.Canceled)
	equal(t, all, 0)
	if times < quietTimes {
		t.Error(times)
	}
}

// beginEarlier begins a log as an earlier release does, without a head.
func beginEarlier(t *testing.T, log *EtcdLog) uint64 {
	t.Helper()
	told, err := log.client.Put(background, log.prefix+"0000000000000000-0123456789abcdef", settings)
	check(t, err)
	return uint64(told.Header.Revision)
}

func TestALogThatWasChanged(t *testing.T) {
	etcd := startEtcd(t)
	log := etcd.log("web")
	table := host(t, log)
	forked(t, table)
	all := keys(t, log)
	_, err := log.client.Put(background, all[len(all)-1], "hello")
	check(t, err)
	isFault(t, untilStopped(t, table), "the entry at revision 4 was overwritten")
	isFault(t, openFails(t, etcd.log("web"), Options{}), "the entry at revision 4 was overwritten")
}

func TestALogThatWasTrimmed(t *testing.T) {
	etcd := startEtcd(t)
	log := etcd.log("web")
	table := host(t, log)
	for i := 0; i < 5; i++ {
		forked(t, table)
	}
	all := keys(t, log)
	_, err := log.client.Delete(background, all[3])
	check(t, err)
	isFault(t, untilStopped(t, table), "an entry of the log web was deleted")
	// The first revision is 2, that of the settings, and a session is opened by the next.
	isFault(t, openFails(t, etcd.log("web"), Options{}), "the writer of entry 6 had an entry 5, which the log has no more")
	_, err = log.client.Delete(background, all[0])
	check(t, err)
	isFault(t, openFails(t, etcd.log("web"), Options{}), "the log does not begin with its settings: it was trimmed")
}

func TestAKeyThatIsNoneOfAnEntry(t *testing.T) {
	etcd := startEtcd(t)
	log := etcd.log("web")
	_, err := log.client.Put(background, "web:hello", "hello")
	check(t, err)
	isFault(t, openFails(t, log, Options{}), `the log web has a key that is none of an entry: "hello"`)
}

func TestMembersOfTwoClusters(t *testing.T) {
	one, two := startEtcd(t), startEtcd(t)
	log := logOf(t, one.client(clientv3.Config{Endpoints: []string{one.url, two.url}}), "web")
	table, err := Open(background, log, Options{Patience: long})
	if err == nil {
		t.Cleanup(table.Close)
		until(t, "an answer of the other", func() bool { _, err = table.CatchUp(background); return err != nil })
	}
	isFault(t, err, "the members are not those of one etcd cluster")
}

func TestAUser(t *testing.T) {
	etcd := startEtcd(t)
	addUsers(t, etcd)
	user := func(name, password string) *clientv3.Client {
		return etcd.client(clientv3.Config{Username: name, Password: password})
	}
	equal(t, forked(t, host(t, logOf(t, user("web", "word"), "web"))), 2)
	isFault(t, openFails(t, logOf(t, etcd.client(clientv3.Config{}), "web"), Options{}), "etcd refuses: etcdserver: user name is empty")
	isFault(t, openFails(t, logOf(t, user("web", "word"), "other"), Options{}), "etcd refuses: etcdserver: permission denied")
}

// A role that is taken away for a while stops nothing: calls wait.
func TestARoleThatIsTakenAway(t *testing.T) {
	etcd := startEtcd(t)
	addUsers(t, etcd)
	root := etcd.client(clientv3.Config{Username: "root", Password: "secret"})
	table := host(t, logOf(t, etcd.client(clientv3.Config{Username: "web", Password: "word"}), "web"))
	equal(t, forked(t, table), 2)
	_, err := root.UserRevokeRole(background, "web", "web")
	check(t, err)
	asked := submit(t, table, "fork 1")
	time.Sleep(time.Second)
	select {
	case <-asked.Done():
		t.Error("it is answered")
	default:
	}
	_, err = root.UserGrantRole(background, "web", "web")
	check(t, err)
	equal(t, wait(t, asked), child(3))
}

// addUsers has a member ask for users, of whom one may use the log `web`, as docs/CLUSTER.md has it.
func addUsers(t *testing.T, etcd *member) {
	t.Helper()
	client := etcd.client(clientv3.Config{})
	rights := clientv3.PermissionType(clientv3.PermReadWrite)
	for _, step := range []func() error{
		func() error { _, err := client.UserAdd(background, "root", "secret"); return err },
		func() error { _, err := client.RoleAdd(background, "root"); return err },
		func() error { _, err := client.UserGrantRole(background, "root", "root"); return err },
		func() error { _, err := client.UserAdd(background, "web", "word"); return err },
		func() error { _, err := client.RoleAdd(background, "web"); return err },
		func() error {
			_, err := client.RoleGrantPermission(background, "web", "web:", "web;", rights)
			return err
		},
		func() error { _, err := client.UserGrantRole(background, "web", "web"); return err },
		func() error { _, err := client.AuthEnable(background); return err },
	} {
		check(t, step())
	}
}

// Where etcd has no space left, calls get a NotKnown with its words, and where there is room again, they go on.
func TestNoSpace(t *testing.T) {
	etcd := startEtcd(t, "--quota-backend-bytes=4194304")
	log := etcd.log("web")
	table := open(t, log, Options{Patience: 2 * time.Second})
	lines := make([]string, 2000)
	for i := range lines {
		lines[i] = strings.Repeat("x", 200)
	}
	var err error
	for i := 0; i < 2000 && err == nil; i++ {
		_, err = table.Answers(background, lines)
	}
	isNotKnown(t, err, true, "the log has not answered for 2s (etcd: etcdserver: mvcc: database space exceeded)")
	etcd.kill()
	etcd.words[len(etcd.words)-1] = "--quota-backend-bytes=100000000"
	etcd.start()
	alarms, err := log.client.AlarmList(background)
	check(t, err)
	for _, alarm := range alarms.Alarms {
		_, err := log.client.AlarmDisarm(background, (*clientv3.AlarmMember)(alarm))
		check(t, err)
	}
	var child pidtab.Child
	until(t, "room", func() bool {
		child, err = table.Fork(1, pidtab.NoNewNamespace)
		return err == nil
	})
	equal(t, child.Root, 2)
}

func TestAnEtcdThatIsNotThere(t *testing.T) {
	noLeaks(t)
	client, err := clientv3.New(clientv3.Config{Endpoints: []string{"127.0.0.1:1", "localhost:1"}})
	check(t, err)
	t.Cleanup(func() { _ = client.Close() })
	begun := time.Now()
	_, err = Open(background, logOf(t, client, "web"), Options{Patience: 300 * time.Millisecond})
	isFault(t, err, "the log was not opened: the log has not answered for 300ms")
	if took := time.Since(begun); took > 5*time.Second {
		t.Error(took)
	}
}

// A client that was closed answers nothing any more.
func TestAClientThatIsClosed(t *testing.T) {
	etcd := startEtcd(t)
	client := etcd.client(clientv3.Config{})
	table := open(t, logOf(t, client, "web"), Options{Patience: time.Second})
	equal(t, forked(t, table), 2)
	check(t, client.Close())
	_, err := table.Fork(1, pidtab.NoNewNamespace)
	isNotKnown(t, err, true, "the log has not answered for 1s")
}

func TestNames(t *testing.T) {
	client := &clientv3.Client{}
	for _, name := range []string{"", "a:b", "a\nb", strings.Repeat("x", 201), "\xff"} {
		_, err := NewEtcdLog(client, name)
		if !errors.Is(err, ErrBadName) {
			t.Errorf("%q: %v", name, err)
		}
	}
	log, err := NewEtcdLog(client, strings.Repeat("ü", 200))
	check(t, err)
	equal(t, log.String(), fmt.Sprintf("the log %q in etcd", strings.Repeat("ü", 200)))
}
