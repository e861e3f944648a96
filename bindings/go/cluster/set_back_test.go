package cluster

import (
	"errors"
	"fmt"
	"os"
	"os/exec"
	"path/filepath"
	"strings"
	"testing"

	clientv3 "go.etcd.io/etcd/client/v3"
)

const wasSetBack = "etcd was set back to an earlier state, or the entry was deleted; nothing was put"

// control runs etcdctl; what needs it is skipped where it is not there.
func control(t *testing.T, words ...string) {
	t.Helper()
	program, err := exec.LookPath("etcdctl")
	if err != nil {
		t.Skip("no etcdctl on PATH (Debian: etcd-client)")
	}
	command := exec.Command(program, words...)
	command.Env = append(os.Environ(), "ETCDCTL_API=3")
	said, err := command.CombinedOutput()
	if err != nil {
		t.Fatalf("%v: %s", err, said)
	}
}

// word is what a member was started with.
func (it *member) word(name string) string {
	it.t.Helper()
	for _, word := range it.words {
		if strings.HasPrefix(word, "--"+name+"=") {
			return word
		}
	}
	it.t.Fatal("no word", name)
	return ""
}

// restore has the member be as in a backup, as that of the same cluster, and others write so often then.
func (it *member) restore(backup string, others int) {
	it.t.Helper()
	it.kill()
	folder := it.word("data-dir")
	check(it.t, os.RemoveAll(strings.TrimPrefix(folder, "--data-dir=")))
	control(it.t, "snapshot", "restore", backup, it.word("name"), folder, it.word("initial-cluster"), it.word("initial-advertise-peer-urls"))
	it.start()
	client := it.client(clientv3.Config{})
	for number := 0; number < others; number++ {
		_, err := client.Put(background, "other", "")
		check(it.t, err)
	}
}

// isSetBack waits until a host has stopped for this reason.
func isSetBack(t *testing.T, step func() error) {
	t.Helper()
	var err error
	until(t, "a fault", func() bool { err = step(); return err != nil })
	var fault LogFault
	if !errors.As(err, &fault) || !strings.Contains(fault.Why, wasSetBack) {
		t.Errorf("%v", err)
	}
}

// Hosts have had answers that a restored etcd does not have: each stops, and nothing of them is put there.
func TestAnEtcdThatWasSetBack(t *testing.T) {
	for _, it := range []struct {
		others     int
		isNewFirst bool
	}{{0, false}, {500, false}, {500, true}} {
		t.Run(fmt.Sprint(it.others, it.isNewFirst), func(t *testing.T) { setBack(t, it.others, it.isNewFirst) })
	}
}

func setBack(t *testing.T, others int, isNewFirst bool) {
	etcd := startEtcd(t)
	writer, reader := host(t, etcd.log("web")), host(t, etcd.log("web"))
	for number := uint32(2); number < 7; number++ {
		equal(t, forked(t, writer), number)
	}
	backup := filepath.Join(t.TempDir(), "backup")
	control(t, "--endpoints", etcd.url, "snapshot", "save", backup)
	for number := uint32(7); number < 12; number++ {
		equal(t, forked(t, writer), number)
	}
	_, err := reader.CatchUp(background)
	check(t, err)
	last := reader.Position()
	etcd.restore(backup, others)
	log := etcd.log("web")
	if isNewFirst {
		table := host(t, log)
		equal(t, forked(t, table), 7)
		equal(t, forked(t, table), 8)
	}
	before := len(keys(t, log))
	isSetBack(t, func() error { _, err := reader.CatchUp(background); return err })
	isSetBack(t, func() error { _, err := writer.Line("fork 1"); return err })
	equal(t, reader.Position(), last)
	equal(t, writer.Position(), last)
	equal(t, len(keys(t, log)), before)
	table := host(t, log)
	if isNewFirst {
		equal(t, forked(t, table), 9)
	} else {
		equal(t, forked(t, table), 7)
	}
	same(t, table, host(t, etcd.log("web")))
}

// Each entry puts the head, by which a new host finds that the newest one was deleted.
func TestANewestEntryThatWasDeleted(t *testing.T) {
	etcd := startEtcd(t)
	log := etcd.log("web")
	table := open(t, log, Options{Patience: long})
	equal(t, forked(t, table), 2)
	table.Close()
	told, err := log.client.Get(background, "web:~head")
	check(t, err)
	_, err = log.client.Delete(background, "web:"+string(told.Kvs[0].Value))
	check(t, err)
	isFault(t, openFails(t, etcd.log("web"), Options{}), fmt.Sprintf("the newest entry of the log web, at revision %d, was deleted", told.Kvs[0].ModRevision))
}

// A log that an earlier release has begun goes on without a head, and with one from when somebody puts it.
func TestALogOfAnEarlierRelease(t *testing.T) {
	etcd := startEtcd(t)
	log := etcd.log("web")
	beginEarlier(t, log)
	one, two := host(t, log), host(t, etcd.log("web"))
	equal(t, forked(t, one), 2)
	_, err := log.client.Put(background, "other", "")
	check(t, err)
	same(t, one, two)
	equal(t, isMarked(t, log), true)
	_, head, err := log.look(background, false)
	check(t, err)
	equal(t, head, int64(0))
	_, err = log.client.Put(background, "web:~head", "")
	check(t, err)
	equal(t, forked(t, two), 3)
	end, err := log.End(background)
	check(t, err)
	equal(t, end, two.Position())
	same(t, one, two, host(t, etcd.log("web")))
}

// A host whose newest entry was cut is none of an etcd that was set back.
func TestANewestEntryThatWasCut(t *testing.T) {
	etcd := startEtcd(t)
	log := etcd.log("web")
	for number := 0; number < 9; number++ {
		put(t, log, "open")
	}
	first := newestAt(t, log, 3)
	key := func(position int) string { return fmt.Sprintf("%016x-%016x", position, position) }
	announce := func(position int) string {
		return fmt.Sprintf("snapshot %d %064x 1 %064x %s", position, position, position, key(position))
	}
	_, err := log.client.Delete(background, first.key)
	check(t, err)
	log.newest.Store(first)
	_, err = log.Append(background, []byte("open"))
	isFault(t, err, wasSetBack)
	_, err = log.client.Put(background, "web:~snapshots", announce(5)+"\n"+announce(6))
	check(t, err)
	_, err = log.Append(background, []byte("open"))
	equal(t, err, errBehind)
	// It is not behind once it has read on.
	_, _, err = log.look(background, true)
	check(t, err)
	log.newest.Store(newestAt(t, log, 9))
	put(t, log, "open")
}

// A walk over the keys goes on with them as they are, where the revision is compacted as which they were read.
func TestACompactionAmidAWalk(t *testing.T) {
	etcd := startEtcd(t)
	log := etcd.log("web")
	entries := fillLog(t, log, 20)
	first, longest := firstPage, longestPage
	t.Cleanup(func() { firstPage, longestPage = first, longest })
	firstPage, longestPage = 5, 5
	var all []Entry
	pages := 0
	err := log.Follow(background, 0, func(progress Progress) error {
		all = append(all, progress.Entries...)
		if pages++; pages == 1 {
			// One comes behind the place of the walk, with a number of long ago, and one before it; and some that have numbers of what has come.
			for _, last := range []int{0, 19, 21, 22, 23, 24, 25, 26, 27, 28} {
				log.newest.Store(newestAt(t, log, entries[last].Position))
				entries = append(entries, Entry{put(t, log, "late"), []byte("late")})
			}
			_, err := log.client.Compact(background, int64(entries[29].Position), clientv3.WithCompactPhysical())
			check(t, err)
		}
		if progress.Position >= entries[29].Position {
			return errors.New("done")
		}
		return nil
	})
	equal(t, err.Error(), "done")
	equal(t, fmt.Sprint(all), fmt.Sprint(entries))
}
