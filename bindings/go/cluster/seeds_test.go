package cluster

import (
	"fmt"
	"sync"
	"testing"

	"pidtab"
)

const (
	seeds = 60
	users = 2
	calls = 12
)

// A user has a container of its own, of which the forks have the numbers 2, 3, 4 and so on, and all kinds of calls: so an answer tells whether a call was
// lost, made twice, made out of order, or is another's.
type user struct {
	table     *Replicated
	container uint32
	made      int
}

// begin makes the container.
func (it *user) begin() error {
	child, err := it.table.Fork(1, pidtab.NewNamespace)
	it.container = child.Root
	return err
}

// step makes some calls, in one entry or in several.
func (it *user) step(roots func(root uint32)) error {
	fork, count := fmt.Sprintf("fork %d", it.container), fmt.Sprintf("getpgid %d 0", it.container)
	answers, err := it.table.Answers(background, []string{fork, count, fork, "frok"})
	if err != nil {
		return err
	}
	for _, place := range []int{0, 2} {
		var number, root uint32
		if _, err := fmt.Sscanf(answers[place], "child %d root %d", &number, &root); err != nil {
			return fmt.Errorf("%q is no answer to a fork", answers[place])
		}
		it.made++
		if int(number) != it.made+1 {
			return fmt.Errorf("the fork %d of container %d has the number %d", it.made, it.container, number)
		}
		roots(root)
	}
	if answers[1] != "0" || answers[3] != "bad line" {
		return fmt.Errorf("answers %q", answers)
	}
	child, err := it.table.Fork(it.container, pidtab.NoNewNamespace)
	if err != nil {
		return err
	}
	it.made++
	if int(child.Number) != it.made+1 {
		return fmt.Errorf("the fork %d of container %d has the number %d", it.made, it.container, child.Number)
	}
	roots(child.Root)
	// What this host has answered, its own table has.
	stat, err := it.table.Stat(it.container, child.Number)
	if err != nil || stat.Root != child.Root {
		return fmt.Errorf("the task %v is not there: %v, %w", child, stat, err)
	}
	return nil
}

// A round has some hosts of one log, with users; and all root numbers that forks have told.
type round struct {
	sync.Mutex
	log   Log
	hosts []*Replicated
	roots map[uint32]int
}

func (it *round) told(root uint32) {
	it.Lock()
	defer it.Unlock()
	it.roots[root]++
}

// run has all users of the hosts make their calls.
func (it *round) run(hosts ...*Replicated) error {
	faults := make(chan error, len(hosts)*users)
	for _, table := range hosts {
		for i := 0; i < users; i++ {
			user := &user{table: table}
			go func() {
				err := user.begin()
				it.told(user.container)
				for i := 0; err == nil && i < calls; i++ {
					err = user.step(it.told)
				}
				faults <- err
			}()
		}
	}
	var first error
	for i := 0; i < cap(faults); i++ {
		if err := <-faults; first == nil {
			first = err
		}
	}
	return first
}

// checkAll sees to it that each fork was made once: the root numbers are all from 2 on.
func (it *round) checkAll(t *testing.T, count int) {
	t.Helper()
	equal(t, len(it.roots), count)
	for root := uint32(2); int(root) < count+2; root++ {
		equal(t, it.roots[root], 1)
	}
	listing, err := it.hosts[0].Listing()
	check(t, err)
	equal(t, len(listing.Tasks), count+1)
}

// Each call is made once and in order, and its answer goes to who has asked, by a log that has troubles.
func TestSeeds(t *testing.T) {
	var repeated sync.Map
	t.Run("all", func(t *testing.T) {
		for seed := int64(1); seed <= seeds; seed++ {
			seed := seed
			t.Run(fmt.Sprint("seed ", seed), func(t *testing.T) {
				t.Parallel()
				repeated.Store(seed, playSeed(t, seed, 2+int(seed%2)))
			})
		}
	})
	// The troubles were there.
	total := 0
	repeated.Range(func(_, count any) bool {
		total += count.(int)
		return true
	})
	if total < seeds {
		t.Errorf("%d entries repeated by %d seeds", total, seeds)
	}
}

// playSeed has hosts of a log make calls, and one that comes late: how many entries came again.
func playSeed(t *testing.T, seed int64, count int) int {
	log := NewTroubledLog(seed)
	it := &round{log: log, roots: map[uint32]int{}}
	for i := 0; i < count; i++ {
		it.hosts = append(it.hosts, host(t, log))
	}
	check(t, it.run(it.hosts...))
	late := host(t, log)
	it.hosts = append(it.hosts, late)
	check(t, it.run(late))
	same(t, it.hosts...)
	it.checkAll(t, (count+1)*users*(1+3*calls))
	return countRepeated(t, log.Entries())
}

// countRepeated is how many entries come again, by a host of nobody.
func countRepeated(t *testing.T, entries []Entry) (count int) {
	it, err := openMachine(DefaultPidMax)
	check(t, err)
	defer it.close()
	for _, entry := range entries {
		applied, err := it.apply(entry.Position, entry.Data)
		check(t, err)
		if applied.Outcome == pidtab.EntryRepeated {
			count++
		}
	}
	return count
}
