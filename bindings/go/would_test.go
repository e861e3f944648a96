package pidtab

import (
	"errors"
	"sync"
	"testing"
)

// dumped is the text of a table.
func dumped(t *testing.T, table *Table) string {
	t.Helper()
	text, err := table.Dump()
	if err != nil {
		t.Fatal(err)
	}
	return text
}

func forkOf(caller uint32) Call { return Call{Operation: OpFork, Caller: caller} }

// childIn has the numbers of a reply to a fork.
func childIn(reply Reply) Child { return Child{uint32(reply.First), uint32(reply.Second)} }

func TestAForkAsTold(t *testing.T) {
	table := open(t, Settings{})
	if _, err := table.Fork(1, NewNamespace); err != nil {
		t.Fatal(err)
	}
	before := dumped(t, table)
	told, err := table.Would(forkOf(2))
	if err != nil || childIn(told) != (Child{2, 3}) {
		t.Fatal(told, err)
	}
	for _, other := range []Child{{3, 3}, {2, 2}, {}} {
		if made, err := table.ForkAt(2, NoNewNamespace, other); made || err != nil {
			t.Fatal(other, made, err)
		}
	}
	if made, err := table.ForkAt(7, NoNewNamespace, childIn(told)); made || err != nil {
		t.Fatal(made, err)
	}
	if dumped(t, table) != before {
		t.Fatal("something has changed")
	}
	if made, err := table.ForkAt(2, NoNewNamespace, childIn(told)); !made || err != nil {
		t.Fatal(made, err)
	}
	if own, err := table.Getpid(3); own != 2 || err != nil {
		t.Fatal(own, err)
	}
	table.Close()
	if _, err := table.Would(forkOf(1)); !errors.Is(err, ErrClosed) {
		t.Fatal(err)
	}
	if made, err := table.ForkAt(1, NoNewNamespace, Child{2, 2}); made || !errors.Is(err, ErrClosed) {
		t.Fatal(made, err)
	}
}

func TestSeatsForkAsTold(t *testing.T) {
	const workers, forks = 4, 200
	table, err := Open(Settings{Workers: workers, Keep: 10, Threads: true})
	if err != nil {
		t.Fatal(err)
	}
	defer table.Close()
	var all sync.WaitGroup
	for range [workers]int{} {
		seat, err := table.Seat()
		if err != nil {
			t.Fatal(err)
		}
		all.Add(1)
		go func() {
			defer all.Done()
			for count := 0; count < forks; {
				told, err := table.Would(forkOf(1))
				if err != nil {
					t.Error(err)
					return
				}
				made, err := seat.ForkAt(1, NoNewNamespace, childIn(told))
				if err != nil {
					t.Error(err)
					return
				}
				if made {
					count++
				}
			}
		}()
	}
	all.Wait()
	counts, err := table.Counts()
	if err != nil || counts.Recorded != workers*forks {
		t.Fatal(counts, err)
	}
	if told, err := table.Ask(Call{Operation: OpCount}); err != nil || told.First != workers*forks+1 {
		t.Fatal(told, err)
	}
}
