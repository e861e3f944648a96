package cluster

import (
	"fmt"
	"os"
	"sort"
	"sync"
	"testing"
	"time"

	clientv3 "go.etcd.io/etcd/client/v3"

	"pidtab"
)

// The rows of docs/CLUSTER.md for this package: what a call costs, by three members of etcd on this machine and one host. The lines are forks, exits, waits
// and queries in equal parts. It takes half a minute, so it is asked for: PIDTAB_MEASURE=1 go test -run TestMeasure -v.
func TestMeasure(t *testing.T) {
	if os.Getenv("PIDTAB_MEASURE") == "" {
		t.Skip("PIDTAB_MEASURE is not set")
	}
	var urls []string
	members := startMembers(t, 3)
	for _, it := range members {
		urls = append(urls, it.url)
	}
	log := logOf(t, members[0].client(clientv3.Config{Endpoints: urls}), "web")
	table := open(t, log, Options{PidMax: 4194304})
	for _, clients := range []int{1, 16} {
		for _, batch := range []int{1, 32, 256} {
			fmt.Println(measure(t, table, clients, batch))
		}
	}
	fmt.Println("Stat:", median(func() { _, _ = table.Stat(1, 0) }))
	fmt.Println("CatchUp and Stat:", median(func() { _, _ = table.CatchUp(background); _, _ = table.Stat(1, 0) }))
}

// measure has clients ask for five seconds: a row of the page.
func measure(t *testing.T, table *Replicated, clients, batch int) string {
	var all sync.WaitGroup
	var lock sync.Mutex
	var took []time.Duration
	begun := time.Now()
	for i := 0; i < clients; i++ {
		child, err := table.Fork(1, pidtab.NewNamespace)
		check(t, err)
		all.Add(1)
		go func() {
			defer all.Done()
			it := &asker{table: table, root: child.Root}
			for time.Since(begun) < 5*time.Second {
				asked := time.Now()
				if err := it.ask(batch); err != nil {
					t.Error(err)
					return
				}
				lock.Lock()
				took = append(took, time.Since(asked))
				lock.Unlock()
			}
		}()
	}
	all.Wait()
	rate := float64(len(took)*batch) / time.Since(begun).Seconds()
	sort.Slice(took, func(i, j int) bool { return took[i] < took[j] })
	half, most := took[len(took)/2], took[len(took)*99/100]
	return fmt.Sprintf("| %d | %d | %.0f | %.1f ms | %.0f ms |", clients, batch, rate, half.Seconds()*1e3, most.Seconds()*1e3)
}

// An asker asks for forks, exits, waits and queries in turn, and has few tasks at a time.
type asker struct {
	table *Replicated
	root  uint32
	live  []uint32
	asked int
}

func (it *asker) line() string {
	it.asked++
	if it.asked%4 == 0 && len(it.live) > 0 {
		gone := it.live[0]
		it.live = it.live[1:]
		return fmt.Sprintf("exit %d 0", gone)
	}
	return fmt.Sprintf([]string{"fork %d", "wait %d any", "getpid %d"}[it.asked%4%3], it.root)
}

func (it *asker) ask(batch int) error {
	lines := make([]string, batch)
	for place := range lines {
		lines[place] = it.line()
	}
	answers, err := it.table.Answers(background, lines)
	for _, answer := range answers {
		var number, root uint32
		if found, _ := fmt.Sscanf(answer, "child %d root %d", &number, &root); found == 2 {
			it.live = append(it.live, root)
		}
	}
	return err
}

// median is what half of some tries take at most.
func median(do func()) time.Duration {
	var took []time.Duration
	for i := 0; i < 500; i++ {
		begun := time.Now()
		do()
		took = append(took, time.Since(begun))
	}
	sort.Slice(took, func(i, j int) bool { return took[i] < took[j] })
	return took[len(took)/2]
}
