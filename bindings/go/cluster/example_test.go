package cluster_test

import (
	"context"
	"fmt"
	"log"
	"os"
	"time"

	clientv3 "go.etcd.io/etcd/client/v3"

	"pidtab"
	"pidtab/cluster"
)

// visit is what each of two hosts does: it makes a container, and waits until that of the other host is there too.
func visit(shared cluster.Log) string {
	table, err := cluster.Open(context.Background(), shared, cluster.Options{})
	if err != nil {
		log.Fatal(err)
	}
	defer table.Close()
	container, _ := table.Fork(1, pidtab.NewNamespace)
	for count := uint64(0); count < 3; time.Sleep(time.Millisecond) {
		reply, _ := table.Ask(pidtab.Call{Operation: pidtab.OpCount})
		count = reply.First
	}
	numbers, _ := table.Nspid(1, container.Root)
	listing, _ := table.Listing()
	var tasks [][]uint32
	for _, task := range listing.Tasks {
		tasks = append(tasks, task.Numbers)
	}
	return fmt.Sprint(numbers[1:], tasks)
}

// Two hosts of one log. On two machines each has an EtcdLog in the place of the MemoryLog.
func ExampleOpen() {
	shared := new(cluster.MemoryLog)
	other := make(chan string)
	go func() { other <- visit(shared) }()
	fmt.Println(visit(shared))
	fmt.Println(<-other)
	// Output:
	// [1] [[1] [2 1] [3 1]]
	// [1] [[1] [2 1] [3 1]]
}

// Many calls at a time: what is submitted before a wait goes into the log as one entry.
func ExampleReplicated_Submit() {
	table, err := cluster.Open(context.Background(), new(cluster.MemoryLog), cluster.Options{})
	if err != nil {
		log.Fatal(err)
	}
	defer table.Close()
	forks, _ := table.Submit([]string{"fork 1", "fork 1"})
	count, _ := table.Submit([]string{"count 0", "getpid 9"})
	fmt.Println(forks.Wait(context.Background()))
	fmt.Println(count.Wait(context.Background()))
	// Output:
	// [child 2 root 2 child 3 root 3] <nil>
	// [3 ESRCH no-caller] <nil>
}

// A host whose log is in the etcd of the members that the command line has.
func ExampleNewEtcdLog() {
	client, err := clientv3.New(clientv3.Config{Endpoints: os.Args[1:]})
	if err != nil {
		log.Fatal(err)
	}
	defer client.Close()
	web, err := cluster.NewEtcdLog(client, "web")
	if err != nil {
		log.Fatal(err)
	}
	table, err := cluster.Open(context.Background(), web, cluster.Options{})
	if err != nil {
		log.Fatal(err)
	}
	defer table.Close()
	fmt.Println(table.Fork(1, pidtab.NewNamespace))
}
