// Writer is a host of its own for the tests: it makes random calls on a table, and writes a row for each answer before it makes the next. What
// it takes and says is what `python3 -m cluster.writer` of the package for Python does, so one test has hosts of both.
//
//	writer MEMBER,MEMBER.. NAME GOROUTINES BATCH CALLS SECONDS FILE
//
// It says `open`, when its users have ended `done`, behind a first line of standard input how far it is, and behind a second one it closes. With
// the variable PIDTAB_GOES_ON it goes on behind a NotKnown.
package main

import (
	"bufio"
	"context"
	"crypto/sha256"
	"errors"
	"fmt"
	"hash/fnv"
	"log"
	"math/rand"
	"os"
	"strconv"
	"strings"
	"sync"
	"time"

	clientv3 "go.etcd.io/etcd/client/v3"

	"pidtab/cluster"
)

// How often an entry is put twice, and how often its acknowledgement is lost, of 1.
const trouble = 0.05

// A troubledLog puts some entries twice, and says of some that are there that etcd does not answer.
type troubledLog struct {
	*cluster.EtcdLog
	lock   sync.Mutex
	random *rand.Rand
}

var errLost = errors.New("the acknowledgement is lost")

func (it *troubledLog) comes() bool {
	it.lock.Lock()
	defer it.lock.Unlock()
	return it.random.Float64() < trouble
}

func (it *troubledLog) Append(ctx context.Context, entry []byte) (uint64, error) {
	position, err := it.EtcdLog.Append(ctx, entry)
	if err == nil && it.comes() {
		_, err = it.EtcdLog.Append(ctx, entry)
	}
	if err == nil && it.comes() {
		err = errLost
	}
	return position, err
}

// wishes are the words of the command line.
type wishes struct {
	members                  []string
	name, file               string
	goroutines, batch, calls int
	seconds                  float64
}

func readWishes(words []string) (it wishes, err error) {
	if len(words) != 7 {
		return it, errors.New("writer MEMBER,MEMBER.. NAME GOROUTINES BATCH CALLS SECONDS FILE")
	}
	it.members, it.name, it.file = strings.Split(words[0], ","), words[1], words[6]
	for place, number := range map[int]*int{2: &it.goroutines, 3: &it.batch, 4: &it.calls} {
		if *number, err = strconv.Atoi(words[place]); err != nil {
			return it, err
		}
	}
	it.seconds, err = strconv.ParseFloat(words[5], 64)
	return it, err
}

func main() {
	it, err := readWishes(os.Args[1:])
	if err == nil {
		err = it.run()
	}
	if err != nil {
		log.Fatal(err)
	}
}

// run opens the table, and does what the first comment says.
func (it wishes) run() error {
	begun := time.Now()
	client, err := clientv3.New(clientv3.Config{Endpoints: it.members, DialKeepAliveTime: 2 * time.Second, DialKeepAliveTimeout: 2 * time.Second})
	if err != nil {
		return err
	}
	defer client.Close()
	etcd, err := cluster.NewEtcdLog(client, it.name)
	if err != nil {
		return err
	}
	shared := &troubledLog{EtcdLog: etcd, random: rand.New(rand.NewSource(time.Now().UnixNano()))}
	table, err := cluster.Open(context.Background(), shared, cluster.Options{})
	if err != nil {
		return err
	}
	defer table.Close()
	fmt.Printf("open %d %.2f\n", table.Position(), time.Since(begun).Seconds())
	if err := it.load(table); err != nil {
		return err
	}
	fmt.Println("done")
	return tell(table)
}

// tell says how far the table is, and waits until it is to be closed.
func tell(table *cluster.Replicated) error {
	input := bufio.NewScanner(os.Stdin)
	input.Scan()
	if _, err := table.CatchUp(context.Background()); err != nil {
		return err
	}
	list, err := table.List()
	if err != nil {
		return err
	}
	fmt.Printf("at %d %s %x\n", table.Position(), table.Digest(), sha256.Sum256([]byte(list)))
	input.Scan()
	table.Close()
	fmt.Println("closed")
	return nil
}

// load has users make calls: the first thing that went wrong.
func (it wishes) load(table *cluster.Replicated) error {
	rows, err := os.OpenFile(it.file, os.O_WRONLY|os.O_CREATE|os.O_APPEND, 0o666)
	if err != nil {
		return err
	}
	defer rows.Close()
	until := time.Now().Add(time.Duration(it.seconds * float64(time.Second)))
	faults := make(chan error, it.goroutines)
	for number := 0; number < it.goroutines; number++ {
		user := &user{table: table, rows: rows, random: randomOf(it.file, number), tasks: []uint64{1}, controls: []uint64{0}}
		user.goesOn = os.Getenv("PIDTAB_GOES_ON") != ""
		go func() { faults <- user.run(it.batch, it.calls/it.goroutines, until) }()
	}
	for number := 0; number < it.goroutines; number++ {
		if fault := <-faults; err == nil {
			err = fault
		}
	}
	return err
}

// randomOf are the chances of a user.
func randomOf(file string, number int) *rand.Rand {
	sum := fnv.New64a()
	fmt.Fprintln(sum, file, number)
	return rand.New(rand.NewSource(int64(sum.Sum64())))
}
