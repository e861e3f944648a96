package pidtab_test

import (
	"context"
	"errors"
	"fmt"
	"log"
	"math"
	"os"
	"path/filepath"
	"strings"
	"sync"

	"pidtab"
)

// opened is a new table.
func opened() *pidtab.Table {
	table, err := pidtab.Open(pidtab.Settings{})
	if err != nil {
		log.Fatal(err)
	}
	return table
}

// serve makes a container of the worker's own, and in it one process after the other.
func serve(seat *pidtab.Seat) {
	container, _ := seat.Fork(1, pidtab.NewNamespace)
	for status := uint8(0); status < 100; status++ {
		process, _ := seat.Fork(container.Root, pidtab.NoNewNamespace)
		seat.Exit(process.Root, status)
		seat.Wait(container.Root, pidtab.Pid(process.Number))
	}
}

// A table for many goroutines, with its history.
func ExampleOpen() {
	settings := pidtab.Settings{Keep: pidtab.KeepAll, Workers: 5, Threads: true}
	table, err := pidtab.Open(settings)
	if err != nil {
		log.Fatal(err)
	}
	defer table.Close()
	seat, _ := table.Seat()
	fmt.Println(seat.Getpid(1))
	fmt.Println(seat.Ordinal())
	var busy sync.WaitGroup
	for i := 1; i < 5; i++ {
		worker, _ := table.Seat()
		busy.Add(1)
		go func() {
			defer busy.Done()
			serve(worker)
		}()
	}
	busy.Wait()
	fmt.Println(table.Counts())
	fmt.Println(table.Worker(4))
	count, _ := table.Ask(pidtab.Call{Operation: pidtab.OpCount})
	fmt.Println(count.First, "live tasks")
	first, _ := table.Entry(0)
	fmt.Println(first.Call.Operation == pidtab.OpGetpid, first.Reply.First)
	history, _ := table.Entries(0, math.MaxInt)
	again, _ := pidtab.Open(settings)
	defer again.Close()
	fmt.Println(again.Replay(history))
	list, _ := table.List()
	same, _ := again.List()
	fmt.Println("the same list:", same == list)
	fmt.Println(table.CheckpointAt(7))
	fmt.Println(table.CheckpointAt(uint64(len(history))))
	fmt.Println(table.Counts())
	_, err = table.Entry(0)
	fmt.Println(err)
	// Output:
	// 1 <nil>
	// 0 true
	// {0 1205} <nil>
	// 301 <nil>
	// 5 live tasks
	// true 1
	// <nil>
	// the same list: true
	// pidtab: another number of calls was recorded by now
	// <nil>
	// {1205 1205} <nil>
	// pidtab: no entry with the ordinal is kept: it was cut away, or is not reached yet
}

// A fork and a move of its child in one go: no other goroutine finds the child in another control group.
func ExampleTable_Lock() {
	table, err := pidtab.Open(pidtab.Settings{Threads: true})
	if err != nil {
		log.Fatal(err)
	}
	defer table.Close()
	group, _ := table.Mk(0)
	held, err := table.Lock()
	if err != nil {
		log.Fatal(err)
	}
	child, _ := held.Fork(1, pidtab.NoNewNamespace)
	held.Move(child.Root, group)
	held.Unlock()
	fmt.Println(table.ControlTasks(1, group, 0))
	// Output:
	// [2] <nil>
}

// live is a supervisor's life: it goes on where the file ends, forks, and saves that.
func live(path string) error {
	file, err := os.OpenFile(path, os.O_RDWR|os.O_CREATE, 0o600)
	if err != nil {
		return err
	}
	defer file.Close()
	table, saved, err := pidtab.Resume(file, pidtab.Settings{Keep: pidtab.KeepAll, Workers: 4})
	if err != nil {
		return err
	}
	defer table.Close()
	fmt.Println("calls:", saved.Calls(), "bytes left out:", saved.LeftOut())
	seat, _ := table.Seat()
	child, _ := seat.Fork(1, pidtab.NoNewNamespace)
	if err := table.Save(file, saved); err != nil {
		return err
	}
	fmt.Println("child", child.Number)
	return file.Sync()
}

// A supervisor lives three times. Before the second a write was stopped, and before the third a byte was changed.
func ExampleResume() {
	folder, err := os.MkdirTemp("", "pidtab")
	if err != nil {
		log.Fatal(err)
	}
	defer os.RemoveAll(folder)
	history := filepath.Join(folder, "history")
	if err := live(history); err != nil {
		log.Fatal(err)
	}
	bytes, _ := os.ReadFile(history)
	bytes = append(bytes, "torn"...) // as a writer leaves it that was stopped
	os.WriteFile(history, bytes, 0o600)
	if err := live(history); err != nil {
		log.Fatal(err)
	}
	bytes[60] ^= 1
	os.WriteFile(history, bytes, 0o600)
	fmt.Println(live(history))
	// Output:
	// calls: 0 bytes left out: 0
	// child 2
	// calls: 1 bytes left out: 4
	// child 3
	// pidtab: a byte is not the one that was written: call 0, saved at byte 48
}

// A table as text, and tables of that text.
func ExampleFromDump() {
	table, err := pidtab.Open(pidtab.Settings{})
	if err != nil {
		log.Fatal(err)
	}
	child, _ := table.Fork(1, true)
	text, err := table.Dump()
	if err != nil {
		log.Fatal(err)
	}

	again, err := pidtab.FromDump(text, pidtab.Settings{})
	if err != nil {
		log.Fatal(err)
	}
	fmt.Println(again.Fork(child.Root, false))
	fmt.Println(table.Fork(child.Root, false))

	// With a history that begins there: one worker, which has made one call before.
	kept, err := pidtab.FromDump(text, pidtab.Settings{Keep: pidtab.KeepAll}, 1)
	if err != nil {
		log.Fatal(err)
	}
	seat, _ := kept.Seat()
	seat.Fork(child.Root, false)
	fmt.Println(seat.Ordinal())

	_, err = pidtab.FromDump(strings.Replace(text, "live", "dead", 1), pidtab.Settings{})
	fmt.Println(err)
	// Output:
	// {2 3} <nil>
	// {2 3} <nil>
	// 1 true
	// pidtab: the text is that of no table: line 2: bad line
}

// endAll ends tasks, and first the children of each. The root init sees all by their root numbers.
func endAll(table *pidtab.Table, tasks []uint32) {
	for _, task := range tasks {
		children, _ := table.Children(1, task, 0)
		endAll(table, children)
		if table.Exit(task, 0) == nil {
			fmt.Println(task, "ends")
		}
	}
}

// The end of a process group, with all that come from its members.
func ExampleTable_GroupMembers() {
	table := opened()
	defer table.Close()
	table.Fork(1, pidtab.NoNewNamespace)
	table.Setpgid(1, 2, 2)
	table.Fork(2, pidtab.NoNewNamespace)
	table.Fork(2, pidtab.NoNewNamespace)
	// It leaves the group, and has a child of its own.
	table.Setsid(4)
	table.Fork(4, pidtab.NoNewNamespace)
	members, err := table.GroupMembers(1, 2, 0)
	fmt.Println(members, err)
	endAll(table, members)
	// Output:
	// [2 3] <nil>
	// 3 ends
	// 5 ends
	// 4 ends
	// 2 ends
}

// reached are whom kill(2) of -1 reaches, by their root numbers: all whom its caller's namespace sees, but the init there, which is 1, and the caller.
// To a zombie it does nothing.
func reached(table *pidtab.Table, caller uint32) ([]uint32, error) {
	numbers, err := table.NamespaceMembers(caller, 0, 2)
	if err != nil {
		return nil, err
	}
	var tasks []uint32
	for _, number := range numbers {
		task, err := table.Stat(caller, number)
		if err != nil {
			return nil, err
		}
		if task.Live && task.Root != caller {
			tasks = append(tasks, task.Root)
		}
	}
	return tasks, nil
}

// Whom a kill of -1 reaches. A zombie is no caller.
func ExampleTable_NamespaceMembers() {
	table := opened()
	defer table.Close()
	// 2 is the init of a namespace, and 3, 4 and 5 are its children. 4 is a zombie, and 5 is the init of a namespace within it. 6 is beside them.
	table.Fork(1, pidtab.NewNamespace)
	table.Fork(2, pidtab.NoNewNamespace)
	table.Fork(2, pidtab.NoNewNamespace)
	table.Fork(2, pidtab.NewNamespace)
	table.Fork(1, pidtab.NoNewNamespace)
	table.Exit(4, 0)
	for caller := uint32(1); caller <= 6; caller++ {
		fmt.Println(reached(table, caller))
	}
	// Output:
	// [2 3 5 6] <nil>
	// [3 5] <nil>
	// [5] <nil>
	// [] pidtab: namespace members 4 0 2: no such process: no-caller
	// [] <nil>
	// [2 3 5] <nil>
}

// Whom the end of a session's leader reaches by its terminal (exit(3)): the foreground process group gets a SIGHUP, and all of the session lose the
// terminal. The table has no terminals: which group is in the foreground, tcgetpgrp(3) says.
func ExampleTable_SessionMembers() {
	table := opened()
	defer table.Close()
	// 2 leads a session. Its children 3 and 4 are in the foreground, in the group 3, and 5 is in its own. 6, a child of 5, leads another session.
	table.Fork(1, pidtab.NoNewNamespace)
	table.Setsid(2)
	for _, group := range []int32{3, 3, 5} {
		child, _ := table.Fork(2, pidtab.NoNewNamespace)
		table.Setpgid(2, int32(child.Number), group)
	}
	table.Fork(5, pidtab.NoNewNamespace)
	table.Setsid(6)
	fmt.Println(table.GroupMembers(2, 3, 0))
	// 0 is the session of 2, which is one of them.
	fmt.Println(table.SessionMembers(2, 0, 0))
	// Output:
	// [3 4] <nil>
	// [2 3 4 5] <nil>
}

// The namespaces that a task is in, from its own outwards.
func ExampleTable_Space() {
	table := opened()
	defer table.Close()
	// 2 is the init of a namespace, and 3 that of one within it, which ends.
	table.Fork(1, pidtab.NewNamespace)
	table.Fork(2, pidtab.NewNamespace)
	table.Exit(3, 0)
	task, err := table.Stat(1, 3)
	for id := &task.Space; err == nil && id != nil; {
		var space pidtab.SpaceStat
		space, err = table.Space(*id)
		fmt.Println("level", space.Level, "init", space.Init, "fallen", space.Fallen)
		id = space.Parent
	}
	_, err = table.Space(9)
	fmt.Println(err)
	// Output:
	// level 2 init 3 fallen true
	// level 1 init 2 fallen false
	// level 0 init 1 fallen false
	// pidtab: no namespace has the id 9: it is gone, or there was none
}

// tellSpace tells a namespace with its own tasks, and then each directly inside it. Where the init was reaped, nobody is left but zombies whose
// parents are outside.
func tellSpace(table *pidtab.Table, id uint64) {
	space, _ := table.Space(id)
	var tasks []uint32
	if space.Init != 0 {
		tasks, _ = table.NamespaceOwn(1, space.Init, 0)
	}
	fmt.Println("level", space.Level, "namespace", id, "fallen", space.Fallen, "has", tasks)
	inner, _ := table.SpacesInside(id, 0)
	for _, id := range inner {
		tellSpace(table, id)
	}
}

// The tree of namespaces, each with its own tasks.
func ExampleTable_SpacesInside() {
	table := opened()
	defer table.Close()
	// 2 is the init of a namespace, in which is its child 3, and 4 that of one within it. 5 is the init of another one, which ends.
	table.Fork(1, pidtab.NewNamespace)
	table.Fork(2, pidtab.NoNewNamespace)
	table.Fork(3, pidtab.NewNamespace)
	table.Fork(1, pidtab.NewNamespace)
	table.Exit(5, 0)
	tellSpace(table, 0)
	_, err := table.SpacesInside(9, 0)
	fmt.Println(err)
	// Output:
	// level 0 namespace 0 fallen false has [1]
	// level 1 namespace 1 fallen false has [2 3]
	// level 2 namespace 3 fallen false has [4]
	// level 1 namespace 4 fallen true has [5]
	// pidtab: no namespace has the id 9: it is gone, or there was none
}

// A fork with the numbers that were told before, or none.
func ExampleTable_ForkAt() {
	table := opened()
	defer table.Close()
	told, _ := table.Would(pidtab.Call{Operation: pidtab.OpFork, Caller: 1})
	child := pidtab.Child{Number: uint32(told.First), Root: uint32(told.Second)}
	fmt.Println(child)
	fmt.Println(table.ForkAt(1, pidtab.NoNewNamespace, child))
	fmt.Println(table.ForkAt(1, pidtab.NoNewNamespace, child))
	// Output:
	// {2 2}
	// true <nil>
	// false <nil>
}

// Whom a wait would reap, as waitid(2) with WNOWAIT says it: the child is there until it is reaped.
func ExampleTable_Would() {
	table := opened()
	defer table.Close()
	table.Fork(1, pidtab.NoNewNamespace)
	wait := pidtab.Call{Operation: pidtab.OpWait, Caller: 1}
	told, _ := table.Would(wait)
	fmt.Println(told.Line())
	table.Exit(2, 7)
	told, _ = table.Would(wait)
	fmt.Println(told.Line())
	reply, err := table.Call(wait)
	fmt.Println(reply == told, err)
	told, _ = table.Would(wait)
	fmt.Println(told.Line())
	// Output:
	// none <nil>
	// reaped 2 exit 7 <nil>
	// true <nil>
	// ECHILD no-child <nil>
}

// Calls and replies as lines of the script language.
func ExampleReply_Line() {
	table := opened()
	defer table.Close()
	for _, call := range []pidtab.Call{
		{Operation: pidtab.OpFork, Caller: 1, Choice: 1}, {Operation: pidtab.OpNspid, Caller: 1, Number: 2}, {Operation: pidtab.OpExit, Caller: 9},
	} {
		reply, _ := table.Call(call)
		line, _ := call.Line()
		answer, _ := reply.Line()
		fmt.Println(line, "is", answer)
	}
	_, err := pidtab.Reply{Kind: 99}.Line()
	fmt.Println(errors.Is(err, pidtab.ErrOutOfRange))
	// Output:
	// fork 1 new is child 2 root 2
	// nspid 1 2 is 2 1
	// exit 9 0 is ESRCH no-caller
	// true
}

// tell says what a call has done.
func tell(effect pidtab.Effect) {
	switch effect.Kind {
	case pidtab.EffectEnded:
		fmt.Println(effect.Number, "ends with", effect.Status, "is killed:", effect.Killed)
	case pidtab.EffectAdopted:
		fmt.Println(effect.Number, "is a child of", effect.Parent, "now")
	case pidtab.EffectGone:
		fmt.Println(effect.Number, "is gone")
	case pidtab.EffectGroupGone:
		fmt.Println("the process group", effect.Number, "is gone")
	case pidtab.EffectSessionGone:
		fmt.Println("the session", effect.Number, "is gone")
	case pidtab.EffectSpaceFell:
		fmt.Println("the namespace", effect.Space, "has fallen")
	case pidtab.EffectSpaceGone:
		fmt.Println("the namespace", effect.Space, "is gone")
	}
}

// What an exit does to other tasks, then what that of a namespace's init does, and then the wait for that.
func ExampleTable_Told() {
	table := opened()
	defer table.Close()
	// 2 is the init of a namespace, in which are its child 3 and the child 4 of that, which leads a session.
	table.Fork(1, pidtab.NewNamespace)
	table.Fork(2, pidtab.NoNewNamespace)
	table.Fork(3, pidtab.NoNewNamespace)
	table.Setsid(4)
	for _, call := range []pidtab.Call{
		{Operation: pidtab.OpExit, Caller: 3, Number: 7}, {Operation: pidtab.OpExit, Caller: 2, Number: 7}, {Operation: pidtab.OpWait, Caller: 1},
	} {
		_, effects, err := table.Told(call)
		fmt.Println("caller", call.Caller, err)
		for _, effect := range effects {
			tell(effect)
		}
	}
	// Output:
	// caller 3 <nil>
	// 3 ends with 7 is killed: false
	// 4 is a child of 2 now
	// caller 2 <nil>
	// 2 ends with 7 is killed: false
	// 3 is gone
	// 4 ends with 0 is killed: true
	// 4 is gone
	// the process group 4 is gone
	// the session 4 is gone
	// the namespace 1 has fallen
	// caller 1 <nil>
	// 2 is gone
	// the namespace 1 is gone
}

// tellControl tells a control group with its live tasks, and then each directly inside it.
func tellControl(table *pidtab.Table, id uint64, depth int) {
	tasks, _ := table.ControlTasks(1, id, 0)
	fmt.Println("level", depth, "control group", id, "has", tasks)
	inner, _ := table.ControlsInside(id, 0)
	for _, id := range inner {
		tellControl(table, id, depth+1)
	}
}

// The tree of control groups, as systemd-cgls shows it. A child begins in that of its parent, and a zombie counts, but is no live task.
func ExampleTable_ControlTasks() {
	table := opened()
	defer table.Close()
	service, _ := table.Mk(0)
	worker, _ := table.Mk(service)
	table.Fork(1, pidtab.NoNewNamespace)
	table.Move(2, service)
	for i := 0; i < 3; i++ {
		table.Fork(2, pidtab.NoNewNamespace)
	}
	table.Move(4, worker)
	table.Exit(5, 0)
	tellControl(table, 0, 0)
	fmt.Println(table.Count(service))
	// Output:
	// level 0 control group 0 has [1]
	// level 1 control group 1 has [2 3]
	// level 2 control group 2 has [4]
	// 4 <nil>
}

// ship tells each call once it is recorded, with its answer, until the context is done: then it has told all of them.
func ship(ctx context.Context, table *pidtab.Table) error {
	for shipped := uint64(0); ; {
		if _, err := table.WaitChanged(ctx, shipped); err != nil {
			return err
		}
		entries, err := table.Entries(shipped, 1000)
		if err != nil {
			return err
		}
		for _, entry := range entries {
			line, _ := entry.Call.Line()
			answer, _ := entry.Reply.Line()
			fmt.Println(entry.Ordinal, line, "is", answer)
		}
		shipped += uint64(len(entries))
	}
}

// Who follows a table: a goroutine that ships each call once it is recorded.
func ExampleTable_WaitChanged() {
	table, err := pidtab.Open(pidtab.Settings{Keep: pidtab.KeepAll, Threads: true})
	if err != nil {
		log.Fatal(err)
	}
	defer table.Close()
	ctx, cancel := context.WithCancel(context.Background())
	shipper := make(chan error)
	go func() { shipper <- ship(ctx, table) }()
	seat, _ := table.Seat()
	child, _ := seat.Fork(1, pidtab.NoNewNamespace)
	seat.Exit(child.Root, 7)
	seat.Wait(1, pidtab.Pid(child.Number))
	cancel()
	fmt.Println(<-shipper)
	// Output:
	// 0 fork 1 is child 2 root 2
	// 1 exit 2 7 is ok
	// 2 wait 1 pid 2 is reaped 2 exit 7
	// context canceled
}
