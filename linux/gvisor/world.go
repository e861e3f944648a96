package main

import (
	"fmt"
	"time"

	"golang.org/x/sys/unix"
	"gvisor.dev/gvisor/pkg/sentry/kernel"
)

// What a line is answered that is not asked, as by linux/on_linux.
const notAsked = "n/a"

// How long tasks may take to come to rest, and the pause between two looks.
const patience, pause = 2 * time.Second, 20 * time.Microsecond

// world is a kernel whose tasks make the calls of a script, each when all tasks are at rest.
type world struct {
	stage  *stage
	kernel *kernel.Kernel
}

func newWorld() (*world, error) {
	w := &world{stage: newStage()}
	var err error
	if w.kernel, err = boot(w.stage); err != nil {
		return nil, err
	}
	return w, w.rest()
}

// answer answers a line. The end of the root namespace's init is not asked: the kernel would end with it.
func (w *world) answer(line string) (string, error) {
	it := readCall(line)
	if it == nil || (it.number == unix.SYS_EXIT_GROUP && it.caller == 1) {
		return notAsked, nil
	}
	caller := w.kernel.RootPIDNamespace().TaskWithID(kernel.ThreadID(it.caller))
	if caller == nil || caller.ExitState() != kernel.TaskExitNone {
		return "ESRCH no-caller", nil
	}
	w.stage.give(caller, &it.order)
	if err := w.rest(caller); err != nil {
		return "", err
	}
	if it.result < 0 {
		return unix.ErrnoName(unix.Errno(-it.result)), nil
	}
	return it.say(w, caller, &it.order), nil
}

// rest waits until all tasks are at rest, and those that are named, which may have no number any more.
func (w *world) rest(named ...*kernel.Task) error {
	rested := make(chan struct{})
	go func() {
		// Twice, as a task may have come since the first look was begun.
		for !w.looksAtRest(named) || !w.looksAtRest(named) {
			time.Sleep(pause)
		}
		close(rested)
	}()
	select {
	case <-rested:
		return nil
	case <-time.After(patience):
		// A look may wait for a lock that the kernel does not give up.
		return fmt.Errorf("the kernel did not come to rest in %v", patience)
	}
}

func (w *world) looksAtRest(named []*kernel.Task) bool {
	return w.stage.allRest(append(w.kernel.RootPIDNamespace().Tasks(), named...))
}
