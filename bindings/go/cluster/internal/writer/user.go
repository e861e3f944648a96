package main

import (
	"context"
	"errors"
	"fmt"
	"math/rand"
	"os"
	"strconv"
	"strings"
	"syscall"
	"time"
	"unsafe"

	"pidtab/cluster"
)

// Beside calls of all kinds, lines that are none.
var others = []string{"frok", "fork 01", "fork 4294967296", strings.Repeat("x", 300), "getpid 1 ", "\xff"}

// No more of a line is in the log.
const longestSent = 201

// A user makes random calls, and has tasks and control groups of its own among those of the others.
type user struct {
	table           *cluster.Replicated
	rows            *os.File
	random          *rand.Rand
	tasks, controls []uint64
	goesOn          bool // behind calls of which it is not known whether they were made
}

// run makes calls, some lines at a time, until it has made enough or its time is over.
func (it *user) run(batch, calls int, until time.Time) error {
	for ; calls > 0 && time.Now().Before(until); calls -= batch {
		if err := it.ask(batch); err != nil {
			return err
		}
	}
	return nil
}

// ask makes some calls, and writes their rows.
func (it *user) ask(count int) error {
	lines := make([]string, count)
	for place := range lines {
		lines[place] = it.line()
	}
	asked := now()
	submitted, err := it.table.Submit(lines)
	if err != nil {
		return err
	}
	answers, err := submitted.Wait(context.Background())
	if it.goesOn && errors.As(err, new(cluster.NotKnown)) {
		return nil
	}
	if err != nil {
		return err
	}
	if err := it.write(lines, answers, submitted.Receipts(), fmt.Sprintf("%d\t%d", asked, now())); err != nil {
		return err
	}
	for place, line := range lines {
		it.take(line, answers[place])
	}
	return nil
}

// write writes a row for each answer, as `pidtab-replay --answers` reads it.
func (it *user) write(lines, answers []string, receipts []cluster.Receipt, times string) error {
	var rows strings.Builder
	at := 0
	for _, receipt := range receipts {
		for i := 0; i < receipt.Count; i++ {
			line := lines[at]
			if len(line) > longestSent {
				line = line[:longestSent]
			}
			fmt.Fprintf(&rows, "%d %d %d\t%s\t%s\t%s\n", receipt.Session, receipt.Sequence, receipt.Place+i, line, answers[at], times)
			at++
		}
	}
	_, err := it.rows.WriteString(rows.String())
	return err
}

// take reads what was made.
func (it *user) take(line, answer string) {
	words := strings.Split(answer, " ")
	switch {
	case words[0] == "child":
		it.tasks = append(it.tasks, number(words[3]))
	case words[0] == "control":
		it.controls = append(it.controls, number(words[1]))
	case strings.HasPrefix(line, "exit") && answer == "ok":
		gone := number(strings.Split(line, " ")[1])
		for place, task := range it.tasks {
			if task == gone {
				it.tasks = append(it.tasks[:place], it.tasks[place+1:]...)
				return
			}
		}
	}
}

// line is the next call.
func (it *user) line() string {
	task, control, some := it.one(it.tasks, 40), it.one(it.controls, 10), 1+it.random.Intn(199)
	if len(it.tasks) > 30 || (len(it.tasks) > 1 && it.random.Float64() < 0.15) {
		return fmt.Sprintf("exit %d %d", it.one(it.tasks[1:], len(it.tasks)), some)
	}
	switch chance := it.random.Float64(); {
	case chance < 0.03:
		return fmt.Sprintf("mk %d", control)
	case chance < 0.06:
		return others[it.random.Intn(len(others))]
	}
	forms := []string{
		fmt.Sprintf("fork %d", task), fmt.Sprintf("fork %d", task), fmt.Sprintf("fork %d new", task), fmt.Sprintf("wait %d any", task), "wait 1 any",
		fmt.Sprintf("getppid %d", task), fmt.Sprintf("nspid %d %d", task, some), fmt.Sprintf("setpgid %d 0 0", task), fmt.Sprintf("setsid %d", task),
		fmt.Sprintf("next %d group %d", task, some), fmt.Sprintf("getpgid 1 %d", some), fmt.Sprintf("join %d %d", task, some),
		fmt.Sprintf("subreaper %d on", task), fmt.Sprintf("exec %d", task), fmt.Sprintf("count %d", control), fmt.Sprintf("move %d %d", task, control),
		fmt.Sprintf("limit %d %d", control, some), fmt.Sprintf("rm %d", control),
	}
	return forms[it.random.Intn(len(forms))]
}

// one is one of the last of some numbers.
func (it *user) one(of []uint64, last int) uint64 {
	if len(of) > last {
		of = of[len(of)-last:]
	}
	return of[it.random.Intn(len(of))]
}

func number(text string) uint64 {
	found, _ := strconv.ParseUint(text, 10, 64)
	return found
}

// now is the clock that all processes of this machine share, in nanoseconds, as time.monotonic_ns of Python.
func now() int64 {
	const clockMonotonic = 1
	var at syscall.Timespec
	if _, _, fault := syscall.Syscall(syscall.SYS_CLOCK_GETTIME, clockMonotonic, uintptr(unsafe.Pointer(&at)), 0); fault != 0 {
		panic(fault)
	}
	return at.Nano()
}
