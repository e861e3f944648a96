package main

import (
	"encoding/binary"
	"strconv"
	"strings"

	"golang.org/x/sys/unix"
	abi "gvisor.dev/gvisor/pkg/abi/linux"
)

// call is a system call that a line asks for, and what its result says in the script language.
type call struct {
	order
	caller int64
	say    sayer
}

// form makes the system call of a line whose numbers after the caller's are these.
type form func(numbers []uint64) (order, sayer)

// forms has the system call of each command and its word.
var forms = map[string]form{
	"fork":          plain(sayChild, unix.SYS_CLONE, uint64(abi.SIGCHLD)),
	"fork new":      plain(sayChild, unix.SYS_CLONE, uint64(abi.SIGCHLD)|unix.CLONE_NEWPID),
	"exec":          execute,
	"exit":          plain(sayOk, unix.SYS_EXIT_GROUP),
	"wait any":      wait(abi.P_ALL),
	"wait pid":      wait(abi.P_PID),
	"wait group":    wait(abi.P_PGID),
	"wait own":      waitOwn,
	"setpgid":       plain(sayOk, unix.SYS_SETPGID),
	"setsid":        plain(sayNumber, unix.SYS_SETSID),
	"getpid":        plain(sayNumber, unix.SYS_GETPID),
	"getppid":       plain(sayNumber, unix.SYS_GETPPID),
	"getpgid":       plain(sayNumber, unix.SYS_GETPGID),
	"getsid":        plain(sayNumber, unix.SYS_GETSID),
	"subreaper on":  plain(sayOk, unix.SYS_PRCTL, unix.PR_SET_CHILD_SUBREAPER, 1),
	"subreaper off": plain(sayOk, unix.SYS_PRCTL, unix.PR_SET_CHILD_SUBREAPER, 0),
}

// readCall reads a line; nil for one that is not asked, as there is no such system call, or it does not take such numbers.
func readCall(line string) *call {
	words := strings.Split(line, " ")
	name := words[:1]
	var numbers []uint64
	for _, word := range words[1:] {
		number, err := strconv.ParseInt(word, 10, 32)
		if err != nil {
			name = append(name, word)
			continue
		}
		numbers = append(numbers, uint64(number))
	}
	found := forms[strings.Join(name, " ")]
	if found == nil || len(numbers) == 0 {
		return nil
	}
	it := &call{caller: int64(numbers[0])}
	it.order, it.say = found(numbers[1:])
	return it
}

// plain is a call whose arguments are these words, and after them the numbers of the line.
func plain(say sayer, number uintptr, words ...uint64) form {
	return func(numbers []uint64) (order, sayer) {
		it := order{number: number}
		copy(it.arguments[copy(it.arguments[:], words):], numbers)
		return it, say
	}
}

// execute is execve(2) of the program that the task has.
func execute([]uint64) (order, sayer) {
	memory := binary.LittleEndian.AppendUint64(nil, scratch+16)
	memory = binary.LittleEndian.AppendUint64(memory, 0)
	memory = append(memory, program+"\x00"...)
	return order{number: unix.SYS_EXECVE, arguments: [5]uint64{scratch + 16, scratch, scratch + 8}, memory: memory}, sayOk
}

// wait is waitid(2), by which a group may be the one with the number 1 too.
func wait(which uint64) form {
	return func(numbers []uint64) (order, sayer) {
		it := order{number: unix.SYS_WAITID, memory: make([]byte, signalInfoSize)}
		it.arguments = [5]uint64{which, 0, scratch, unix.WNOHANG | unix.WEXITED}
		copy(it.arguments[1:2], numbers)
		return it, sayEnded
	}
}

// waitOwn is wait4(2) for a child of the caller's group.
func waitOwn([]uint64) (order, sayer) {
	it := order{number: unix.SYS_WAIT4, memory: make([]byte, 4)}
	it.arguments = [5]uint64{0, scratch, unix.WNOHANG}
	return it, sayReaped
}
