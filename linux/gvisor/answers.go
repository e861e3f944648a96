package main

import (
	"encoding/binary"
	"fmt"
	"strconv"

	"golang.org/x/sys/unix"
	abi "gvisor.dev/gvisor/pkg/abi/linux"
	"gvisor.dev/gvisor/pkg/sentry/kernel"
)

// Of a siginfo_t: its size, and where waitid(2) writes.
const signalInfoSize, codeAt, childAt, statusAt = 128, 8, 16, 24

// sayer says a result that is no error in the script language.
type sayer func(w *world, caller *kernel.Task, it *order) string

func sayOk(*world, *kernel.Task, *order) string { return "ok" }

func sayNumber(_ *world, _ *kernel.Task, it *order) string { return strconv.FormatInt(it.result, 10) }

// sayChild says the child's number where the caller is, and in the root namespace.
func sayChild(w *world, caller *kernel.Task, it *order) string {
	child := caller.PIDNamespace().TaskWithID(kernel.ThreadID(it.result))
	return fmt.Sprintf("child %d root %d", it.result, w.kernel.RootPIDNamespace().IDOfTask(child))
}

// sayEnded says what waitid(2) has written.
func sayEnded(_ *world, _ *kernel.Task, it *order) string {
	number := func(place int) uint32 { return binary.LittleEndian.Uint32(it.memory[place:]) }
	switch child := number(childAt); {
	case child == 0:
		return "none"
	case number(codeAt) == uint32(abi.CLD_EXITED):
		return fmt.Sprintf("reaped %d exit %d", child, number(statusAt))
	default:
		return fmt.Sprintf("reaped %d killed", child)
	}
}

// sayReaped says what wait4(2) has answered and written.
func sayReaped(_ *world, _ *kernel.Task, it *order) string {
	status := unix.WaitStatus(binary.LittleEndian.Uint32(it.memory))
	switch {
	case it.result == 0:
		return "none"
	case status.Exited():
		return fmt.Sprintf("reaped %d exit %d", it.result, status.ExitStatus())
	default:
		return fmt.Sprintf("reaped %d killed", it.result)
	}
}
