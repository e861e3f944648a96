package pidtab

// #include <pidtab.h>
import "C"

import (
	"strconv"
	"strings"
	"syscall"
)

// ReadReply reads an answer of the script language to a call of the operation: Line of the reply is that answer. So a table that answers lines, as
// one on many hosts, has replies as values. ErrBadLine, ErrNoMemory and ErrSpent for the answers that say so; ErrOutOfRange for each other text.
func ReadReply(operation Operation, answer string) (Reply, error) {
	switch answer {
	case "bad line":
		return Reply{}, ErrBadLine
	case "no memory":
		return Reply{}, ErrNoMemory
	case "spent":
		return Reply{}, ErrSpent
	}
	reply := readWords(operation, strings.Split(answer, " "))
	// What was read of another text has another line, or none.
	if line, err := reply.Line(); err != nil || line != answer {
		return Reply{}, ErrOutOfRange
	}
	return reply, nil
}

// readWords reads the words of an answer. Of words that are none it has what it may be.
func readWords(operation Operation, words []string) Reply {
	switch words[0] {
	case "ok":
		return Reply{Kind: ReplyOK}
	case "none":
		return Reply{Kind: ReplyNoneYet}
	case "end":
		return Reply{Kind: ReplyEnd}
	case "child":
		return Reply{Kind: ReplyForked, First: numberAt(words, 1), Second: numberAt(words, 3)}
	case "control":
		return Reply{Kind: ReplyControl, First: numberAt(words, 1)}
	case "reaped":
		return Reply{Kind: ReplyReaped, First: numberAt(words, 1), Second: endAt(words, 2)}
	}
	if errno := errnoBy(words[0]); errno != 0 {
		return readRefused(errno, words)
	}
	return readNumbers(operation, words)
}

// readNumbers reads a number, a count, or the numbers of a task, which the operation tells.
func readNumbers(operation Operation, words []string) Reply {
	switch operation {
	case OpCount:
		return Reply{Kind: ReplyCounted, First: numberAt(words, 0)}
	case OpNspid:
		reply := Reply{Kind: ReplyLevels, Count: uint32(least(len(words), len(Reply{}.Levels)))}
		for i := range reply.Levels[:reply.Count] {
			reply.Levels[i] = uint32(numberAt(words, i))
		}
		return reply
	}
	return Reply{Kind: ReplyNumber, First: numberAt(words, 0)}
}

// readRefused reads a refusal.
func readRefused(errno syscall.Errno, parts []string) Reply {
	reply := Reply{Kind: ReplyRefused, Errno: errno, First: numberAt(parts, 2)}
	for number, word := range words {
		if len(parts) > 1 && string(word) == parts[1] {
			reply.Refusal = uint32(number)
		}
	}
	return reply
}

// errnoBy is the errno with the name; 0 where no refusal has it.
func errnoBy(name string) syscall.Errno {
	for errno, its := range errnoNames {
		if its == name {
			return errno
		}
	}
	return 0
}

// endAt is the status of a child that has ended, by the words from the place on.
func endAt(words []string, place int) uint64 {
	if len(words) == place+1 && words[place] == "killed" {
		return C.PIDTAB_KILLED
	}
	return numberAt(words, place+1)
}

// numberAt is the number at the place; 0 where there is none.
func numberAt(words []string, place int) uint64 {
	if place >= len(words) {
		return 0
	}
	number, _ := strconv.ParseUint(words[place], 10, 64)
	return number
}
