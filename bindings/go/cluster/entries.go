package cluster

import (
	"encoding/hex"
	"strconv"
	"strings"

	"pidtab"
)

// The entries that a host writes, as docs/CLUSTER.md has them. What they mean to a table, the library knows.
const (
	form      = 2
	openEntry = "open"

	// A part of a Submit has at most so many bytes. How many parts go into an entry, the machine says.
	partBytes = 128 * 1024

	// A line with more bytes is bad, whatever it says: no more of it goes into the log than shows that.
	longestLine = 200

	// So many bytes of a digest are in an entry.
	shortDigest = 8
)

// settingsEntry is the first entry of a log.
func settingsEntry(pidMax uint32) string {
	return "pidtab-log " + decimal(form) + " pid_max " + decimal(uint64(pidMax)) + " model " + decimal(pidtab.Model)
}

// endEntry ends a session.
func endEntry(session uint64) string { return "end " + decimal(session) }

// callsEntry has calls of a session, and what its writer had at a position.
func callsEntry(session, sequence uint64, lines []string, at place) string {
	var text strings.Builder
	head := []string{"calls", decimal(session), decimal(sequence), decimal(uint64(len(lines))), decimal(at.position), shorten(at.digest)}
	text.WriteString(strings.Join(head, " "))
	for _, line := range lines {
		text.WriteByte('\n')
		text.WriteString(line)
	}
	return text.String()
}

// asSent is a line as it goes into the log.
func asSent(line string) string {
	if len(line) > longestLine {
		return line[:longestLine+1]
	}
	return line
}

// shorten is the front of a digest, as an entry has it.
func shorten(digest pidtab.LogDigest) string { return hex.EncodeToString(digest[:shortDigest]) }

func decimal(number uint64) string { return strconv.FormatUint(number, 10) }
