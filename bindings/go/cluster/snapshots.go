package cluster

import (
	"bytes"
	"compress/zlib"
	"context"
	"crypto/sha256"
	"encoding/hex"
	"fmt"
	"io"
	"regexp"
	"strconv"
	"strings"
)

// Which snapshots of a log serve, and who agrees with them, is in cells beside the log: man/pidtab-keep.1 has their names. A keeper writes them,
// and a host of this package only loads them.
const (
	servedCell  = "snapshots"
	pieceCells  = "snap/"
	agreedCells = "ok/"
	pieceBytes  = 125_000
)

// cells reads values by names, each as it is at some time; nil where there is none.
type cells func(ctx context.Context, name string) ([]byte, error)

// announced is a snapshot that is whole: the position of the entry that has asked for it, the bytes of its pieces, the sum of its text, and the name of
// the pieces.
type announced struct {
	position, size uint64
	sum, key       string
}

var announcement = regexp.MustCompile(`^snapshot (0|[1-9][0-9]{0,19}) [0-9a-f]{64} (0|[1-9][0-9]{0,19}) ([0-9a-f]{64}) ([0-9a-f]{16}-[0-9a-f]{16})$`)

// readAnnounced reads what announces a snapshot.
func readAnnounced(line string) (announced, error) {
	found := announcement.FindStringSubmatch(line)
	if found == nil {
		return announced{}, LogFault{Why: fmt.Sprintf("what the log says of its snapshots cannot be read: it announces no snapshot: %.40q", line)}
	}
	position, err := strconv.ParseUint(found[1], 10, 64)
	size, fault := strconv.ParseUint(found[2], 10, 64)
	if err != nil || fault != nil {
		return announced{}, LogFault{Why: fmt.Sprintf("what the log says of its snapshots cannot be read: a number is too large: %.40q", line)}
	}
	return announced{position, size, found[3], found[4]}, nil
}

// served are the snapshots that serve, the older one first.
type served []announced

// readServed reads which snapshots serve.
func readServed(text []byte) (served, error) {
	var all served
	for _, line := range strings.Split(string(text), "\n") {
		if line == "" {
			continue
		}
		it, err := readAnnounced(line)
		if err != nil {
			return nil, err
		}
		all = append(all, it)
	}
	return all, nil
}

// served reads which snapshots serve, of these cells.
func (from cells) served(ctx context.Context) (served, error) {
	text, err := from(ctx, servedCell)
	if err != nil {
		return nil, err
	}
	return readServed(text)
}

// cut is the position up to which the entries are taken away, or will be: 0 where none are.
func (all served) cut() uint64 {
	if len(all) < 2 {
		return 0
	}
	return all[0].position
}

// loadBehind is the newest snapshot that is agreed with and whole, for who is at a position; nil where the log has all entries that it needs. Where it
// has not, and there is no such snapshot, a LogFault.
func loadBehind(ctx context.Context, from cells, after uint64) (*Progress, error) {
	all, err := from.served(ctx)
	if err != nil || (after > 0 && after >= all.cut()) {
		return nil, err
	}
	for place := len(all) - 1; place >= 0; place-- {
		if all[place].position <= after {
			continue
		}
		text, err := loadAgreed(ctx, from, all[place])
		if err != nil {
			return nil, err
		}
		if text != "" {
			return &Progress{Position: all[place].position, Snapshot: text}, nil
		}
	}
	if after > 0 {
		return nil, LogFault{Why: fmt.Sprintf("the log was cut up to entry %d, and the pieces of its snapshots are lost", all.cut())}
	}
	return nil, nil
}

// loadAgreed is the text of a snapshot; empty where no other host agrees with it, or its pieces are not whole.
func loadAgreed(ctx context.Context, from cells, it announced) (string, error) {
	sum, err := from(ctx, agreedCells+it.key)
	if err != nil || string(sum) != it.sum {
		return "", err
	}
	var packed []byte
	for number := uint64(0); number*pieceBytes < it.size; number++ {
		piece, err := from(ctx, fmt.Sprintf("%s%s/%04x", pieceCells, it.key, number))
		if err != nil {
			return "", err
		}
		if piece == nil {
			return "", nil
		}
		packed = append(packed, piece...)
	}
	if uint64(len(packed)) != it.size {
		return "", nil
	}
	return unpack(packed, it.sum), nil
}

// unpack is the text of pieces; empty where they are not those of a text with this sum.
func unpack(packed []byte, sum string) string {
	reader, err := zlib.NewReader(bytes.NewReader(packed))
	if err != nil {
		return ""
	}
	text, err := io.ReadAll(reader)
	if err != nil {
		return ""
	}
	if found := sha256.Sum256(text); hex.EncodeToString(found[:]) != sum {
		return ""
	}
	return string(text)
}
