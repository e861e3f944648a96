package pidtab

import (
	"bytes"
	"encoding/hex"
	"errors"
	"hash/crc64"
	"io"
	"math"
	"os"
	"os/exec"
	"path/filepath"
	"strings"
	"sync"
	"syscall"
	"testing"
)

const blockSize = 48

// crcOf is the CRC-64/XZ, which docs/SAVED.md names, by Go's own library.
func crcOf(summed []byte) uint64 {
	return crc64.Checksum(summed, crc64.MakeTable(crc64.ECMA))
}

// sealed are the same blocks with the checksums that belong there.
func sealed(blocks []byte) []byte {
	var summed, out []byte
	for at := 0; at < len(blocks); at += blockSize {
		summed = append(summed, blocks[at:at+40]...)
		out = append(out, blocks[at:at+40]...)
		for sum, i := crcOf(summed), 0; i < 8; i++ {
			out = append(out, byte(sum>>(8*i)))
		}
	}
	return out
}

// changed is the example of docs/SAVED.md with other bytes at a place, and the checksums of these.
func changed(t *testing.T, at int, put ...byte) []byte {
	saved := pageBytes(t)
	copy(saved[at:], put)
	return sealed(saved)
}

// pageBytes are those of the example of docs/SAVED.md.
func pageBytes(t *testing.T) []byte {
	t.Helper()
	words := strings.Fields(between(t, read(t, "docs/SAVED.md"), "```hex\n", "```"))
	saved, err := hex.DecodeString(strings.Join(words, ""))
	if err != nil {
		t.Fatal(err)
	}
	return saved
}

func answers(t *testing.T, seat *Seat, lines ...string) {
	t.Helper()
	for _, line := range lines {
		if _, err := seat.Line(line); err != nil {
			t.Error(line, err)
		}
	}
}

// example has the calls of docs/SAVED.md.
func example(t *testing.T) *Table {
	kept := open(t, withHistory(2))
	answers(t, seatOf(t, kept), "fork 1 new")
	answers(t, seatOf(t, kept), "nspid 1 2", "setpgid 1 0 -1")
	return kept
}

// A task in six namespaces, and one in seventeen: its nspid has one block more, and two.
const deep = 17

// Calls of each kind, good and refused.
var lines = []string{
	"nspid 1 17", "nspid 1 6", "exec 2", "setsid 3", "setpgid 3 0 -1", "setpgid 1 0 0", "mk 0", "mk 17", "limit 17 5", "limit 17 max",
	"move 4 17", "count 17", "count 99", "getpid 9", "getpid 99", "getppid 2", "getpgid 1 0", "getsid 1 0", "next 1 task 2",
	"next 1 group 999", "join 1 2", "subreaper 1 on", "subreaper 1 off", "exit 17 7", "wait 16 any", "wait 1 any", "exit 5 0", "wait 4 own",
	"wait 4 pid 9", "wait 1 group 7", "rm 17", "fork 1", "nspid 1 1",
}

// whole is a table with calls of each kind, of two workers, and their bytes.
func whole(t *testing.T) (*Table, []byte) {
	t.Helper()
	table := open(t, withHistory(2))
	seat := seatOf(t, table)
	for number := 1; number < deep; number++ {
		answers(t, seat, "fork "+decimal(number)+" new")
	}
	answers(t, seatOf(t, table), lines...)
	return table, bytesOf(t, table)
}

func save(t *testing.T, table *Table, to io.Writer, saved *Saved) {
	t.Helper()
	if err := table.Save(to, saved); err != nil {
		t.Error(err)
	}
}

// bytesOf is what a new save writes.
func bytesOf(t *testing.T, table *Table) []byte {
	t.Helper()
	var file bytes.Buffer
	save(t, table, &file, new(Saved))
	return file.Bytes()
}

func load(t *testing.T, saved []byte) (*Table, *Saved) {
	t.Helper()
	table, loaded, err := Load(bytes.NewReader(saved), withHistory(1))
	if err != nil {
		t.Fatal(err)
	}
	t.Cleanup(table.Close)
	return table, loaded
}

// wantFault says that the bytes do not load, with the fault and its place.
func wantFault(t *testing.T, saved []byte, err error, calls, place int) {
	t.Helper()
	_, _, found := Load(bytes.NewReader(saved), withHistory(1))
	want(t, "fault", only(found), nil, SavedError{uint64(calls), uint64(place), err})
	if !errors.Is(found, err) {
		t.Error(found)
	}
}

func wantSaved(t *testing.T, saved *Saved, calls, bytes, leftOut int) {
	t.Helper()
	want(t, "saved", of([3]uint64{saved.Calls(), saved.Bytes(), saved.LeftOut()}, nil), [3]uint64{uint64(calls), uint64(bytes), uint64(leftOut)}, nil)
}

func entriesOf(t *testing.T, table *Table) []Entry {
	t.Helper()
	entries, err := table.Entries(0, math.MaxInt)
	if err != nil {
		t.Fatal(err)
	}
	return entries
}

func wantSame(t *testing.T, one, other *Table) {
	t.Helper()
	want(t, "entries", of(one.Entries(0, math.MaxInt)), entriesOf(t, other), nil)
	list, err := other.List()
	want(t, "list", of(one.List()), list, err)
	for i := uint32(0); i < other.Settings().Workers; i++ {
		made, err := other.Worker(i)
		want(t, "worker", of(one.Worker(i)), made, err)
	}
}

// placesOf is where each entry begins, and at last the end, by docs/SAVED.md.
func placesOf(saved []byte) []int {
	places := []int{blockSize}
	for at := blockSize; at < len(saved); {
		blocks := 1
		if levels := int(saved[at+6]); saved[at+3] == 3 && levels > 4 {
			blocks += (levels - 4 + 9) / 10
		}
		at += blocks * blockSize
		places = append(places, at)
	}
	return places
}

// callsBelow is how many entries are whole in so many bytes.
func callsBelow(places []int, length int) int {
	calls := 0
	for calls+1 < len(places) && places[calls+1] <= length {
		calls++
	}
	return calls
}

// fileOf is a file with the bytes, opened to read and to write.
func fileOf(t *testing.T, saved []byte) *os.File {
	t.Helper()
	file, err := os.OpenFile(filepath.Join(t.TempDir(), "history"), os.O_RDWR|os.O_CREATE, 0o600)
	if err != nil {
		t.Fatal(err)
	}
	t.Cleanup(func() { file.Close() })
	if _, err := file.Write(saved); err != nil {
		t.Fatal(err)
	}
	return file
}

func wantFile(t *testing.T, file *os.File, wanted []byte) {
	t.Helper()
	if text, err := os.ReadFile(file.Name()); err != nil || !bytes.Equal(text, wanted) {
		t.Errorf("%d bytes and not %d: %v", len(text), len(wanted), err)
	}
}

func resume(t *testing.T, file *os.File, settings Settings) (*Table, *Saved) {
	t.Helper()
	table, saved, err := Resume(file, settings)
	if err != nil {
		t.Fatal(err)
	}
	t.Cleanup(table.Close)
	return table, saved
}

func TestTheExampleIsWrittenAndRead(t *testing.T) {
	if check := crcOf([]byte("123456789")); check != 0x995dc9bbdf1939fa || !bytes.Equal(sealed(pageBytes(t)), pageBytes(t)) {
		t.Error(check)
	}
	table, saved := example(t), new(Saved)
	var file bytes.Buffer
	save(t, table, &file, saved)
	wantSaved(t, saved, 3, 192, 0)
	want(t, "bytes", of(file.Bytes(), nil), pageBytes(t), nil)
	again, loaded := load(t, pageBytes(t))
	wantSaved(t, loaded, 3, 192, 0)
	want(t, "settings", of(again.Settings(), nil), Settings{32768, 2, 1, KeepAll, true}, nil)
	if worker := seatOf(t, again).Worker(); worker != 0 {
		t.Error(worker)
	}
	wantSame(t, again, table)
}

func TestSavedCallsOfEachKind(t *testing.T) {
	kept, saved := whole(t)
	places := placesOf(saved)
	sizes := map[int]bool{}
	for i := range places[1:] {
		sizes[(places[i+1]-places[i])/blockSize] = true
	}
	if !bytes.Equal(sealed(saved), saved) || len(sizes) != 3 || !sizes[3] {
		t.Error(sizes)
	}
	again, loaded := load(t, saved)
	wantSaved(t, loaded, len(places)-1, len(saved), 0)
	wantSame(t, again, kept)
}

// An append is what one save writes, and a loaded table goes on as the saved one.
func TestWhatGoesOnIsWhatOneTableSaves(t *testing.T) {
	table, wanted := whole(t)
	one, saved := open(t, withHistory(2)), new(Saved)
	seat, other := seatOf(t, one), seatOf(t, one)
	var file bytes.Buffer
	for number := 1; number < deep; number++ {
		answers(t, seat, "fork "+decimal(number)+" new")
		save(t, one, &file, saved)
		save(t, one, &file, saved)
	}
	answers(t, other, lines[:5]...)
	save(t, one, &file, saved)
	again, loaded := load(t, file.Bytes())
	seatOf(t, again)
	answers(t, seatOf(t, again), lines[5:]...)
	save(t, again, &file, loaded)
	want(t, "bytes", of(file.Bytes(), nil), wanted, nil)
	wantSame(t, again, table)
}

func TestCutAtEachByte(t *testing.T) {
	table, saved := whole(t)
	places, entries := placesOf(saved), entriesOf(t, table)
	for length := range saved {
		if length < blockSize {
			wantFault(t, saved[:length], ErrTorn, 0, 0)
			continue
		}
		again, loaded, err := Load(bytes.NewReader(saved[:length]), withHistory(1))
		if err != nil {
			t.Fatal(length, err)
		}
		calls := callsBelow(places, length)
		leftOut := length - places[calls]
		wantSaved(t, loaded, calls, places[calls], leftOut)
		want(t, "entries", of(again.Entries(0, math.MaxInt)), entries[:calls], nil)
		if err := again.Save(io.Discard, loaded); errors.Is(err, ErrTorn) != (leftOut != 0) {
			t.Error(length, err)
		}
		again.Close()
	}
}

func TestAFileThatIsCutGoesOn(t *testing.T) {
	table, wanted := whole(t)
	places, entries := placesOf(wanted), entriesOf(t, table)
	for length := 0; length < len(wanted); length += 7 {
		file := fileOf(t, wanted[:length])
		again, saved := resume(t, file, withHistory(2))
		calls, left := callsBelow(places, length), 0
		if length >= blockSize {
			left = places[calls]
		}
		wantSaved(t, saved, calls, places[calls], length-left)
		wantFile(t, file, wanted[:places[calls]])
		seats := []*Seat{seatOf(t, again), seatOf(t, again)}
		for _, entry := range entries[calls:] {
			seats[entry.Worker].Call(entry.Call)
		}
		save(t, again, file, saved)
		wantFile(t, file, wanted)
	}
}

func TestZeroesAtTheEnd(t *testing.T) {
	_, saved := whole(t)
	calls := len(placesOf(saved)) - 1
	for _, zeroes := range []int{1, 47, 48, 49, 4096, 100000} {
		longer := append(append([]byte(nil), saved...), make([]byte, zeroes)...)
		_, loaded := load(t, longer)
		wantSaved(t, loaded, calls, len(saved), zeroes)
		file := fileOf(t, longer)
		resume(t, file, Settings{Keep: 1})
		wantFile(t, file, saved)
		if zeroes > blockSize {
			wantFault(t, append(longer, 1), ErrWrongByte, calls, len(saved))
		}
	}
}

func TestChangedAtEachByte(t *testing.T) {
	_, saved := whole(t)
	places := placesOf(saved)
	for at := range saved {
		saved[at] ^= 1 << (at % 8)
		switch calls := callsBelow(places, at); {
		case at < 8:
			wantFault(t, saved, ErrNotSaved, 0, 0)
		case at < 12:
			wantFault(t, saved, ErrOtherVersion, 0, 0)
		case at < blockSize:
			wantFault(t, saved, ErrWrongByte, 0, 0)
		default:
			wantFault(t, saved, ErrWrongByte, calls, places[calls])
		}
		saved[at] ^= 1 << (at % 8)
	}
}

func TestAnEntryThatIsDroppedDoubledOrMoved(t *testing.T) {
	saved := pageBytes(t)
	for _, it := range []struct {
		order []int
		calls int
	}{{[]int{0, 2, 3}, 0}, {[]int{0, 1, 3}, 1}, {[]int{0, 1, 1, 2, 3}, 1}, {[]int{0, 1, 3, 2}, 1}} {
		var moved []byte
		for _, place := range it.order {
			moved = append(moved, saved[place*blockSize:(place+1)*blockSize]...)
		}
		wantFault(t, moved, ErrWrongByte, it.calls, blockSize*(1+it.calls))
	}
}

func TestEntriesThatNoTableHas(t *testing.T) {
	wantFault(t, changed(t, 72, 3), ErrDiffers, 0, 48)
	wantFault(t, changed(t, 124, 2), ErrDiffers, 1, 96)
	wantFault(t, changed(t, 149, 5), ErrDiffers, 2, 144)
	// No operation, no worker; and more levels than any task has, which would be after the end.
	wantFault(t, changed(t, 96, 19), ErrOutOfRange, 1, 96)
	wantFault(t, changed(t, 98, 2), ErrOutOfRange, 1, 96)
	wantFault(t, changed(t, 102, 34), ErrWrongByte, 1, 96)
	wantFault(t, changed(t, 102, 255), ErrWrongByte, 1, 96)
	// The second call would have the stamp 2^64 - 1.
	wantFault(t, changed(t, 16, 254, 255, 255, 255, 255, 255, 255, 255), ErrSpent, 1, 96)
	fault := SavedError{1, 96, ErrDiffers}
	if fault.Error() != "pidtab: a reply is not the saved one: call 1, saved at byte 96" {
		t.Error(fault)
	}
}

func TestHeadsOfNoTable(t *testing.T) {
	wantFault(t, changed(t, 12, 44, 1, 0, 0), ErrBadSettings, 0, 0)
	wantFault(t, changed(t, 12, 1, 0, 64, 0), ErrBadSettings, 0, 0)
	wantFault(t, changed(t, 16, 0), ErrBadSettings, 0, 0)
	wantFault(t, changed(t, 24, 0), ErrBadSettings, 0, 0)
	wantFault(t, changed(t, 24, 17), ErrBadSettings, 0, 0)
	for _, saved := range [][]byte{[]byte("fork 1\n"), {0}, make([]byte, 100), pageBytes(t)[1:]} {
		wantFault(t, saved, ErrNotSaved, 0, 0)
	}
	if fault := (SavedError{0, 0, ErrNotSaved}).Error(); fault != "pidtab: the bytes are no saved history: head" {
		t.Error(fault)
	}
}

func TestEntriesThatAreCutAsTheyLoad(t *testing.T) {
	table := open(t, withHistory(1))
	seat := seatOf(t, table)
	forked(t, seat, 100)
	file := bytes.NewBuffer(bytesOf(t, table))
	again, saved, err := Load(bytes.NewReader(file.Bytes()), Settings{Keep: 10})
	if err != nil {
		t.Fatal(err)
	}
	t.Cleanup(again.Close)
	wantCounts(t, again, 90, 100)
	forked(t, seatOf(t, again), 20)
	forked(t, seat, 20)
	wantCounts(t, again, 90, 120)
	save(t, again, file, saved)
	want(t, "bytes", of(file.Bytes(), nil), bytesOf(t, table), nil)
}

var errDevice = errors.New("the device failed")

// A device moves a byte at a time, and after so many bytes it fails.
type device struct {
	of   *bytes.Buffer
	left int
}

func (it *device) Write(from []byte) (int, error) {
	if it.left == 0 {
		return 0, errDevice
	}
	it.left--
	return it.of.Write(from[:1])
}

func (it *device) Read(to []byte) (int, error) {
	if it.left == 0 {
		return 0, errDevice
	}
	it.left--
	return it.of.Read(to[:1])
}

// After a write that failed at each byte, the next save goes on with the same byte.
func TestAWriterThatFailsAfterEachByte(t *testing.T) {
	table, wanted := whole(t)
	places := placesOf(wanted)
	for length := range wanted {
		file, saved := new(bytes.Buffer), new(Saved)
		err := table.Save(&device{file, length}, saved)
		var fault SavedError
		if !errors.Is(err, errDevice) || !errors.As(err, &fault) || fault.Bytes != saved.Bytes() || file.Len() != length {
			t.Error(length, err)
		}
		if length >= 48 && saved.Calls() != uint64(callsBelow(places, length)) {
			t.Error(length, saved.Calls())
		}
		save(t, table, &device{file, math.MaxInt}, saved)
		if !bytes.Equal(file.Bytes(), wanted) || saved.Bytes() != uint64(len(wanted)) {
			t.Error(length)
		}
	}
}

func TestAWriterThatFailsAmidCalls(t *testing.T) {
	table := open(t, withHistory(1))
	seat, file, saved := seatOf(t, table), new(bytes.Buffer), new(Saved)
	for i := 0; i < 200; i++ {
		answers(t, seat, "fork 1", "nspid 1 1", "getpid 1")
		table.Save(&device{file, i % 11 * 13}, saved)
	}
	save(t, table, file, saved)
	want(t, "bytes", of(file.Bytes(), nil), bytesOf(t, table), nil)
}

// A liar says of each write that it was so long.
type liar int

func (it liar) Write([]byte) (int, error) { return int(it), nil }

func TestWritersThatBreakTheirRules(t *testing.T) {
	table := example(t)
	want(t, "nothing", only(table.Save(liar(0), new(Saved))), nil, SavedError{0, 0, io.ErrShortWrite})
	for _, count := range []liar{-1, 49, math.MaxInt} {
		saved := new(Saved)
		if err := table.Save(count, saved); err == nil || saved.Bytes() != 0 {
			t.Error(count, err)
		}
	}
}

func TestAReaderThatFailsAfterEachByte(t *testing.T) {
	table, saved := whole(t)
	for left := range saved {
		if _, _, err := Load(&device{bytes.NewBuffer(saved), left}, withHistory(1)); !errors.Is(err, errDevice) {
			t.Error(left, err)
		}
	}
	again, _, err := Load(&device{bytes.NewBuffer(saved), math.MaxInt}, withHistory(1))
	if err != nil {
		t.Fatal(err)
	}
	t.Cleanup(again.Close)
	wantSame(t, again, table)
}

// A reader that ends too early by its own word is a fault, and no torn end.
func TestAReaderThatEndsUnexpectedly(t *testing.T) {
	cut := io.MultiReader(bytes.NewReader(pageBytes(t)[:100]), failing{io.ErrUnexpectedEOF})
	_, _, err := Load(cut, withHistory(1))
	want(t, "fault", only(err), nil, SavedError{0, 0, io.ErrUnexpectedEOF})
}

type failing struct{ err error }

func (it failing) Read([]byte) (int, error) { return 0, it.err }

func TestWhatIsSavedOfAnotherTable(t *testing.T) {
	one, other, saved, file := example(t), example(t), new(Saved), new(bytes.Buffer)
	save(t, one, file, saved)
	want(t, "other", only(other.Save(file, saved)), nil, SavedError{3, 192, ErrOtherTable})
	want(t, "bytes", of(file.Bytes(), nil), pageBytes(t), nil)
}

func TestCallsThatWereCutAway(t *testing.T) {
	table, saved, file := example(t), new(Saved), new(bytes.Buffer)
	save(t, table, file, saved)
	want(t, "cut", only(table.CheckpointAt(saved.Calls())), nil, nil)
	save(t, table, file, saved)
	want(t, "bytes", of(file.Bytes(), nil), pageBytes(t), nil)
	file.Reset()
	want(t, "too late", only(table.Save(file, new(Saved))), nil, SavedError{0, 0, ErrNotKept})
	if file.Len() != 0 {
		t.Error(file.Len())
	}
}

func TestATornEndThatIsNotTrimmed(t *testing.T) {
	file := fileOf(t, append(pageBytes(t), "torn"...))
	file.Seek(0, io.SeekStart)
	table, saved, err := Load(file, withHistory(1))
	if err != nil {
		t.Fatal(err)
	}
	t.Cleanup(table.Close)
	answers(t, seatOf(t, table), "getpid 1")
	want(t, "torn", only(table.Save(file, saved)), nil, SavedError{3, 192, ErrTorn})
	file.Seek(0, io.SeekStart)
	want(t, "trim", only(saved.Trim(file)), nil, nil)
	save(t, table, file, saved)
	wantFile(t, file, bytesOf(t, table))
}

func TestFilesThatAreBegun(t *testing.T) {
	file := fileOf(t, nil)
	table, saved := resume(t, file, Settings{PidMax: 400, Workers: 3, FirstStamp: 9, Keep: 1})
	wantSaved(t, saved, 0, 48, 0)
	want(t, "mk", of(seatOf(t, table).Mk(0)), uint64(9), nil)
	save(t, table, file, saved)
	// The settings of the file are its own.
	again, saved := resume(t, file, Settings{Keep: 5, Threads: true})
	want(t, "settings", of(again.Settings(), nil), Settings{400, 3, 9, KeepAll, true}, nil)
	wantSaved(t, saved, 1, 96, 0)
	for _, settings := range []Settings{{PidMax: 300, Keep: 1}, {Workers: 17, Keep: 1}} {
		torn := fileOf(t, []byte("\x89pid"))
		if _, _, err := Resume(torn, settings); !errors.Is(err, ErrOutOfRange) {
			t.Error(err)
		}
		wantFile(t, torn, []byte("\x89pid"))
	}
}

func opened(t *testing.T, path string, flags int) *os.File {
	t.Helper()
	file, err := os.OpenFile(path, flags, 0)
	if err != nil {
		t.Fatal(err)
	}
	t.Cleanup(func() { file.Close() })
	return file
}

func TestWhatIsNoFile(t *testing.T) {
	folder := opened(t, t.TempDir(), os.O_RDONLY)
	if _, _, err := Load(folder, withHistory(1)); !errors.Is(err, syscall.EISDIR) {
		t.Error(err)
	}
	if _, _, err := Resume(folder, withHistory(2)); !errors.Is(err, syscall.EISDIR) {
		t.Error(err)
	}
	if err := example(t).Save(opened(t, "/dev/full", os.O_WRONLY), new(Saved)); !errors.Is(err, syscall.ENOSPC) {
		t.Error(err)
	}
	// What cannot be written is not begun, and not cut.
	for _, saved := range [][]byte{nil, pageBytes(t)[:100]} {
		file := fileOf(t, saved)
		_, _, err := Resume(opened(t, file.Name(), os.O_RDONLY), withHistory(2))
		var path *os.PathError
		if !errors.As(err, &path) {
			t.Error(err)
		}
		wantFile(t, file, saved)
	}
}

func TestAFileThatDoesNotLoadStaysAsItIs(t *testing.T) {
	for _, saved := range [][]byte{changed(t, 72, 3), []byte("fork 1\n"), append(pageBytes(t), bytes.Repeat([]byte{1}, 48)...)} {
		file := fileOf(t, saved)
		if table, _, err := Resume(file, withHistory(2)); err == nil || table != nil {
			t.Error(err)
		}
		wantFile(t, file, saved)
	}
}

func TestASaveOfAClosedTable(t *testing.T) {
	table, saved, file := example(t), new(Saved), new(bytes.Buffer)
	save(t, table, file, saved)
	table.Close()
	want(t, "closed", only(table.Save(file, saved)), nil, SavedError{3, 192, ErrClosed})
	want(t, "none", only(new(Table).Save(file, new(Saved))), nil, SavedError{0, 0, ErrClosed})
	want(t, "bytes", of(file.Bytes(), nil), pageBytes(t), nil)
}

// As in a forked child, where the thread whose call was under way is not.
func TestASaveAmidACallThatDoesNotEnd(t *testing.T) {
	table, file := example(t), new(bytes.Buffer)
	table.held().raw.in_use = 255
	want(t, "busy", only(table.Save(file, new(Saved))), nil, SavedError{0, 0, ErrBusy})
	table.held().raw.in_use = 0
	if file.Len() != 0 {
		t.Error(file.Len())
	}
}

// A slow writer waits until a call of another goroutine is answered: it stops nobody.
type slow struct {
	table *Table
	of    bytes.Buffer
}

func (it *slow) Write(from []byte) (int, error) {
	answered := make(chan error)
	go func() {
		_, err := it.table.Counts()
		answered <- err
	}()
	if err := <-answered; err != nil {
		return 0, err
	}
	return it.of.Write(from)
}

func TestASlowWriterStopsNobody(t *testing.T) {
	it := &slow{table: example(t)}
	save(t, it.table, it, new(Saved))
	want(t, "bytes", of(it.of.Bytes(), nil), pageBytes(t), nil)
}

// Each save amid the calls of others is a history of one moment, and at last it is that of the table.
func TestSavesAmidCalls(t *testing.T) {
	table, saved, file := open(t, withHistory(8)), new(Saved), new(bytes.Buffer)
	var busy sync.WaitGroup
	for i := 0; i < 8; i++ {
		busy.Add(1)
		go func(seat *Seat) {
			defer busy.Done()
			for i := 0; i < 300; i++ {
				answers(t, seat, "fork 1", "getpid 1", "nspid 1 1")
			}
		}(seatOf(t, table))
	}
	for i := 0; i < 2; i++ {
		busy.Add(1)
		go func() {
			defer busy.Done()
			for i := 0; i < 50; i++ {
				save(t, table, file, saved)
				again, loaded, err := Load(bytes.NewReader(bytesOf(t, table)), withHistory(1))
				if err != nil || loaded.LeftOut() != 0 {
					t.Error(err)
					return
				}
				again.Close()
			}
		}()
	}
	busy.Wait()
	save(t, table, file, saved)
	want(t, "bytes", of(file.Bytes(), nil), bytesOf(t, table), nil)
	again, loaded := load(t, file.Bytes())
	wantSaved(t, loaded, 7200, file.Len(), 0)
	wantSame(t, again, table)
}

// said is what a program writes where it is given the bytes.
func said(t *testing.T, run *exec.Cmd, given []byte) []byte {
	t.Helper()
	run.Stdin, run.Stderr = bytes.NewReader(given), os.Stderr
	out, err := run.Output()
	if err != nil {
		t.Fatal(run, err)
	}
	return out
}

// An example of C reads what is written here.
func TestCReadsWhatIsWrittenHere(t *testing.T) {
	if _, err := exec.LookPath("cc"); err != nil {
		t.Skip(err)
	}
	if _, err := os.Stat("../../out/libpidtab.a"); err != nil {
		t.Skip(err)
	}
	_, saved := whole(t)
	code := read(t, "bindings/c/examples/lines.c")
	program := filepath.Join(t.TempDir(), "program")
	said(t, exec.Command("cc", "-x", "c", "-", "-x", "none", "-pthread", "-I../c", "../../out/libpidtab.a", "-o", program), []byte(code))
	wanted := "pid_max 32768 workers 2 first stamp 1\n"
	for i := 1; i < deep; i++ {
		wanted += decimal(i-1) + " 0 fork " + decimal(i) + " new\n"
	}
	for i, line := range lines {
		wanted += decimal(deep-1+i) + " 1 " + line + "\n"
	}
	want(t, "lines", of(string(said(t, exec.Command(program), saved)), nil), wanted, nil)
}

// Python loads what is written here, makes its calls, and saves them.
const python = `
import sys, pidtab
path, wanted = sys.argv[1], sys.stdin.buffer.read()
open(path, "wb").write(wanted)
with pidtab.Table.load(path) as loaded, pidtab.Table(keep=pidtab.ALL, workers=2) as table:
    seats = [table.seat(), table.seat()]
    for it in loaded.entries():
        seats[it.worker].answers([it.line])
    assert list(table.entries()) == list(loaded.entries())
    table.save(path + " again")
sys.stdout.buffer.write(open(path + " again", "rb").read())
`

func TestPythonWritesTheSameBytes(t *testing.T) {
	if _, err := exec.LookPath("python3"); err != nil {
		t.Skip(err)
	}
	library, err := filepath.Abs("../../out/libpidtab.so")
	if _, missing := os.Stat(library); err != nil || missing != nil {
		t.Skip(err, missing)
	}
	_, saved := whole(t)
	run := exec.Command("python3", "-B", "-c", python, filepath.Join(t.TempDir(), "history"))
	run.Env = append(os.Environ(), "PYTHONPATH=../python", "PIDTAB_LIBRARY="+library)
	want(t, "bytes", of(said(t, run, saved), nil), saved, nil)
}
