package pidtab

// #include <pidtab_saved.h>
import "C"

import (
	"errors"
	"fmt"
	"io"
	"os"
	"sync"
	"unsafe"
)

// Why a saved history was not loaded, or a history not saved, beside what a table answers: errors.Is finds them in a SavedError.
var (
	ErrTorn         = errors.New("pidtab: the bytes end within the head or an entry")
	ErrNotSaved     = errors.New("pidtab: the bytes are no saved history")
	ErrOtherVersion = errors.New("pidtab: the saved history is of another version")
	ErrWrongByte    = errors.New("pidtab: a byte is not the one that was written")
	ErrBadSettings  = errors.New("pidtab: no table has the settings of the head")
	ErrOtherTable   = errors.New("pidtab: what is saved is of another table")
	ErrEnded        = errors.New("pidtab: the saver has ended")
	ErrNil          = errors.New("pidtab: nil where a writer, a reader, a file, a Saved, a log, a client or a context is needed")
)

// SavedError is why a history was not saved or not loaded, and where. A reader's or a writer's own error is wrapped as it is.
type SavedError struct {
	Calls uint64 // how many calls came before the fault, each whole: the ordinal of the call at fault
	Bytes uint64 // where its entry begins; 0 is the head. Where it is not 0, the first so many bytes alone load as what came before
	Err   error  // which errors.Is and errors.As find
}

// Error tells the place and what is the matter.
func (fault SavedError) Error() string {
	if fault.Bytes == 0 {
		return fmt.Sprintf("%v: head", fault.Err)
	}
	return fmt.Sprintf("%v: call %d, saved at byte %d", fault.Err, fault.Calls, fault.Bytes)
}

// Unwrap is what is the matter.
func (fault SavedError) Unwrap() error {
	return fault.Err
}

// Saved is how far a history is saved, for Table.Save: what a writer was given, and the running checksum. Each writer has its own. The zero value
// is a history of which nothing is saved; Load and Resume give one too. Goroutines may share it, and it is never copied. Its methods
// wait for a save that is under way.
type Saved struct {
	lock    sync.Mutex
	of      *body // the table whose history it is; none before the first save
	calls   uint64
	bytes   uint64
	leftOut uint64
	sum     C.uint64_t
	part    int // so many bytes of the next call a write that failed has left after the last whole one
	isTorn  bool
}

// Calls is how many calls are saved, each whole: the ordinal of the next one.
func (saved *Saved) Calls() uint64 {
	saved.lock.Lock()
	defer saved.lock.Unlock()
	return saved.calls
}

// Bytes is how many bytes they have, with the head; 0 where there is no head yet.
func (saved *Saved) Bytes() uint64 {
	saved.lock.Lock()
	defer saved.lock.Unlock()
	return saved.bytes
}

// LeftOut is how many bytes of a torn end a load has left out after them.
func (saved *Saved) LeftOut() uint64 {
	saved.lock.Lock()
	defer saved.lock.Unlock()
	return saved.leftOut
}

// Trim cuts off the file what is after the last whole call: a torn end that a load has left out, or what a write that failed has left. Then the
// file's offset is its end, and a save goes on there. Resume does so.
func (saved *Saved) Trim(file *os.File) error {
	saved.lock.Lock()
	defer saved.lock.Unlock()
	if saved.isTorn || saved.part != 0 {
		if err := file.Truncate(int64(saved.bytes)); err != nil {
			return err
		}
	}
	saved.isTorn, saved.part = false, 0
	_, err := file.Seek(0, io.SeekEnd)
	return err
}

// Save writes the calls that were recorded since, and perhaps some that are recorded meanwhile; to a zero Saved the head comes first. So what is
// saved is always the history up to one moment. Other goroutines make calls meanwhile: the table is taken while up to 512 entries are
// copied, and for no write. Goroutines that save to one Saved take turns. At its end it wakes those in WaitSaved.
//
// What an *os.File was given survives the process, and after its Sync the machine. A call that is saved may be cut, by CheckpointAt with
// Saved.Calls.
//
// Each error is a SavedError. After that of the writer, the next Save to the same writer goes on with the byte that is missing, so nothing is lost
// or doubled. ErrNotKept where the next call to be saved was cut away, and of a table of FromDump; ErrNoHistory; ErrOtherTable; ErrTorn where a load has left out a torn
// end that is not trimmed; ErrClosed, ErrBusy; ErrNil.
func (table *Table) Save(to io.Writer, saved *Saved) error {
	if to == nil || saved == nil {
		return SavedError{Err: ErrNil}
	}
	saved.lock.Lock()
	defer saved.lock.Unlock()
	return table.held().tell(saved, table.save(to, saved))
}

// Load makes a table of a saved history, which is read to its end. It has the settings of the head, no seat is given, and each call is made
// again, and its reply compared with the saved one. It costs what the calls cost.
//
// Of the settings it looks at two: Threads, and Keep. Where that is not KeepAll, the history is cut whenever it has so many entries while it is loaded. What
// is recorded later is kept, as it is not saved yet: Settings.Keep of the table is KeepAll.
//
// A torn end, which is that of a writer that was stopped, is left out: Saved.LeftOut is its length.
//
// Each error is a SavedError, with the place of the call at fault: ErrTorn where there is no whole head, ErrNotSaved, ErrOtherVersion, ErrWrongByte,
// ErrBadSettings; ErrDiffers where its reply is another one; ErrOutOfRange, ErrSpent or ErrNoMemory where it was not made; or that of the reader.
// ErrNoHistory where Keep is 0; ErrNil.
func Load(from io.Reader, settings Settings) (*Table, *Saved, error) {
	saved := new(Saved)
	if from == nil {
		return nil, nil, saved.at(ErrNil)
	}
	table, err := loadInto(saved, from, settings)
	if err != nil {
		return nil, nil, saved.at(err)
	}
	return table, saved, nil
}

// Resume is Load from the beginning of a file, which then goes on: a torn end is cut off, and the file's offset is its end.
//
// A file that is empty, or ends within its head, is begun, and the table has these settings, with KeepAll. Those of another file are its own.
//
// The file is opened to be read and to be written, as by os.O_RDWR|os.O_CREATE. One process at a time has it. The errors are those of Load except
// ErrTorn, ErrOutOfRange for settings outside their ranges, and those of the file. ErrNil.
func Resume(file *os.File, settings Settings) (*Table, *Saved, error) {
	saved := new(Saved)
	if file == nil {
		return nil, nil, saved.at(ErrNil)
	}
	table, err := resumeInto(saved, file, settings)
	if err != nil {
		return nil, nil, saved.at(err)
	}
	return table, saved, nil
}

// save saves. The lock of what is saved is held, here and below.
func (table *Table) save(to io.Writer, saved *Saved) error {
	held := table.held()
	if saved.of != nil && saved.of != held.body {
		return ErrOtherTable
	}
	if saved.isTorn {
		return ErrTorn
	}
	counts, err := table.Counts()
	if err == nil && (held.goesOn || saved.calls < counts.FirstKept) {
		err = ErrNotKept
	}
	if err != nil {
		return err
	}
	saved.of = held.body
	if saved.bytes == 0 {
		err = saved.writeHead(to, held.settings)
	}
	if err != nil {
		return err
	}
	return saved.writeUpTo(counts.Recorded, to, func(from uint64, room []C.struct_pidtab_entry) (int, error) {
		if !held.share() {
			return 0, ErrBusy
		}
		defer held.RUnlock()
		return held.read(from, room)
	})
}

// How many entries are read at a time, as a goroutine that saves has to wait for the table among all that make calls; and how many are
// written at a time.
const (
	aTurn  = 512
	aWrite = 64
)

// at is a fault at the next call, and nothing where there is none.
func (saved *Saved) at(fault error) error {
	if fault == nil {
		return nil
	}
	return SavedError{saved.calls, saved.bytes, fault}
}

func (saved *Saved) writeHead(to io.Writer, settings Settings) error {
	head := C.struct_pidtab_saved_head{
		pid_max:     C.uint32_t(settings.PidMax),
		workers:     C.uint32_t(settings.Workers),
		first_stamp: C.uint64_t(settings.FirstStamp),
	}
	var room [C.PIDTAB_SAVED_BLOCK]byte
	var size C.size_t
	var sum C.uint64_t
	status := C.pidtab_saved_put_head(&head, unsafe.Pointer(&room[0]), C.size_t(len(room)), &size, &sum)
	if err := faultOf(uint32(status)); err != nil {
		return err
	}
	if err := saved.write(to, room[:size]); err != nil {
		return err
	}
	saved.countWhole(int(size), sum)
	return nil
}

// writeUpTo writes the entries below an ordinal, which are read a turn at a time.
func (saved *Saved) writeUpTo(recorded uint64, to io.Writer, read func(uint64, []C.struct_pidtab_entry) (int, error)) error {
	if saved.calls >= recorded {
		return nil
	}
	room := make([]C.struct_pidtab_entry, least(aTurn, int(recorded-saved.calls)))
	for saved.calls < recorded {
		count, err := read(saved.calls, room)
		for at := 0; at < count && err == nil; at += aWrite {
			err = saved.writeEntries(to, room[at:least(at+aWrite, count)])
		}
		if err != nil {
			return err
		}
	}
	return nil
}

// writeEntries writes the next entries, at most aWrite. After a write that failed, what is whole counts, and the rest is the part: so the next write
// is of the same entry, and perhaps more, and the same bytes come first.
func (saved *Saved) writeEntries(to io.Writer, entries []C.struct_pidtab_entry) error {
	var room [aWrite * C.PIDTAB_SAVED_LONGEST]byte
	var ends [aWrite]int
	var sums [aWrite]C.uint64_t
	used, sum := 0, saved.sum
	for i := range entries {
		var size C.size_t
		status := C.pidtab_saved_put(&entries[i], unsafe.Pointer(&room[used]), C.size_t(len(room)-used), &size, &sum)
		if err := faultOf(uint32(status)); err != nil {
			return err
		}
		used += int(size)
		ends[i], sums[i] = used, sum
	}
	err := saved.write(to, room[:used])
	whole := 0
	for whole < len(entries) && ends[whole] <= saved.part {
		whole++
	}
	if whole > 0 {
		saved.countWhole(ends[whole-1], sums[whole-1])
		saved.calls += uint64(whole)
	}
	return err
}

// write writes what of the bytes is not written yet. A write that is short without an error is gone on with.
func (saved *Saved) write(to io.Writer, bytes []byte) error {
	for saved.part < len(bytes) {
		count, err := to.Write(bytes[saved.part:])
		if count < 0 || count > len(bytes)-saved.part {
			return errors.New("pidtab: the writer says that it wrote more or less than it can have")
		}
		saved.part += count
		if err != nil {
			return err
		}
		if count == 0 {
			return io.ErrShortWrite
		}
	}
	return nil
}

// countWhole counts so many bytes of the part as whole; the checksum goes so far.
func (saved *Saved) countWhole(size int, sum C.uint64_t) {
	saved.part -= size
	saved.bytes += uint64(size)
	saved.sum = sum
}

// leaveOut leaves out what is after the last whole call.
func (saved *Saved) leaveOut(count uint64) {
	saved.leftOut, saved.isTorn = count, count != 0
}

// loadInto opens a table by the head, and makes the calls after it.
func loadInto(saved *Saved, from io.Reader, settings Settings) (*Table, error) {
	if settings.Keep == 0 {
		return nil, ErrNoHistory
	}
	in := &input{from: from, room: make([]byte, 1<<13)}
	head, err := in.takeHead(saved)
	if err != nil {
		return nil, err
	}
	head.Threads = settings.Threads
	table, err := Open(head)
	if err != nil {
		return nil, err
	}
	held := table.held()
	if err := held.makeAgain(saved, in, settings.Keep); err != nil {
		table.Close()
		return nil, err
	}
	saved.of, held.saving.saved = held.body, saved.calls
	return table, nil
}

// makeAgain makes the calls of the entries to the end. No other goroutine has the table yet.
func (held *heldTable) makeAgain(saved *Saved, in *input, keep uint64) error {
	var entry C.struct_pidtab_entry
	for {
		size, err := in.takeEntry(saved, &entry)
		if size == 0 || err != nil {
			return err
		}
		var place C.size_t
		status := C.pidtab_replay(&held.raw, &entry, 1, &place)
		if err := faultOf(uint32(status)); err != nil {
			return err
		}
		if keep != KeepAll {
			C.pidtab_keep(&held.raw, C.uint64_t(keep))
		}
		saved.calls++
		saved.bytes += uint64(size)
	}
}

func resumeInto(saved *Saved, file *os.File, settings Settings) (*Table, error) {
	if _, err := file.Seek(0, io.SeekStart); err != nil {
		return nil, err
	}
	table, err := loadInto(saved, file, settings)
	if err == ErrTorn {
		settings.Keep = KeepAll
		table, err = Open(settings)
	}
	if err != nil {
		return nil, err
	}
	if err = saved.Trim(file); err == nil {
		err = table.save(file, saved)
	}
	if err != nil {
		table.Close()
		return nil, err
	}
	return table, nil
}

// An input is what was read of a saved history, from start to end of the room, and is not taken yet.
type input struct {
	from       io.Reader
	room       []byte
	start, end int
	hasEnded   bool
	leftOut    C.uint64_t // so many bytes after the last whole entry are passed
}

// fill reads on where there may be less in hand than the longest entry.
func (in *input) fill() error {
	if in.end-in.start >= C.PIDTAB_SAVED_LONGEST {
		return nil
	}
	in.start, in.end = 0, copy(in.room, in.room[in.start:in.end])
	for !in.hasEnded && in.end < len(in.room) {
		count, err := in.from.Read(in.room[in.end:])
		in.end += count
		if err != nil && err != io.EOF {
			return err
		}
		in.hasEnded = err == io.EOF
	}
	return nil
}

func (in *input) takeHead(saved *Saved) (Settings, error) {
	if err := in.fill(); err != nil {
		return Settings{}, err
	}
	var head C.struct_pidtab_saved_head
	var size C.size_t
	length := in.end - in.start
	status := C.pidtab_saved_take_head(unsafe.Pointer(&in.room[in.start]), C.size_t(length), &head, &size, &saved.sum)
	switch status {
	case C.PIDTAB_DONE:
		in.start += int(size)
		saved.bytes = uint64(size)
		return Settings{PidMax: uint32(head.pid_max), Workers: uint32(head.workers), FirstStamp: uint64(head.first_stamp), Keep: KeepAll}, nil
	case C.PIDTAB_OUT_OF_RANGE:
		return Settings{}, ErrBadSettings
	case C.PIDTAB_TORN:
		saved.leaveOut(uint64(length))
	}
	return Settings{}, faultOf(uint32(status))
}

// takeEntry takes the next entry, with its size. That is 0 at the end, of which what is torn is left out.
func (in *input) takeEntry(saved *Saved, entry *C.struct_pidtab_entry) (int, error) {
	for {
		if err := in.fill(); err != nil {
			return 0, err
		}
		var size C.size_t
		rest := unsafe.Add(unsafe.Pointer(&in.room[0]), in.start)
		status := C.pidtab_saved_next(rest, C.size_t(in.end-in.start), C.bool(in.hasEnded), entry, &size, &saved.sum, &in.leftOut)
		in.start += int(size)
		switch {
		case status == C.PIDTAB_DONE && size == 0:
			saved.leaveOut(uint64(in.leftOut))
			return 0, nil
		case status == C.PIDTAB_DONE:
			return int(size), nil
		case status != C.PIDTAB_TORN:
			return 0, faultOf(uint32(status))
		}
	}
}
