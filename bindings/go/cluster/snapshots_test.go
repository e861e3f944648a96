package cluster

import (
	"bytes"
	"compress/zlib"
	"crypto/sha256"
	"encoding/hex"
	"fmt"
	"strings"
	"testing"

	"pidtab"
)

// So many entries are put between two snapshots.
const many = 40

// A keeper writes snapshots into a MemoryLog, as man/pidtab-keep.1 has them, and cuts it.
type keeper struct {
	t      *testing.T
	log    *MemoryLog
	made   *machine
	at     uint64
	served []string // the announcements of the snapshots that serve
	keys   []string
	number int
}

func keep(t *testing.T, log *MemoryLog) *keeper {
	t.Helper()
	made, err := openMachine(DefaultPidMax)
	check(t, err)
	t.Cleanup(made.close)
	return &keeper{t: t, log: log, made: made}
}

// catchUp applies what the log has.
func (it *keeper) catchUp() {
	it.t.Helper()
	for _, entry := range it.log.Entries() {
		if entry.Position > it.at {
			_, err := it.made.apply(entry.Position, entry.Data)
			check(it.t, err)
			it.at = entry.Position
		}
	}
}

// text is the text of a snapshot.
func (it *keeper) text() string {
	it.t.Helper()
	head, err := it.made.stepper.(*pidtab.Replica).Write()
	check(it.t, err)
	table, err := it.made.table.Dump()
	check(it.t, err)
	return head + table
}

// save writes a snapshot, with which another host agrees or not, and cuts the log up to the older one of two.
func (it *keeper) save(isAgreed bool) {
	it.t.Helper()
	position := put(it.t, it.log, "snap")
	it.catchUp()
	text := it.text()
	sum := sha256.Sum256([]byte(text))
	var packed bytes.Buffer
	writer, err := zlib.NewWriterLevel(&packed, zlib.BestSpeed)
	check(it.t, err)
	_, err = writer.Write([]byte(text))
	check(it.t, err)
	check(it.t, writer.Close())
	digest, err := it.made.Digest(position)
	check(it.t, err)
	it.number++
	key := fmt.Sprintf("%016x-%016x", position, it.number)
	line := fmt.Sprintf("snapshot %d %x %d %x %s", position, digest, packed.Len(), sum, key)
	it.served, it.keys = append(it.served, line), append(it.keys, key)
	if len(it.served) > 2 {
		it.served, it.keys = it.served[1:], it.keys[1:]
	}
	it.put(key, packed.Bytes(), hex.EncodeToString(sum[:]), isAgreed)
	put(it.t, it.log, line)
	if len(it.served) > 1 && isAgreed {
		var cut uint64
		_, err := fmt.Sscanf(it.served[0], "snapshot %d", &cut)
		check(it.t, err)
		it.log.cutTo(cut)
	}
}

// put puts what is beside the entries.
func (it *keeper) put(key string, packed []byte, sum string, isAgreed bool) {
	it.log.mu.Lock()
	defer it.log.mu.Unlock()
	if it.log.cells == nil {
		it.log.cells = map[string][]byte{}
	}
	for number := 0; number*pieceBytes < len(packed); number++ {
		end := (number + 1) * pieceBytes
		if end > len(packed) {
			end = len(packed)
		}
		it.log.cells[fmt.Sprintf("snap/%s/%04x", key, number)] = packed[number*pieceBytes : end]
	}
	it.log.cells["snapshots"] = []byte(strings.Join(it.served, "\n"))
	if isAgreed {
		it.log.cells["ok/"+key] = []byte(sum)
	}
}

// cutTo takes the entries up to a position away.
func (log *MemoryLog) cutTo(position uint64) {
	log.mu.Lock()
	defer log.mu.Unlock()
	log.entries = log.entries[int(position)-log.cut:]
	log.cut = int(position)
}

// change changes a cell.
func (log *MemoryLog) change(name string, value []byte) {
	log.mu.Lock()
	defer log.mu.Unlock()
	if _, isThere := log.cells[name]; !isThere {
		panic("no cell " + name)
	}
	log.cells[name] = value
}

// fill makes calls, each in an entry of its own.
func fill(t *testing.T, table *Replicated) {
	t.Helper()
	for i := 0; i < many; i++ {
		_, err := table.Answers(background, []string{"fork 1", "getpid 1"})
		check(t, err)
	}
}

// saveTwice has two snapshots, and so the log cut behind the older one.
func saveTwice(t *testing.T, table *Replicated, keeper *keeper) {
	t.Helper()
	for i := 0; i < 2; i++ {
		fill(t, table)
		keeper.save(true)
	}
	fill(t, table)
}

func TestALateHostBeginsWithASnapshot(t *testing.T) {
	log := new(MemoryLog)
	table, keeper := host(t, log), keep(t, log)
	saveTwice(t, table, keeper)
	if first := log.Entries()[0].Position; first < many {
		t.Fatal(first)
	}
	late := host(t, log)
	// It has not made the calls that the snapshot has made.
	for position := uint64(1); position < many; position++ {
		_, err := late.DigestAt(position)
		equal(t, err, pidtab.ErrNotKept)
	}
	same(t, table, late)
	equal(t, forked(t, late), 3*many+2)
	equal(t, forked(t, table), 3*many+3)
	// The session of the one goes on, and that of the other begins.
	saveTwice(t, late, keeper)
	same(t, table, late, host(t, log))
}

// Nobody loads a snapshot with which no other host agrees.
func TestASnapshotWithWhichNobodyAgrees(t *testing.T) {
	log := new(MemoryLog)
	table, keeper := host(t, log), keep(t, log)
	fill(t, table)
	keeper.save(false)
	late := host(t, log)
	_, err := late.DigestAt(1)
	check(t, err)
	same(t, table, late)
}

// Where the newer one is not whole, the older one serves.
func TestASnapshotThatIsNotWhole(t *testing.T) {
	for _, damage := range []func(log *MemoryLog, key string){
		func(log *MemoryLog, key string) { log.change("snap/"+key+"/0000", nil) },
		func(log *MemoryLog, key string) { log.change("snap/"+key+"/0000", []byte("hello")) },
		func(log *MemoryLog, key string) {
			damaged := append([]byte(nil), log.cells["snap/"+key+"/0000"]...)
			damaged[len(damaged)/2] ^= 1
			log.change("snap/"+key+"/0000", damaged)
		},
		func(log *MemoryLog, key string) { log.change("ok/"+key, []byte(strings.Repeat("0", 64))) },
		func(log *MemoryLog, key string) {
			// The hosts agree, and the pieces are those of another text.
			sum := string(log.cells["ok/"+key])
			other := strings.Repeat("0", 64)
			log.change("ok/"+key, []byte(other))
			log.change("snapshots", bytes.ReplaceAll(log.cells["snapshots"], []byte(sum), []byte(other)))
		},
	} {
		log := new(MemoryLog)
		table, keeper := host(t, log), keep(t, log)
		saveTwice(t, table, keeper)
		damage(log, keeper.keys[1])
		same(t, table, host(t, log))
		damage(log, keeper.keys[0])
		isFault(t, openFails(t, log, Options{}), "the log does not begin with its settings: it was trimmed, its snapshots are lost")
	}
}

func TestWhatIsSaidOfSnapshots(t *testing.T) {
	log := new(MemoryLog)
	table, keeper := host(t, log), keep(t, log)
	saveTwice(t, table, keeper)
	log.change("snapshots", []byte("hello"))
	isFault(t, openFails(t, log, Options{}), "what the log says of its snapshots cannot be read: it announces no snapshot: \"hello\"")
}

// A snapshot whose text is that of no table, or of another position, is not loaded.
func TestASnapshotThatCannotBeRead(t *testing.T) {
	table, err := openMachine(DefaultPidMax)
	check(t, err)
	defer table.close()
	isFault(t, table.load(7, "hello"), "the snapshot of entry 7 cannot be read: ")
	log := new(MemoryLog)
	keeper := keep(t, log)
	fill(t, host(t, log))
	keeper.catchUp()
	text := keeper.text()
	isFault(t, table.load(keeper.at+1, text), fmt.Sprintf("it is that of entry %d", keeper.at))
	isFault(t, table.load(keeper.at, text[:len(text)-3]), "cannot be read: pidtab: the text is that of no table")
	other, err := openMachine(400)
	check(t, err)
	defer other.close()
	isFault(t, other.load(keeper.at, text), "other settings")
	check(t, table.load(keeper.at, text))
	again, err := table.table.Dump()
	check(t, err)
	wanted, err := keeper.made.table.Dump()
	check(t, err)
	equal(t, again, wanted)
}

// What was sent and is behind the cut has no answer, and is made once. What was answered stays, and what comes later goes on.
func TestALogThatIsCutBeforeAHostHasReadIt(t *testing.T) {
	held := new(heldLog)
	table := host(t, held)
	equal(t, forked(t, table), 2)
	other, keeper := host(t, &held.MemoryLog), keep(t, &held.MemoryLog)
	held.hold(t)
	asked := submit(t, table, "fork 1")
	until(t, "its entry", func() bool { return countCalls(held.Entries()) == 2 })
	equal(t, forked(t, other), 4)
	keeper.save(true)
	fill(t, other)
	keeper.save(true)
	held.gate.Unlock()
	_, err := asked.Wait(background)
	isNotKnown(t, err, true, "the log was cut before this host had read it: the calls were made, or were not, or will be made yet")
	equal(t, forked(t, table), many+5)
	same(t, table, other, host(t, held))
	// It was made, once: so the tables have that task.
	stat, err := other.Stat(1, 3)
	check(t, err)
	equal(t, stat.Root, 3)
}

// Where the pieces are lost, a host that is behind the cut says so.
func TestALogThatIsCutAndWhosePiecesAreLost(t *testing.T) {
	held := new(heldLog)
	table := host(t, held)
	equal(t, forked(t, table), 2)
	other, keeper := host(t, &held.MemoryLog), keep(t, &held.MemoryLog)
	held.hold(t)
	saveTwice(t, other, keeper)
	cut := held.Entries()[0].Position - 1
	for _, key := range keeper.keys {
		held.change("snap/"+key+"/0000", nil)
	}
	held.gate.Unlock()
	isFault(t, untilStopped(t, table), fmt.Sprintf("the log was cut up to entry %d, and the pieces of its snapshots are lost", cut))
}
