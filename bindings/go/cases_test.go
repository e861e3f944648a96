package pidtab

import (
	"errors"
	"fmt"
	"os"
	"path/filepath"
	"reflect"
	"strconv"
	"strings"
	"testing"
)

// A caseWorld is what a case has open: tables whose calls are made by lines, by values and by methods, if the case is not of a history alone; and
// one with a history, whose seats are all taken.
type caseWorld struct {
	*testing.T
	tables  []*Table
	kept    *Table
	seats   []*Seat
	at      int
	told    Reply // the latest
	isWhole bool
}

func (it *caseWorld) check(err error) {
	it.Helper()
	if err != nil {
		it.Fatal(err)
	}
}

func (it *caseWorld) same(found, wanted any) {
	it.Helper()
	if !reflect.DeepEqual(found, wanted) {
		it.Fatalf("%v, and not %v", found, wanted)
	}
}

// begin takes all seats, and there is no other.
func (it *caseWorld) begin(kept *Table, tables []*Table) {
	it.kept, it.tables, it.seats, it.at = kept, tables, nil, 0
	it.Cleanup(kept.Close)
	for i := uint32(0); i < kept.Settings().Workers; i++ {
		it.seats = append(it.seats, seatOf(it.T, kept))
		it.same(it.seats[i].Worker(), i)
	}
	_, err := kept.Seat()
	it.same(err, ErrNoSeat)
}

func (it *caseWorld) open(settings Settings) error {
	kept, err := Open(settings)
	isAlone := settings.Workers == 1 && settings.FirstStamp == 1 && settings.Keep == KeepAll
	var tables []*Table
	for i := 0; i < 3 && isAlone; i++ {
		table, fault := Open(Settings{PidMax: settings.PidMax})
		it.same(status(fault), status(err))
		tables = append(tables, table)
	}
	if err != nil {
		return err
	}
	it.begin(kept, tables)
	it.isWhole = settings.FirstStamp == 1
	return nil
}

func (it *caseWorld) load(text string, counts []uint64, keep uint64) error {
	kept, err := FromDump(text, Settings{Keep: keep}, counts...)
	var tables []*Table
	for i := 0; i < 3 && len(counts) == 1 && counts[0] == 0 && keep == KeepAll; i++ {
		table, fault := FromDump(text, Settings{})
		it.same(status(fault), status(err))
		tables = append(tables, table)
	}
	if err != nil {
		return err
	}
	it.begin(kept, tables)
	it.isWhole = false
	return nil
}

// reload goes on with what is made of the texts.
func (it *caseWorld) reload() {
	text, err := it.kept.Dump()
	it.check(err)
	var counts []uint64
	for i := range it.seats {
		count, err := it.kept.Worker(uint32(i))
		it.check(err)
		counts = append(counts, count)
	}
	tables, at := it.tables, it.at
	for i, table := range tables {
		again, err := table.Dump()
		it.same(told{again, err}, told{text, nil})
		tables[i] = fromDump(it.T, again)
	}
	it.check(it.load(text, counts, it.kept.Settings().Keep))
	it.tables, it.at = tables, at
	it.same(of(it.kept.Dump()), told{text, nil})
}

// call is the answer to the line, which is the same by each way.
func (it *caseWorld) call(line string) string {
	seat := it.seats[it.at]
	answer, err := seat.Line(line)
	if len(it.tables) > 0 {
		it.same(of(it.tables[0].Line(line)), told{answer, err})
	}
	if err != nil {
		return status(err)
	}
	ordinal, _ := seat.Ordinal()
	entry, err := it.kept.Entry(ordinal)
	it.check(err)
	it.told = entry.Reply
	it.same(of(entry.Call.Line()), told{line, nil})
	it.same(of(entry.Reply.Line()), told{answer, nil})
	it.same(of(ReadReply(entry.Call.Operation, answer)), told{entry.Reply, nil})
	elsewhere := CallsBy(func(call Call) (Reply, error) {
		it.same(call, entry.Call)
		return entry.Reply, nil
	})
	it.sameByMethod(elsewhere.calls, entry)
	it.same([]any{entry.Worker, sayReply(entry.Reply)}, []any{uint32(it.at), answer})
	asked := told{Reply{}, RangeError{"Call", line, "a query, as the operations say"}}
	for _, query := range queryWords {
		if strings.HasPrefix(line, query+" ") {
			asked = told{entry.Reply, nil}
		}
	}
	it.same(of(it.kept.Ask(entry.Call)), asked)
	if len(it.tables) > 0 {
		it.same(of(it.tables[1].Ask(entry.Call)), asked)
		it.same(of(it.tables[1].Would(entry.Call)), told{entry.Reply, nil})
		reply, _, err := it.tables[1].Told(entry.Call)
		it.same(of(reply, err), told{entry.Reply, nil})
		it.sameByMethod(it.tables[2].calls, entry)
	}
	return answer
}

// callOn is the call on a line, by the entry of another table.
func (it *caseWorld) callOn(line string) Call {
	kept := open(it.T, withHistory(1))
	_, err := seatOf(it.T, kept).Line(line)
	it.check(err)
	entry, err := kept.Entry(0)
	it.check(err)
	return entry.Call
}

// callTold is the answer to the line, and after it what the call does, which are the same of each table.
func (it *caseWorld) callTold(line string) string {
	seat, call := it.seats[it.at], it.callOn(line)
	reply, effects, err := seat.Told(call)
	it.check(err)
	ordinal, _ := seat.Ordinal()
	it.same(of(it.kept.Entry(ordinal)), told{Entry{ordinal, uint32(it.at), call, reply}, nil})
	for _, table := range it.tables {
		other, others, err := table.Told(call)
		it.same([]any{other, others, err}, []any{reply, effects, nil})
	}
	said := sayReply(reply)
	for _, effect := range effects {
		said += ", " + sayEffect(effect)
	}
	return said
}

// sayEffect is what has become of a task, a process group, a session or a namespace.
func sayEffect(effect Effect) string {
	switch effect.Kind {
	case EffectGroupGone:
		return fmt.Sprintf("group-gone %d", effect.Number)
	case EffectSessionGone:
		return fmt.Sprintf("session-gone %d", effect.Number)
	case EffectSpaceFell:
		return fmt.Sprintf("space-fell %d", effect.Space)
	case EffectSpaceGone:
		return fmt.Sprintf("space-gone %d", effect.Space)
	case EffectEnded:
		return fmt.Sprintf("ended %d %s", effect.Number, sayEnd(effect.Status, effect.Killed))
	case EffectAdopted:
		return fmt.Sprintf("adopted %d %d", effect.Number, effect.Parent)
	}
	return fmt.Sprintf("gone %d", effect.Number)
}

// Written by tools/interface: calls.

// byItsMethod is what the method of the call tells.
func byItsMethod(it calls, call Call) told {
	switch call.Operation {
	case OpFork:
		return of(it.Fork(call.Caller, call.Choice == 1))
	case OpGetpid:
		return of(it.Getpid(call.Caller))
	case OpNspid:
		return of(it.Nspid(call.Caller, call.Number))
	case OpExec:
		return only(it.Exec(call.Caller))
	case OpExit:
		return only(it.Exit(call.Caller, uint8(call.Number)))
	case OpWait:
		return of(it.Wait(call.Caller, []Which{Any(), Pid(call.Number), OwnGroup(), Group(call.Number)}[call.Choice]))
	case OpGetppid:
		return of(it.Getppid(call.Caller))
	case OpSetpgid:
		return only(it.Setpgid(call.Caller, call.Pid, call.Pgid))
	case OpSetsid:
		return of(it.Setsid(call.Caller))
	case OpMk:
		return of(it.Mk(call.ID))
	case OpRm:
		return only(it.Rm(call.ID))
	case OpLimit:
		if call.Choice == 0 {
			return only(it.LimitMax(call.ID))
		}
		return only(it.Limit(call.ID, call.Number))
	case OpMove:
		return only(it.Move(call.Caller, call.ID))
	case OpCount:
		return of(it.Count(call.ID))
	case OpGetpgid:
		return of(it.Getpgid(call.Caller, call.Number))
	case OpGetsid:
		return of(it.Getsid(call.Caller, call.Number))
	case OpNext:
		return of(it.Next(call.Caller, Kind(call.Choice), call.Number))
	case OpJoin:
		return only(it.Join(call.Caller, call.Number))
	case OpSubreaper:
		return only(it.Subreaper(call.Caller, call.Choice == 1))
	}
	return told{}
}

// The end of calls.

// sameByMethod makes a call by its method, which tells what the entry has.
func (it *caseWorld) sameByMethod(by calls, entry Entry) {
	found, wanted := byItsMethod(by, entry.Call), entry.Reply.Err()
	if refusal, isRefusal := wanted.(Refusal); isRefusal {
		refusal.Call, _ = entry.Call.Line()
		wanted = refusal
	}
	it.same(found.err, wanted)
	if found.err == nil {
		it.same(found.answer, answerOf(entry.Reply))
	}
}

// answerOf is what a method tells whose call has the reply.
func answerOf(reply Reply) any {
	switch reply.Kind {
	case ReplyForked:
		return Child{uint32(reply.First), uint32(reply.Second)}
	case ReplyNumber, ReplyEnd:
		return uint32(reply.First)
	case ReplyLevels:
		return reply.Levels[:reply.Count]
	case ReplyReaped:
		return reapedOf(reply.First, reply.Second)
	case ReplyNoneYet:
		return (*Reaped)(nil)
	case ReplyCounted, ReplyControl:
		return reply.First
	}
	return nil
}

// status is the name that interface/statuses.tbl has for an error, or the answer that a refusal is.
func status(err error) string {
	if refusal, isRefusal := err.(Refusal); isRefusal {
		return errnoNames[refusal.Errno] + " " + refusal.Why
	}
	if errors.Is(err, ErrOutOfRange) {
		return "OUT_OF_RANGE"
	}
	return statusNames[err]
}

// Written by tools/interface: names.

// The names of statuses, in the tables of the interface.
var statusNames = map[error]string{
	nil:           "DONE",
	ErrClosed:     "CLOSED",
	ErrNoMemory:   "NO_MEMORY",
	ErrBusy:       "BUSY",
	ErrOutOfRange: "OUT_OF_RANGE",
	ErrEmptyLine:  "EMPTY_LINE",
	ErrBadLine:    "BAD_LINE",
	ErrSpent:      "SPENT",
	ErrDiffers:    "DIFFERS",
	ErrNotKept:    "NOT_KEPT",
	ErrAgain:      "AGAIN",
	ErrNoHistory:  "NO_HISTORY",
	ErrNoThreads:  "NO_THREADS",
}

var queryWords = []string{"getpid", "nspid", "getppid", "count", "getpgid", "getsid", "next"}

// The end of names.

func joined(numbers interface{}, between string) string {
	return strings.ReplaceAll(strings.Trim(fmt.Sprint(numbers), "[]"), " ", between)
}

// sayEnd is how a task ended.
func sayEnd(status uint8, killed bool) string {
	if killed {
		return "killed"
	}
	return fmt.Sprintf("exit %d", status)
}

// sayReply is the answer that a reply is, by docs/SCRIPT.md.
func sayReply(reply Reply) string {
	switch reply.Kind {
	case ReplyForked:
		return fmt.Sprintf("child %d root %d", reply.First, reply.Second)
	case ReplyOK:
		return "ok"
	case ReplyLevels:
		return joined(reply.Levels[:reply.Count], " ")
	case ReplyReaped:
		return fmt.Sprintf("reaped %d %s", reply.First, sayEnd(uint8(reply.Second), reply.Second == 256))
	case ReplyNoneYet:
		return "none"
	case ReplyControl:
		return fmt.Sprintf("control %d", reply.First)
	case ReplyEnd:
		return "end"
	case ReplyRefused:
		return status(reply.Err())
	}
	return fmt.Sprint(reply.First)
}

// question is what a question tells, which is the same of each table; not one where the step is no question.
func (it *caseWorld) question(word string, numbers []uint64) (string, bool) {
	found, isOne := byQuestion(it.kept, word, numbers)
	if !isOne {
		return "", false
	}
	for _, table := range it.tables {
		other, _ := byQuestion(table, word, numbers)
		it.same(other, found)
	}
	return sayFound(found), true
}

// sayFound is what a question tells, in words.
func sayFound(found told) string {
	switch {
	case errors.Is(found.err, ErrOutOfRange):
		return "OUT_OF_RANGE"
	case found.err != nil:
		return status(found.err)
	}
	switch value := found.answer.(type) {
	case Stat:
		return sayStat(value)
	case SpaceStat:
		return saySpaceStat(value)
	}
	if listed := strings.Trim(fmt.Sprint(found.answer), "[]"); listed != "" {
		return listed
	}
	return "none"
}

// sayStat is a task that was read.
func sayStat(found Stat) string {
	end := "live"
	if !found.Live {
		end = sayEnd(found.Status, found.Killed)
	}
	if found.Executed {
		end += " executed"
	}
	if found.Subreaper {
		end += " subreaper"
	}
	return fmt.Sprintf("%s root %d space %d parent %d group %d session %d control %d %s", joined(found.Numbers, ","), found.Root, found.Space, found.Parent,
		found.Group, found.Session, found.Control, end)
}

// saySpaceStat is a namespace that was read.
func saySpaceStat(found SpaceStat) string {
	root, fallen := "-", ""
	if found.Init != 0 {
		root = fmt.Sprint(found.Init)
	}
	if found.Fallen {
		fallen = " fallen"
	}
	return fmt.Sprintf("space %d parent %s level %d init %s%s", found.ID, or(found.Parent, "-"), found.Level, root, fallen)
}

// Written by tools/interface: questions.

// questions are what a table answers that is no call.
type questions interface {
	Stat(caller, pid uint32) (Stat, error)
	Children(caller, pid, from uint32) ([]uint32, error)
	GroupMembers(caller, group, from uint32) ([]uint32, error)
	SessionMembers(caller, session, from uint32) ([]uint32, error)
	NamespaceMembers(caller, pid, from uint32) ([]uint32, error)
	NamespaceOwn(caller, pid, from uint32) ([]uint32, error)
	Space(id uint64) (SpaceStat, error)
	SpacesInside(id, from uint64) ([]uint64, error)
	ControlsInside(id, from uint64) ([]uint64, error)
	ControlTasks(caller uint32, control uint64, from uint32) ([]uint32, error)
}

// byQuestion is what the question of this name tells, and whether there is one.
func byQuestion(it questions, word string, n []uint64) (told, bool) {
	switch word {
	case "stat":
		return of(it.Stat(uint32(n[0]), uint32(n[1]))), true
	case "children":
		return of(it.Children(uint32(n[0]), uint32(n[1]), uint32(n[2]))), true
	case "group_members":
		return of(it.GroupMembers(uint32(n[0]), uint32(n[1]), uint32(n[2]))), true
	case "session_members":
		return of(it.SessionMembers(uint32(n[0]), uint32(n[1]), uint32(n[2]))), true
	case "namespace_members":
		return of(it.NamespaceMembers(uint32(n[0]), uint32(n[1]), uint32(n[2]))), true
	case "namespace_own":
		return of(it.NamespaceOwn(uint32(n[0]), uint32(n[1]), uint32(n[2]))), true
	case "space":
		return of(it.Space(n[0])), true
	case "spaces_inside":
		return of(it.SpacesInside(n[0], n[1])), true
	case "controls_inside":
		return of(it.ControlsInside(n[0], n[1])), true
	case "control_tasks":
		return of(it.ControlTasks(uint32(n[0]), n[1], uint32(n[2]))), true
	}
	return told{}, false
}

// The end of questions.

// read is what a step of a history tells.
func (it *caseWorld) read(word string, numbers []uint64) (found string, err error) {
	switch word {
	case "counts":
		counts, err := it.kept.Counts()
		return fmt.Sprint(counts.FirstKept, " ", counts.Recorded), err
	case "worker":
		calls, err := it.kept.Worker(uint32(numbers[0]))
		return fmt.Sprint(calls), err
	case "entry":
		entry, err := it.kept.Entry(numbers[0])
		line, _ := entry.Call.Line()
		return fmt.Sprintf("%d %s: %s", entry.Worker, line, sayReply(entry.Reply)), err
	case "read":
		entries, err := it.kept.Entries(numbers[0], int(numbers[1]))
		return fmt.Sprint(len(entries)), err
	case "checkpoint":
		return "DONE", it.kept.Checkpoint()
	}
	return "DONE", it.kept.CheckpointAt(numbers[0])
}

// sameText compares the text of the name with the one below the step.
func (it *caseWorld) sameText(word, text string) {
	texts := map[string]func() (string, error){"list": it.kept.List, "dump": it.kept.Dump, "opening": it.kept.Opening}
	it.same(of(texts[word]()), told{text, nil})
	for _, table := range it.tables {
		if texts := map[string]func() (string, error){"list": table.List, "dump": table.Dump}; texts[word] != nil {
			it.same(of(texts[word]()), told{text, nil})
		}
	}
}

// replay makes the history on a second table: the same replies, counts and list; or it stops at an entry with another reply, or of a worker that is
// none.
func (it *caseWorld) replay(change string, place uint64) {
	saved, err := it.kept.Entries(0, 1<<20)
	it.check(err)
	settings := it.kept.Settings()
	again := open(it.T, Settings{PidMax: settings.PidMax, Workers: settings.Workers, Keep: KeepAll})
	recorded := uint64(len(saved))
	switch change {
	case "differs":
		saved[place].Reply.Second += 7
		it.same(again.Replay(saved), ReplayError{int(place), ErrDiffers})
		recorded = place + 1
	case "stranger":
		saved[place].Worker = settings.Workers
		it.same(again.Replay(saved), ReplayError{int(place), outside("Entry.Worker", settings.Workers, 0, settings.Workers-1)})
		recorded = place
	default:
		it.same(again.Replay(saved), nil)
		list, err := it.kept.List()
		it.same(of(again.List()), told{list, err})
	}
	it.same(of(again.Counts()), told{Counts{0, recorded}, nil})
}

// damage is a text of which no table is made with a byte changed, or with its end cut off.
func (it *caseWorld) damage(text string) {
	for place := range text {
		bytes := []byte(text)
		bytes[place] ^= 1
		for _, wrong := range []string{text[:place], string(bytes)} {
			if _, err := FromDump(wrong, Settings{}); err == nil {
				it.Fatal(place)
			}
		}
	}
}

// lineOf is the line of the call that the numbers say.
func lineOf(numbers []string) (string, error) {
	number := func(at int) int64 { found, _ := strconv.ParseInt(numbers[at], 10, 64); return found }
	id, _ := strconv.ParseUint(numbers[2], 10, 64)
	call := Call{Operation(number(0)), uint32(number(1)), id, uint32(number(3)), uint32(number(4)), int32(number(5)), int32(number(6))}
	return call.Line()
}

// end is the end of a case.
func (it *caseWorld) end() {
	if it.isWhole {
		if counts, err := it.kept.Counts(); err == nil && counts.FirstKept == 0 {
			it.replay("", 0)
		}
	}
	it.isWhole = false
}

// step is what a step tells.
func (it *caseWorld) step(step, text string) (found string, err error) {
	words := strings.Split(step, " ")
	var numbers []uint64
	for _, word := range words[1:] {
		if number, err := strconv.ParseUint(word, 10, 64); err == nil {
			numbers = append(numbers, number)
		}
	}
	switch words[0] {
	case "case":
		it.end()
	case "open":
		it.end()
		if numbers[0] == 0 || numbers[1] == 0 || numbers[2] == 0 {
			// In Go this is no fault: it is what is not given.
			return "OUT_OF_RANGE", nil
		}
		settings := Settings{PidMax: uint32(numbers[0]), Workers: uint32(numbers[1]), FirstStamp: numbers[2], Keep: numbers[3]}
		if settings.Keep == 0 {
			settings.Keep = KeepAll
		}
		return "", it.open(settings)
	case "load":
		return "", it.load(text, numbers, KeepAll)
	case "reload":
		it.reload()
	case "seat":
		it.at = int(numbers[0])
	case "each":
		for number := numbers[0]; number <= numbers[1]; number++ {
			line := strings.ReplaceAll(strings.Join(words[3:], " "), "#", fmt.Sprint(number))
			if answer := it.call(line); strings.HasPrefix(answer, "E") {
				it.Fatal(line, answer)
			}
		}
	case "json":
		it.call(strings.Join(words[1:], " "))
		return asJSON(it.T, it.told), nil
	case "told":
		return it.callTold(strings.Join(words[1:], " ")), nil
	case "list", "dump", "opening":
		it.sameText(words[0], text)
	case "differs", "stranger":
		it.replay(words[0], numbers[0])
	case "damage":
		it.damage(text)
	case "numbers":
		return lineOf(words[1:])
	case "parse":
		_, fault := ReadList(text)
		return fmt.Sprint("line ", fault.(BadList).Line), nil
	case "counts", "worker", "entry", "read", "checkpoint", "checkpoint_at":
		return it.read(words[0], numbers)
	default:
		if told, isQuestion := it.question(words[0], numbers); isQuestion {
			return told, nil
		}
		return it.call(strings.NewReplacer(`\r`, "\r", `\0`, "\x00").Replace(step)), nil
	}
	return "", nil
}

func TestCases(t *testing.T) {
	files, err := filepath.Glob("../../interface/cases/*.cases")
	if err != nil || len(files) < 6 {
		t.Fatal(files, err)
	}
	for _, file := range files {
		bytes, err := os.ReadFile(file)
		if err != nil {
			t.Fatal(err)
		}
		world := &caseWorld{T: t}
		lines := strings.Split(strings.ReplaceAll(string(bytes), "\n\t", "\x01"), "\n")
		for _, line := range lines {
			if line == "" || line[0] == '#' {
				continue
			}
			line, text, hasText := strings.Cut(line, "\x01")
			step, wanted, _ := strings.Cut(line, " -> ")
			if hasText {
				text = strings.NewReplacer("\x01", "\n", `\r`, "\r").Replace(text) + "\n"
			}
			found, err := world.step(step, text)
			if fault, isText := err.(TextError); isText {
				found = fmt.Sprintf("line %d: %s", fault.Line, fault.Why)
			} else if err != nil {
				found = status(err)
			}
			if found != wanted {
				t.Fatalf("%s: %s: %s", file, line, found)
			}
		}
		world.end()
	}
}
