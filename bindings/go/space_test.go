package pidtab

import (
	"errors"
	"reflect"
	"testing"
)

// spaceReader is what a Table reads namespaces by.
type spaceReader interface {
	Space(id uint64) (SpaceStat, error)
}

// inSpace is a namespace within the one with the id.
func inSpace(parent uint64, space SpaceStat) SpaceStat {
	space.Parent = &parent
	return space
}

// isSpace sees to it that the namespace is so.
func isSpace(t *testing.T, it spaceReader, wanted SpaceStat) {
	t.Helper()
	if found, err := it.Space(wanted.ID); err != nil || !reflect.DeepEqual(found, wanted) {
		t.Error(found, wanted, err)
	}
}

// isNoSpace sees to it that no namespace has the id.
func isNoSpace(t *testing.T, it spaceReader, id uint64, wanted string) {
	t.Helper()
	found, err := it.Space(id)
	if !errors.Is(err, ErrOutOfRange) || err.Error() != wanted || !reflect.DeepEqual(found, SpaceStat{}) {
		t.Error(found, err)
	}
}

// openSpaces has a table and a kept one. The ids are the numbers of calls: 2 is the init of 1, and 3 that of 2 within it. 4 is that of 3, in which is 5, a
// child of the root init.
func openSpaces(t *testing.T) (*Table, *Table, *Seat) {
	t.Helper()
	table, kept := open(t, Settings{}), open(t, withHistory(1))
	seat := seatOf(t, kept)
	makeBoth(t, table, seat, "fork 1 new", "fork 2 new", "fork 1 new", "join 1 4", "fork 1")
	return table, kept, seat
}

// makeBoth makes calls at both.
func makeBoth(t *testing.T, table *Table, seat *Seat, lines ...string) {
	t.Helper()
	play(t, table, lines...)
	play(t, seat, lines...)
}

// nest is what a Table answers what is directly inside by.
type nest interface {
	SpacesInside(id, from uint64) ([]uint64, error)
	ControlsInside(id, from uint64) ([]uint64, error)
}

func TestWhatIsDirectlyInside(t *testing.T) {
	table, kept, seat := openSpaces(t)
	makeBoth(t, table, seat, "mk 0", "mk 6", "mk 6")
	for _, it := range []nest{table, kept} {
		for _, row := range []struct {
			ask      func(id, from uint64) ([]uint64, error)
			id, from uint64
			wanted   []uint64
		}{
			{it.SpacesInside, 0, 0, []uint64{1, 3}}, {it.SpacesInside, 0, 2, []uint64{3}}, {it.SpacesInside, 1, 0, []uint64{2}}, {it.SpacesInside, 3, 0, []uint64{}},
			{it.ControlsInside, 0, 0, []uint64{6}}, {it.ControlsInside, 6, 0, []uint64{7, 8}}, {it.ControlsInside, 6, 8, []uint64{8}}, {it.ControlsInside, 7, 0, []uint64{}},
			{it.ControlsInside, 6, 1<<64 - 1, []uint64{}},
		} {
			if found, err := row.ask(row.id, row.from); err != nil || !reflect.DeepEqual(found, row.wanted) {
				t.Error(row.id, row.from, found, row.wanted, err)
			}
		}
		if found, err := it.SpacesInside(6, 0); found != nil || !errors.Is(err, ErrOutOfRange) || err.Error() != "pidtab: no namespace has the id 6: it is gone, or there was none" {
			t.Error(found, err)
		}
		if found, err := it.ControlsInside(1, 0); found != nil || !errors.Is(err, ErrOutOfRange) || err.Error() != "pidtab: no control group has the id 1: it is gone, or there was none" {
			t.Error(found, err)
		}
	}
	if counts, err := kept.Counts(); err != nil || counts.Recorded != 8 {
		t.Error(counts, err)
	}
	table.Close()
	kept.Close()
	for _, it := range []nest{table, kept} {
		if _, err := it.SpacesInside(0, 0); !errors.Is(err, ErrClosed) {
			t.Error(err)
		}
	}
}

func TestMoreInsideThanThereIsRoomForAtFirst(t *testing.T) {
	table, wanted := open(t, Settings{}), []uint64{}
	for id := uint64(1); id < 3*shortPage; id++ {
		play(t, table, "mk 0")
		wanted = append(wanted, id)
		if found, err := table.ControlsInside(0, 0); err != nil || !reflect.DeepEqual(found, wanted) {
			t.Fatal(found, err)
		}
	}
}

func TestNamespaces(t *testing.T) {
	table, kept, seat := openSpaces(t)
	both := []spaceReader{table, kept}
	for _, it := range both {
		isSpace(t, it, SpaceStat{ID: 0, Level: 0, Init: 1})
		isSpace(t, it, inSpace(0, SpaceStat{ID: 1, Level: 1, Init: 2}))
		isSpace(t, it, inSpace(1, SpaceStat{ID: 2, Level: 2, Init: 3}))
		isSpace(t, it, inSpace(0, SpaceStat{ID: 3, Level: 1, Init: 4}))
		// 4 is the number of a call that made no namespace, and 6 of no call.
		isNoSpace(t, it, 4, "pidtab: no namespace has the id 4: it is gone, or there was none")
		isNoSpace(t, it, 6, "pidtab: no namespace has the id 6: it is gone, or there was none")
		isNoSpace(t, it, 1<<64-1, "pidtab: no namespace has the id 18446744073709551615: it is gone, or there was none")
	}
	makeBoth(t, table, seat, "exit 4 7")
	for _, it := range both {
		isSpace(t, it, inSpace(0, SpaceStat{ID: 3, Level: 1, Init: 4, Fallen: true}))
	}
	makeBoth(t, table, seat, "wait 1 pid 4")
	for _, it := range both {
		isSpace(t, it, inSpace(0, SpaceStat{ID: 3, Level: 1, Fallen: true}))
	}
	makeBoth(t, table, seat, "wait 1 pid 5", "exit 2 0")
	for _, it := range both {
		isNoSpace(t, it, 3, "pidtab: no namespace has the id 3: it is gone, or there was none")
		// What is within a namespace goes at once with its init.
		isSpace(t, it, inSpace(0, SpaceStat{ID: 1, Level: 1, Init: 2, Fallen: true}))
		isNoSpace(t, it, 2, "pidtab: no namespace has the id 2: it is gone, or there was none")
	}
	if counts, err := kept.Counts(); err != nil || counts.Recorded != 9 {
		t.Error(counts, err)
	}
	if id, err := table.Mk(0); err != nil || id != 10 {
		t.Error(id, err)
	}
}

func TestNamespacesOfWhatIsClosed(t *testing.T) {
	table, kept, _ := openSpaces(t)
	table.Close()
	kept.Close()
	for _, it := range []spaceReader{table, kept} {
		if _, err := it.Space(0); !errors.Is(err, ErrClosed) {
			t.Error(err)
		}
	}
}

func TestNamespacesAsJSON(t *testing.T) {
	table := open(t, Settings{})
	play(t, table, "fork 1 new", "join 1 2", "fork 1", "exit 2 7")
	root, _ := table.Space(0)
	space, _ := table.Space(1)
	table.Wait(1, Pid(2))
	last, _ := table.Space(1)
	wanted := `[{"id":0,"parent":null,"level":0,"init":1,"fallen":false},{"id":1,"parent":0,"level":1,"init":2,"fallen":true},` +
		`{"id":1,"parent":0,"level":1,"init":null,"fallen":true}]`
	if got := asJSON(t, []SpaceStat{root, space, last}); got != wanted {
		t.Error(got)
	}
}

func TestNamespacesBesideAWriter(t *testing.T) {
	besideAWriter(t, NewNamespace, func(table *Table, before int) (int, error) {
		id := uint64(before) + 1
		found, err := table.Space(id)
		if errors.Is(err, ErrOutOfRange) {
			return before, nil
		}
		if !reflect.DeepEqual(found, inSpace(0, SpaceStat{ID: id, Level: 1, Init: uint32(id) + 1})) {
			t.Error(found)
		}
		return before + 1, err
	})
}

func TestWhatIsInsideBesideAWriter(t *testing.T) {
	besideAWriter(t, NewNamespace, func(table *Table, before int) (int, error) {
		found, err := table.SpacesInside(0, 0)
		return inOrder(found, err, 1)
	})
}
