package pidtab

// #include <pidtab.h>
import "C"

import "encoding/json"

// Stat is a task as the caller's namespace sees it. The numbers of processes but Root are those there, 0 where there is none.
type Stat struct {
	Numbers   []uint32 // from the caller's namespace inwards, 1 to 33 of them
	Root      uint32   // its number in the root namespace, which names it in calls
	Parent    uint32   // the number of its parent
	Group     uint32   // the number of its process group
	Session   uint32   // the number of its session
	Space     uint64   // the id of its own namespace
	Control   uint64   // the id of its control group
	Live      bool     // a task that is not has ended, and was not yet waited for
	Killed    bool     // it ended by the fall of its namespace
	Status    uint8    // of its exit, where it ended by one
	Executed  bool     // it has executed
	Subreaper bool     // it takes orphans of its namespace
}

// foundIn is why there is no such task; nothing where the library has read it.
func foundIn(status C.uint32_t, task *C.struct_pidtab_task) error {
	if err := faultOf(uint32(status)); err != nil {
		return err
	}
	if task.error != 0 {
		return refusalOf(&C.struct_pidtab_reply{error: task.error, refusal: task.refusal})
	}
	return nil
}

// statOf is the task that the library has read.
func statOf(status C.uint32_t, task *C.struct_pidtab_task) (Stat, error) {
	if err := foundIn(status, task); err != nil {
		return Stat{}, err
	}
	stat := Stat{
		Numbers:   make([]uint32, task.count),
		Root:      uint32(task.root),
		Parent:    uint32(task.parent),
		Group:     uint32(task.group),
		Session:   uint32(task.session),
		Space:     uint64(task.space),
		Control:   uint64(task.control),
		Live:      task.ended == 0,
		Killed:    task.status == C.PIDTAB_KILLED,
		Executed:  task.executed == 1,
		Subreaper: task.subreaper == 1,
	}
	for i := range stat.Numbers {
		stat.Numbers[i] = uint32(task.levels[i])
	}
	if !stat.Killed {
		stat.Status = uint8(task.status)
	}
	return stat, nil
}

// MarshalJSON is the task as docs/list.schema.json has it, with null for the status of one that has not exited.
func (stat Stat) MarshalJSON() ([]byte, error) {
	state, status := stateOf(stat.Live, stat.Killed, &stat.Status)
	return json.Marshal(struct {
		Numbers   []uint32 `json:"numbers"`
		Root      uint32   `json:"root"`
		Parent    uint32   `json:"parent"`
		Group     uint32   `json:"group"`
		Session   uint32   `json:"session"`
		Space     uint64   `json:"space"`
		Control   uint64   `json:"control"`
		State     string   `json:"state"`
		Status    *uint8   `json:"status"`
		Executed  bool     `json:"executed"`
		Subreaper bool     `json:"subreaper"`
	}{some(stat.Numbers), stat.Root, stat.Parent, stat.Group, stat.Session, stat.Space, stat.Control, state, status, stat.Executed, stat.Subreaper})
}
