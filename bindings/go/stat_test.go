package pidtab

import (
	"reflect"
	"testing"
)

// What makes the tasks that are read; the id of a namespace or a control group is the number of its call, from 1 on.
var made = []string{
	"mk 0", "fork 1 new", "fork 2", "fork 3 new", "fork 4", "move 5 1", "setsid 3", "setpgid 4 0 0", "exec 5", "subreaper 4 on", "fork 2",
	"exit 6 255", "fork 1 new", "join 1 7", "fork 1", "exit 7 3",
}

// What was read is the caller's own.
func TestReadsShareNothing(t *testing.T) {
	table := open(t, Settings{})
	first, _ := table.Stat(1, 0)
	first.Numbers[0] = 7
	if second, err := table.Stat(1, 0); err != nil || !reflect.DeepEqual(second.Numbers, []uint32{1}) {
		t.Error(second, err)
	}
}

func TestTasksAsJSON(t *testing.T) {
	table := open(t, Settings{})
	play(t, table, made...)
	for pid, wanted := range map[uint32]string{
		4: `{"numbers":[4,3,1],"root":4,"parent":3,"group":4,"session":1,"space":4,"control":0,"state":"live","status":null,"executed":false,"subreaper":true}`,
		5: `{"numbers":[5,4,2],"root":5,"parent":4,"group":1,"session":1,"space":4,"control":1,"state":"live","status":null,"executed":true,"subreaper":false}`,
		6: `{"numbers":[6,5],"root":6,"parent":2,"group":1,"session":1,"space":2,"control":0,"state":"exited","status":255,"executed":false,"subreaper":false}`,
		8: `{"numbers":[8,2],"root":8,"parent":1,"group":1,"session":1,"space":13,"control":0,"state":"killed","status":null,"executed":false,"subreaper":false}`,
	} {
		stat, err := table.Stat(1, pid)
		if got := asJSON(t, stat); err != nil || got != wanted {
			t.Error(got, err)
		}
	}
}
