package pidtab

import (
	"encoding/json"
	"fmt"
	"os"
	"path/filepath"
	"reflect"
	"strings"
	"testing"
)

// All that a line of a list may say.
const wideList = `task 1 space 0 parent 0 group 1 session 1 control 0 live subreaper
task 2,1 space 4 parent 1 group 1 session 1 control 7 exit 255
task 3,2 space 4 parent 1 group 0 session 0 control 0 killed executed
task 5 space 0 parent 1 group 5 session 5 control 0 live executed children 4 subreaper
space 0 parent - cursor 10
space 4 parent 0 cursor 3 fallen
control 0 parent - limit max count 6
control 7 parent 0 limit 0 count 2
control 18446744073709551615 parent 7 limit 4194304 count 1
`

func to[T any](it T) *T { return &it }

func TestLabels(t *testing.T) {
	listing, err := ReadList(wideList)
	if err != nil {
		t.Fatal(err)
	}
	named := listing.WithLabels(map[uint32]string{2: "nginx", 9: "nobody"})
	for at, task := range named.Tasks {
		wanted := listing.Tasks[at]
		if task.Root() == 2 {
			wanted.Label = "nginx"
		}
		if !reflect.DeepEqual(task, wanted) || listing.Tasks[at].Label != "" {
			t.Error(task, listing.Tasks[at])
		}
	}
	got, err := json.Marshal(named)
	if err != nil || strings.Count(string(got), `"label"`) != 1 || !strings.Contains(string(got), `"subreaper":false,"label":"nginx"}`) {
		t.Error(string(got), err)
	}
}

func TestAListAsJSON(t *testing.T) {
	list, err := os.ReadFile("../example.list")
	if err != nil {
		t.Fatal(err)
	}
	wanted, err := os.ReadFile("../example.json")
	if err != nil {
		t.Fatal(err)
	}
	listing, err := ReadList(string(list))
	if err != nil {
		t.Fatal(err)
	}
	got, err := json.Marshal(listing)
	if err != nil || string(got)+"\n" != string(wanted) {
		t.Errorf("%s, %v", got, err)
	}
	if none, err := json.Marshal(Listing{}); string(none) != `{"tasks":[],"spaces":[],"controls":[]}` || err != nil {
		t.Errorf("%s, %v", none, err)
	}
}

// or is the number, or the word for none.
func or[T any](number *T, none string) string {
	if number == nil {
		return none
	}
	return fmt.Sprint(*number)
}

// sayTask is the line of a task by docs/SCRIPT.md, "The list".
func sayTask(task Task) string {
	numbers := strings.ReplaceAll(strings.Trim(fmt.Sprint(task.Numbers), "[]"), " ", ",")
	line := fmt.Sprintf("task %s space %d parent %d group %d session %d control %d", numbers, task.Space, task.Parent, task.Group, task.Session, task.Control)
	switch {
	case task.Live:
		line += " live"
	case task.Killed:
		line += " killed"
	default:
		line += fmt.Sprintf(" exit %d", task.Status)
	}
	if task.Executed {
		line += " executed"
	}
	if task.Children != nil {
		line += fmt.Sprintf(" children %d", *task.Children)
	}
	if task.Subreaper {
		line += " subreaper"
	}
	return line + "\n"
}

func say(listing Listing) string {
	var text strings.Builder
	for _, task := range listing.Tasks {
		text.WriteString(sayTask(task))
	}
	for _, space := range listing.Spaces {
		fallen := ""
		if space.Fallen {
			fallen = " fallen"
		}
		fmt.Fprintf(&text, "space %d parent %s cursor %d%s\n", space.ID, or(space.Parent, "-"), space.Cursor, fallen)
	}
	for _, it := range listing.Controls {
		fmt.Fprintf(&text, "control %d parent %s limit %s count %d\n", it.ID, or(it.Parent, "-"), or(it.Limit, "max"), it.Count)
	}
	return text.String()
}

func TestListsAreReadWhole(t *testing.T) {
	files, err := filepath.Glob("../../examples/*.list")
	if err != nil || len(files) < 5 {
		t.Fatal(files, err)
	}
	texts := []string{wideList}
	for _, file := range files {
		text, err := os.ReadFile(file)
		if err != nil {
			t.Fatal(err)
		}
		texts = append(texts, string(text))
	}
	for _, text := range texts {
		listing, err := ReadList(text)
		if err != nil || say(listing) != text {
			t.Error(text, listing, err)
		}
	}
}

func TestTheListingOfATable(t *testing.T) {
	table := open(t, Settings{})
	play(t, table, "fork 1 new", "fork 2", "mk 0", "limit 3 5", "move 3 3", "exec 3", "exit 2 7")
	listing, err := table.Listing()
	if err != nil {
		t.Fatal(err)
	}
	want(t, "list", of(table.List()), say(listing), nil)
	init, control := listing.Tasks[1], listing.Controls[1]
	if init.Live || init.Killed || init.Status != 7 || !listing.Spaces[1].Fallen || !reflect.DeepEqual(control, Control{3, to(uint64(0)), to(uint32(5)), 0}) {
		t.Error(listing)
	}
	table.Close()
	want(t, "closed", of(table.Listing()), Listing{}, ErrClosed)
}

// Each other text that is none is in interface/cases.
func TestWhatIsNoList(t *testing.T) {
	for text, fault := range map[string]BadList{
		"":                                   {1, "no list"},
		"hello\n":                            {1, "not a line of `pidtab list`"},
		"space 0 parent - cursor 2\nspace 1": {2, "cut off, without a newline"},
	} {
		want(t, text, of(ReadList(text)), Listing{}, fault)
	}
	if said := (BadList{2, "no list"}).Error(); said != "pidtab: line 2: no list" {
		t.Error(said)
	}
}
