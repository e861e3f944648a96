package pidtab

import (
	"os"
	"os/exec"
	"path/filepath"
	"regexp"
	"strconv"
	"strings"
	"testing"
)

func decimal(number int) string { return strconv.Itoa(number) }

func read(t *testing.T, name string) string {
	t.Helper()
	text, err := os.ReadFile("../../" + name)
	if err != nil {
		t.Fatal(err)
	}
	return string(text)
}

// answered is the answer to a line, as `pidtab run` writes it.
func answered(t *testing.T, table *Table, line string) string {
	t.Helper()
	answer, err := table.Line(line)
	switch err {
	case nil:
		return answer + "\n"
	case ErrEmptyLine:
		return ""
	case ErrBadLine:
		return "bad line\n"
	}
	t.Fatal(err)
	return ""
}

// played is what the gate's program writes for a stored script: its head `# NAME PID_MAX`, its answers, and its list where the head says so.
func played(t *testing.T, script string) string {
	t.Helper()
	head, lines, _ := strings.Cut(script, "\n")
	words := strings.Split(head, " ")
	pidMax, err := strconv.Atoi(words[1])
	if err != nil {
		t.Fatal(err)
	}
	table := open(t, Settings{PidMax: uint32(pidMax)})
	told := "# " + head + "\n"
	for _, line := range strings.Split(lines, "\n") {
		told += answered(t, table, line)
	}
	if len(words) == 2 {
		return told
	}
	list, err := table.List()
	if err != nil {
		t.Fatal(err)
	}
	return told + list
}

// storedRun is a line of a stored file that stands for so many, and rising a number in it that rises by one from each to the next.
var (
	storedRun = regexp.MustCompile(`^([0-9]+)\* (.*)$`)
	rising    = regexp.MustCompile(`([0-9]+)\.\.`)
)

// readStored is a stored file, each line written out.
func readStored(t *testing.T, name string) string {
	t.Helper()
	var lines []string
	for _, line := range strings.Split(read(t, name), "\n") {
		run := storedRun.FindStringSubmatch(line)
		if run == nil {
			lines = append(lines, line)
			continue
		}
		count, _ := strconv.Atoi(run[1])
		for step := 0; step < count; step++ {
			lines = append(lines, rising.ReplaceAllStringFunc(run[2], func(word string) string {
				number, _ := strconv.Atoi(strings.TrimSuffix(word, ".."))
				return strconv.Itoa(number + step)
			}))
		}
	}
	return strings.Join(lines, "\n")
}

func TestTheStoredScripts(t *testing.T) {
	scripts := strings.Split(readStored(t, "stored/scripts"), "# ")[1:]
	answers := strings.Split(readStored(t, "stored/answers"), "# ")[1:]
	if len(scripts) < 30 || len(scripts) != len(answers) {
		t.Fatal(len(scripts), len(answers))
	}
	for i, script := range scripts {
		if told := played(t, script); told != "# "+answers[i] {
			t.Errorf("%s: %s", strings.SplitN(script, "\n", 2)[0], told)
		}
	}
}

// between is what stands after the one word, up to the other.
func between(t *testing.T, text, word, end string) string {
	t.Helper()
	_, behind, found := strings.Cut(text, word)
	before, _, ended := strings.Cut(behind, end)
	if !found || !ended {
		t.Fatal("no " + word)
	}
	return before
}

// block is the code of a kind in a section of the page.
func block(t *testing.T, page, title, kind string) string {
	t.Helper()
	_, behind, _ := strings.Cut(page, "\n## "+title+"\n")
	return between(t, behind, "```"+kind+"\n", "```\n")
}

// ran is what a program prints, in a module of its own over this package.
func ran(t *testing.T, code string) string {
	t.Helper()
	here, err := os.Getwd()
	if err != nil {
		t.Fatal(err)
	}
	folder := t.TempDir()
	module := "module example\n\ngo 1.19\n\nrequire pidtab v0.0.0\n\nreplace pidtab => " + here + "\n"
	for name, text := range map[string]string{"main.go": code, "go.mod": module} {
		if err := os.WriteFile(filepath.Join(folder, name), []byte(text), 0o666); err != nil {
			t.Fatal(err)
		}
	}
	run := exec.Command("go", "run", ".")
	run.Dir = folder
	said, err := run.Output()
	if err != nil {
		t.Fatal(err)
	}
	return string(said)
}

func TestTheExampleOfThePage(t *testing.T) {
	page := read(t, "bindings/go/README.md")
	if said := ran(t, block(t, page, "Example", "go")); said != block(t, page, "Example", "text") {
		t.Error(said)
	}
}
