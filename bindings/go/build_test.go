package pidtab

import (
	"os"
	"os/exec"
	"path/filepath"
	"strings"
	"testing"
)

// unbuilt is the folder of a copy of this package, in a checkout that has built nothing.
func unbuilt(t *testing.T) string {
	t.Helper()
	root := t.TempDir()
	for _, pattern := range []string{"bindings/go/*.go", "bindings/go/go.mod", "bindings/c/*.h"} {
		files, err := filepath.Glob("../../" + pattern)
		if err != nil || len(files) == 0 {
			t.Fatal(pattern, err)
		}
		folder := filepath.Join(root, filepath.Dir(pattern))
		if err := os.MkdirAll(folder, 0o777); err != nil {
			t.Fatal(err)
		}
		for _, file := range files {
			text, err := os.ReadFile(file)
			if err != nil {
				t.Fatal(err)
			}
			if err := os.WriteFile(filepath.Join(folder, filepath.Base(file)), text, 0o666); err != nil {
				t.Fatal(err)
			}
		}
	}
	return filepath.Join(root, "bindings/go")
}

// command runs the go command there: what it says, and whether it ended well.
func command(folder string, words ...string) (string, error) {
	run := exec.Command("go", words...)
	run.Dir = folder
	said, err := run.CombinedOutput()
	return string(said), err
}

func TestWithoutTheLibraryAllWorksButLinking(t *testing.T) {
	const warning = "there was no out/libpidtab.a when this was compiled: `make lib` builds it"
	folder := unbuilt(t)
	if said, err := command(folder, "vet", "."); err != nil || !strings.Contains(said, warning) {
		t.Error(said, err)
	}
	said, err := command(folder, "test", "-c", "-o", os.DevNull, ".")
	if err == nil || !strings.Contains(said, warning) || !strings.Contains(said, "/out/libpidtab.a") {
		t.Error(said, err)
	}
}

// A library of another interface is told, and nothing is opened.
func TestALibraryOfAnotherInterface(t *testing.T) {
	folder := unbuilt(t)
	root := filepath.Join(folder, "../..")
	library, err := filepath.Abs("../../out/libpidtab.a")
	if err != nil {
		t.Fatal(err)
	}
	change(t, filepath.Join(folder, "link_checkout.go"), "${SRCDIR}/../../out/libpidtab.a", library)
	change(t, filepath.Join(root, "bindings/c/pidtab.h"), "#define PIDTAB_VERSION 1 ", "#define PIDTAB_VERSION 2 ")
	program := `package main

import (
	"fmt"

	"pidtab"
)

func main() {
	_, table := pidtab.Open(pidtab.Settings{})
	_, loaded := pidtab.FromDump("", pidtab.Settings{})
	_, replica := pidtab.OpenReplica(32768, pidtab.Model)
	for _, err := range []error{table, loaded, replica} {
		fmt.Println(err)
	}
}
`
	if err := os.MkdirAll(filepath.Join(folder, "tell"), 0o777); err != nil {
		t.Fatal(err)
	}
	if err := os.WriteFile(filepath.Join(folder, "tell/main.go"), []byte(program), 0o666); err != nil {
		t.Fatal(err)
	}
	run := exec.Command("go", "run", "./tell")
	run.Dir = folder
	said, err := run.Output()
	if wanted := strings.Repeat("pidtab: the library has the interface 1, and this package is for 2\n", 3); string(said) != wanted || err != nil {
		t.Errorf("%s %v", said, err)
	}
}

// change changes a text in a file, which is there once.
func change(t *testing.T, path, before, now string) {
	t.Helper()
	text, err := os.ReadFile(path)
	if err != nil || strings.Count(string(text), before) != 1 {
		t.Fatal(path, before, err)
	}
	if err := os.WriteFile(path, []byte(strings.Replace(string(text), before, now, 1)), 0o666); err != nil {
		t.Fatal(err)
	}
}
