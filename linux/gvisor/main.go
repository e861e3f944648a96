// Answers a script of docs/SCRIPT.md by the kernel of gVisor, in this process: each line is a system call that a task of that kernel makes.
// See linux/README.md.
package main

import (
	"bufio"
	"fmt"
	"os"

	"gvisor.dev/gvisor/pkg/log"
)

func run() error {
	log.SetLevel(log.Warning)
	w, err := newWorld()
	if err != nil {
		return err
	}
	lines := bufio.NewScanner(os.Stdin)
	for lines.Scan() {
		if lines.Text() == "" {
			continue
		}
		answer, err := w.answer(lines.Text())
		if err != nil {
			return err
		}
		fmt.Println(answer)
	}
	return lines.Err()
}

func main() {
	if err := run(); err != nil {
		fmt.Fprintln(os.Stderr, "gvisor:", err)
		os.Exit(1)
	}
}
