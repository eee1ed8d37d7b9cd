// Package beside runs the proved programs in this program's folder: each reads its standard input,
// and writes its standard output.
package beside

import (
	"bytes"
	"context"
	"errors"
	"fmt"
	"io"
	"os"
	"os/exec"
	"path/filepath"
	"strings"
	"time"
)

// patience is the time limit of a program.
const patience = 5 * time.Minute

// Program is the path of a program; "" for none.
type Program string

// Find returns the program of a name: in this program's folder, or else in PATH.
func Find(name string) (Program, error) {
	if self, err := os.Executable(); err == nil {
		beside := filepath.Join(filepath.Dir(self), name)
		if _, err := exec.LookPath(beside); err == nil {
			return Program(beside), nil
		}
	}
	path, err := exec.LookPath(name)
	if err != nil {
		return "", fmt.Errorf("%s isn't in this program's folder or in PATH", name)
	}
	return Program(path), nil
}

// Unnamed returns a text of the program without its name at the start of each line.
func (p Program) Unnamed(text string) string {
	lines := strings.Split(strings.TrimSpace(text), "\n")
	for i := range lines {
		lines[i] = strings.TrimPrefix(lines[i], filepath.Base(string(p))+": ")
	}
	return strings.Join(lines, "\n")
}

// Run runs the program with these arguments, and returns its standard output and standard error.
//
// Errors: its standard error, if it exits with another status than 0; else those of the system, and
// of the context.
func (p Program) Run(
	ctx context.Context, input io.Reader, line ...string,
) (written, messages []byte, err error) {
	return p.RunInto(ctx, input, 0, line...)
}

// RunInto is Run with a buffer of this size for the output, which grows if it has to.
func (p Program) RunInto(
	ctx context.Context, input io.Reader, size int, line ...string,
) (written, messages []byte, err error) {
	ctx, cancel := context.WithTimeout(ctx, patience)
	defer cancel()
	var output, stderr bytes.Buffer
	output.Grow(size)
	run := exec.CommandContext(ctx, string(p), line...)
	run.Stdin, run.Stdout, run.Stderr = input, &output, &stderr
	err = run.Run()
	text := strings.TrimSpace(stderr.String())
	name := filepath.Base(string(p))
	switch {
	case ctx.Err() != nil:
		return nil, nil, fmt.Errorf("%s: %w", name, ctx.Err())
	case err != nil && text != "" && run.ProcessState.Exited():
		return nil, nil, errors.New(text)
	case err != nil:
		return nil, nil, fmt.Errorf("%s: %w", name, err)
	}
	return output.Bytes(), stderr.Bytes(), nil
}
