// Package trial runs a program for its tests: the test's own binary, as a process of its own.
package trial

import (
	"bytes"
	"fmt"
	"io"
	"net/http"
	"os"
	"os/exec"
	"path/filepath"
	"runtime"
	"strings"
	"sync"
	"syscall"
	"testing"
	"time"

	"fishreef/programs/internal/words"
)

// asked is the variable in the environment of a process that runs the program instead of the tests.
const asked = "RTR_TRIAL"

// Wait is the time limit of a test for each thing that it waits for.
const Wait = 120 * time.Second

// Main runs the tests, or the program in a process that Start started.
func Main(tests *testing.M, program func(line []string) words.Status) {
	if os.Getenv(asked) != "" {
		os.Unsetenv(asked)
		os.Exit(int(program(os.Args[1:])))
	}
	WithPrebuilt()
	os.Exit(tests.Run())
}

// WithPrebuilt appends the repository's prebuilt programs to PATH.
func WithPrebuilt() {
	folder, err := os.Getwd()
	if err == nil {
		folder, err = filepath.EvalSymlinks(folder)
	}
	for ; err == nil && folder != "/" && runtime.GOARCH == "amd64"; folder = filepath.Dir(folder) {
		prebuilt := filepath.Join(folder, "prebuilt", "x86_64")
		if _, err := os.Stat(prebuilt); err == nil {
			os.Setenv("PATH", os.Getenv("PATH")+":"+prebuilt)
			return
		}
	}
}

// Reserved returns an address at which only the test may listen. A socket that doesn't listen holds
// the port until the test ends, so that no other process gets it.
func Reserved(t testing.TB) string {
	t.Helper()
	socket, err := syscall.Socket(syscall.AF_INET, syscall.SOCK_STREAM|syscall.SOCK_CLOEXEC, 0)
	if err != nil {
		t.Fatal(err)
	}
	t.Cleanup(func() { syscall.Close(socket) })
	if err := syscall.SetsockoptInt(socket, syscall.SOL_SOCKET, syscall.SO_REUSEADDR, 1); err != nil {
		t.Fatal(err)
	}
	if err := syscall.Bind(socket, &syscall.SockaddrInet4{Addr: [4]byte{127, 0, 0, 1}}); err != nil {
		t.Fatal(err)
	}
	name, err := syscall.Getsockname(socket)
	if err != nil {
		t.Fatal(err)
	}
	return fmt.Sprintf("127.0.0.1:%d", name.(*syscall.SockaddrInet4).Port)
}

// Get returns the status and the text of an HTTP answer.
func Get(t testing.TB, url string) (int, string) {
	t.Helper()
	answer, err := http.Get(url)
	if err != nil {
		t.Fatal(err)
	}
	defer answer.Body.Close()
	text, err := io.ReadAll(answer.Body)
	if err != nil {
		t.Fatal(err)
	}
	return answer.StatusCode, string(text)
}

// Process is a running program.
type Process struct {
	t      *testing.T
	run    *exec.Cmd
	ended  chan struct{}
	status words.Status

	lock   sync.Mutex
	output []byte // standard output
	stderr []byte // standard error
}

// Start starts the program with this command line, in this folder.
func Start(t *testing.T, folder string, line ...string) *Process {
	t.Helper()
	return StartBy(t, folder, nil, exec.Command(os.Args[0], line...))
}

// StartBy starts the program by a wrapper command, with additions to its environment.
func StartBy(t *testing.T, folder string, environment []string, run *exec.Cmd) *Process {
	t.Helper()
	p := &Process{t: t, run: run, ended: make(chan struct{})}
	run.Dir = folder
	run.Env = append(append(os.Environ(), asked+"=1"), environment...)
	run.Stdout, run.Stderr = stream{p, &p.output}, stream{p, &p.stderr}
	if err := run.Start(); err != nil {
		t.Fatal(err)
	}
	go func() {
		defer close(p.ended)
		run.Wait()
		p.status = words.Status(run.ProcessState.ExitCode())
	}()
	t.Cleanup(p.Kill)
	return p
}

// stream collects what a process writes.
type stream struct {
	process *Process
	to      *[]byte
}

func (s stream) Write(text []byte) (int, error) {
	s.process.lock.Lock()
	defer s.process.lock.Unlock()
	*s.to = append(*s.to, text...)
	return len(text), nil
}

// Output returns what the process wrote on standard output so far.
func (p *Process) Output() string {
	p.lock.Lock()
	defer p.lock.Unlock()
	return string(p.output)
}

// Stderr returns what the process wrote on standard error so far.
func (p *Process) Stderr() string {
	p.lock.Lock()
	defer p.lock.Unlock()
	return string(p.stderr)
}

// Lines returns how many lines on standard error have this text.
func (p *Process) Lines(text string) int {
	count := 0
	for _, line := range strings.Split(p.Stderr(), "\n") {
		if strings.Contains(line, text) {
			count++
		}
	}
	return count
}

// Await waits until a condition is true.
func (p *Process) Await(what string, condition func() bool) {
	p.t.Helper()
	for until := time.Now().Add(Wait); !condition(); time.Sleep(5 * time.Millisecond) {
		if time.Now().After(until) || p.hasEnded() && !condition() {
			p.t.Fatalf("%s: never came; it said:\n%s", what, p.Stderr())
		}
	}
}

// hasEnded reports whether the process has ended.
func (p *Process) hasEnded() bool {
	select {
	case <-p.ended:
		return true
	default:
		return false
	}
}

// Says waits until this many lines on standard error have this text.
func (p *Process) Says(text string, times int) {
	p.t.Helper()
	p.Await(text, func() bool { return p.Lines(text) >= times })
}

// After waits for a text on standard error, and returns what follows it up to the next space or
// quote.
func (p *Process) After(text string) string {
	p.t.Helper()
	p.Says(text, 1)
	_, rest, _ := strings.Cut(p.Stderr(), text)
	ends := func(r rune) bool { return r == ' ' || r == '"' || r == '\n' }
	return strings.FieldsFunc(rest, ends)[0]
}

// Descriptors returns how many files and sockets the process has open.
func (p *Process) Descriptors() int {
	p.t.Helper()
	open, err := os.ReadDir(fmt.Sprintf("/proc/%d/fd", p.run.Process.Pid))
	if err != nil {
		p.t.Fatal(err)
	}
	return len(open)
}

// Signal sends a signal.
func (p *Process) Signal(signal syscall.Signal) {
	p.t.Helper()
	if err := p.run.Process.Signal(signal); err != nil {
		p.t.Fatal(err)
	}
}

// Kill ends the process with SIGKILL, and waits for its end.
func (p *Process) Kill() {
	p.run.Process.Kill()
	<-p.ended
}

// Status waits for the end of the process, and returns its status.
func (p *Process) Status() words.Status {
	p.t.Helper()
	select {
	case <-p.ended:
	case <-time.After(Wait):
		p.t.Fatalf("the program doesn't end; it said:\n%s", p.Stderr())
	}
	return p.status
}

// Refuses waits for the end of the process, and checks that it has this status, printed nothing but
// one line on standard error, and that this line begins so and has this text.
func (p *Process) Refuses(status words.Status, begins, text string) {
	p.t.Helper()
	got, stderr := p.Status(), p.Stderr()
	if got != status || strings.Count(stderr, "\n") != 1 || !strings.HasPrefix(stderr, begins) ||
		!strings.Contains(stderr, text) || p.Output() != "" {
		p.t.Errorf("%q: status %d, %s", p.run.Args[1:], got, stderr)
	}
}

// End sends SIGTERM, and returns the status.
func (p *Process) End() words.Status {
	p.t.Helper()
	p.Signal(syscall.SIGTERM)
	return p.Status()
}

// Write replaces a file by one with this text, by renaming.
func Write(t *testing.T, path, text string) {
	t.Helper()
	if err := os.WriteFile(path+".written", []byte(text), 0o600); err != nil {
		t.Fatal(err)
	}
	if err := os.Rename(path+".written", path); err != nil {
		t.Fatal(err)
	}
}

// Same reports whether a file has this text.
func Same(path, text string) bool {
	read, err := os.ReadFile(path)
	return err == nil && bytes.Equal(read, []byte(text))
}
