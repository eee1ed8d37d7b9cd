package main

import (
	"os"
	"os/exec"
	"strings"
	"testing"

	"fishreef/programs/internal/trial"
	"fishreef/programs/internal/words"
)

// unitFile is the path of systemd's unit, relative to this test.
const unitFile = "../systemd/rtr-cache.service"

// calls returns the names of the system calls in a set of systemd-analyze, and in its subsets.
func calls(t *testing.T, set string, found map[string]bool) {
	t.Helper()
	text, err := exec.Command("systemd-analyze", "syscall-filter", set).Output()
	if err != nil {
		t.Skipf("systemd-analyze syscall-filter %s: %v", set, err)
	}
	for _, line := range strings.Split(string(text), "\n")[1:] {
		switch name := strings.TrimSpace(line); {
		case name == "" || name[0] == '#':
		case name[0] == '@':
			calls(t, name, found)
		default:
			found[name] = true
		}
	}
}

// allowed returns the system calls that the unit file allows, in the syntax of strace.
func allowed(t *testing.T) string {
	t.Helper()
	text, err := os.ReadFile(unitFile)
	if err != nil {
		t.Fatal(err)
	}
	left := map[string]bool{}
	for _, line := range strings.Split(string(text), "\n") {
		sets := strings.TrimPrefix(line, "SystemCallFilter=")
		if sets == line {
			continue
		}
		names := map[string]bool{}
		for _, set := range strings.Fields(strings.TrimPrefix(sets, "~")) {
			calls(t, set, names)
		}
		for name := range names {
			if sets[0] == '~' {
				delete(left, name)
			} else {
				left[name] = true
			}
		}
	}
	var filter []string
	for name := range left {
		filter = append(filter, "?"+name)
	}
	if len(filter) < 100 {
		t.Fatalf("only %d calls are left: %s", len(filter), filter)
	}
	return strings.Join(filter, ",")
}

// Under the unit file's filter of calls, which strace stands in for, all transports, metrics, the
// state, a list by URL, a change and SIGHUP work, and no call is refused.
func TestUnitFilter(t *testing.T) {
	for _, tool := range []string{"strace", "systemd-analyze"} {
		if _, err := exec.LookPath(tool); err != nil {
			t.Skip("no " + tool + " here")
		}
	}
	if err := exec.Command("strace", "-D", "-o", "/dev/null", "true").Run(); err != nil {
		t.Skip("strace may not trace here")
	}
	filter, folder := allowed(t), t.TempDir()
	trial.Write(t, folder+"/f", rows(3))
	e, metrics := reachable(t, folder), trial.Reserved(t)
	server := newWeb(t, text(rows(3)))
	line := append([]string{"-D", "-f", "-o", "calls", "-e", "trace=!" + filter,
		"-e", "inject=!" + filter + ":error=EPERM", os.Args[0], "--csv", "f", "--state", "state",
		"--csv", strings.Replace(server.URL, "127.0.0.1", "localhost", 1),
		"--metrics", metrics, "--listen", e.plain, "--listen", "tls:" + e.secured,
		"--listen", "ssh:" + e.shelled}, secrets...)
	process := trial.StartBy(t, folder, nil, exec.Command("strace", line...))
	process.Says("serial 1: 3 payloads", 1)
	e.checkPayloads(t, 3)
	trial.Write(t, folder+"/f", rows(4))
	process.Says("serial 2: 4 payloads", 1)
	e.checkPayloads(t, 4)
	if status, _ := trial.Get(t, "http://"+metrics+"/metrics"); status != 200 {
		t.Error(status)
	}
	process.Signal(hangup)
	process.Says("f: nothing changed", 1)
	if status := process.End(); status != words.Well {
		t.Error(status)
	}
	traced, err := os.ReadFile(folder + "/calls")
	if err != nil || strings.Contains(string(traced), "INJECTED") {
		t.Errorf("%v: %s", err, traced)
	}
}
