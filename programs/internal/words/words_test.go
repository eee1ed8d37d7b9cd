package words

import (
	"bytes"
	"errors"
	"fmt"
	"net"
	"os"
	"os/exec"
	"strings"
	"testing"
	"time"
)

// Both names of the help, and the version, print their texts.
func TestHelp(t *testing.T) {
	program := Program{
		Name: "rtr-test", Sentence: "test words", Calls: []string{"FILE"}, Help: "It tests.",
		Options: []Option{{Name: "most", Argument: "N", Help: "Take at most N (default 2)"}},
	}
	for word, says := range map[string]string{
		"-h": "Usage:\n  rtr-test FILE\n", "--help": "Options:\n  --most N   Take at most N (default 2)\n  --help     ",
		"--version": "rtr-test " + Version + "\n",
	} {
		var output bytes.Buffer
		if err := program.Parse([]string{word}, &output); !errors.Is(err, ErrHelp) ||
			!strings.Contains(output.String(), says) {
			t.Errorf("%s: %v, %s", word, err, output.String())
		}
	}
}

// The help fits a terminal, whatever the lengths of its words are.
func TestHelpFits(t *testing.T) {
	long := strings.Repeat("a sentence of some words, ", 9)
	program := Program{Name: "rtr-test", Sentence: "test", Calls: []string{"FILE"}, Help: "It tests.",
		Options: []Option{{Name: "an-option", Argument: "ARGUMENT", Help: long}, {Name: "b", Help: "B"}}}
	var output bytes.Buffer
	if err := program.Parse([]string{"--help"}, &output); !errors.Is(err, ErrHelp) {
		t.Fatal(err)
	}
	for _, line := range strings.Split(output.String(), "\n") {
		if len(line) > 80 || strings.HasSuffix(line, " ") {
			t.Errorf("%q", line)
		}
	}
	if got := strings.Join(strings.Fields(output.String()), " "); !strings.Contains(got, strings.TrimSpace(long)) {
		t.Error(got)
	}
}

// A help that can't be written is a failure of the system; other errors of a command line are wrong
// arguments.
func TestStatusOfLine(t *testing.T) {
	full, err := os.OpenFile("/dev/full", os.O_WRONLY, 0)
	if err != nil {
		t.Skip(err)
	}
	defer full.Close()
	program := Program{Name: "rtr-test"}
	for _, c := range []struct {
		line   string
		says   string
		status Status
	}{
		{"--help", "no space left on device", Failed}, {"--version", "no space left on device", Failed},
		{"--help --version", "--help has to stand alone", Usage}, {"-h x", "-h has to stand alone", Usage},
		{"--version x", "--version has to stand alone", Usage}, {"--none", `unknown option "--none"`, Usage},
	} {
		err := program.Parse(strings.Fields(c.line), full)
		if err == nil || !strings.Contains(err.Error(), c.says) || StatusOfLine(err) != c.status {
			t.Errorf("%s: %v", c.line, err)
		}
	}
}

// An option with an argument is given once, unless it repeats. One without arguments may be given
// again, which changes nothing.
func TestGivenTwice(t *testing.T) {
	const wrong = `--most: "0" isn't a number from 1 to 2147483647`
	for line, says := range map[string]string{
		"--most 2 --yes --most 3":      "--most: it is given twice",
		"--most=2 --most=2":            "--most: it is given twice",
		"--most 0 --most 3":            wrong,
		"--wait 1s --wait=2s":          "--wait: it is given twice",
		"--interval 1 --interval 0":    "--interval: it is given twice",
		"--name a --name b":            "--name: it is given twice",
		"--at a:1 --at b:1":            "--at: it is given twice",
		"--pair 1 2 --pair 1 2":        "--pair: it is given twice",
		"--most 2 --wait 1s --name a":  "",
		"--each a --each b --each=a":   "",
		"--yes --interval 2 --yes":     "",
		"--interval 0 --at a:1 --yes":  "",
		"--pair 1 2 --each 1 --most=1": "",
	} {
		program := Program{Name: "rtr-test", Options: each()}
		got := ""
		if err := program.Parse(strings.Fields(line), &bytes.Buffer{}); err != nil {
			got = err.Error()
		}
		if got != says {
			t.Errorf("%s: %q", line, got)
		}
	}
}

// Given has the names of the options that were given, and Without names the first one that lacks
// what it needs.
func TestWithout(t *testing.T) {
	for line, says := range map[string]string{
		"":                         "",
		"--most 2":                 "",
		"--yes":                    "--yes needs a list",
		"--name=a --most 2":        "--name needs a list",
		"--name a --yes --at a:1":  "--yes needs a list",
		"--each yes --pair yes no": "",
	} {
		program := Program{Name: "rtr-test", Options: each()}
		if err := program.Parse(strings.Fields(line), &bytes.Buffer{}); err != nil {
			t.Fatal(err)
		}
		got := ""
		if err := program.Given.Without("a list", "yes", "name"); err != nil {
			got = err.Error()
		}
		if got != says {
			t.Errorf("%s: %q", line, got)
		}
	}
	if first := FirstOf(nil, Misuse("b"), Misuse("a")); first != Misuse("b") || FirstOf(nil) != nil {
		t.Error(first)
	}
}

// each returns an option of each kind.
func each() []Option {
	ignored := func(string) error { return nil }
	return []Option{
		{Name: "most", Argument: "N", Set: Count(new(int), 1)},
		{Name: "interval", Argument: "N", Set: Seconds(new(uint32))},
		{Name: "wait", Argument: "TIME", Set: Wait(new(time.Duration), time.Second)},
		{Name: "name", Argument: "NAME", Set: Text(new(string))},
		{Name: "at", Argument: "ADDRESS", Set: Address(new(string))},
		{Name: "pair", Argument: "A B", Set: ignored},
		{Name: "each", Argument: "NAME", Repeats: true, Set: ignored},
		{Name: "yes", Set: Yes(new(bool))},
	}
}

// IsAddress takes the ports that a socket can connect to or listen on.
func TestIsAddress(t *testing.T) {
	for text, is := range map[string]bool{
		"a:1": true, "[::]:65535": true, ":0": true, "a:http": true, "a": false, "a:65536": false,
		"a:-1": false, "a:x y": false, "::1:2": false,
	} {
		if IsAddress(text) != is {
			t.Error(text)
		}
	}
}

// A number with a noun is singular or plural.
func TestNumber(t *testing.T) {
	counts := map[int]string{0: "0 payloads", 1: "1 payload", 2: "2 payloads", 11: "11 payloads"}
	for count, says := range counts {
		if got := Number(count, "payload"); got != says {
			t.Error(got)
		}
		if got := Are(count); (got == "is") != (count == 1) || got != "is" && got != "are" {
			t.Error(count, got)
		}
	}
}

// Refusals of the system are status 3, other faults status 1.
func TestStatusOf(t *testing.T) {
	_, missing := os.Open(t.TempDir() + "/missing")
	_, busy := net.Listen("tcp", "192.0.2.1:0")
	three := exec.Command("sh", "-c", "exit 3").Run()
	exitOne := exec.Command("sh", "-c", "exit 1").Run()
	for _, c := range []struct {
		err    error
		status Status
	}{
		{missing, Failed}, {fmt.Errorf("f: %w", missing), Failed}, {busy, Failed},
		{&net.DNSError{Err: "no such host"}, Failed}, {three, Failed},
		{exitOne, Refused}, {errors.New("no unit"), Refused},
	} {
		if got := StatusOf(c.err); c.err == nil || got != c.status {
			t.Errorf("%v: %d", c.err, got)
		}
	}
}
