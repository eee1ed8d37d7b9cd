package main

import (
	"fmt"
	"net/http"
	"os"
	"strings"
	"syscall"
	"testing"
	"time"

	"fishreef/programs/internal/trial"
)

// guarded starts a cache of a file of 10 payloads, with these options.
func guarded(t *testing.T, folder string, line ...string) *trial.Process {
	t.Helper()
	trial.Write(t, folder+"/f", rows(10))
	process, _ := started(t, folder,
		append([]string{"--csv", "f", "--guard", "20%", "--look", "1s"}, line...)...)
	process.Says("10 payloads", 1)
	return process
}

// A file that would withdraw too much is held; so are other lists that would, and it stays held
// after changed permissions, a changed time, or SIGHUP. A list that withdraws less is accepted, and
// then the guard compares with that.
func TestHolds(t *testing.T) {
	folder := t.TempDir()
	file := folder + "/f"
	process := guarded(t, folder, "--guard-time", "1h", "--metrics", "127.0.0.1:0")
	health := strings.TrimSuffix(process.After("metrics are at "), "/metrics") + "/health"
	trial.Write(t, file, rows(8))
	process.Says("serial 2: 8 payloads", 1)
	trial.Write(t, file, rows(6))
	process.Says("it would withdraw 2 of 8 payloads, which is more than 20%: held until", 1)
	trial.Write(t, file, rows(5))
	process.Says("it would withdraw 3 of 8 payloads", 1)
	trial.Write(t, file, rows(1))
	process.Says("it would withdraw 7 of 8 payloads", 1)
	for i, touch := range []func() error{
		func() error { return os.Chmod(file, 0o640) },
		func() error { return os.Chtimes(file, time.Now(), time.Now()) },
	} {
		if err := touch(); err != nil {
			t.Fatal(err)
		}
		time.Sleep(3 * time.Second)
		process.Signal(hangup)
		process.Says("it would withdraw 7 of 8 payloads", 2+i)
	}
	if status, says := trial.Get(t, health); status != http.StatusServiceUnavailable ||
		!strings.Contains(says, "f: it would") {
		t.Error(status, says)
	}
	if process.Lines("serial 3") != 0 {
		t.Error(process.Stderr())
	}
	trial.Write(t, file, rows(9))
	process.Says("serial 3: 9 payloads", 1)
	process.Await("good", func() bool {
		status, _ := trial.Get(t, health)
		return status == http.StatusOK
	})
	trial.Write(t, file, rows(1))
	process.Says("it would withdraw 8 of 9 payloads", 1)
}

// A held list is accepted once it has stayed the same for the guard time.
func TestGuardTime(t *testing.T) {
	folder := t.TempDir()
	process := guarded(t, folder, "--guard-time", "6s")
	began := time.Now()
	trial.Write(t, folder+"/f", rows(3))
	process.Says("held until it has stayed the same for 6s", 1)
	if err := os.Chmod(folder+"/f", 0o640); err != nil {
		t.Fatal(err)
	}
	process.Says("serial 2: 3 payloads, 0 announced, 7 withdrawn (7 IPv4 prefixes)", 1)
	if took := time.Since(began); took < 6*time.Second || process.Lines("it would withdraw") != 1 {
		t.Errorf("after %v: %s", took, process.Stderr())
	}
}

// With --hold a person decides: SIGUSR1 accepts the lists that are held then, and no later ones.
func TestPersonDecides(t *testing.T) {
	folder := t.TempDir()
	file := folder + "/f"
	process := guarded(t, folder, "--hold", "--guard-time", "1s")
	trial.Write(t, file, rows(2))
	process.Says("it would withdraw 8 of 10 payloads, which is more than 20%: held until SIGUSR1, "+
		"or a start with --force", 1)
	time.Sleep(4 * time.Second)
	if process.Lines("serial 2") != 0 {
		t.Error(process.Stderr())
	}
	process.Signal(syscall.SIGUSR1)
	process.Says("serial 2: 2 payloads", 1)
	trial.Write(t, file, rows(10))
	process.Says("serial 3: 10 payloads", 1)
	process.Signal(syscall.SIGUSR1)
	process.Says("SIGUSR1: accepting what is held", 2)
	trial.Write(t, file, rows(1))
	process.Says("it would withdraw 9 of 10 payloads", 1)
}

// --force accepts the first list of each file after the start, and no later ones.
func TestForce(t *testing.T) {
	folder := t.TempDir()
	file := folder + "/f"
	guarded(t, folder, "--state", "state").End()
	trial.Write(t, file, rows(1))
	process, _ := started(t, folder, "--csv", "f", "--state", "state", "--guard", "20%")
	process.Says("it would withdraw 9 of 10 payloads", 1)
	process.End()
	process, _ = started(t, folder, "--csv", "f", "--state", "state", "--guard", "20%", "--force")
	process.Says("serial 2: 1 payload, 0 announced, 9 withdrawn", 1)
	trial.Write(t, file, rows(10))
	process.Says("serial 3: 10 payloads", 1)
	process.End()
	trial.Write(t, file, "x")
	process, _ = started(t, folder, "--csv", "f", "--state", "state", "--guard", "20%", "--force")
	process.Says("f: line 1", 1)
	trial.Write(t, file, rows(1))
	process.Says("it would withdraw 9 of 10 payloads", 1)
}

// writeInPieces writes a list in place, a row each half second, and returns the longest time for
// which the file stayed the same.
func writeInPieces(t *testing.T, path, text string) (longest time.Duration) {
	t.Helper()
	last := time.Now()
	file, err := os.OpenFile(path, os.O_WRONLY|os.O_TRUNC, 0)
	if err != nil {
		t.Fatal(err)
	}
	defer file.Close()
	for _, row := range strings.SplitAfter(text, "\n") {
		before := time.Now()
		if _, err := file.WriteString(row); err != nil {
			t.Fatal(err)
		}
		if pause := time.Since(last); pause > longest {
			longest = pause
		}
		last = before
		time.Sleep(500 * time.Millisecond)
	}
	return longest
}

// A list that is written in place, in pieces, isn't served before it is complete. If a busy machine
// lets the writer pause for two seconds, a part may be served, and another cache is tried.
func TestWrittenInPieces(t *testing.T) {
	for {
		folder := t.TempDir()
		process := guarded(t, folder)
		if writeInPieces(t, folder+"/f", rows(12)) >= 2*time.Second {
			process.Kill()
			continue
		}
		process.Says("serial 2: 12 payloads, 2 announced (2 IPv4 prefixes), 0 withdrawn", 1)
		if process.Lines("held") != 0 || process.Lines("serial") != 2 {
			t.Error(process.Stderr())
		}
		return
	}
}

// anchored returns a list with these numbers of payloads of each trust anchor, as validators print
// it.
func anchored(format string, anchors map[string]int) string {
	var items []string
	octet := 0
	for _, name := range []string{"apnic", "ripe"} {
		for i := 0; i < anchors[name]; i++ {
			line := `{"asn": 64496, "prefix": "10.%d.0.0/16", "maxLength": 16, "ta": "%s"}`
			if format == "--csv" {
				line = "AS64496,10.%d.0.0/16,16,%s\n"
			}
			items = append(items, fmt.Sprintf(line, octet, name))
			octet++
		}
		octet = 100
	}
	if format == "--csv" {
		return "ASN,IP Prefix,Max Length,Trust Anchor\n" + strings.Join(items, "")
	}
	return `{"roas": [` + strings.Join(items, ", ") + "]}"
}

// A list that lacks too many items of a trust anchor is held, even if they are few of all payloads.
func TestHoldsAnchor(t *testing.T) {
	for _, format := range []string{"--json", "--csv"} {
		t.Run(format, func(t *testing.T) {
			folder := t.TempDir()
			file := folder + "/f"
			trial.Write(t, file, anchored(format, map[string]int{"apnic": 90, "ripe": 10}))
			process, _ := started(t, folder, format, "f", "--guard", "20%", "--look", "1s")
			process.Says("100 payloads", 1)
			trial.Write(t, file, anchored(format, map[string]int{"apnic": 90, "ripe": 8}))
			process.Says("serial 2: 98 payloads", 1)
			trial.Write(t, file, anchored(format, map[string]int{"apnic": 90, "ripe": 6}))
			process.Says("it would withdraw 2 of 8 items of trust anchor ripe, "+
				"which is more than 20%: held until", 1)
			trial.Write(t, file, anchored(format, map[string]int{"apnic": 91, "ripe": 7}))
			process.Says("serial 3: 98 payloads", 1)
		})
	}
}
