package main

import (
	"net/http"
	"os"
	"os/exec"
	"strings"
	"testing"

	"fishreef/programs/internal/trial"
	"fishreef/rtr"
)

// blocks lets no file of the state be written, and returns the function that ends that.
func blocks(t *testing.T, folder string) (ends func()) {
	t.Helper()
	if err := os.MkdirAll(folder+"/state/editions.new", 0o700); err != nil {
		t.Fatal(err)
	}
	return func() {
		if err := os.Remove(folder + "/state/editions.new"); err != nil {
			t.Fatal(err)
		}
	}
}

// replaces puts a folder in the place of the file of the state, which can't be replaced, and
// returns the function that ends that.
func replaces(t *testing.T, folder string) (ends func()) {
	t.Helper()
	had, aside := folder+"/state/editions", folder+"/state/aside"
	if err := os.Rename(had, aside); err != nil {
		t.Fatal(err)
	}
	if err := os.MkdirAll(had+"/full", 0o700); err != nil {
		t.Fatal(err)
	}
	return func() {
		if err := os.RemoveAll(had); err != nil {
			t.Fatal(err)
		}
		_ = os.Link(aside, had) // fails if the cache has saved in between
	}
}

// refusesUnsaved is the line about data that can't be saved.
const refusesUnsaved = "state: new data aren't served before they are saved: "

// serves checks which data a cache serves.
func serves(t *testing.T, address string, serial uint32, count int) {
	t.Helper()
	if data := fetched(t, address, 2); data.Serial() != serial || data.Len() != count {
		t.Errorf("serial %d: %d payloads", data.Serial(), data.Len())
	}
}

// unhealthy checks that /health and the metrics report data that can't be saved.
func unhealthy(t *testing.T, metrics string) {
	t.Helper()
	status, says := trial.Get(t, metrics+"/health")
	if status != http.StatusServiceUnavailable ||
		!strings.HasPrefix(says, "new data can't be saved, and aren't served: ") {
		t.Error(status, says)
	}
	_, says = trial.Get(t, metrics+"/metrics")
	for _, line := range []string{
		"rtr_cache_healthy 0\n", "rtr_cache_unhealthy{reason=\"unsaved\"} 1\n",
		"rtr_cache_unsaved_total 1\n",
		"rtr_cache_serial 1\n",
	} {
		if !strings.Contains(says, line) {
			t.Errorf("there is no %q", line)
		}
	}
}

// Data that can't be saved aren't served: routers get the former ones, and the log, /health and the
// metrics say so. Saving is retried, also with newer data, and a restart has what was served.
func TestUnsavedState(t *testing.T) {
	for name, breaks := range map[string]func(*testing.T, string) func(){
		"no new file": blocks, "a file that stays": replaces,
	} {
		breaks := breaks
		t.Run(name, func(t *testing.T) {
			t.Parallel()
			folder := t.TempDir()
			trial.Write(t, folder+"/f", rows(3))
			process, address := started(t, folder, "--csv", "f", "--state", "state", "--look", "1s",
				"--metrics", "127.0.0.1:0")
			process.Says("3 payloads", 1)
			first := fetched(t, address, 2)
			ends := breaks(t, folder)
			trial.Write(t, folder+"/f", rows(4))
			process.Says(refusesUnsaved, 1)
			process.Says("trying again in 1s", 1)
			serves(t, address, 1, 3)
			metrics := strings.TrimSuffix(process.After("metrics are at "), "/metrics")
			unhealthy(t, metrics)
			process.Says("trying again in 2s", 1)
			trial.Write(t, folder+"/f", rows(5))
			process.Says(refusesUnsaved, 3)
			serves(t, address, 1, 3)
			if process.Lines("serial 2") > 0 {
				t.Error(process.Stderr())
			}
			ends()
			process.Says("state: the data are saved again", 1)
			process.Says("serial 2: 5 payloads, 2 announced", 1)
			leads(t, address, first, fetched(t, address, 2))
			process.Await("good", func() bool {
				status, _ := trial.Get(t, metrics+"/health")
				return status == http.StatusOK
			})
			process.Kill()
			process, address = started(t, folder, "--csv", "f", "--state", "state")
			process.Says("f: nothing changed", 1)
			serves(t, address, 2, 5)
		})
	}
}

// A cache that is killed while data can't be saved continues from the previous data, whose next
// serial number no router knows; and it waits for data whose withdrawals were accepted before.
func TestKilledWhileUnsaved(t *testing.T) {
	folder := t.TempDir()
	trial.Write(t, folder+"/f", rows(30))
	process, address := started(t, folder, "--csv", "f", "--state", "state", "--look", "1s",
		"--guard-time", "1s")
	process.Says("30 payloads", 1)
	first := fetched(t, address, 2)
	ends := blocks(t, folder)
	trial.Write(t, folder+"/f", rows(3))
	process.Says("f: it would withdraw 27 of 30 payloads", 1)
	process.Says(refusesUnsaved, 1)
	trial.Write(t, folder+"/f", rows(4))
	process.Says("trying again in 1s", 2) // it isn't held, since the data that wait were accepted
	serves(t, address, 1, 30)
	process.Kill()
	ends()
	process, address = started(t, folder, "--csv", "f", "--state", "state", "--force")
	process.Says("serial 1: 30 payloads", 1)
	process.Says("serial 2: 4 payloads", 1)
	leads(t, address, first, fetched(t, address, 2))
}

// The first data of a cache aren't served either before they are saved.
func TestFirstDataUnsaved(t *testing.T) {
	folder := t.TempDir()
	trial.Write(t, folder+"/f", rows(3))
	ends := blocks(t, folder)
	if err := os.Mkdir(folder+"/state/editions.new/full", 0o700); err != nil {
		t.Fatal(err) // or it would be removed as a file that a killed cache left
	}
	process, address := started(t, folder, "--csv", "f", "--state", "state", "--look", "1s")
	process.Says(refusesUnsaved, 2)
	connection := dialed(t, address)
	query := &rtr.Unit{Kind: rtr.ResetQuery, Version: 2}
	if err := rtr.NewWriter(connection).Write(query); err != nil {
		t.Fatal(err)
	}
	report, err := rtr.NewReader(connection).Next()
	if err != nil || report.Kind != rtr.ErrorReport || report.Code != rtr.NoDataAvailable {
		t.Error(report, err)
	}
	if process.Lines("payloads") > 0 {
		t.Error(process.Stderr())
	}
	if err := os.Remove(folder + "/state/editions.new/full"); err != nil {
		t.Fatal(err)
	}
	ends()
	process.Says("serial 1: 3 payloads", 1)
	serves(t, address, 1, 3)
}

// A file isn't wrong because the system ended rtr_make, as one without memory does: it is read
// again, and what is served stays until then.
func TestEndedReader(t *testing.T) {
	folder := t.TempDir()
	reader, err := exec.LookPath("rtr_make")
	if err != nil {
		t.Skip("no rtr_make here")
	}
	script := "#!/bin/sh\nif [ -e " + folder +
		"/ends ]; then echo some text >&2; kill -9 $$; fi\nexec " + reader + ` "$@"` + "\n"
	if err := os.MkdirAll(folder+"/bin", 0o700); err != nil {
		t.Fatal(err)
	}
	if err := os.WriteFile(folder+"/bin/rtr_make", []byte(script), 0o700); err != nil {
		t.Fatal(err)
	}
	trial.Write(t, folder+"/f", rows(3))
	run := exec.Command(os.Args[0], "--csv", "f", "--look", "1s", "--listen", "127.0.0.1:0")
	process := trial.StartBy(t, folder, []string{"PATH=" + folder + "/bin:" + os.Getenv("PATH")}, run)
	process.Says("serial 1: 3 payloads", 1)
	trial.Write(t, folder+"/ends", "")
	trial.Write(t, folder+"/f", rows(4))
	process.Says("f: rtr_make: signal: killed", 1)
	if err := os.Remove(folder + "/ends"); err != nil {
		t.Fatal(err)
	}
	process.Says("serial 2: 4 payloads", 1)
	if process.Lines("level=warning") != 1 {
		t.Error(process.Stderr())
	}
}
