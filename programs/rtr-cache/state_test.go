package main

import (
	"context"
	"fmt"
	"math/rand"
	"os"
	"path/filepath"
	"strings"
	"testing"
	"time"

	"fishreef/programs/internal/trial"
	"fishreef/rtr"
)

// Without a state folder all data of a start are of one session, and each start draws another one,
// by chance the same once in 65,536. So a router of the former start gets a cache reset.
func TestRestartWithoutFolder(t *testing.T) {
	folder := t.TempDir()
	sessions := map[uint16]bool{}
	var before rtr.Data
	for start := 0; start < 4; start++ {
		trial.Write(t, folder+"/f", rows(2*start+1))
		process, address := started(t, folder, "--csv", "f")
		process.Says("serial 1: ", 1)
		first := fetched(t, address, 2)
		if !before.IsZero() && before.Session() != first.Session() {
			connection := dialed(t, address)
			query := rtr.Unit{Kind: rtr.SerialQuery, Version: 2, Session: before.Session(), Serial: 1}
			if err := rtr.NewWriter(connection).Write(&query); err != nil {
				t.Fatal(err)
			}
			if unit, err := rtr.NewReader(connection).Next(); err != nil || unit.Kind != rtr.CacheReset {
				t.Error(unit, err)
			}
		}
		trial.Write(t, folder+"/f", rows(2*start+2))
		process.Says("serial 2: ", 1)
		if before = fetched(t, address, 2); before.Session() != first.Session() {
			t.Error(first.Session(), before.Session())
		}
		leads(t, address, first, before)
		sessions[first.Session()] = true
		process.End()
	}
	if len(sessions) == 1 { // by chance once in 2^48
		t.Error("each start took up the session before")
	}
}

// A restarted cache keeps its session and its serial number, and the changes from earlier data.
func TestRestart(t *testing.T) {
	folder := t.TempDir()
	file := filepath.Join(folder, "f")
	var before rtr.Data
	for count := 1; count < 4; count++ {
		trial.Write(t, file, rows(count))
		process, address := started(t, folder, "--csv", "f", "--state", "state")
		process.Says("f: session", 1)
		data := fetched(t, address, 2)
		if count > 1 && (data.Session() != before.Session() || data.Serial() != before.Serial()+1) {
			t.Errorf("session %d serial %d", data.Session(), data.Serial())
		}
		if count > 1 {
			leads(t, address, before, data)
		}
		before = data
		process.End()
	}
	process, address := started(t, folder, "--csv", "f", "--state", "state")
	process.Says("state: session", 1)
	if data := fetched(t, address, 2); !data.Equal(before) {
		t.Error("an unchanged file changed the data")
	}
}

// leads asks for the changes from old data, applies them, and compares the result with the new
// data.
func leads(t *testing.T, address string, old, new rtr.Data) {
	t.Helper()
	connection := dialed(t, address)
	query := rtr.Unit{Kind: rtr.SerialQuery, Version: 2, Session: old.Session(), Serial: old.Serial()}
	if err := rtr.NewWriter(connection).Write(&query); err != nil {
		t.Fatal(err)
	}
	reader := rtr.NewReader(connection)
	response, err := reader.Next()
	if err != nil || response.Kind != rtr.CacheResponse {
		t.Fatal(response, err)
	}
	changes, err := reader.Sequence(1000).Collect(1 << 20)
	if err != nil {
		t.Fatal(err)
	}
	if got, err := rtr.ApplyInOrder(old, changes); err != nil || !got.Equal(new) {
		t.Error("the changes don't lead there:", err)
	}
}

// A damaged file in the state folder is refused with a message and renamed; another session begins.
func TestTornState(t *testing.T) {
	folder := t.TempDir()
	trial.Write(t, folder+"/f", rows(3))
	process, _ := started(t, folder, "--csv", "f", "--state", "state")
	process.Says("3 payloads", 1)
	process.End()
	editions := folder + "/state/editions"
	whole, err := os.ReadFile(editions)
	if err != nil {
		t.Fatal(err)
	}
	other, err := rtr.NewData(2, 7, 9, rtr.RecommendedTiming)
	if err != nil {
		t.Fatal(err)
	}
	flipped := append([]byte{}, whole...)
	flipped[len(flipped)/2] ^= 1
	for name, text := range map[string]string{
		"empty": "", "torn": string(whole[:len(whole)-1]), "longer": string(whole) + "x",
		"flipped": string(flipped), "units": string(other.Bytes()), "text": "serial 7\n",
	} {
		trial.Write(t, editions, text)
		process, address := started(t, folder, "--csv", "f", "--state", "state")
		process.Says("f: session", 1)
		if process.Lines("state/editions: the saved file is damaged: the data need a new session; "+
			"it is now state/editions.refused") != 1 {
			t.Errorf("%s: %s", name, process.Stderr())
		}
		if data := fetched(t, address, 2); data.Serial() != 1 || data.Len() != 3 {
			t.Errorf("%s: serial %d, %d payloads", name, data.Serial(), data.Len())
		}
		if !trial.Same(folder+"/state/editions.refused", text) {
			t.Errorf("%s: what was refused is gone", name)
		}
		process.End()
	}
}

// Half of a new file next to the old one, as a killed cache leaves it, is ignored.
func TestHalfWrittenState(t *testing.T) {
	folder := t.TempDir()
	trial.Write(t, folder+"/f", rows(3))
	process, address := started(t, folder, "--csv", "f", "--state", "state")
	process.Says("3 payloads", 1)
	before := fetched(t, address, 2)
	process.Kill()
	trial.Write(t, folder+"/state/editions.new", "rtrkept1")
	process, address = started(t, folder, "--csv", "f", "--state", "state")
	process.Says("state: session", 1)
	if !fetched(t, address, 2).Equal(before) {
		t.Error(process.Stderr())
	}
}

// moments are the times at which a cache is killed: as soon as the new file exists, when it is
// renamed, and at random times around that.
var moments = []func(folder string, since time.Time){
	func(folder string, _ time.Time) { appears(folder + "/state/editions.new") },
	func(folder string, since time.Time) { renamed(folder+"/state/editions", since) },
	func(string, time.Time) { time.Sleep(time.Duration(90+rand.Intn(60)) * time.Millisecond) },
}

// appears waits until a file exists, or for a second.
func appears(path string) {
	for until := time.Now().Add(time.Second); time.Now().Before(until); {
		if _, err := os.Stat(path); err == nil {
			return
		}
	}
}

// renamed waits until a file was written after a time, or for a second.
func renamed(path string, since time.Time) {
	for until := time.Now().Add(time.Second); time.Now().Before(until); {
		if info, err := os.Stat(path); err == nil && info.ModTime().After(since) {
			return
		}
	}
}

// A cache is killed in each phase of saving new data. After a restart it never has two different
// data with one serial number, nor older data than clients had.
func TestKilled(t *testing.T) {
	folder := t.TempDir()
	file := folder + "/f"
	seen := map[string]string{}
	count := 200
	trial.Write(t, file, rows(count))
	var last rtr.Data
	for turn := 0; turn < 30; turn++ {
		process, address := started(t, folder, "--csv", "f", "--state", "state",
			"--max-per-address", "1000")
		process.Says("payloads", 1)
		got := polled(address)
		count++
		since := time.Now()
		trial.Write(t, file, rows(count))
		moments[turn%len(moments)](folder, since)
		process.Kill()
		for data := range got {
			name := fmt.Sprintf("session %d serial %d", data.Session(), data.Serial())
			if had, known := seen[name]; known && had != lines(data) {
				t.Fatalf("%s stands for other data after turn %d", name, turn)
			}
			seen[name] = lines(data)
			if !last.IsZero() && (data.Session() != last.Session() || before(data, last)) {
				t.Fatalf("turn %d: %s after serial %d", turn, name, last.Serial())
			}
			last = data
		}
	}
	if len(seen) < 10 {
		t.Errorf("only %d data were seen", len(seen))
	}
}

// before reports whether data have a serial number before that of others.
func before(data, others rtr.Data) bool {
	order, ok := rtr.CompareSerials(data.Serial(), others.Serial())
	return ok && order < 0
}

// polled loads the data of a cache repeatedly until it stops, and returns each changed version.
func polled(address string) <-chan rtr.Data {
	all := make(chan rtr.Data, 1000)
	go func() {
		defer close(all)
		var last rtr.Data
		for {
			client := rtr.NewClient(address)
			client.Version = 2
			data, err := client.Fetch(context.Background())
			if err != nil {
				return
			}
			if !data.Equal(last) {
				all <- data
			}
			last = data
		}
	}()
	return all
}

// An unchanged file is reread at SIGHUP: its fault is reported again.
func TestHangUp(t *testing.T) {
	folder := t.TempDir()
	trial.Write(t, folder+"/f", strings.Repeat("x", 5))
	process, _ := started(t, folder, "--csv", "f")
	process.Says("f: line 1", 1)
	time.Sleep(300 * time.Millisecond)
	if process.Lines("f: line 1") != 1 {
		t.Error(process.Stderr())
	}
	process.Signal(hangup)
	process.Says("f: line 1", 2)
	trial.Write(t, folder+"/f", rows(2))
	process.Says("2 payloads", 1)
	process.Signal(hangup)
	process.Says("f: nothing changed", 1)
}

// The state folder and its files are only accessible to the owner; an existing folder keeps its
// permissions.
func TestStateRights(t *testing.T) {
	folder := t.TempDir()
	trial.Write(t, folder+"/f", rows(3))
	if err := os.Mkdir(folder+"/given", 0o750); err != nil {
		t.Fatal(err)
	}
	for name, rights := range map[string]os.FileMode{"made": 0o700, "given": 0o750} {
		process, _ := started(t, folder, "--csv", "f", "--state", name)
		process.Says("3 payloads", 1)
		for path, expected := range map[string]os.FileMode{"": rights, "/lock": 0o600} {
			info, err := os.Stat(folder + "/" + name + path)
			if err != nil || info.Mode().Perm() != expected {
				t.Errorf("%s%s: %v, %v", name, path, info.Mode(), err)
			}
		}
		process.End()
	}
}
