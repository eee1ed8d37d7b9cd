package main

import (
	"fmt"
	"strings"
	"testing"
	"time"

	"fishreef/programs/internal/trial"
)

// dated returns JSON with a prefix for each of these times, at which it expires; 0 for never.
func dated(times ...int64) string {
	var items []string
	for i, at := range times {
		item := fmt.Sprintf(`"asn": 64496, "prefix": "10.0.%d.0/24"`, i)
		if at != 0 {
			item += fmt.Sprintf(`, "expires": %d`, at)
		}
		items = append(items, "{"+item+"}")
	}
	return `{"roas": [` + strings.Join(items, ", ") + "]}"
}

// Items are withdrawn when they expire, whatever the guard says, and clients get the change. In the
// end no payloads are left.
func TestExpires(t *testing.T) {
	folder := t.TempDir()
	trial.Write(t, folder+"/f", dated(1, 0, 0, 0))
	process, address := started(t, folder, "--json", "f", "--look", "1h", "--guard", "10%")
	process.Says("serial 1: 3 payloads", 1)
	changes := follow(t, address)
	if first := <-changes; first.data.Serial() != 1 {
		t.Errorf("serial %d came first", first.data.Serial())
	}
	now := expireSoon(t, process, folder+"/f")
	if next := <-changes; next.data.Serial() != 2 || next.removed != 1 {
		t.Errorf("serial %d: %d were withdrawn", next.data.Serial(), next.removed)
	}
	if time.Now().Unix() < now+6 {
		t.Error("a prefix was withdrawn too early")
	}
	process.Says("serial 3: 0 payloads", 1)
	if time.Now().Unix() < now+9 {
		t.Error("the last prefixes were withdrawn too early")
	}
	if data := fetched(t, address, 2); data.Len() != 0 {
		t.Error(lines(data))
	}
	if process.Lines("f: session") != 3 || process.Lines("refused") != 0 {
		t.Error(process.Stderr())
	}
}

// expireSoon has the three payloads that a cache serves expire six and nine seconds after the time
// that it returns. If a busy machine reads the list only then, it is held, and written again.
func expireSoon(t *testing.T, process *trial.Process, path string) (now int64) {
	t.Helper()
	for held := 1; ; held++ {
		now = time.Now().Unix()
		trial.Write(t, path, dated(now-1, now+6, now+9, now+9))
		process.Await("the list is read", func() bool {
			return process.Lines("nothing changed") > 0 || process.Lines("it would withdraw") >= held
		})
		if process.Lines("nothing changed") > 0 {
			return now
		}
	}
}

// An invalid time is refused with its path in the file, and the served data stay.
func TestWrongExpiry(t *testing.T) {
	folder := t.TempDir()
	trial.Write(t, folder+"/f", dated(0, 0))
	process, _ := started(t, folder, "--json", "f")
	process.Says("serial 1: 2 payloads", 1)
	trial.Write(t, folder+"/f", dated(0, -1))
	process.Says("f: roas[1].expires: invalid time", 1)
	if process.Lines("serial") != 1 {
		t.Error(process.Stderr())
	}
}
