package cache

import (
	"bytes"
	"context"
	"fmt"
	"os"
	"path/filepath"
	"strings"
	"testing"
	"time"

	"github.com/sirupsen/logrus"

	"fishreef/programs/internal/beside"
	"fishreef/programs/internal/payloads"
	"fishreef/programs/internal/trial"
	"fishreef/programs/internal/trust"
	"fishreef/rtr"
)

func TestMain(tests *testing.M) {
	trial.WithPrebuilt()
	os.Exit(tests.Run())
}

// clocked is a cache whose clock the test sets.
type clocked struct {
	*Cache
	t       *testing.T
	path    string // of its file
	running time.Duration
	start   time.Time
	ahead   time.Duration
	logged  bytes.Buffer
}

// list returns a list of this many items, which all expire an hour after the start.
func (c *clocked) list(items int) string {
	var rows []string
	for i := 0; i < items; i++ {
		rows = append(rows, fmt.Sprintf(`{"asn": 64496, "prefix": "10.%d.%d.0/24", "expires": %d}`,
			i/256, i%256, c.start.Add(time.Hour).Unix()))
	}
	return `{"roas": [` + strings.Join(rows, ",") + "]}"
}

// newClocked is a cache of a file with this many items.
func newClocked(t *testing.T, items int) *clocked {
	t.Helper()
	// Items expire at whole seconds, and so do waits that are compared.
	start := time.Now().Truncate(time.Second)
	c := &clocked{t: t, path: filepath.Join(t.TempDir(), "f"), start: start}
	trial.Write(t, c.path, c.list(items))
	maker, err := beside.Find("rtr_make")
	if err != nil {
		t.Fatal(err)
	}
	log := logrus.New()
	log.SetOutput(&c.logged)
	c.Cache, err = New(Settings{
		Files:  []payloads.File{{Format: payloads.JSON, Path: c.path}},
		Reader: payloads.Reader{Maker: maker},
		Timing: rtr.RecommendedTiming, Clients: 1,
		Rules: trust.Rules{Guard: 50, Quiet: 5 * time.Minute, Stale: 1000 * time.Hour},
	}, log)
	if err != nil {
		t.Fatal(err)
	}
	c.time = func() (time.Time, time.Duration) {
		return c.start.Add(c.running + c.ahead), c.running
	}
	return c
}

// shows checks the file some time later, and compares the cache's data and health then.
func (c *clocked) shows(later time.Duration, count int, serial uint32, reason trust.Reason) {
	c.t.Helper()
	c.running += later
	c.look(context.Background(), false)
	var reasons []trust.Reason
	for _, fault := range c.health() {
		reasons = append(reasons, fault.Reason)
	}
	well := len(reasons) == 0 && reason == "" || len(reasons) > 0 && reasons[0] == reason
	if c.present.Len() != count || c.present.Serial() != serial || !well {
		c.t.Errorf("after %v: %d payloads, serial %d, %v\n%s",
			c.running, c.present.Len(), c.present.Serial(), reasons, c.logged.String())
	}
}

// A clock that jumps ten days ahead and back expires nothing, and /health reports the jump.
func TestClockJumps(t *testing.T) {
	c := newClocked(t, 1000)
	c.shows(0, 1000, 1, "")
	c.shows(10*time.Second, 1000, 1, "")
	c.ahead = 240 * time.Hour
	c.shows(10*time.Second, 1000, 1, trust.Clocks)
	c.shows(45*time.Second, 1000, 1, trust.Clocks)
	c.ahead = 0
	c.shows(10*time.Second, 1000, 1, "")
	c.shows(45*time.Second, 1000, 1, "")
}

// A clock that stays ahead is accepted after the guard's time. Then no payloads are left, which is
// never healthy; they return once the corrected clock is accepted.
func TestClockStaysAhead(t *testing.T) {
	c := newClocked(t, 1000)
	c.shows(0, 1000, 1, "")
	c.ahead = 240 * time.Hour
	c.shows(10*time.Second, 1000, 1, trust.Clocks)
	c.shows(5*time.Minute, 0, 2, trust.Empty)
	if !strings.Contains(c.logged.String(), "level=warning msg=") {
		t.Error(c.logged.String())
	}
	c.ahead = 0
	c.shows(10*time.Second, 0, 2, trust.Empty)
	c.shows(5*time.Minute, 1000, 3, "")
}

// Items that expire while the clock runs are withdrawn then, whatever the guard says, and /health
// reports that nothing is left. The cache waits for that time, and checks the file again.
func TestAllExpires(t *testing.T) {
	c := newClocked(t, 10)
	c.shows(0, 10, 1, "")
	c.shows(time.Hour-time.Second, 10, 1, "")
	if wait := c.untilNext(); wait != time.Second {
		t.Errorf("it waits for %v", wait)
	}
	c.shows(2*time.Second, 0, 2, trust.Empty)
}
