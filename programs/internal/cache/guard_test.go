package cache

import (
	"os"
	"strings"
	"testing"
	"time"

	"fishreef/programs/internal/trial"
	"fishreef/programs/internal/trust"
)

// A held list is accepted once it has stayed the same for the guard time. Each change starts that
// time again, except one of the file's permissions.
func TestGuardTime(t *testing.T) {
	c := newClocked(t, 10)
	c.shows(0, 10, 1, "")
	almost := c.settings.Rules.Quiet - time.Nanosecond
	for count := 1; count < 4; count++ {
		trial.Write(t, c.path, c.list(count))
		c.shows(time.Second, 10, 1, trust.Holding)
		c.shows(almost, 10, 1, trust.Holding)
	}
	if err := os.Chmod(c.path, 0o640); err != nil {
		t.Fatal(err)
	}
	c.shows(0, 10, 1, trust.Holding)
	c.shows(time.Nanosecond, 3, 2, "")
	if count := strings.Count(c.logged.String(), "it would withdraw"); count != 3 {
		t.Errorf("%d lists were held:\n%s", count, c.logged.String())
	}
}

// A list that is written in place, in pieces, is read once nothing was written for two seconds.
func TestWrittenInPieces(t *testing.T) {
	c := newClocked(t, 10)
	c.shows(0, 10, 1, "")
	file, err := os.OpenFile(c.path, os.O_WRONLY|os.O_TRUNC, 0)
	if err != nil {
		t.Fatal(err)
	}
	defer file.Close()
	for _, piece := range strings.SplitAfter(c.list(9), "},") {
		if _, err := file.WriteString(piece); err != nil {
			t.Fatal(err)
		}
		c.shows(time.Second, 10, 1, "")
		c.shows(settled-time.Nanosecond, 10, 1, "")
	}
	c.shows(time.Nanosecond, 9, 2, "")
}

// A file that is written while a check begins has stayed the same only from then on.
func TestWrittenDuringCheck(t *testing.T) {
	c := newClocked(t, 10)
	c.shows(0, 10, 1, "")
	piece, clock := c.list(9)[:100], c.time
	c.time = func() (time.Time, time.Duration) {
		system, running := clock()
		if piece != "" {
			c.running += settled
			if err := os.WriteFile(c.path, []byte(piece), 0o600); err != nil {
				t.Error(err)
			}
			piece = ""
		}
		return system, running
	}
	c.shows(time.Second, 10, 1, "")
	c.shows(time.Nanosecond, 10, 1, "")
}
