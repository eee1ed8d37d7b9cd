package trust

import (
	"fmt"
	"time"
)

// tolerance is the largest change of the system's clock that is accepted at once.
const tolerance = time.Minute

// Clock is the time that a cache uses. That is the system's time, unless the system's clock was set
// by more than a minute: then the cache's time continues as before, until the new time has lasted
// for the quiet time, or the clock is set back. A person may confirm it at once. So a clock that is
// wrong for a while expires nothing. The zero Clock has no time yet.
type Clock struct {
	now     time.Time     // at the last Look
	running time.Duration // the machine's uptime at the last Look
	ahead   time.Duration // of the system's clock before now; 0 if that clock is accepted
	since   time.Duration // the machine's uptime when the system's clock was set
}

// Now returns the time of the last Look.
func (c Clock) Now() time.Time { return c.now }

// Look returns the clock for a time of the system and the machine's uptime, which doesn't change
// when the clock is set.
func (c Clock) Look(system time.Time, running time.Duration, rules Rules, confirmed bool) Clock {
	system = system.Round(0)
	next := Clock{now: c.now.Add(running - c.running), running: running}
	ahead := system.Sub(next.now)
	if c.now.IsZero() || isSmall(ahead) {
		next.now = system
		return next
	}
	next.ahead, next.since = ahead, running
	if c.ahead == 0 || !isSmall(ahead-c.ahead) {
		return next
	}
	next.since = c.since
	if confirmed || !rules.Hold && running-c.since >= rules.Quiet {
		next.now, next.ahead = system, 0
	}
	return next
}

// isSmall reports whether a difference of times is within the tolerance.
func isSmall(difference time.Duration) bool {
	return -tolerance <= difference && difference <= tolerance
}

// Fault returns a text if the system's clock isn't accepted, else "".
func (c Clock) Fault(rules Rules) string {
	switch {
	case c.ahead > 0:
		return fmt.Sprintf("the system's clock was set ahead by %v: it is ignored until %s",
			c.ahead.Round(time.Second), rules.waits())
	case c.ahead < 0:
		return fmt.Sprintf("the system's clock was set back by %v: it is ignored until %s",
			-c.ahead.Round(time.Second), rules.waits())
	}
	return ""
}
