package trust

import (
	"fmt"
	"time"

	"fishreef/programs/internal/words"
)

// Reason is a reason why a cache isn't healthy, in one word.
type Reason string

// The reasons.
const (
	NoData  Reason = "data"    // nothing is served yet
	Empty   Reason = "empty"   // no payloads are left
	Unsaved Reason = "unsaved" // new data can't be saved, and aren't served
	Clocks  Reason = "clock"   // the system's clock was set, and isn't accepted
	Holding Reason = "held"    // a file would withdraw too much
	Refused Reason = "refused" // a file is invalid, or can't be read
	Fetch   Reason = "fetch"   // a list can't be fetched from its server
	Stale   Reason = "stale"   // a file is old, or from the future
	Expired Reason = "expired" // too much of a file has expired
)

// Reasons are all reasons, the most urgent first.
var Reasons = []Reason{NoData, Empty, Unsaved, Clocks, Holding, Refused, Fetch, Stale, Expired}

// File is the state of a file of a cache.
type File struct {
	Path      string
	Looked    bool      // it was checked before
	Unfetched error     // why the last fetch failed; nil if it didn't
	Problem   error     // why it wasn't accepted at the last check; nil if it was
	Held      bool      // the problem is that it would withdraw too much
	Written   time.Time // when it was written
	Taken     int       // the number of its payloads when it was last accepted
	Expired   int       // the number of its items that had expired then
}

// State is the state of a cache.
type State struct {
	Data     bool  // there are data
	Payloads int   // the number of payloads
	Had      bool  // the cache has served payloads
	Unsaved  error // why new data can't be saved; nil if none wait
	Clock    Clock
	Files    []File
}

// Fault is a reason why a cache isn't healthy, with its text.
type Fault struct {
	Reason Reason
	Text   string
}

// Health returns the faults of a cache, the most urgent first.
func (r Rules) Health(state State) (faults []Fault) {
	add := func(reason Reason, text string) {
		if text != "" {
			faults = append(faults, Fault{reason, text})
		}
	}
	if !state.Data {
		add(NoData, "there are no data")
	} else if state.Had && state.Payloads == 0 {
		add(Empty, "no payloads are left")
	}
	if state.Unsaved != nil {
		add(Unsaved, fmt.Sprintf("new data can't be saved, and aren't served: %v", state.Unsaved))
	}
	add(Clocks, state.Clock.Fault(r))
	for _, reason := range []Reason{Holding, Refused, Fetch, Stale, Expired} {
		for i := range state.Files {
			file := &state.Files[i]
			if text := r.fileFault(reason, file, state.Clock.Now()); text != "" {
				add(reason, file.Path+": "+text)
			}
		}
	}
	return faults
}

// fileFault returns a file's fault of one reason.
func (r Rules) fileFault(reason Reason, file *File, now time.Time) string {
	switch age := now.Sub(file.Written).Round(time.Second); {
	case reason == Holding && file.Held, reason == Refused && !file.Held:
		if file.Problem != nil {
			return file.Problem.Error()
		}
	case reason == Fetch && file.Unfetched != nil:
		return "it can't be fetched: " + file.Unfetched.Error()
	case !file.Looked || file.Problem != nil:
	case reason == Stale && age > r.Stale:
		return fmt.Sprintf("it was written %v ago", age)
	case reason == Stale && -age > r.Stale:
		return fmt.Sprintf("it was written %v from now", -age)
	case reason == Expired && file.Expired*100 > int(r.Guard)*(file.Expired+file.Taken):
		has := "have"
		if file.Expired == 1 {
			has = "has"
		}
		return fmt.Sprintf("of %s %d %s expired", words.Number(file.Expired+file.Taken, "item"),
			file.Expired, has)
	}
	return ""
}
