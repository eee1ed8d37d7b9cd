package trust

import (
	"errors"
	"strings"
	"testing"
	"time"

	"fishreef/rtr"
)

// rules are the defaults of the command line, except for the quiet time.
var rules = Rules{Guard: 50, Quiet: 5 * time.Minute, Stale: 2 * time.Hour}

// of returns counts of these kinds.
func of(ipv4, ipv6, keys, aspas int) Counts {
	return Counts{rtr.IPv4Prefix: ipv4, rtr.IPv6Prefix: ipv6, rtr.RouterKey: keys, rtr.ASPA: aspas}
}

// A list is taken, or held if it would withdraw too much.
func TestJudge(t *testing.T) {
	held, tight := rules, rules
	held.Hold, tight.Guard = true, 20
	all := of(800, 200, 10, 10)
	const minutes = time.Minute
	for _, c := range []struct {
		name  string
		rules Rules
		offer Offer
		says  string // "" if it is taken
	}{
		{"the first list", rules, Offer{}, ""},
		{"nothing is withdrawn", rules, Offer{Had: all}, ""},
		{"half of all", rules, Offer{Had: all, Withdrawn: of(400, 100, 5, 5)}, ""},
		{"more than half of all", rules, Offer{Had: all, Withdrawn: of(411, 100, 0, 0)},
			"it would withdraw 511 of 1020 payloads, which is more than 50%"},
		{"a family is gone", tight, Offer{Had: all, Withdrawn: of(0, 200, 0, 0)},
			"it would withdraw 200 of 200 IPv6 prefixes, which is more than 20%"},
		{"a family of few is gone", rules, Offer{Had: of(800, 2, 0, 0), Withdrawn: of(0, 2, 0, 0)},
			"it would withdraw 2 of 2 IPv6 prefixes"},
		{"half of a family and one", rules, Offer{Had: all, Withdrawn: of(0, 101, 0, 0)}, "101 of 200 IPv6 prefixes"},
		{"keys are gone", rules, Offer{Had: all, Withdrawn: of(0, 0, 10, 0)}, "10 of 10 router keys"},
		{"ASPAs are gone", rules, Offer{Had: all, Withdrawn: of(0, 0, 0, 6)}, "6 of 10 ASPAs"},
		{"one key of one", rules, Offer{Had: of(9, 0, 1, 0), Withdrawn: of(0, 0, 1, 0)}, "1 of 1 router key,"},
		{"an anchor is gone", rules, Offer{Had: all, Anchors: []Anchor{{"apnic", 40, 40}, {"ripe", 30, 0}}},
			"it would withdraw 30 of 30 items of trust anchor ripe, which is more than 50%"},
		{"half of an anchor", rules, Offer{Had: all, Anchors: []Anchor{{"apnic", 40, 20}, {"ripe", 30, 31}}}, ""},
		{"half of an anchor and one", rules, Offer{Had: all, Anchors: []Anchor{{"apnic", 40, 19}, {"ripe", 30, 30}}},
			"21 of 40 items of trust anchor apnic,"},
		{"an item of one", rules, Offer{Had: all, Anchors: []Anchor{{"a\"b", 1, 0}, {"c", 1, 1}}},
			`1 of 1 item of trust anchor "a\"b",`},
		{"a name of two lines", rules, Offer{Had: all, Anchors: []Anchor{{"a\nb", 1, 0}, {"c", 1, 1}}},
			`1 of 1 item of trust anchor "a\nb",`},
		{"a kind before an anchor", rules,
			Offer{Had: all, Withdrawn: of(0, 0, 0, 6),
				Anchors: []Anchor{{"ripe", 30, 0}, {"c", 1, 1}}}, "6 of 10 ASPAs"},
		{"an anchor's items have expired", rules,
			Offer{Had: all, Expiry: true, Anchors: []Anchor{{"ripe", 30, 0}, {"c", 1, 1}}}, ""},
		{"nothing may go", Rules{}, Offer{Had: all, Withdrawn: of(1, 0, 0, 0)}, "1 of 1020 payloads, which is more than 0%"},
		{"all may go", Rules{Guard: 100}, Offer{Had: all, Withdrawn: all}, ""},

		{"all has expired", rules, Offer{Had: all, Withdrawn: all, Expiry: true}, ""},
		{"all has expired, a person decides", held, Offer{Had: all, Withdrawn: all, Expiry: true}, ""},
		{"a person wants it", rules, Offer{Had: all, Withdrawn: all, Confirmed: true}, ""},
		{"a person wants it, and decides", held, Offer{Had: all, Withdrawn: all, Confirmed: true}, ""},

		{"held for a while", rules, Offer{Had: all, Withdrawn: all, Same: 5*minutes - 1}, "for 5m0s, SIGUSR1"},
		{"held for the quiet time", rules, Offer{Had: all, Withdrawn: all, Same: 5 * minutes}, ""},
		{"held, and a person decides", held, Offer{Had: all, Withdrawn: all, Same: 500 * minutes},
			"held until SIGUSR1, or a start with --force"},
		{"seen for the first time", Rules{Guard: 50}, Offer{Had: all, Withdrawn: all}, "1020 of 1020 payloads"},
	} {
		err := c.rules.Judge(c.offer)
		switch {
		case c.says == "" && err != nil:
			t.Errorf("%s: %v", c.name, err)
		case c.says != "" && (!errors.As(err, new(*Held)) || !strings.Contains(err.Error(), c.says)):
			t.Errorf("%s: %v", c.name, err)
		}
	}
}

// look is a reading of a clock.
type look struct {
	system    time.Duration // how far the system's clock is behind or ahead of the true time
	after     time.Duration // the true time since the start
	confirmed bool
	counts    time.Duration // how far the clock is from the true time
	says      string        // the fault
}

// A clock that is set ahead or back is accepted once it has run for the quiet time, or at once if a
// person confirms it; until then, and if it is corrected, time continues as before.
func TestClock(t *testing.T) {
	const (
		minute = time.Minute
		days   = 24 * time.Hour
		ahead  = "set ahead by 240h0m0s: it is ignored until it has stayed the same for 5m0s"
		back   = "set back by 240h0m0s"
	)
	held := rules
	held.Hold = true
	start := time.Unix(1795923601, 0)
	for name, c := range map[string]struct {
		rules Rules
		looks []look
	}{
		"runs": {rules, []look{{}, {after: minute}, {after: 10 * days}}},
		"drifts": {rules, []look{
			{}, {system: minute, after: minute, counts: minute}, {system: minute / 2, after: 2 * minute, counts: minute / 2},
		}},
		"ahead and back": {rules, []look{
			{}, {system: 10 * days, after: minute, says: ahead}, {system: 10 * days, after: 2 * minute, says: ahead},
			{after: 3 * minute}, {after: 30 * minute},
		}},
		"back and ahead": {rules, []look{
			{}, {system: -10 * days, after: minute, says: back}, {after: 3 * minute},
		}},
		"stays ahead": {rules, []look{
			{}, {system: 10 * days, after: minute, says: ahead}, {system: 10 * days, after: 6*minute - 1, says: ahead},
			{system: 10 * days, after: 6 * minute, counts: 10 * days},
			{system: 10 * days, after: 60 * minute, counts: 10 * days},
			{after: 61 * minute, counts: 10 * days, says: back}, {after: 66 * minute},
		}},
		"is set again": {rules, []look{
			{}, {system: 20 * days, after: minute, says: "ahead by 480h0m0s"}, {system: 10 * days, after: 5 * minute, says: ahead},
			{system: 10 * days, after: 7 * minute, says: ahead}, {system: 10 * days, after: 10 * minute, counts: 10 * days},
		}},
		"a person decides": {held, []look{
			{}, {system: 10 * days, after: minute, says: "until SIGUSR1, or a start with --force"},
			{system: 10 * days, after: 10 * days, says: "ahead by 240h0m0s"},
			{system: 10 * days, after: 10 * days, confirmed: true, counts: 10 * days},
		}},
		"a person says so at once": {rules, []look{
			{}, {system: 10 * days, after: minute, says: ahead},
			{system: 10 * days, after: minute, confirmed: true, counts: 10 * days},
		}},
		"begins in 1970": {rules, []look{
			{system: -20000 * days, counts: -20000 * days}, {after: minute, counts: -20000 * days, says: "ahead by 480000h0m0s"},
			{after: 6 * minute},
		}},
	} {
		var clock Clock
		for i, reading := range c.looks {
			clock = clock.Look(start.Add(reading.after+reading.system), reading.after, c.rules,
				reading.confirmed)
			says := clock.Fault(c.rules)
			if !clock.Now().Equal(start.Add(reading.after+reading.counts)) ||
				(says == "") != (reading.says == "") ||
				!strings.Contains(says, reading.says) {
				t.Errorf("%s: look %d: %v, %q", name, i, clock.Now(), says)
			}
		}
	}
}

// Faults are listed, the most urgent first; without any the cache is healthy.
func TestHealth(t *testing.T) {
	now := time.Unix(1795923601, 0)
	clock := Clock{}.Look(now, 0, rules, false)
	ahead := clock.Look(now.Add(240*time.Hour), 0, rules, false)
	file := File{Path: "f", Looked: true, Written: now.Add(-time.Hour), Taken: 10}
	with := func(change func(*File)) []File {
		changed := file
		change(&changed)
		return []File{file, changed}
	}
	good := State{Data: true, Payloads: 10, Had: true, Clock: clock, Files: []File{file, file}}
	for _, c := range []struct {
		name   string
		change func(*State)
		faults []Fault
	}{
		{"all is well", func(*State) {}, nil},
		{"there are no data yet", func(s *State) { s.Data, s.Payloads, s.Had = false, 0, false },
			[]Fault{{NoData, "there are no data"}}},
		{"there never were payloads", func(s *State) { s.Payloads, s.Had = 0, false }, nil},
		{"no payloads are left", func(s *State) { s.Payloads = 0 }, []Fault{{Empty, "no payloads are left"}}},
		{"it isn't saved", func(s *State) { s.Unsaved = errors.New("no space left on device") },
			[]Fault{{Unsaved, "new data can't be saved, and aren't served: no space left on device"}}},
		{"the clock was set", func(s *State) { s.Clock = ahead }, []Fault{{Clocks, ahead.Fault(rules)}}},
		{"a file is held", func(s *State) {
			s.Files = with(func(f *File) { f.Problem, f.Held = errors.New("too much"), true })
		}, []Fault{{Holding, "f: too much"}}},
		{"a file is wrong", func(s *State) { s.Files = with(func(f *File) { f.Problem = errors.New("line 3") }) },
			[]Fault{{Refused, "f: line 3"}}},
		{"a list can't be fetched", func(s *State) {
			s.Files = with(func(f *File) {
				f.Unfetched, f.Written = errors.New("refused"), now.Add(-3*time.Hour)
			})
		}, []Fault{{Fetch, "f: it can't be fetched: refused"}, {Stale, "f: it was written 3h0m0s ago"}}},
		{"a list that never came", func(s *State) { s.Files = with(func(f *File) { *f = File{Path: "f", Unfetched: errors.New("no")} }) },
			[]Fault{{Fetch, "f: it can't be fetched: no"}}},
		{"a list is held and can't be fetched", func(s *State) {
			s.Files = with(func(f *File) {
				f.Problem, f.Held, f.Unfetched = errors.New("much"), true, errors.New("no")
			})
		}, []Fault{{Holding, "f: much"}, {Fetch, "f: it can't be fetched: no"}}},
		{"a file is old", func(s *State) { s.Files = with(func(f *File) { f.Written = now.Add(-2*time.Hour - time.Second) }) },
			[]Fault{{Stale, "f: it was written 2h0m1s ago"}}},
		{"a file isn't old yet", func(s *State) { s.Files = with(func(f *File) { f.Written = now.Add(-2 * time.Hour) }) }, nil},
		{"a file is from the future", func(s *State) { s.Files = with(func(f *File) { f.Written = now.Add(3 * time.Hour) }) },
			[]Fault{{Stale, "f: it was written 3h0m0s from now"}}},
		{"a file wasn't looked at", func(s *State) { s.Files = with(func(f *File) { *f = File{Path: "f"} }) }, nil},
		{"half of a file has expired", func(s *State) { s.Files = with(func(f *File) { f.Expired = 10 }) }, nil},
		{"most of a file has expired", func(s *State) { s.Files = with(func(f *File) { f.Expired = 11 }) },
			[]Fault{{Expired, "f: of 21 items 11 have expired"}}},
		{"one has expired", func(s *State) { s.Files = with(func(f *File) { f.Taken, f.Expired = 0, 1 }) },
			[]Fault{{Expired, "f: of 1 item 1 has expired"}}},
		{"all at once", func(s *State) {
			s.Payloads, s.Unsaved, s.Clock = 0, errors.New("read-only"), ahead
			s.Files = append(with(func(f *File) { f.Problem = errors.New("gone") }),
				with(func(f *File) { f.Problem, f.Held = errors.New("too much"), true })...)
			s.Files = append(s.Files, with(func(f *File) {
				f.Written, f.Taken, f.Expired = now.Add(-3*time.Hour), 0, 3
			})...)
		}, []Fault{
			{Empty, "no payloads are left"}, {Unsaved, "new data can't be saved, and aren't served: read-only"},
			{Clocks, ahead.Fault(rules)}, {Holding, "f: too much"}, {Refused, "f: gone"},
			{Stale, "f: it was written 3h0m0s ago"}, {Expired, "f: of 3 items 3 have expired"},
		}},
	} {
		state := good
		c.change(&state)
		faults := rules.Health(state)
		if len(faults) != len(c.faults) {
			t.Errorf("%s: %v", c.name, faults)
			continue
		}
		for i := range faults {
			if faults[i] != c.faults[i] {
				t.Errorf("%s: %q", c.name, faults[i])
			}
		}
	}
}

// Shares are whole percents.
func TestParseShare(t *testing.T) {
	for text, share := range map[string]Share{"0%": 0, "20": 20, "100%": 100} {
		if got, err := ParseShare(text); got != share || err != nil {
			t.Error(text, got, err)
		}
	}
	for _, text := range []string{"", "%", "101%", "-1%", "half", "1.5%", "50%%"} {
		if got, err := ParseShare(text); err == nil {
			t.Error(text, got)
		}
	}
}
