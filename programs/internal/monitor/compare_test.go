package monitor

import (
	"fmt"
	"net/netip"
	"os"
	"sort"
	"strings"
	"testing"
	"time"

	"fishreef/programs/internal/payloads"
	"fishreef/programs/internal/trial"
	"fishreef/rtr"
)

func TestMain(tests *testing.M) {
	trial.WithPrebuilt()
	os.Exit(tests.Run())
}

// sideOf returns the side of a source of a version with these payloads, given by their lines.
func sideOf(t *testing.T, version uint8, lines ...string) side {
	t.Helper()
	end, err := rtr.NewData(2, 0, 0, rtr.RecommendedTiming)
	if err != nil {
		t.Fatal(err)
	}
	var sequence []byte
	for _, line := range lines {
		if sequence, err = unitFor(line).AppendBinary(sequence); err != nil {
			t.Fatal(line, err)
		}
	}
	ordered, err := rtr.Order(append(sequence, end.Bytes()...))
	if err != nil {
		t.Fatal(err)
	}
	data, err := rtr.ParseData(ordered)
	if err != nil {
		t.Fatal(err)
	}
	if data, err = payloads.In(data, version); err != nil {
		t.Fatal(err)
	}
	return side{data, version}
}

// unitFor returns the unit that announces the payload of a line: a prefix with an AS number, a
// router key with its AS number, or an ASPA with its customer and its providers.
func unitFor(line string) *rtr.Unit {
	var asn uint32
	words := strings.Fields(line)
	switch words[0] {
	case "key":
		fmt.Sscan(words[1], &asn)
		return &rtr.Unit{Kind: rtr.RouterKey, Version: 2, Announce: true, ASN: asn,
			KeyInfo: []byte("key")}
	case "aspa":
		var providers []uint32
		for _, word := range words[2:] {
			var provider uint32
			fmt.Sscan(word, &provider)
			providers = append(providers, provider)
		}
		fmt.Sscan(words[1], &asn)
		return &rtr.Unit{Kind: rtr.ASPA, Version: 2, Announce: true, Customer: asn,
			Providers: rtr.NewProviders(providers...)}
	}
	prefix := netip.MustParsePrefix(words[0])
	fmt.Sscan(words[1], &asn)
	kind := rtr.IPv4Prefix
	if prefix.Addr().Is6() {
		kind = rtr.IPv6Prefix
	}
	return &rtr.Unit{Kind: kind, Version: 2, Announce: true, Prefix: prefix,
		MaxLength: uint8(prefix.Bits()), ASN: asn}
}

// found returns the lines of missing payloads, each with the source that lacks it.
func found(all []missing) string {
	var lines []string
	for _, m := range all {
		d := Difference{missing: m}
		lines = append(lines, fmt.Sprintf("%s: %d", d.Line(), m.source))
	}
	sort.Strings(lines)
	return strings.Join(lines, "\n")
}

// Missing payloads are found from the sources' payloads and versions, whichever source is compared
// with the others.
func TestMissing(t *testing.T) {
	const v4, v6 = "192.0.2.0/24 64496", "2001:db8::/32 64497"
	for name, row := range map[string]struct {
		sides []side
		says  []string
	}{
		"equal": {[]side{sideOf(t, 2, v4, v6), sideOf(t, 2, v6, v4)}, nil},
		"one each": {[]side{sideOf(t, 2, v4), sideOf(t, 2, v6)}, []string{
			"IPv4 prefix 192.0.2.0/24-24 AS64496: 1", "IPv6 prefix 2001:db8::/32-32 AS64497: 0"}},
		"one of three": {[]side{sideOf(t, 2, v4), sideOf(t, 2), sideOf(t, 2, v4, v6)}, []string{
			"IPv4 prefix 192.0.2.0/24-24 AS64496: 1", "IPv6 prefix 2001:db8::/32-32 AS64497: 0",
			"IPv6 prefix 2001:db8::/32-32 AS64497: 1"}},
		"another max length": {[]side{sideOf(t, 2, "192.0.2.0/24 1", "192.0.2.0/25 1"),
			sideOf(t, 2, "192.0.2.0/24 1", "192.0.2.0/25 2")}, []string{
			"IPv4 prefix 192.0.2.0/25-25 AS1: 1", "IPv4 prefix 192.0.2.0/25-25 AS2: 0"}},
		"keys": {[]side{sideOf(t, 2, "key 1"), sideOf(t, 1, "key 2"), sideOf(t, 0)}, []string{
			"router key 0000000000000000000000000000000000000000 AS1 a2V5: 1",
			"router key 0000000000000000000000000000000000000000 AS2 a2V5: 0"}},
		"ASPAs of some": {[]side{sideOf(t, 2, "aspa 1 2", v4), sideOf(t, 1, v4), sideOf(t, 2, v4)},
			[]string{"ASPA AS1 providers AS2: 2"}},
		"ASPAs of another": {[]side{sideOf(t, 2, v4), sideOf(t, 1, v4), sideOf(t, 2, "aspa 1 2", v4)},
			[]string{"ASPA AS1 providers AS2: 0"}},
		"other providers": {[]side{sideOf(t, 2, "aspa 1 2"), sideOf(t, 2, "aspa 1 3"), sideOf(t, 2)},
			[]string{"ASPA AS1 providers AS2: 1", "ASPA AS1 providers AS2: 2",
				"ASPA AS1 providers AS3: 0", "ASPA AS1 providers AS3: 2"}},
		"no data": {[]side{sideOf(t, 2, v4), {}, sideOf(t, 2, v6)}, []string{
			"IPv4 prefix 192.0.2.0/24-24 AS64496: 2", "IPv6 prefix 2001:db8::/32-32 AS64497: 0"}},
		"one only":       {[]side{{}, sideOf(t, 2, v4)}, nil},
		"prefixes alone": {[]side{sideOf(t, 0, v4), sideOf(t, 2, v4, "aspa 1 2", "key 1")}, nil},
	} {
		count := len(row.sides)
		for first := 0; first < count; first++ {
			c := newComparison(count)
			for i := range row.sides { // in each order, and twice
				source := (first + i) % count
				for _, has := range []side{{}, sideOf(t, 2, "198.51.100.0/24 9"), row.sides[source]} {
					if err := c.set(source, has); err != nil {
						t.Fatal(err)
					}
				}
			}
			if got := found(c.missing()); got != strings.Join(row.says, "\n") {
				t.Errorf("%s, %d first:\n%s", name, first, got)
			}
		}
	}
}

// The same difference is found whichever source is the pivot, so that its start time stays when
// another source becomes the pivot.
func TestPivot(t *testing.T) {
	c := newComparison(3)
	sides := []side{sideOf(t, 2, "aspa 1 2", "10.0.0.0/8 1"), sideOf(t, 2, "aspa 1 3"),
		sideOf(t, 2, "aspa 1 3", "10.0.0.0/8 2")}
	for source, has := range sides {
		if err := c.set(source, has); err != nil {
			t.Fatal(err)
		}
	}
	of := func() map[missing]bool {
		all := map[missing]bool{}
		for _, m := range c.missing() {
			if m.source != 0 {
				all[m] = true
			}
		}
		return all
	}
	before := of()
	if err := c.set(0, side{sides[0].data, 1}); err != nil { // then it isn't the pivot
		t.Fatal(err)
	}
	if c.pivot != 1 {
		t.Fatal(c.pivot)
	}
	if err := c.set(0, sides[0]); err != nil {
		t.Fatal(err)
	}
	c.pivot = 1
	if err := c.compareAll(); err != nil {
		t.Fatal(err)
	}
	if after := of(); len(after) != len(before) || len(after) == 0 {
		t.Errorf("%d and %d", len(before), len(after))
	} else {
		for m := range after {
			if !before[m] {
				t.Error(m)
			}
		}
	}
}

// A difference is old once it has lasted for the grace time, counts from its start, and its end is
// reported if it was logged.
func TestAges(t *testing.T) {
	start := time.Now()
	at := func(seconds int) time.Time { return start.Add(time.Duration(seconds) * time.Second) }
	a, b := missing{"a", 0}, missing{"b", 1}
	d := newDifferences(2, 10*time.Second)
	// Each has the returned number, and the first of them.
	check := func(what string, first []Difference, count, expected int, which missing) {
		t.Helper()
		if count != expected || len(first) != expected || expected > 0 && first[0].missing != which {
			t.Errorf("%s: %d %v", what, count, first)
		}
	}
	next := func(expected time.Time) {
		t.Helper()
		if when, ok := d.next(); !ok || !when.Equal(expected) {
			t.Error(when, ok)
		}
	}
	over, count := d.replace([]missing{a}, at(0), 9)
	check("at first", over, count, 0, a)
	next(at(10))
	d.replace([]missing{b, a}, at(4), 9)
	aged, count := d.markOld(at(9), 9)
	check("too soon", aged, count, 0, a)
	aged, count = d.markOld(at(10), 9)
	check("a is old", aged, count, 1, a)
	aged, count = d.markOld(at(12), 9)
	check("it was logged", aged, count, 0, a)
	next(at(14))
	if d.counts[0] != (numbers{0, 1}) || d.counts[1] != (numbers{1, 0}) {
		t.Error(d.counts)
	}
	if list := d.list(10, true); len(list) != 1 || list[0].missing != a ||
		!list[0].Since.Equal(at(0)) {
		t.Error(list)
	}
	if list := d.list(1, false); len(list) != 1 || list[0].missing != a {
		t.Error(list)
	}
	over, count = d.replace(nil, at(13), 9)
	check("b was never logged", over, count, 1, a)
	d.replace([]missing{a}, at(20), 9)
	if list := d.list(10, false); len(list) != 1 || !list[0].Since.Equal(at(20)) || list[0].old {
		t.Error(list)
	}
	if _, ok := newDifferences(2, 0).next(); ok {
		t.Error("there are none")
	}
}

// Of many differences the first are kept and sorted, in whichever order they come.
func TestEarliest(t *testing.T) {
	start := time.Now()
	for _, most := range []int{0, 1, 2, 7, 100} {
		e := &earliest{most: most}
		for i := 0; i < 50; i++ {
			rank := i * 37 % 50
			e.offer(&Difference{missing: missing{fmt.Sprint(rank), rank % 3},
				Since: start.Add(time.Duration(rank / 2))})
		}
		list := e.list()
		if expected := most; len(list) != expected && len(list) != 50 {
			t.Errorf("%d of %d", len(list), most)
		}
		for i := range list {
			if !list[i].Since.Equal(start.Add(time.Duration(i / 2))) {
				t.Errorf("%d of %d is of %v", i, most, list[i].Since.Sub(start))
			}
		}
	}
}

// Valid and invalid arguments for sources.
func TestParseSource(t *testing.T) {
	for word, says := range map[string]string{
		"cache.example:323":             "tcp cache.example:323",
		"tcp:cache.example:323":         "tcp cache.example:323",
		"tls:cache.example:324":         "tls cache.example:324",
		"ssh:[2001:db8::1]:22":          "ssh [2001:db8::1]:22",
		"[::1]:323":                     "tcp [::1]:323",
		"tls:[::1]:rpki-rtr-tls":        "tls [::1]:rpki-rtr-tls",
		"json:/var/lib/json":            "json /var/lib/json",
		"csv:a:b":                       "csv a:b",
		"sequence:f":                    "sequence f",
		"json:https://h/json":           "json https://h/json",
		"json:https://me:secret@h/json": "json https://me:xxxxx@h/json",
	} {
		source, err := ParseSource(word)
		got := fmt.Sprintf("%s %s", source.Transport, source.Address)
		if source.Transport == "" {
			got = fmt.Sprintf("%s %s", source.List.Format, source.List.Path)
		}
		if err != nil || got != says || strings.Contains(source.Name, "secret") {
			t.Errorf("%s: %s, %v", word, got, err)
		}
	}
	for _, word := range []string{
		"", "host", ":323", "host:", "tls:host", "tls:324", "json:", "json", "http://h/f", "json:http:/f",
		"/file", "a:b:c",
	} {
		if source, err := ParseSource(word); err == nil {
			t.Errorf("%q: %+v", word, source)
		}
	}
}
