//go:build cgo && linux

package rtr

import (
	"fmt"
	"math"
	"os"
	"reflect"
	"regexp"
	"strings"
	"testing"
	"time"
)

// words returns a time as pages have it.
func words(span time.Duration) string {
	units := map[string]time.Duration{
		"hour": time.Hour, "minute": time.Minute, "second": time.Second,
	}
	for unit, size := range units {
		count := span / size
		switch whole := span == count*size; {
		case whole && count == 1:
			return "a " + unit
		case whole && (count < 60 && unit != "hour" || unit == "hour") && count > 1:
			return fmt.Sprintf("%d %ss", count, unit)
		}
	}
	return span.String()
}

// shownDefault returns a default as the table of docs/BINDINGS.md has it.
func shownDefault(value any) string {
	switch value := value.(type) {
	case time.Duration:
		return words(value)
	case bool:
		return map[bool]string{false: "no", true: "yes"}[value]
	case int:
		if value >= 1<<20 {
			return fmt.Sprintf("%d MiB", value>>20)
		}
	case uint64:
		return fmt.Sprintf("%d million", value/1e6)
	}
	return fmt.Sprint(value)
}

// usualLimits returns each field of the limits in Go, by its name, with its default.
func usualLimits() map[string]string {
	usual := map[string]string{}
	for _, limits := range []any{NewClient("").Limits, NewServer().Limits, UsualGroupSettings()} {
		for value, i := reflect.ValueOf(limits), 0; i < value.NumField(); i++ {
			name := value.Type().Name() + "." + value.Type().Field(i).Name
			usual[name] = shownDefault(value.Field(i).Interface())
		}
	}
	return usual
}

// withCapitals returns a name of C as JavaScript has it.
func withCapitals(name string) string {
	parts := strings.Split(name, "_")
	for i, part := range parts[1:] {
		parts[i+1] = strings.ToUpper(part[:1]) + part[1:]
	}
	return strings.Join(parts, "")
}

// The table of docs/BINDINGS.md has all limits, with their defaults. A name in Python is that in C,
// and one in JavaScript the same with capitals.
func TestDocumentedLimits(t *testing.T) {
	page, err := os.ReadFile("../../docs/BINDINGS.md")
	if err != nil {
		t.Skip("no docs/BINDINGS.md beside: this is a package")
	}
	missing, limits := usualLimits(), ""
	for _, line := range strings.Split(string(page), "\n") {
		cells := regexp.MustCompile(` *\| *`).Split(strings.ReplaceAll(line, "`", ""), -1)
		switch {
		case len(cells) != 10:
			continue
		case strings.HasPrefix(cells[1], "**of "):
			limits = cells[3]
			continue
		}
		name := limits + "." + cells[3]
		usual, there := missing[name]
		if !there {
			continue
		}
		delete(missing, name)
		c := cells[2][strings.LastIndex(cells[2], ".")+1:]
		if cells[8] != usual || cells[5] != c && cells[5] != "none" ||
			!strings.HasSuffix("."+cells[6], "."+withCapitals(c)) {
			t.Errorf("%s is %s: %s", name, usual, line)
		}
	}
	for name := range missing {
		t.Errorf("the table doesn't have %s", name)
	}
}

// Each default that docs/SESSIONS.md names is that of NewServer and NewClient.
func TestDocumentedDefaults(t *testing.T) {
	page, err := os.ReadFile("../../docs/SESSIONS.md")
	if err != nil {
		t.Skip("no docs/SESSIONS.md beside: this is a package")
	}
	server, client := NewServer().Limits, NewClient("").Limits
	for _, row := range []string{
		fmt.Sprintf("| clients at the same time | %d; %d above that get a report at a time,",
			server.Connections, server.Refused),
		"| until the first query | " + words(server.First) + " |",
		"| from a unit's first byte to its last | " + words(server.Unit) + " |",
		"| between queries | " + words(server.Idle) + ":",
		"| a write of which no byte is taken | " + words(server.Write) + " |",
		"| a whole response | " + words(server.Response) + " |",
		"| between notifies to a client | " + words(server.Notify) + " |",
		fmt.Sprintf("| deltas that are kept | %s, the recommended expire time, and %d MiB;",
			words(server.Keep), server.KeepBytes>>20),
		fmt.Sprintf("A client has %s to connect, %s for a response of at most %d million payload "+
			"units of %d MiB in all, and a pause of\n%s between", words(client.Dial),
			words(client.Response), client.Units/1e6, client.Bytes>>20, words(client.Pause)),
	} {
		if !strings.Contains(string(page), "\n"+row) {
			t.Errorf("the page doesn't say %q", row)
		}
	}
	if first := RetryAfter(0); first != time.Second || RetryAfter(first) != 2*time.Second ||
		RetryAfter(40*time.Second) != time.Minute || RetryAfter(time.Hour) != time.Minute {
		t.Error(first, RetryAfter(first))
	}
	if server.Report != 10*time.Second || server.Behind != 2 {
		t.Error(server.Report, server.Behind)
	}
	if server.Refuse || client.Report != 2*time.Second || client.Units != 4e6 {
		t.Error(server.Refuse, client.Report, client.Units)
	}
}

// The limits of reports, of newer data and of refused clients are used as set; a negative one is
// zero, and one above 32 bits the highest.
func TestServerLimitsAsSet(t *testing.T) {
	server := NewServer()
	server.Limits.Refused, server.Limits.Report, server.Limits.Behind = 3, time.Minute, -1
	s := server.Limits.settings()
	if s.most_refused != 3 || s.report_limit != 60000 || s.most_behind != 0 {
		t.Error(s)
	}
	highest := uint64(math.MaxUint32)
	if math.MaxInt < highest { // an int has 32 bits here
		highest = math.MaxInt
	}
	server.Limits.Refused = math.MaxInt
	if s := server.Limits.settings(); uint64(s.most_refused) != highest {
		t.Error(s.most_refused)
	}
}
