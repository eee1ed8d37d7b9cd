package monitor

import (
	"encoding/xml"
	"fmt"
	"io"
	"net/http/httptest"
	"regexp"
	"strconv"
	"strings"
	"testing"
	"time"

	"github.com/sirupsen/logrus"
)

// ofDay returns a sample of each minute of a day.
func ofDay(now time.Time, at func(minute int) sample) *day {
	d := newDay()
	for minute := -2000; minute < 1440; minute++ { // those before the day are dropped
		s := at(minute)
		s.at = now.Add(time.Duration(minute-1440) * time.Minute)
		d.add(s)
	}
	return d
}

// wellFormed reads a text as XML.
func wellFormed(t *testing.T, text string) {
	t.Helper()
	reader := xml.NewDecoder(strings.NewReader(text))
	for {
		if _, err := reader.Token(); err == io.EOF {
			return
		} else if err != nil {
			t.Fatalf("%v: %s", err, text)
		}
	}
}

// inside compares all numbers of the lines of a picture with its measures.
func inside(t *testing.T, picture string) {
	t.Helper()
	for _, path := range regexp.MustCompile(` d="([^"]*)"`).FindAllStringSubmatch(picture, -1) {
		for _, number := range regexp.MustCompile(`-?[0-9.]+|NaN|Inf`).FindAllString(path[1], -1) {
			value, err := strconv.ParseFloat(number, 64)
			if err != nil || value < 0 || value > width {
				t.Errorf("%s in %s", number, path[1])
			}
		}
	}
}

// A picture has a line for each source, with gaps where it had no data, and stays small.
func TestPicture(t *testing.T) {
	now := time.Date(2026, 11, 28, 12, 0, 30, 0, time.UTC)
	d := ofDay(now, func(minute int) sample {
		s := sample{payloads: []int{500000, 500000 + minute/100}, young: minute % 3}
		if minute > 700 && minute < 800 {
			s.payloads[1], s.old = absent, 7
		}
		return s
	})
	if len(d.samples) != 1441 { // with both ends of the day
		t.Error(len(d.samples))
	}
	names := []string{"a<b", "b&c"}
	text := picture(names, d.with(sample{at: now, payloads: []int{500000, 500020}}), 90*time.Minute)
	wellFormed(t, text)
	inside(t, text)
	lines := regexp.MustCompile(`<path d="([^"]*)" class="line"`).FindAllStringSubmatch(text, -1)
	if len(lines) != 2 || strings.Count(lines[0][1], "M") != 1 ||
		strings.Count(lines[1][1], "M") != 2 {
		t.Error(lines)
	}
	if !strings.HasPrefix(lines[0][1], "M90.0 ") || !strings.HasSuffix(lines[0][1], "H985.0") ||
		len(lines[0][1]) > 40 {
		t.Error(lines[0][1])
	}
	for _, says := range []string{
		">500\u202f010<", ">15:00<", ">09:00<", "Differences (dark: for longer than 1h30m)",
	} {
		if !strings.Contains(text, says) {
			t.Errorf("no %s", says)
		}
	}
	if len(text) > 100000 {
		t.Error(len(text))
	}
}

// At the start, without data, and with many or equal numbers there is a picture too.
func TestSmallPictures(t *testing.T) {
	now := time.Now()
	for _, samples := range [][]sample{
		{{at: now, payloads: []int{absent, absent}}},
		{{at: now, payloads: []int{0, 0}}},
		{{at: now, payloads: []int{1, absent}, young: 1}},
		{{at: now.Add(-time.Minute), payloads: []int{5, 5}}, {at: now, payloads: []int{5, 5}}},
		{{at: now, payloads: []int{2000000, 1}, young: 2000000, old: 1999999}},
		{{at: now.Add(-48 * time.Hour), payloads: []int{1, 2}}, {at: now.Add(time.Hour), payloads: []int{3, 4}}},
	} {
		text := picture([]string{"a", "b"}, samples, time.Second)
		wellFormed(t, text)
		inside(t, text)
	}
}

// Names and reasons from outside are escaped, and each path answers.
func TestPage(t *testing.T) {
	log := logrus.New()
	log.SetOutput(io.Discard)
	m, err := New(Settings{Sources: []Source{{Name: "<i>a</i>"}, {Name: "b"}}, Grace: time.Minute},
		log)
	if err != nil {
		t.Fatal(err)
	}
	now := time.Now()
	m.handle(event{source: 0, failure: `<script>"no"`}, now)
	for source, lines := range [][]string{{"10.0.0.0/8 1"}, {"10.0.0.0/8 1", "2001:db8::/32 2"}} {
		m.handle(event{source: source, data: sideOf(t, 2, lines...).data, version: 2},
			now.Add(-time.Hour))
	}
	m.logAged(now)
	m.handle(event{source: 0, failure: `<script>"no"`}, now.Add(-2*time.Minute))
	for path, row := range map[string]struct {
		status int
		says   []string
	}{
		"/": {200, []string{"&lt;i&gt;a", "&lt;script&gt;", "IPv6 prefix 2001:db8::/32-32 AS2", "<svg",
			"1 difference,", "for longer than 1m"}},
		// A busy machine may take some seconds up to here.
		"/health": {503, []string{"<i>a</i>: failing for 2m", "s: <script>\"no\"\n",
			"<i>a</i>: 1 payload is missing for longer than 1m\n"}},
		"/diff.json": {200, []string{`"payload":"IPv6 prefix 2001:db8::/32-32 AS2"`, `"count": 1,`, `"asn":2}`}},
		"/metrics": {200, []string{`rtr_monitor_missing{age="old",source="<i>a</i>"} 1`,
			`rtr_monitor_unhealthy{reason="failing"} 1`, `rtr_monitor_unhealthy{reason="data"} 0`}},
		"/other": {404, nil},
	} {
		answer := httptest.NewRecorder()
		m.paths().ServeHTTP(answer, httptest.NewRequest("GET", path, nil))
		text := answer.Body.String()
		for _, says := range row.says {
			if !strings.Contains(text, says) {
				t.Errorf("%s lacks %s:\n%s", path, says, text)
			}
		}
		if answer.Code != row.status || path == "/" && strings.Contains(text, "<script>") {
			t.Errorf("%s: %d %s", path, answer.Code, text)
		}
	}
}

// ofTwo returns a monitor of two sources, with what it logs.
func ofTwo(t *testing.T) (*Monitor, *strings.Builder) {
	t.Helper()
	logged := new(strings.Builder)
	log := logrus.New()
	log.SetOutput(logged)
	m, err := New(Settings{Sources: []Source{{Name: "a"}, {Name: "b"}}, Grace: time.Minute}, log)
	if err != nil {
		t.Fatal(err)
	}
	return m, logged
}

// The news of a source lead to the right state: data, their loss, and failures.
func TestStates(t *testing.T) {
	m, logged := ofTwo(t)
	start := time.Now()
	at := func(seconds int) time.Time { return start.Add(time.Duration(seconds) * time.Second) }
	faults := func(now time.Time) string {
		var all []string
		for _, fault := range m.faults(now) {
			all = append(all, fmt.Sprintf("%s %s", fault.Reason, fault.Text))
		}
		return strings.Join(all, "; ")
	}
	other := sideOf(t, 2, "10.0.0.0/8 1").data
	two := sideOf(t, 2, "10.0.0.0/8 1", "10.0.0.0/9 2").data
	for _, step := range []struct {
		seconds int
		event   event
		says    string
	}{
		{0, event{source: 0, data: other, version: 2}, "data b: no data"},
		{1, event{source: 1, failure: "refused"}, "data b: no data: refused"},
		{2, event{source: 1, data: two, version: 2}, ""},
		{63, event{source: 0, alive: true}, "differs a: 1 payload is missing for longer than 1m"},
		{64, event{source: 1, failure: "closed"}, "differs a: 1 payload is missing for longer than 1m"},
		{124, event{source: 1, failure: "closed"},
			"failing b: failing for 1m0s: closed; differs a: 1 payload is missing for longer than 1m"},
		{125, event{source: 1, lost: true}, "data b: no data: closed"},
		{126, event{source: 1, data: other, version: 2}, ""},
		{200, event{source: 0, data: two, version: 2}, ""},
		{259, event{source: 1, alive: true}, ""},
	} {
		m.handle(step.event, at(step.seconds))
		m.logAged(at(step.seconds))
		if got := faults(at(step.seconds)); got != step.says {
			t.Errorf("after %d: %s", step.seconds, got)
		}
	}
	for text, times := range map[string]int{
		"b: it fails: refused": 1, "b: it fails: closed": 1, "difference: IPv4 prefix 10.0.0.0/9-9 AS2": 1,
		"difference ended: IPv4 prefix 10.0.0.0/9-9 AS2": 1, "b: it answers again after": 2,
		"b: its data expired or were dropped": 1,
	} {
		if strings.Count(logged.String(), text) != times {
			t.Errorf("%d of %s:\n%s", strings.Count(logged.String(), text), text, logged.String())
		}
	}
}

// Many differences at one time have a hundred lines, and one for the rest.
func TestManyLines(t *testing.T) {
	m, logged := ofTwo(t)
	var lines []string
	for i := 0; i < 250; i++ {
		lines = append(lines, fmt.Sprintf("10.0.%d.0/24 1", i))
	}
	now := time.Now()
	m.handle(event{source: 0, data: sideOf(t, 2, lines...).data, version: 2}, now)
	m.handle(event{source: 1, data: sideOf(t, 2).data, version: 2}, now)
	m.logAged(now.Add(time.Hour))
	if strings.Count(logged.String(), "msg=\"difference: ") != 100 ||
		strings.Count(logged.String(), "and 150 differences more") != 1 {
		t.Error(logged.String())
	}
}
