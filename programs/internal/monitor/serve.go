package monitor

import (
	"bufio"
	"encoding/json"
	"fmt"
	"net/http"
	"strconv"
	"strings"
	"time"

	"github.com/prometheus/client_golang/prometheus/promhttp"

	"fishreef/programs/internal/trust"
	"fishreef/programs/internal/web"
	"fishreef/programs/internal/words"
	"fishreef/rtr"
)

// paths are the HTTP paths of the monitor.
func (m *Monitor) paths() http.Handler {
	paths := http.NewServeMux()
	paths.HandleFunc("/", m.servePage)
	paths.Handle("/metrics", promhttp.HandlerFor(m.registry(), promhttp.HandlerOpts{}))
	paths.HandleFunc("/diff.json", m.serveDifferences)
	paths.HandleFunc("/health", func(answer http.ResponseWriter, _ *http.Request) {
		web.Health(answer, m.faults(time.Now()))
	})
	return paths
}

// numeral returns a number as text.
func numeral(number uint32) string { return strconv.FormatUint(uint64(number), 10) }

// The reasons why a monitor isn't healthy.
const (
	NoData  trust.Reason = "data"    // a source has no data
	Fails   trust.Reason = "failing" // a source has been failing for the patience
	Differs trust.Reason = "differs" // there are old differences
)

// Reasons are all reasons, the most urgent first.
var Reasons = []trust.Reason{NoData, Fails, Differs}

// patience is the time for which a source may fail before that is a fault, since a cache may close
// connections.
const patience = time.Minute

// faults returns the faults.
func (m *Monitor) faults(now time.Time) (faults []trust.Fault) {
	m.lock.Lock()
	defer m.lock.Unlock()
	for _, source := range m.states {
		switch text, good := source.stateText(now); {
		case source.data.IsZero():
			faults = append(faults, trust.Fault{Reason: NoData, Text: source.Name + ": " + text})
		case !good && now.Sub(source.failing.Since) >= patience:
			faults = append(faults, trust.Fault{Reason: Fails, Text: source.Name + ": " + text})
		}
	}
	for index, numbers := range m.differences.counts {
		if numbers.Old > 0 {
			text := fmt.Sprintf("%s: %s %s missing for longer than %s", m.states[index].Name,
				words.Number(numbers.Old, "payload"), words.Are(numbers.Old), shortTime(m.settings.Grace))
			faults = append(faults, trust.Fault{Reason: Differs, Text: text})
		}
	}
	return faults
}

// stateText returns the state of a source in words, and whether it is good.
func (s *state) stateText(now time.Time) (text string, good bool) {
	switch {
	case s.failing != nil && s.data.IsZero():
		return "no data: " + s.failing.Reason, false
	case s.failing != nil:
		return fmt.Sprintf("failing for %v: %s", now.Sub(s.failing.Since).Round(time.Second),
			s.failing.Reason), false
	case s.data.IsZero():
		return "no data", false
	}
	return "good", true
}

// mostListed is the maximal number of differences in diff.json.
const mostListed = 10000

// listing is the part of diff.json before the differences.
type listing struct {
	Time    time.Time      `json:"time"`
	Grace   float64        `json:"grace_seconds"`
	Started time.Time      `json:"started"`
	Sources []listedSource `json:"sources"`
	Count   int            `json:"count"`
	OldOnes int            `json:"count_old"`
	Left    int            `json:"left_out"`
}

// listedSource is a source in diff.json.
type listedSource struct {
	Name     string         `json:"name"`
	State    string         `json:"state"`
	Failing  *time.Time     `json:"failing_since"`
	Heard    *time.Time     `json:"heard"`
	Changed  *time.Time     `json:"changed"`
	Version  *uint8         `json:"version"`
	Session  *uint16        `json:"session_id"`
	Serial   *uint32        `json:"serial_number"`
	Payloads map[string]int `json:"payloads"`
	Missing  int            `json:"missing"`
	Old      int            `json:"missing_old"`
}

// timeOf returns a time, or nil for none.
func timeOf(at time.Time) *time.Time {
	if at.IsZero() {
		return nil
	}
	utc := at.UTC().Truncate(time.Second)
	return &utc
}

// listed returns a source for diff.json.
func (s *state) listed(now time.Time, missing numbers) listedSource {
	l := listedSource{
		Name: s.Name, Heard: timeOf(s.heard), Changed: timeOf(s.changed), Session: s.session,
		Serial: s.serial, Payloads: map[string]int{}, Missing: missing.All(), Old: missing.Old,
	}
	l.State, _ = s.stateText(now)
	if s.failing != nil {
		l.Failing = timeOf(s.failing.Since)
	}
	if !s.data.IsZero() {
		version := s.version
		l.Version = &version
		for kind, count := range s.kinds {
			if kind.In(version) {
				l.Payloads[kind.String()] = count
			}
		}
	}
	return l
}

// listing returns the present part of diff.json before the differences.
func (m *Monitor) listing(now time.Time) (l listing, differences []Difference, names []string) {
	m.lock.Lock()
	defer m.lock.Unlock()
	l = listing{
		Time: *timeOf(now), Grace: m.settings.Grace.Seconds(), Started: *timeOf(m.started),
	}
	for index, missing := range m.differences.counts {
		l.Sources = append(l.Sources, m.states[index].listed(now, missing))
		l.Count += missing.All()
		l.OldOnes += missing.Old
		names = append(names, m.states[index].Name)
	}
	differences = m.differences.list(mostListed, false)
	l.Left = l.Count - len(differences)
	return l, differences, names
}

// serveDifferences sends diff.json: the sources, and the differences, the oldest first. The members
// of a payload are those of rtr_diff --json, without its action.
func (m *Monitor) serveDifferences(answer http.ResponseWriter, _ *http.Request) {
	now := time.Now()
	l, differences, names := m.listing(now)
	answer.Header().Set("Content-Type", "application/json")
	output := bufio.NewWriter(answer)
	defer output.Flush()
	// It can't fail: there are only texts, times and numbers.
	head, _ := json.MarshalIndent(l, "", "  ")
	output.WriteString(strings.TrimSuffix(string(head), "\n}") + ",\n  \"differences\": [")
	for i, d := range differences {
		unit := unitOf(d.payload)
		begin, _ := json.Marshal(struct {
			Missing string    `json:"missing"`
			Since   time.Time `json:"since"`
			Seconds int       `json:"seconds"`
			Old     bool      `json:"old"`
			Payload string    `json:"payload"`
		}{names[d.source], *timeOf(d.Since), int(now.Sub(d.Since).Seconds()), d.old, d.Line()})
		if i > 0 {
			output.WriteByte(',')
		}
		payload := strings.Replace(rtr.ChangeJSON(&unit), `"action":"announce",`, "", 1)
		output.WriteString("\n    " + strings.TrimSuffix(string(begin), "}") + "," +
			strings.TrimPrefix(payload, "{"))
	}
	output.WriteString("\n  ]\n}\n")
}
