package trial

import (
	"os"
	"path/filepath"
	"regexp"
	"sort"
	"strings"
	"testing"

	"github.com/prometheus/client_golang/prometheus"
)

// Exported is the metrics of a program: the labels of each, by name.
type Exported struct {
	Prefix string // of the names of metrics
	Rules  string // the prefix of the names of alert rules
	names  map[string]string
}

// NewExported returns the metrics that a registry or a collector describes, of a program whose
// metrics and rules have these prefixes.
func NewExported(prefix, rules string,
	of interface{ Describe(chan<- *prometheus.Desc) }) *Exported {
	e := &Exported{prefix, rules, map[string]string{}}
	descriptions := make(chan *prometheus.Desc)
	go func() {
		defer close(descriptions)
		of.Describe(descriptions)
	}()
	form := regexp.MustCompile(
		`fqName: "(` + prefix + `\w+)".*constLabels: \{(.*)\}, variableLabels: \[(.*)\]`)
	for description := range descriptions {
		if parts := form.FindStringSubmatch(description.String()); parts != nil {
			labels := append(constant(parts[2]), strings.Fields(parts[3])...)
			e.names[parts[1]] = strings.Join(labels, " ")
		}
	}
	return e
}

// has returns the set of the names.
func (e *Exported) has() map[string]bool {
	names := map[string]bool{}
	for name := range e.names {
		names[name] = true
	}
	return names
}

// page returns the text of a file of docs.
func page(t *testing.T, name string) string {
	t.Helper()
	text, err := os.ReadFile(filepath.Join("..", "..", "..", "docs", name))
	if err != nil {
		t.Fatal(err)
	}
	return string(text)
}

// set returns the texts of the first group of all matches.
func set(pattern, text string) map[string]bool {
	found := map[string]bool{}
	for _, match := range regexp.MustCompile(pattern).FindAllStringSubmatch(text, -1) {
		found[match[1]] = true
	}
	return found
}

// constant returns the names of labels with a constant value.
func constant(text string) (names []string) {
	for name := range set(`(\w+)="`, text) {
		names = append(names, name)
	}
	return names
}

// missing returns the names that one set has and the other lacks.
func missing(has, lacks map[string]bool) (names []string) {
	for name := range has {
		if !lacks[name] {
			names = append(names, name)
		}
	}
	sort.Strings(names)
	return names
}

// sorted returns words in order.
func sorted(words string) string {
	all := strings.Fields(words)
	sort.Strings(all)
	return strings.Join(all, " ")
}

// Rows compares the metrics with their page: each has a row, with its labels, and each row has a
// metric.
func (e *Exported) Rows(t *testing.T, least int) {
	t.Helper()
	if len(e.names) < least {
		t.Fatal(e.names)
	}
	rows := map[string]bool{}
	for _, line := range strings.Split(page(t, "METRICS.md"), "\n") {
		cells := strings.Split(strings.Trim(line, "|"), "|")
		if !strings.HasPrefix(line, "| `"+e.Prefix) {
			continue
		}
		if len(cells) != 4 {
			t.Errorf("%d cells: %s", len(cells), line)
			continue
		}
		for name := range set("`("+e.Prefix+"\\w+)`", cells[0]) {
			rows[name] = true
			labels := strings.NewReplacer("`", "", ",", "").Replace(strings.TrimSpace(cells[1]))
			if expected := sorted(e.names[name]); sorted(labels) != expected {
				t.Errorf("%s has labels %q, and its row %q", name, expected, labels)
			}
		}
	}
	if lacking := missing(e.has(), rows); lacking != nil {
		t.Errorf("there is no row of %v", lacking)
	}
	if other := missing(rows, e.has()); other != nil {
		t.Errorf("there is no metric of %v", other)
	}
}

// Alerts compares the metrics with the rules about them: each rule names existing metrics and
// labels, each metric has a rule, and the page names each rule and no others.
func (e *Exported) Alerts(t *testing.T, least int) {
	t.Helper()
	text, defined, about := page(t, "alerts.yml"), map[string]bool{}, map[string]bool{}
	for _, rule := range strings.Split(text, "- alert: ")[1:] {
		name, rest, _ := strings.Cut(rule, "\n")
		if !strings.HasPrefix(name, e.Rules) {
			continue
		}
		defined[name] = true
		for metric := range e.rule(t, name, strings.Split(rest, "  - name: ")[0]) {
			about[metric] = true
		}
	}
	if len(defined) < least {
		t.Fatal(defined)
	}
	if lacking := missing(e.has(), about); lacking != nil {
		t.Errorf("there is no rule about %v", lacking)
	}
	named := set("`("+e.Rules+"\\w+)`", page(t, "METRICS.md"))
	lacking, other := missing(defined, named), missing(named, defined)
	if lacking != nil || other != nil {
		t.Errorf("the page lacks %v, and has %v that are no rules", lacking, other)
	}
}

// rule checks a rule, and returns the metrics that it uses.
func (e *Exported) rule(t *testing.T, name, rest string) (used map[string]bool) {
	t.Helper()
	for _, part := range []string{"expr: ", "labels: {severity: ", "summary: "} {
		if !strings.Contains(rest, part) {
			t.Errorf("%s has no %q", name, part)
		}
	}
	used = set(`(`+e.Prefix+`\w+)`, rest)
	if other := missing(used, e.has()); len(used) == 0 || other != nil {
		t.Errorf("%s is about %v", name, other)
	}
	for label := range set(`(\w+)[=!]~?"`, rest) {
		if !e.labelled(used, label) {
			t.Errorf("%s: no metric of it has the label %s", name, label)
		}
	}
	for label := range set(`\$labels\.(\w+)`, rest) {
		if label != "instance" && !e.labelled(used, label) {
			t.Errorf("%s: no metric of it has the label %s", name, label)
		}
	}
	return used
}

// labelled reports whether one of these metrics has a label.
func (e *Exported) labelled(used map[string]bool, label string) bool {
	for name := range used {
		for _, has := range strings.Fields(e.names[name]) {
			if has == label {
				return true
			}
		}
	}
	return false
}
