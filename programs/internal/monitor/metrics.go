package monitor

import (
	"time"

	"github.com/prometheus/client_golang/prometheus"
	"github.com/prometheus/client_golang/prometheus/collectors"

	"fishreef/programs/internal/trust"
	"fishreef/programs/internal/words"
)

// namespace is the prefix of the names of all metrics.
const namespace = "rtr_monitor_"

// mostMeasured is the maximal number of old differences with metrics of their own: the ones that
// have lasted longest.
const mostMeasured = 100

// described is the description of a metric.
func described(name, help string, labels ...string) *prometheus.Desc {
	return prometheus.NewDesc(namespace+name, help, labels, nil)
}

// The metrics.
var (
	healthy   = described("healthy", "1 if /health is good, else 0.")
	unhealthy = described("unhealthy", "1 for each reason why /health isn't good.", "reason")
	counted   = described("payloads", "Payloads of a source, by kind.", "source", "kind")
	up        = described("up", "1 if a source has data and doesn't fail, else 0.", "source")
	failures  = described("failures_total", "Failures of a source.", "source")
	heard     = described("heard_timestamp_seconds", "When a source last had whole data.", "source")
	changed   = described("changed_timestamp_seconds",
		"When the payloads of a source last changed.", "source")
	serials = described("serial", "Serial number of the data of a cache.", "source")
	lacking = described("missing",
		"Payloads that a source lacks and another one has, by age.", "source", "age")
	difference = described("difference_since_timestamp_seconds",
		"Since when a source lacks a payload, for old differences.", "payload", "missing")
	information = described("info", "The version of the program.", "version")
)

// all are the metrics.
var all = []*prometheus.Desc{
	healthy, unhealthy, counted, up, failures, heard, changed, serials, lacking, difference,
	information,
}

// registry returns the metrics, and the standard metrics of a process in Go.
func (m *Monitor) registry() *prometheus.Registry {
	registry := prometheus.NewRegistry()
	registry.MustRegister(m, collectors.NewGoCollector(),
		collectors.NewProcessCollector(collectors.ProcessCollectorOpts{}))
	return registry
}

// Describe sends the descriptions of the metrics.
func (m *Monitor) Describe(to chan<- *prometheus.Desc) {
	for _, description := range all {
		to <- description
	}
}

// Collect sends the present values of the metrics.
func (m *Monitor) Collect(to chan<- prometheus.Metric) {
	g := gauges(to)
	has := map[trust.Reason]bool{}
	for _, fault := range m.faults(time.Now()) {
		has[fault.Reason] = true
	}
	g.give(healthy, number(len(has) == 0))
	for _, reason := range Reasons {
		g.give(unhealthy, number(has[reason]), string(reason))
	}
	g.give(information, 1, words.Version)
	m.lock.Lock()
	defer m.lock.Unlock()
	for index, numbers := range m.differences.counts {
		source := m.states[index]
		g.of(source)
		g.give(lacking, float64(numbers.Young), source.Name, "young")
		g.give(lacking, float64(numbers.Old), source.Name, "old")
	}
	for _, d := range m.differences.list(mostMeasured, true) {
		g.give(difference, seconds(d.Since), d.Line(), m.states[d.source].Name)
	}
}

// gauges collects values.
type gauges chan<- prometheus.Metric

// give sends a value.
func (g gauges) give(what *prometheus.Desc, value float64, labels ...string) {
	kind := prometheus.GaugeValue
	if what == failures {
		kind = prometheus.CounterValue
	}
	g <- prometheus.MustNewConstMetric(what, kind, value, labels...)
}

// of sends the values of a source.
func (g gauges) of(source *state) {
	g.give(up, number(source.failing == nil && !source.data.IsZero()), source.Name)
	g.give(failures, float64(source.failures), source.Name)
	if !source.heard.IsZero() {
		g.give(heard, seconds(source.heard), source.Name)
		g.give(changed, seconds(source.changed), source.Name)
	}
	if source.serial != nil {
		g.give(serials, float64(*source.serial), source.Name)
	}
	if source.data.IsZero() {
		return
	}
	for kind, count := range source.kinds {
		if kind.In(source.version) {
			g.give(counted, float64(count), source.Name, kind.String())
		}
	}
}

// number returns 1 for true, else 0.
func number(value bool) float64 {
	if value {
		return 1
	}
	return 0
}

// seconds returns the seconds since 1970.
func seconds(at time.Time) float64 { return float64(at.UnixMilli()) / 1000 }
