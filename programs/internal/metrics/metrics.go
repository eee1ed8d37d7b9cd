// Package metrics counts what a cache does, for Prometheus.
package metrics

import (
	"strconv"
	"sync"
	"time"

	"github.com/prometheus/client_golang/prometheus"
	"github.com/prometheus/client_golang/prometheus/collectors"

	"fishreef/programs/internal/fetch"
	"fishreef/programs/internal/payloads"
	"fishreef/programs/internal/transport"
	"fishreef/programs/internal/trust"
	"fishreef/programs/internal/words"
	"fishreef/rtr"
)

// Metrics are the metrics of a cache. It has the methods of a transport.Observer except Came.
type Metrics struct {
	registry *prometheus.Registry

	connections, bytes, reports, ended, refusals, changes, fetches *prometheus.CounterVec
	clients, served, read, written, expired, confirmed             *prometheus.GaugeVec
	session, serial, changed                                       prometheus.Gauge
	unsaved                                                        prometheus.Counter

	flows  map[flow]*counted
	faults func() []trust.Fault
}

// flow is a direction of the connections of a transport.
type flow struct {
	kind      transport.Kind
	direction transport.Direction
}

// counted is the counter of the bytes of a flow, made at the first byte: to look it up by its
// labels each time takes longer than to count.
type counted struct {
	once    sync.Once
	counter prometheus.Counter
}

// newFlows returns the counters of all flows.
func newFlows() map[flow]*counted {
	flows := map[flow]*counted{}
	for _, kind := range transport.Kinds {
		for _, direction := range []transport.Direction{transport.Sent, transport.Received} {
			flows[flow{kind, direction}] = new(counted)
		}
	}
	return flows
}

// New returns the metrics of a new cache.
func New() *Metrics {
	m := &Metrics{
		registry: prometheus.NewRegistry(),
		flows:    newFlows(),
		faults:   func() []trust.Fault { return nil },
	}
	m.makeCounters()
	m.makeGauges()
	m.register()
	return m
}

// makeCounters makes the metrics that only grow.
func (m *Metrics) makeCounters() {
	m.connections = counters("connections_total",
		"Connections accepted.", "transport")
	m.bytes = counters("bytes_total",
		"Bytes of units (PDUs) sent and received.", "transport", "direction")
	m.reports = counters("error_reports_total",
		"Error reports sent and received, by code.", "direction", "code")
	m.ended = counters("ends_total",
		"Connections that ended abnormally, by reason.", "reason")
	m.refusals = counters("file_refusals_total",
		"How often a file was refused or held.", "file")
	m.changes = counters("changes_total",
		"Payloads announced and withdrawn, by kind.", "action", "kind")
	m.fetches = counters("fetches_total",
		"Fetches of a list by URL, by result.", "file", "result")
	m.unsaved = prometheus.NewCounter(prometheus.CounterOpts{
		Namespace: namespace, Name: "unsaved_total", Help: "Data that couldn't be saved.",
	})
}

// makeGauges makes the metrics with the present values.
func (m *Metrics) makeGauges() {
	m.clients = gauges("clients",
		"Connected routers, by the version of their first query.", "transport", "version")
	m.served = gauges("payloads", "Payloads served, by kind.", "kind")
	m.read = gauges("file_read_timestamp_seconds",
		"When the file was accepted last.", "file")
	m.written = gauges("file_modified_timestamp_seconds",
		"When the file that was accepted last was written.", "file")
	m.expired = gauges("expired_items",
		"Expired items of the file when it was accepted last.", "file")
	m.confirmed = gauges("file_fetched_timestamp_seconds",
		"When the server of a list had it last, new or unchanged.", "file")
	m.session = gauge("session", "Session of the data.")
	m.serial = gauge("serial", "Serial number of the data.")
	m.changed = gauge("changed_timestamp_seconds", "When the data changed last.")
}

// register registers the metrics, the version, and the standard metrics of a Go process.
func (m *Metrics) register() {
	version := prometheus.NewGaugeFunc(prometheus.GaugeOpts{
		Namespace: namespace, Name: "info", Help: "The version of the program.",
		ConstLabels: prometheus.Labels{"version": words.Version},
	}, func() float64 { return 1 })
	m.registry.MustRegister(
		m.connections, m.bytes, m.reports, m.ended, m.refusals, m.changes, m.fetches,
		m.clients, m.served, m.confirmed, m.read, m.written, m.expired, m.session, m.serial,
		m.changed, m.unsaved, version,
		collectors.NewGoCollector(),
		collectors.NewProcessCollector(collectors.ProcessCollectorOpts{}),
	)
}

// namespace is the prefix of the names of all metrics.
const namespace = "rtr_cache"

func counters(name, help string, labels ...string) *prometheus.CounterVec {
	options := prometheus.CounterOpts{Namespace: namespace, Name: name, Help: help}
	return prometheus.NewCounterVec(options, labels)
}

func gauges(name, help string, labels ...string) *prometheus.GaugeVec {
	options := prometheus.GaugeOpts{Namespace: namespace, Name: name, Help: help}
	return prometheus.NewGaugeVec(options, labels)
}

func gauge(name, help string) prometheus.Gauge {
	return prometheus.NewGauge(prometheus.GaugeOpts{Namespace: namespace, Name: name, Help: help})
}

// Opened counts a connection.
func (m *Metrics) Opened(peer *transport.Peer) {
	m.connections.WithLabelValues(string(peer.Kind)).Inc()
}

// Speaks counts a client.
func (m *Metrics) Speaks(peer *transport.Peer, version uint8) {
	m.clients.WithLabelValues(string(peer.Kind), strconv.Itoa(int(version))).Inc()
}

// Leaves stops counting a client.
func (m *Metrics) Leaves(peer *transport.Peer, version uint8) {
	m.clients.WithLabelValues(string(peer.Kind), strconv.Itoa(int(version))).Dec()
}

// Moved counts bytes.
func (m *Metrics) Moved(peer *transport.Peer, direction transport.Direction, bytes int) {
	all := m.flows[flow{peer.Kind, direction}]
	all.once.Do(func() {
		all.counter = m.bytes.WithLabelValues(string(peer.Kind), string(direction))
	})
	all.counter.Add(float64(bytes))
}

// Codes from this one upwards are counted together, since a client may send any code.
const otherCodes = 16

// Reported counts an error report.
func (m *Metrics) Reported(_ *transport.Peer, direction transport.Direction, code rtr.ErrorCode) {
	label := "other"
	if code < otherCodes {
		label = strconv.Itoa(int(code))
	}
	m.reports.WithLabelValues(string(direction), label).Inc()
}

// Ended counts the end of a connection.
func (m *Metrics) Ended(reason string) { m.ended.WithLabelValues(reason).Inc() }

// Serves records the served data, and since when they are served.
func (m *Metrics) Serves(data rtr.Data, since time.Time) {
	m.session.Set(float64(data.Session()))
	m.serial.Set(float64(data.Serial()))
	m.changed.Set(seconds(since))
	for kind, count := range payloads.Kinds(data) {
		m.served.WithLabelValues(kind.String()).Set(float64(count))
	}
}

// Changes counts the payloads of a change.
func (m *Metrics) Changes(size payloads.Size) {
	for _, kind := range trust.Kinds {
		name := kind.String()
		m.changes.WithLabelValues("announced", name).Add(float64(size.Announced[kind]))
		m.changes.WithLabelValues("withdrawn", name).Add(float64(size.Withdrawn[kind]))
	}
}

// Collects adds the metrics of another collector.
func (m *Metrics) Collects(others prometheus.Collector) { m.registry.MustRegister(others) }

// Judges adds the gauges of the health: one of all faults, and one for each reason.
func (m *Metrics) Judges(faults func() []trust.Fault) {
	m.faults = faults
	has := func(reason trust.Reason) float64 {
		for _, fault := range faults() {
			if fault.Reason == reason || reason == "" {
				return 1
			}
		}
		return 0
	}
	m.registry.MustRegister(prometheus.NewGaugeFunc(prometheus.GaugeOpts{
		Namespace: namespace, Name: "healthy", Help: "1 if /health is good, else 0.",
	}, func() float64 { return 1 - has("") }))
	for _, reason := range trust.Reasons {
		reason := reason
		m.registry.MustRegister(prometheus.NewGaugeFunc(prometheus.GaugeOpts{
			Namespace: namespace, Name: "unhealthy", Help: "1 for each reason why /health isn't good.",
			ConstLabels: prometheus.Labels{"reason": string(reason)},
		}, func() float64 { return has(reason) }))
	}
}

// Unsaved counts data that couldn't be saved.
func (m *Metrics) Unsaved() { m.unsaved.Inc() }

// Follows starts the counters of a file at 0.
func (m *Metrics) Follows(path string) { m.refusals.WithLabelValues(path) }

// Fetches starts the counters of a fetched list at 0.
func (m *Metrics) Fetches(path string) {
	for _, result := range append([]fetch.Reason{fetch.NewList, fetch.SameList}, fetch.Failures...) {
		m.fetches.WithLabelValues(path, string(result))
	}
}

// Fetched counts a fetch by its result.
func (m *Metrics) Fetched(path, result string) { m.fetches.WithLabelValues(path, result).Inc() }

// Confirmed records when the list was last fetched, new or unchanged.
func (m *Metrics) Confirmed(path string, at time.Time) {
	m.confirmed.WithLabelValues(path).Set(seconds(at))
}

// Written records when the accepted list was written.
func (m *Metrics) Written(path string, at time.Time) {
	m.written.WithLabelValues(path).Set(seconds(at))
}

// Took records that a file was accepted now, and when it was written.
func (m *Metrics) Took(path string, written time.Time) {
	m.read.WithLabelValues(path).Set(seconds(time.Now()))
	m.Written(path, written)
}

// Expired records how many items of a file had expired when it was accepted.
func (m *Metrics) Expired(path string, count int) {
	m.expired.WithLabelValues(path).Set(float64(count))
}

// Refused counts the refusal of a file.
func (m *Metrics) Refused(path string) { m.refusals.WithLabelValues(path).Inc() }

// seconds returns the seconds since 1970.
func seconds(at time.Time) float64 { return float64(at.UnixMilli()) / 1000 }
