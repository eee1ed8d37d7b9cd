package monitor

import (
	"context"
	"net"
	"runtime/debug"
	"sync"
	"time"

	"github.com/sirupsen/logrus"

	"fishreef/programs/internal/payloads"
	"fishreef/programs/internal/transport"
	"fishreef/programs/internal/web"
	"fishreef/programs/internal/words"
	"fishreef/rtr"
)

// Monitor compares sources.
type Monitor struct {
	settings  Settings
	log       *logrus.Logger
	followers []*follower
	events    chan event
	started   time.Time

	lock        sync.Mutex
	states      []*state
	comparison  *comparison
	differences *differences
	day         *day
}

// New returns a monitor.
//
// Errors: those of files with keys and certificates.
func New(settings Settings, log *logrus.Logger) (*Monitor, error) {
	m := &Monitor{
		settings: settings, log: log, events: make(chan event), started: time.Now(),
		comparison:  newComparison(len(settings.Sources)),
		differences: newDifferences(len(settings.Sources), settings.Grace),
		day:         newDay(),
	}
	dials, err := m.dials()
	if err != nil {
		return nil, err
	}
	for index, source := range settings.Sources {
		follower, err := newFollower(source, index, &m.settings, dials, m.events)
		if err != nil {
			return nil, err
		}
		m.followers = append(m.followers, follower)
		m.states = append(m.states, &state{Source: source})
	}
	return m, nil
}

// dials returns the dial function of each transport that a source has.
func (m *Monitor) dials() (map[transport.Kind]transport.Dial, error) {
	dials := map[transport.Kind]transport.Dial{transport.TCP: new(net.Dialer).DialContext}
	for _, source := range m.settings.Sources {
		var err error
		switch {
		case dials[source.Transport] != nil:
		case source.Transport == transport.TLS:
			dials[transport.TLS], err = m.settings.TLS.Dialer()
		case source.Transport == transport.SSH:
			dials[transport.SSH], err = m.settings.SSH.Dialer()
		}
		if err != nil {
			return nil, err
		}
	}
	return dials, nil
}

// Run compares until the context ends.
//
// Errors: those of the address of the page.
func (m *Monitor) Run(ctx context.Context) error {
	listener, err := net.Listen("tcp", m.settings.HTTP)
	if err != nil {
		return err
	}
	m.log.Infof("the page is at http://%v/", listener.Addr())
	inner, stop := context.WithCancel(ctx)
	var running sync.WaitGroup
	defer running.Wait()
	defer stop()
	failed := make(chan error, 1)
	running.Add(1 + len(m.followers))
	go func() {
		defer running.Done()
		failed <- web.Serve(inner, listener, m.paths())
	}()
	for _, follower := range m.followers {
		follower := follower
		go func() {
			defer running.Done()
			follower.run(inner)
		}()
	}
	return m.follow(inner, failed)
}

// follow handles events, and marks old differences, until the context ends or the page fails.
func (m *Monitor) follow(ctx context.Context, failed <-chan error) error {
	samples := time.NewTicker(sampled)
	defer samples.Stop()
	aged := time.NewTimer(time.Hour)
	defer aged.Stop()
	for {
		select {
		case <-ctx.Done():
			return nil
		case err := <-failed:
			return err
		case e := <-m.events:
			m.handle(e, time.Now())
		case <-aged.C:
			m.logAged(time.Now())
		case <-samples.C:
			m.addSample(time.Now())
		}
		m.lock.Lock()
		next, ok := m.differences.next()
		m.lock.Unlock()
		if ok {
			aged.Reset(time.Until(next))
		}
	}
}

// handle handles an event of a source.
func (m *Monitor) handle(e event, now time.Time) {
	m.lock.Lock()
	defer m.lock.Unlock()
	source := m.states[e.source]
	switch {
	case e.failure != "":
		m.recordFailure(source, e.failure, now)
		return
	case e.alive:
		source.heard = now
		return
	case e.lost:
		m.log.Warnf("%s: its data expired or were dropped: it isn't compared", source.Name)
		source.session, source.serial = nil, nil
		m.setPayloads(e.source, side{}, now)
		return
	}
	if source.failing != nil {
		m.log.Infof("%s: it answers again after %v", source.Name,
			now.Sub(source.failing.Since).Round(time.Second))
		source.failing = nil
	}
	source.heard = now
	if e.cache {
		session, serial := e.data.Session(), e.data.Serial()
		source.session, source.serial = &session, &serial
	}
	if e.same && !source.data.IsZero() && source.version == e.version {
		return
	}
	data, err := payloads.In(e.data, payloads.Version)
	if err != nil {
		m.recordFailure(source, err.Error(), now)
		return
	}
	m.setPayloads(e.source, side{data, e.version}, now)
}

// recordFailure records a failure of a source, and logs each new reason.
func (m *Monitor) recordFailure(source *state, reason string, now time.Time) {
	source.failures++
	before := source.failing
	source.failing = &Failing{now, reason}
	if before != nil {
		source.failing.Since = before.Since
	}
	if before != nil && before.Reason == reason {
		m.log.Debugf("%s: it fails: %s", source.Name, reason)
		return
	}
	m.log.Warnf("%s: it fails: %s", source.Name, reason)
}

// setPayloads sets or removes the payloads of a source, and compares it with the others.
func (m *Monitor) setPayloads(index int, has side, now time.Time) {
	source := m.states[index]
	if !has.data.IsZero() && !payloads.Same(source.data, has.data) || source.data.IsZero() {
		source.changed = now
	}
	source.side, source.kinds = has, payloads.Kinds(has.data)
	if !has.data.IsZero() {
		m.log.WithFields(source.fields()).Infof("%s: %s", source.Name, sizeOf(has.data))
	}
	if err := m.comparison.set(index, has); err != nil {
		m.log.Errorf("%s: it can't be compared: %v", source.Name, err)
		return
	}
	over, count := m.differences.replace(m.comparison.missing(), now, mostLines)
	debug.FreeOSMemory() // of the former data, and of the comparison
	m.logDifferences(over, count, func(d *Difference) {
		m.line(d).WithField("lasted", now.Sub(d.Since).Round(time.Second).String()).
			Info("difference ended: " + d.Line())
	})
}

// sizeOf returns the number of payloads.
func sizeOf(data rtr.Data) string { return words.Number(data.Len(), "payload") }

// fields returns the fields of a line about a source.
func (s *state) fields() logrus.Fields {
	fields := logrus.Fields{"version": s.version}
	if s.session != nil {
		fields["session"], fields["serial"] = *s.session, *s.serial
	}
	return fields
}

// logAged logs the differences that have just become old.
func (m *Monitor) logAged(now time.Time) {
	m.lock.Lock()
	defer m.lock.Unlock()
	aged, count := m.differences.markOld(now, mostLines)
	m.logDifferences(aged, count, func(d *Difference) {
		m.line(d).Warn("difference: " + d.Line())
	})
}

// line returns a log entry with the fields of a difference.
func (m *Monitor) line(d *Difference) *logrus.Entry {
	return m.log.WithFields(logrus.Fields{
		"missing": m.states[d.source].Name, "since": d.Since.UTC().Format(time.RFC3339),
	})
}

// mostLines is the maximal number of differences that are logged one by one at a time.
const mostLines = 100

// logDifferences logs each of the first differences, and the number of the rest.
func (m *Monitor) logDifferences(first []Difference, count int, log func(*Difference)) {
	for i := range first {
		log(&first[i])
	}
	if rest := count - len(first); rest > 0 {
		m.log.Warnf("and %s more", words.Number(rest, "difference"))
	}
}

// addSample records the present numbers for the picture.
func (m *Monitor) addSample(now time.Time) {
	m.lock.Lock()
	defer m.lock.Unlock()
	m.day.add(m.sample(now))
}

// sample returns the present numbers.
func (m *Monitor) sample(now time.Time) sample {
	s := sample{at: now}
	for _, source := range m.states {
		count := absent
		if !source.data.IsZero() {
			count = source.data.Len()
		}
		s.payloads = append(s.payloads, count)
	}
	for _, numbers := range m.differences.counts {
		s.young += numbers.Young
		s.old += numbers.Old
	}
	return s
}
