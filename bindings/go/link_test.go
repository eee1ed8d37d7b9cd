//go:build cgo && linux

package rtr

import (
	"bytes"
	"context"
	"errors"
	"net"
	"os"
	"testing"
	"time"
)

// The data of an update don't change later, nor do its changes, even if they are first asked for
// after later updates.
func TestDataStay(t *testing.T) {
	noLeaks(t)
	cacheReset := []byte{1, 8, 0, 0, 0, 0, 0, 8}
	var many, withdrawn [][]byte
	for last := byte(10); last < 30; last += 2 {
		prefix := changed(ipv4, 14, last)
		many, withdrawn = append(many, prefix), append(withdrawn, changed(prefix, 8, 0))
	}
	client := quick(fakeCache(t, play(t, nil,
		scene{reset1, full(7, 1, many...)}, scene{asked(1, 7, 1), full(7, 2, announced6)},
		scene{asked(1, 7, 2), cacheReset}, scene{reset1, full(7, 3, ipv4)}, // shorter data
		scene{asked(1, 7, 3), full(7, 4, withdrawn4, otherIPv4)},
		scene{asked(1, 7, 4), full(7, 5)})))
	client.Version, client.Refresh = 1, time.Millisecond
	updates, failures := follow(t, client, func(update Update) bool {
		return update.Data.Serial() == 5
	})
	expected := []struct{ data, changes []byte }{
		{join(many...), join(many...)},
		{join(append(many, announced6)...), announced6},
		{ipv4, join(ipv4, join(withdrawn...), changed(announced6, 8, 0))},
		{otherIPv4, join(otherIPv4, withdrawn4)},
		{otherIPv4, nil},
	}
	if len(updates) != len(expected) || len(failures) > 0 {
		t.Fatal(len(updates), texts(failures))
	}
	for again := 0; again < 2; again++ {
		for i, update := range updates {
			data := parsed(t, join(expected[i].data, ending(1, 7, uint32(i+1))))
			if !update.Data.Equal(data) || !bytes.Equal(changesOf(update), expected[i].changes) {
				t.Errorf("%d: %x, by %x", i+1, update.Data.Bytes(), changesOf(update))
			}
		}
	}
}

// An update without a client has no changes.
func TestUpdateOfNoClient(t *testing.T) {
	data := parsed(t, join(ipv4, ending(1, 7, 9)))
	for _, update := range []Update{{}, {Data: data}} {
		if got := changesOf(update); len(got) > 0 {
			t.Errorf("%x", got)
		}
	}
}

// If there is no memory for an answer, the connection ends, the data stay, and the client retries.
func TestNoMemory(t *testing.T) {
	noLeaks(t)
	long := full(7, 2, bytes.Repeat(otherIPv4, 10000))
	client := quick(fakeCache(t,
		play(t, nil, scene{reset1, full(7, 1, ipv4)}, scene{asked(1, 7, 1), long}),
		play(t, nil, scene{reset1, full(7, 3, ipv4)})))
	client.Version, client.Refresh = 1, time.Millisecond
	ctx, cancel := limited(t)
	defer cancel()
	var serials []uint32
	var failures []error
	f := client.follower(ctx, newClock(), func(update Update) error {
		serials = append(serials, update.Data.Serial())
		if update.Data.Serial() == 3 {
			return errEnough
		}
		return nil
	})
	f.link.most = 2 * longestUnit
	f.onFailure = func(err error) {
		failures = append(failures, err)
		if f.data.Serial() != 1 {
			t.Error("the data didn't stay")
		}
	}
	if err := f.run(); err != errEnough {
		t.Fatal(err)
	}
	if len(serials) != 2 || len(failures) != 1 || failures[0] != ErrNoMemory {
		t.Fatal(serials, texts(failures))
	}
}

// reading returns a link that has data of serial number 1, has asked for what changed, and was
// given these bytes.
func reading(t *testing.T, answer []byte) *link {
	l := newLink(settingsOf(NewClient(""), usualClientLimits(), 0))
	inputs := [][]byte{full(7, 1, ipv4), numbered(1, 0, 7, 2), answer}
	for now := uint64(0); ; {
		switch next := l.next(now); next.kind {
		case todoConnect:
			l.opened()
		case todoData:
			if data := l.newData(now); data.Serial() != 1 {
				t.Fatal(data.Serial())
			}
			now = 5000
		case todoWait:
			l.sent(len(l.unsent(now)))
			if len(inputs) == 0 {
				t.Fatal("there was no answer")
			}
			l.received(copy(l.inputTail(now), inputs[0]))
			if inputs = inputs[1:]; len(inputs) == 0 {
				return l
			}
		}
	}
}

// If any buffer can't grow, the answer ends, and the data stay.
func TestNoRoom(t *testing.T) {
	whole := full(7, 2, otherIPv4)
	for name, row := range map[string]struct {
		answer  []byte
		prepare func(*link)
	}{
		"input": {whole[:20], func(l *link) {
			l.next(5000) // the response begins
			l.input = l.input[:12]
		}},
		"index": {whole, func(*link) {}},
		"data":  {whole, func(l *link) { l.index = append(l.index, 0) }},
	} {
		l := reading(t, row.answer)
		row.prepare(l)
		l.most = 0
		const now = 5000
		next := l.next(now)
		for !l.gaveUp {
			if next.kind == todoWait || next.kind == todoData {
				t.Fatalf("%s: it goes on: %d", name, next.kind)
			}
			next = l.next(now)
		}
		if next.kind != todoClose || cause(next.cause) != causeNotApplied ||
			next.status != 0 || bool(next.drops) || bool(next.reports) {
			t.Fatalf("%s: %+v", name, next)
		}
		if state := l.state(now); !state.has_data || int(state.shown) != len(ipv4)+24 {
			t.Fatalf("%s: %+v", name, state)
		}
	}
}

// failed fails to connect at this time, and returns when the link connects again.
func failed(t *testing.T, l *link, now uint64) uint64 {
	for {
		switch next := l.next(now); next.kind {
		case todoConnect:
			l.lost()
		case todoWait:
			return uint64(next.wakes)
		case todoData:
			t.Fatal("there are data")
		}
	}
}

// A restarted link connects at once, and its pauses continue to grow, up to the retry time.
func TestWaitsGrowAgain(t *testing.T) {
	client := NewClient("")
	client.AskIn(0) // it can't fall back to a lower version
	client.Retry = 30 * time.Second
	l, now := newLink(settingsOf(client, usualClientLimits(), 0)), uint64(0)
	for _, wait := range []uint64{1, 2, 4, 8, 16, 30, 30} {
		if got := failed(t, l, now) - now; got != 1000*wait {
			t.Fatalf("%d ms, not %d s", got, wait)
		}
		now += 1000 // in which it is stopped
		l.restart()
	}
}

// A wrong call panics.
func TestWrongCall(t *testing.T) {
	calls := map[string]func(*link){
		"opened":   func(l *link) { l.opened() },
		"lost":     func(l *link) { l.lost() },
		"received": func(l *link) { l.received(1) },
		"sent":     func(l *link) { l.sent(1) },
		"earlier":  func(l *link) { l.next(9); l.next(8) },
	}
	for name, call := range calls {
		func() {
			defer func() {
				if recover() == nil {
					t.Errorf("%s: nothing happens", name)
				}
			}()
			call(newLink(settingsOf(NewClient(""), usualClientLimits(), 0)))
		}()
	}
}

// dripping is a connection whose writes send one byte, and then time out.
type dripping struct{ net.Conn }

func (d dripping) Write(bytes []byte) (int, error) {
	if len(bytes) > 1 {
		if n, err := d.Conn.Write(bytes[:1]); err != nil {
			return n, err
		}
		return 1, os.ErrDeadlineExceeded
	}
	return d.Conn.Write(bytes)
}

// A query that was sent in part is continued, and logged once.
func TestPartOfAQuery(t *testing.T) {
	noLeaks(t)
	var log lines
	client := quick(fakeCache(t, play(t, nil, scene{reset1, full(7, 1, ipv4)},
		scene{asked(1, 7, 1), full(7, 2)})))
	client.Version, client.Refresh, client.Log = 1, time.Millisecond, log.log
	client.Dial = func(ctx context.Context, network, address string) (net.Conn, error) {
		connection, err := new(net.Dialer).DialContext(ctx, network, address)
		return dripping{connection}, err
	}
	_, failures := follow(t, client, func(update Update) bool { return update.Data.Serial() == 2 })
	if len(failures) > 0 {
		t.Fatal(texts(failures))
	}
	log.has(t, "-4 connected", "-4 asks query=reset query version=1",
		"0 data session=7 serial=1 version=1 payloads=1",
		"-4 asks query=serial query version=1", "0 data session=7 serial=2 version=1 payloads=1")
}

// miscounting is a connection that returns other counts of bytes than it read and sent.
type miscounting struct {
	net.Conn
	read, written int
}

func (m miscounting) Read(bytes []byte) (int, error) {
	n, err := m.Conn.Read(bytes)
	return n + m.read, err
}

func (m miscounting) Write(bytes []byte) (int, error) {
	n, err := m.Conn.Write(bytes)
	return n + m.written, err
}

// A connection that returns an impossible count is closed.
func TestImpossibleCounts(t *testing.T) {
	noLeaks(t)
	rows := []miscounting{{read: 1 << 20}, {read: -1 << 20}, {written: 1}, {written: -20}}
	for _, row := range rows {
		row := row
		client := quick(fakeCache(t, func(connection *net.TCPConn) {
			// The client may have left, and the test ended, before the query is read.
			if readUnit(NewReader(connection)) != nil {
				connection.Write(all0)
			}
		}))
		client.Dial = func(ctx context.Context, network, address string) (net.Conn, error) {
			connection, err := new(net.Dialer).DialContext(ctx, network, address)
			return miscounting{connection, row.read, row.written}, err
		}
		client.AskIn(0) // it can't fall back to a lower version
		ctx, cancel := limited(t)
		if _, err := client.Fetch(ctx); !errors.Is(err, errCount) {
			t.Error(row.read, row.written, err)
		}
		cancel()
	}
}

// A fault has the offset of a unit in all bytes of the connection, and of a change in the changes
// of its answer. A query that is due before is sent before the report.
func TestOffsets(t *testing.T) {
	noLeaks(t)
	cacheReset := []byte{1, 8, 0, 0, 0, 0, 0, 8}
	first := join(full(7, 1, ipv4), numbered(1, 0, 7, 2))
	for name, row := range map[string]struct {
		answer []byte
		offset int
		query  []byte
		report []byte
	}{
		"a unit": {join(response(1, 7), otherIPv4, longPrefix), len(first) + 8 + 20, nil,
			reportBytes(1, 0, longPrefix, "prefix length too large")},
		"behind a query": {join(cacheReset, longPrefix), len(first) + 8, reset1,
			reportBytes(1, 0, longPrefix, "prefix length too large")},
		"a change": {full(7, 2, otherIPv4, ipv4), 20, nil,
			reportBytes(1, 7, ipv4, "duplicate announcement")},
	} {
		query, report := make(chan []byte, 1), make(chan []byte, 1)
		client := quick(fakeCache(t, func(connection *net.TCPConn) {
			reader := NewReader(connection)
			readUnit(reader)
			connection.Write(first)
			readUnit(reader)
			connection.Write(row.answer)
			if row.query != nil {
				query <- readUnit(reader)
			}
			report <- readUnit(reader)
		}))
		client.Version = 1
		ctx, cancel := limited(t)
		var failure error
		client.Failed = func(err error) {
			failure = err
			cancel()
		}
		client.Run(ctx, func(Update) error { return nil })
		var fault *Fault
		if !errors.As(failure, &fault) || fault.Offset != int64(row.offset) {
			t.Errorf("%s: %v, not at byte %d", name, failure, row.offset)
		}
		if row.query != nil && !bytes.Equal(<-query, row.query) {
			t.Errorf("%s: not asked before", name)
		}
		if got := <-report; !bytes.Equal(got, row.report) {
			t.Errorf("%s: %x, not %x", name, got, row.report)
		}
	}
}
