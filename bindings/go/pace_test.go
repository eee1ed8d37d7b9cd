//go:build cgo && linux

package rtr

import (
	"bytes"
	"errors"
	"io"
	"math"
	"net"
	"os"
	"testing"
	"time"
)

// coming is what a simulated client sends at a time, in milliseconds; nil if it closes then.
type coming struct {
	time  uint64
	bytes []byte
}

// simulated is a connection whose time passes only while the server waits.
type simulated struct {
	net.Conn     // nil: other methods aren't called
	server       *Server
	clock        uint64 // in milliseconds
	coming       []coming
	takes        int    // how many bytes of a write the client takes, at most
	pause        uint64 // how long a write takes
	half         bool   // it can be closed for writing
	written      []byte
	toRead       time.Time
	toWrite      time.Time
	closesWrites int
	during       func() // called during a write
	waiting      func() // called before a read
}

// simulate returns a connection to a server with a simulated clock, and its client.
func simulate(server *Server, s *simulated) *served {
	begun := time.Unix(1<<30, 0)
	server.clock = clock{begun, func() time.Time {
		return begun.Add(time.Duration(s.clock) * time.Millisecond)
	}}
	s.server = server
	client := newServed(server, s)
	server.clients[client] = true
	return client
}

func (s *simulated) SetReadDeadline(until time.Time) error {
	s.toRead = until
	return nil
}

func (s *simulated) SetWriteDeadline(until time.Time) error {
	s.toWrite = until
	return nil
}

// passes lets time pass until a deadline, and returns the timeout.
func (s *simulated) passes(deadline time.Time) error {
	if until := deadline.Sub(s.server.clock.begun).Milliseconds(); until > int64(s.clock) {
		s.clock = uint64(until)
	}
	return os.ErrDeadlineExceeded
}

func (s *simulated) Read(buffer []byte) (int, error) {
	if s.waiting != nil {
		s.waiting()
	}
	if len(s.coming) == 0 || s.server.clock.at(s.coming[0].time).After(s.toRead) {
		return 0, s.passes(s.toRead)
	}
	next := &s.coming[0]
	if next.time > s.clock {
		s.clock = next.time
	}
	if next.bytes == nil {
		return 0, io.EOF
	}
	n := copy(buffer, next.bytes)
	if next.bytes = next.bytes[n:]; len(next.bytes) == 0 {
		s.coming = s.coming[1:]
	}
	return n, nil
}

func (s *simulated) Write(bytes []byte) (int, error) {
	if s.during != nil {
		s.during()
	}
	taken := len(bytes)
	if taken > s.takes {
		taken = s.takes
	}
	s.written = append(s.written, bytes[:taken]...)
	if taken < len(bytes) || s.server.clock.at(s.clock+s.pause).After(s.toWrite) {
		return taken, s.passes(s.toWrite)
	}
	s.clock += s.pause
	return taken, nil
}

func (s *simulated) CloseWrite() error {
	s.closesWrites++
	if !s.half {
		return net.ErrClosed
	}
	return nil
}

// Each time limit ends a connection when it is reached (docs/SESSIONS.md, "The cache"), and the
// limits that a caller sets are used.
func TestServerLimitsOfTime(t *testing.T) {
	data := megabytes(t)
	usual := NewServer().Limits
	own := ServerLimits{
		First: 2 * time.Second, Unit: 3 * time.Second, Idle: 7 * time.Second,
		Write: 4 * time.Second, Response: 50 * time.Second,
	}
	whole, all := asked(1, 7, 1), asked(1, 0)
	part, both := whole[:9], join(whole, whole[:9])
	at := func(time uint64, bytes []byte) []coming { return []coming{{time, bytes}} }
	for name, row := range map[string]struct {
		limits ServerLimits
		conn   simulated
		reason error
		ends   uint64
	}{
		"nothing":     {usual, simulated{}, errSlowRouter, 30000},
		"a part":      {usual, simulated{coming: at(5000, part)}, errSlowRouter, 15000},
		"a late part": {usual, simulated{coming: at(25000, part)}, errSlowRouter, 30000},
		"a slow part": {usual, simulated{coming: []coming{{1000, part[:1]}, {10999, part[1:2]}}},
			errSlowRouter, 11000},
		"one query": {usual, simulated{takes: 99, coming: at(1000, whole)},
			errSlowRouter, 1000 + 25*3600*1000},
		"a query and a part": {usual, simulated{takes: 99, coming: at(1000, both)},
			errSlowRouter, 11000},
		"it takes nothing": {usual, simulated{coming: at(1000, whole)}, errSlowRouter, 31000},
		"it takes slowly": {usual, simulated{takes: tlsRecord, pause: 20000, coming: at(1000, all)},
			errSlowRouter, 601000},
		"it closes": {usual, simulated{takes: 99, coming: []coming{{1000, whole}, {2000, nil}}},
			nil, 2000},
		"own: nothing": {own, simulated{}, errSlowRouter, 2000},
		"own: a part": {own, simulated{takes: 99, coming: at(1000, both)},
			errSlowRouter, 4000},
		"own: one query": {own, simulated{takes: 99, coming: at(1000, whole)},
			errSlowRouter, 8000},
		"own: it takes nothing": {own, simulated{coming: at(1000, whole)}, errSlowRouter, 5000},
		"own: it takes slowly": {own,
			simulated{takes: tlsRecord, pause: 3000, coming: at(1000, all)}, errSlowRouter, 51000},
	} {
		server := NewServer()
		server.Limits = row.limits
		if err := server.Update(data); err != nil {
			t.Fatal(err)
		}
		conn := row.conn
		if err := simulate(server, &conn).serve(); err != row.reason || conn.clock != row.ends {
			t.Errorf("%s: %v after %d ms, not after %d", name, err, conn.clock, row.ends)
		}
	}
}

// After its last report a connection is closed for writing, and what comes is read and ignored
// until the client closes it, for 10 seconds at most, whatever other limits are set
// (docs/SESSIONS.md).
func TestServerLastReport(t *testing.T) {
	report := reportBytes(1, 3, ipv4, "unit is not a query")
	cut := reportBytes(1, 0, ipv4[:9], "unexpected end of input")
	full := reportBytes(2, 1, nil, "too many connections")
	junk := bytes.Repeat([]byte{9}, 1<<20+1)
	wrong := coming{1000, ipv4}
	for name, row := range map[string]struct {
		refused, half bool
		takes         int
		coming        []coming
		ends          uint64
		gets          []byte
	}{
		"it closes": {false, true, 999, []coming{wrong, {4000, nil}}, 4000, report},
		"it stays":  {false, true, 999, []coming{wrong}, 11000, report},
		"it goes on": {false, true, 999,
			[]coming{wrong, {2000, junk}, {5000, junk}, {6000, nil}}, 6000, report},
		"it had closed": {false, false, 999, []coming{{1000, ipv4[:9]}, {1000, nil}},
			1000, cut},
		"it can't be half closed":    {false, false, 999, []coming{wrong}, 1000, report},
		"it takes little":            {false, true, 7, []coming{wrong}, 11000, report[:7]},
		"it is too many":             {true, true, 999, []coming{{0, asked(1, 0)}}, 10000, full},
		"it is too many, and closes": {true, true, 999, []coming{{500, nil}}, 500, full},
	} {
		server := NewServer()
		server.Limits.Unit, server.Limits.Write = time.Minute, time.Minute
		conn := simulated{takes: row.takes, half: row.half, coming: row.coming}
		client := simulate(server, &conn)
		client.refused = row.refused
		err := client.serve()
		if err == nil || errors.Is(err, ErrTooSlow) || errors.Is(err, ErrManyClients) != row.refused {
			t.Errorf("%s: %v", name, err)
		}
		if conn.clock != row.ends || !bytes.Equal(conn.written, row.gets) || conn.closesWrites > 1 {
			t.Errorf("%s: after %d ms, %x", name, conn.clock, conn.written)
		}
	}
}

// Newer data interrupt a write only if they end the connection, since TLS can't continue after
// that: the third newer ones, or those of another session.
func TestNewDataDuringAWrite(t *testing.T) {
	for reason, row := range map[error]struct {
		sessions []uint16
		breaks   int // the number of data at which the write ends
	}{
		ErrBehind:       {[]uint16{7, 7, 7, 7}, 3},
		ErrSessionEnded: {[]uint16{7, 8, 8, 8}, 2},
	} {
		server, updates := NewServer(), 0
		if err := server.Update(megabytes(t)); err != nil {
			t.Fatal(err)
		}
		conn := &simulated{takes: math.MaxInt, coming: []coming{{1000, asked(1, 0)}}}
		conn.during = func() {
			if len(conn.written) < chunk {
				return
			}
			if conn.toWrite.Equal(passed) {
				t.Fatal(reason, "it writes on")
			}
			if updates > 0 && row.sessions[updates] != row.sessions[updates-1] {
				server.ChangeSession()
			}
			data := parsed(t, ending(1, row.sessions[updates], uint32(updates+2)))
			if err := server.Update(data); err != nil {
				t.Fatal(err)
			}
			if updates++; conn.toWrite.Equal(passed) != (updates == row.breaks) {
				t.Fatal(reason, updates, conn.toWrite)
			}
		}
		if err := simulate(server, conn).serve(); err != reason || updates != row.breaks {
			t.Error(err, updates)
		}
	}
}

// Of more clients than are served 64 get a report at once. The next one waits until one of these
// leaves, and gets the report then; once a served one left, the next one is served.
func TestServerDoor(t *testing.T) {
	noLeaks(t)
	_, address := started(t, func(limits *ServerLimits) { limits.Connections = 1 },
		parsed(t, ending(1, 7, 1)))
	answer := join(response(1, 7), ending(1, 7, 1))
	report := reportBytes(2, 1, nil, "too many connections")
	first := dial(t, address)
	send(t, first, asked(1, 0))
	expect(t, first, answer)
	var refused []*net.TCPConn
	for len(refused) < 64 {
		refused = append(refused, dial(t, address))
		expectEnd(t, refused[len(refused)-1], report)
	}
	waiting := []*net.TCPConn{dial(t, address), dial(t, address)}
	for _, connection := range waiting {
		send(t, connection, asked(1, 0))
		connection.SetReadDeadline(time.Now().Add(100 * time.Millisecond))
		if _, err := connection.Read(make([]byte, 1)); !isTimeout(err) {
			t.Fatal(err)
		}
		connection.SetDeadline(time.Now().Add(patience))
	}
	refused[63].Close()
	expectEnd(t, waiting[0], report)
	first.Close()
	expect(t, waiting[1], answer)
	send(t, waiting[1], asked(1, 0))
	expect(t, waiting[1], answer)
}

// A listener that waits for a client to leave ends with the server.
func TestServerDoorCloses(t *testing.T) {
	noLeaks(t)
	server, address := started(t, func(limits *ServerLimits) { limits.Connections = 0 })
	for i := 0; i < 64; i++ {
		expectEnd(t, dial(t, address), reportBytes(2, 1, nil, "too many connections"))
	}
	dial(t, address)
	time.Sleep(20 * time.Millisecond)
	server.Close()
}
