//go:build cgo && linux

package rtr

import (
	"bytes"
	"context"
	"encoding/binary"
	"errors"
	"fmt"
	"io"
	"math/rand"
	"net"
	"os"
	"strings"
	"syscall"
	"testing"
	"time"
)

// asked returns a query of a version: a serial query, or without a serial number a reset query.
func asked(version byte, session uint16, serial ...uint32) []byte {
	if len(serial) == 0 {
		return []byte{version, 2, 0, 0, 0, 0, 0, 8}
	}
	return numbered(version, 1, session, serial[0])
}

// numbered returns a unit of a session and a serial number: a serial notify or a serial query.
func numbered(version, kind byte, session uint16, serial uint32) []byte {
	unit := []byte{version, kind, 0, 0, 0, 0, 0, 12, 0, 0, 0, 0}
	binary.BigEndian.PutUint16(unit[2:], session)
	binary.BigEndian.PutUint32(unit[8:], serial)
	return unit
}

// response returns a cache response.
func response(version byte, session uint16) []byte {
	unit := []byte{version, 3, 0, 0, 0, 0, 0, 8}
	binary.BigEndian.PutUint16(unit[2:], session)
	return unit
}

// versionOf returns the records that a version has.
func (rs records) versionOf(version byte) records {
	some := records{}
	for name, r := range rs {
		if r.kind.In(version) {
			some[name] = r
		}
	}
	return some
}

// The answers to each query, in each version, as maps have them.
func TestServerAnswers(t *testing.T) {
	noLeaks(t)
	random := rand.New(rand.NewSource(6))
	var sets []records
	server, address := started(t, nil)
	for serial := uint32(0); serial < 6; serial++ {
		sets = append(sets, someRecords(random, 12))
		if err := server.Update(parsed(t, sets[serial].canonical(2, serial))); err != nil {
			t.Fatal(err)
		}
	}
	for version := byte(0); version < 3; version++ {
		connection := dial(t, address)
		last := sets[5].versionOf(version)
		for round := 0; round < 2; round++ {
			send(t, connection, asked(version, 0))
			expect(t, connection, join(response(version, 0x1234), last.canonical(version, 5)))
			for serial := uint32(0); serial < 9; serial++ {
				send(t, connection, asked(version, 0x1234, serial))
				if serial > 5 {
					expect(t, connection, []byte{version, 8, 0, 0, 0, 0, 0, 8})
					continue
				}
				changes := sets[serial].versionOf(version).leadingTo(last, version)
				changes = append(changes, ending(version, 0x1234, 5))
				expect(t, connection, append(response(version, 0x1234), join(changes...)...))
			}
			send(t, connection, asked(version, 0x1235, 5))
			expect(t, connection, []byte{version, 8, 0, 0, 0, 0, 0, 8})
		}
	}
}

// sequences returns the data of serial numbers 1, 2, .., each with another prefix, in these
// versions.
func sequences(of ...byte) (all [][]byte) {
	for i, version := range of {
		prefix := changed(changed(ipv4, 0, version), 13, byte(i))
		all = append(all, join(prefix, ending(version, 7, uint32(i+1))))
	}
	return all
}

// stepsBack returns the number of earlier serial numbers from which a client gets changes: it
// queries with the serial numbers before the present one, the latest first.
func stepsBack(t *testing.T, connection net.Conn, serial uint32) (count uint32) {
	t.Helper()
	for ; count < serial; count++ {
		send(t, connection, asked(1, 7, serial-1-count))
		unit, err := NewReader(connection).Next()
		if err != nil {
			t.Fatal(err)
		}
		if unit.Kind == CacheReset {
			break
		}
		if _, err := NewReader(connection).Sequence(100).Collect(1000); err != nil {
			t.Fatal(err)
		}
	}
	return count
}

// Changes are kept for a time, and up to a number of bytes; the last ones for any time. Each of
// these has an announced and a withdrawn prefix, and an end of data: 64 bytes, behind 16 others.
func TestServerKeeps(t *testing.T) {
	noLeaks(t)
	all := sequences(1, 1, 1, 1, 1, 1, 1, 1, 1, 1, 1, 1)
	for _, row := range []struct {
		bytes, count int
		time         time.Duration
	}{
		{1 << 20, 11, time.Hour}, {11 * 80, 11, time.Hour}, {11*80 - 1, 10, time.Hour},
		{80, 1, time.Hour}, {79, 0, time.Hour}, {1 << 20, 1, 0}, {0, 0, time.Hour},
	} {
		server, address := started(t, func(limits *ServerLimits) {
			limits.KeepBytes, limits.Keep = row.bytes, row.time
		})
		for _, sequence := range all {
			if err := server.Update(parsed(t, sequence)); err != nil {
				t.Fatal(err)
			}
			time.Sleep(2 * time.Millisecond) // a step is kept in the millisecond in which it is made
		}
		if got := stepsBack(t, dial(t, address), 12); got != uint32(row.count) {
			t.Fatalf("%+v: %d", row, got)
		}
	}
}

// Data of other versions than the earlier ones: changes are sent in each.
func TestServerVersions(t *testing.T) {
	noLeaks(t)
	all := sequences(1, 0, 1, 2, 0, 2, 1)
	server, address := started(t, nil)
	for _, sequence := range all {
		if err := server.Update(parsed(t, sequence)); err != nil {
			t.Fatal(err)
		}
		if err := server.Update(parsed(t, sequence)); err != nil {
			t.Fatal(err)
		}
	}
	for version := byte(0); version < 3; version++ {
		connection := dial(t, address)
		old := changed(changed(ipv4, 0, version), 8, 0)
		for i := byte(0); i < 6; i++ {
			send(t, connection, asked(version, 7, uint32(i)+1))
			expect(t, connection, join(response(version, 7),
				changed(changed(ipv4, 0, version), 13, 6), changed(old, 13, i),
				ending(version, 7, 7)))
		}
	}
}

// With Refuse a cache answers queries whose changes it doesn't have with a report of code 0 (RFC
// 8210 section 5.1).
func TestServerRefuse(t *testing.T) {
	noLeaks(t)
	server, address := started(t, func(limits *ServerLimits) { limits.Refuse = true })
	errs := why(server)
	for _, sequence := range sequences(1, 1) {
		if err := server.Update(parsed(t, sequence)); err != nil {
			t.Fatal(err)
		}
	}
	for _, query := range [][]byte{asked(1, 8, 1), asked(1, 7, 0), asked(1, 7, 3)} {
		connection := dial(t, address)
		send(t, connection, asked(1, 7, 2))
		expect(t, connection, join(response(1, 7), ending(1, 7, 2)))
		send(t, connection, query)
		expectEnd(t, connection,
			reportBytes(1, 0, query, "no data of this session and serial number"))
		connection.Close()
		if err := <-errs; err != ErrUnknownData {
			t.Fatal(err)
		}
	}
}

// New data are accepted if their serial number comes later; those of another session end
// connections.
func TestServerUpdate(t *testing.T) {
	noLeaks(t)
	server, address := started(t, nil, parsed(t, join(ipv4, ending(1, 7, 0xffffffff))))
	connection := dial(t, address)
	send(t, connection, asked(1, 0))
	expect(t, connection, join(response(1, 7), ipv4, ending(1, 7, 0xffffffff)))
	for _, serial := range []uint32{0xffffffff, 0xfffffffe, 0x7fffffff} {
		err := server.Update(parsed(t, ending(1, 7, serial)))
		expected := fmt.Sprintf("rtr: the serial number isn't later than that of the present data: "+
			"new %d, present 4294967295", serial)
		if !errors.Is(err, ErrSameSerial) || err.Error() != expected {
			t.Fatal(serial, err)
		}
	}
	timed := append([]byte{}, ending(1, 7, 0xffffffff)...)
	timed[23]++
	if err := server.Update(parsed(t, join(ipv4, timed))); err != ErrNewTiming {
		t.Fatal(err)
	}
	if err := server.Update(Data{}); !errors.Is(err, Short) {
		t.Fatal(err)
	}
	for _, data := range [][]byte{join(ipv4, ending(1, 7, 0xffffffff)), ending(1, 7, 0)} {
		if err := server.Update(parsed(t, data)); err != nil {
			t.Fatal(err)
		}
	}
	expect(t, connection, numbered(1, 0, 7, 0))
	if err := server.Update(parsed(t, ending(1, 8, 0))); err != ErrOneSession {
		t.Fatal(err)
	}
	server.ChangeSession()
	if err := server.Update(parsed(t, ending(1, 8, 0))); err != nil {
		t.Fatal(err)
	}
	expectEnd(t, connection, nil)
	again := dial(t, address)
	send(t, again, asked(1, 7, 0))
	expect(t, again, []byte{1, 8, 0, 0, 0, 0, 0, 8})
}

// Times that RFC 8210 section 6 doesn't allow are refused with their rule, and the cache keeps its
// data; in version 0 data have no times.
func TestServerTimes(t *testing.T) {
	noLeaks(t)
	server, address := started(t, nil, parsed(t, join(ipv4, ending(1, 7, 1))))
	for _, row := range []struct {
		times Timing
		says  string
	}{
		{Timing{0, 600, 7200}, "the refresh time has to be 1 to 86400 seconds"},
		{Timing{86401, 600, 172800}, "the refresh time has to be 1 to 86400 seconds"},
		{Timing{3600, 0, 7200}, "the retry time has to be 1 to 7200 seconds"},
		{Timing{3600, 7201, 172800}, "the retry time has to be 1 to 7200 seconds"},
		{Timing{1, 1, 599}, "the expire time has to be 600 to 172800 seconds"},
		{Timing{3600, 600, 172801}, "the expire time has to be 600 to 172800 seconds"},
		{Timing{3600, 600, 3600}, "the expire time has to be longer than the refresh time"},
		{Timing{600, 3600, 3600}, "the expire time has to be longer than the retry time"},
	} {
		for _, version := range []uint8{1, 2} {
			data, err := NewData(version, 7, 2, row.times)
			if err != nil {
				t.Fatal(err)
			}
			err = server.Update(data)
			if !errors.Is(err, ErrTiming) || !strings.HasSuffix(err.Error(), ": "+row.says) {
				t.Fatal(version, row.times, err)
			}
		}
	}
	for _, times := range []Timing{{1, 1, 600}, {86400, 7200, 172800}, RecommendedTiming} {
		if err := times.Check(); err != nil {
			t.Fatal(times, err)
		}
	}
	connection := dial(t, address)
	send(t, connection, asked(1, 0))
	expect(t, connection, join(response(1, 7), ipv4, ending(1, 7, 1)))
	if err := server.Update(parsed(t, ending(0, 7, 2))); err != nil {
		t.Fatal(err)
	}
	expect(t, connection, numbered(1, 0, 7, 2))
}

// Data of serial number 0 are served, with a warning.
func TestServerSerialZero(t *testing.T) {
	noLeaks(t)
	var log lines
	server := NewServer()
	server.Log = log.log
	for _, serial := range []uint32{0, 1} {
		if err := server.Update(parsed(t, ending(1, 7, serial))); err != nil {
			t.Fatal(err)
		}
	}
	server.Close()
	log.has(t,
		"0 data session=7 serial=0 version=1 payloads=0",
		"4 serial number 0: a router that lost its first answer may ask with it, and keep a part of "+
			"the data session=7",
		"0 data session=7 serial=1 version=1 payloads=0")
}

// A client that reads an answer slowly gets all of it unless three newer editions have come, or as
// many as the limits say, or one of another session.
func TestServerBehind(t *testing.T) {
	noLeaks(t)
	for _, row := range []struct {
		behind   int
		sessions []uint16
		reason   error
	}{
		{2, []uint16{7, 7, 7}, ErrBehind},
		{0, []uint16{7}, ErrBehind},
		{2, []uint16{8}, ErrSessionEnded},
	} {
		server, address := started(t, func(limits *ServerLimits) {
			limits.Behind = row.behind
		})
		errs := why(server)
		if err := server.Update(megabytes(t)); err != nil {
			t.Fatal(err)
		}
		slow := dial(t, address)
		send(t, slow, asked(1, 0))
		expect(t, slow, response(1, 7))
		// The server is in the middle of the data once some of them have come.
		if _, err := io.CopyN(io.Discard, slow, 1<<16); err != nil {
			t.Fatal(err)
		}
		for i, session := range row.sessions {
			time.Sleep(50 * time.Millisecond)
			if len(errs) > 0 {
				t.Fatal(i, <-errs)
			}
			if session != 7 {
				server.ChangeSession()
			}
			if err := server.Update(parsed(t, ending(1, session, uint32(i+2)))); err != nil {
				t.Fatal(err)
			}
		}
		if err := <-errs; err != row.reason {
			t.Fatal(err)
		}
	}
}

// why returns a channel of the errors with which the connections of a server end.
func why(server *Server) <-chan error {
	errs := make(chan error, 1000)
	server.Ended = func(_ net.Addr, err error) { errs <- err }
	return errs
}

// megabytes returns data that are larger than the buffers of a connection.
func megabytes(t *testing.T) Data {
	t.Helper()
	large := make([][]byte, 0, 200000)
	for i := uint32(0); i < 200000; i++ {
		unit := append([]byte{}, ipv4...)
		unit[9], unit[10] = 32, 32
		binary.BigEndian.PutUint32(unit[12:], i)
		large = append(large, unit)
	}
	return parsed(t, join(join(large...), ending(1, 7, 1)))
}

// A client that is silent, stops inside a unit, or doesn't read is closed for that reason, and
// another client is served in the meantime.
func TestServerLimits(t *testing.T) {
	noLeaks(t)
	data := megabytes(t)
	server, address := started(t, func(limits *ServerLimits) {
		limits.First, limits.Unit = 2*time.Second, 300*time.Millisecond
		limits.Idle, limits.Write = 2*time.Second, 3*time.Second
	})
	errs := why(server)
	if err := server.Update(data); err != nil {
		t.Fatal(err)
	}
	for _, input := range [][]byte{nil, {1}, asked(1, 0)[:7], asked(1, 7, 2)[:11], asked(1, 7, 1)} {
		connection := dial(t, address)
		send(t, connection, input)
		ended := make(chan error, 1)
		go func() { ended <- <-errs }()
		other := dial(t, address)
		send(t, other, asked(1, 7, 1))
		expect(t, other, join(response(1, 7), ending(1, 7, 1)))
		other.Close()
		if err := <-ended; !errors.Is(err, ErrTooSlow) {
			t.Fatalf("%x: %v", input, err)
		}
	}
	// It asks for megabytes repeatedly, and reads none of them.
	greedy := dial(t, address)
	send(t, greedy, bytes.Repeat(asked(1, 0), 1000))
	other := dial(t, address)
	send(t, other, asked(1, 0))
	expect(t, other, join(response(1, 7), data.Bytes()))
	if err := <-errs; !errors.Is(err, ErrTooSlow) {
		t.Fatal(err)
	}
}

// A client above the limit gets a report at once; when another has left, a new one is accepted.
func TestServerConnections(t *testing.T) {
	noLeaks(t)
	server, address := started(t, func(limits *ServerLimits) { limits.Connections = 2 })
	errs := why(server)
	if err := server.Update(parsed(t, ending(1, 7, 1))); err != nil {
		t.Fatal(err)
	}
	answer := join(response(1, 7), ending(1, 7, 1))
	for round := 0; round < 3; round++ {
		first, second := dial(t, address), dial(t, address)
		for _, connection := range []*net.TCPConn{first, second} {
			send(t, connection, asked(1, 0))
			expect(t, connection, answer)
		}
		many := dial(t, address)
		send(t, many, asked(1, 0))
		expectEnd(t, many, reportBytes(2, 1, nil, "too many connections"))
		many.Close()
		if err := <-errs; err != ErrManyClients {
			t.Fatal(err)
		}
		for _, connection := range []*net.TCPConn{first, second} {
			send(t, connection, ipv4)
			expectEnd(t, connection, reportBytes(1, 3, ipv4, "unit is not a query"))
			connection.Close()
			if err := <-errs; !errors.Is(err, ErrNoQuery) {
				t.Fatal(err)
			}
		}
	}
}

// Close closes connections in each of their states, and ends all goroutines.
func TestServerClose(t *testing.T) {
	noLeaks(t)
	server := NewServer()
	errs := why(server)
	if err := server.Update(parsed(t, join(ipv4, end))); err != nil {
		t.Fatal(err)
	}
	listeners := []net.Listener{listen(t, "127.0.0.1:0"), listen(t, "127.0.0.1:0")}
	done := make(chan error, len(listeners))
	for _, listener := range listeners {
		go func(listener net.Listener) { done <- server.Serve(listener) }(listener)
	}
	var connections []net.Conn
	for _, input := range [][]byte{asked(1, 0), asked(1, 0)[:3], asked(3, 0)} {
		connection := dial(t, listeners[len(connections)%2].Addr().String())
		send(t, connection, input)
		connections = append(connections, connection)
	}
	expect(t, connections[0], join(response(1, 0x1234), ipv4, end))
	server.Close()
	for range listeners {
		if err := <-done; err != ErrServerClosed {
			t.Fatal(err)
		}
	}
	if err := server.Serve(listen(t, "127.0.0.1:0")); err != ErrServerClosed {
		t.Fatal(err)
	}
	for len(errs) > 0 {
		if err := <-errs; err != ErrServerClosed && !errors.Is(err, ErrNoVersion) {
			t.Fatal(err)
		}
	}
	for _, connection := range connections[:1] {
		expectEnd(t, connection, nil)
	}
}

// Shutdown completes an answer that has begun, and closes connections that wait for queries.
func TestServerShutdown(t *testing.T) {
	noLeaks(t)
	data := megabytes(t)
	server, address := started(t, nil, data)
	errs := why(server)
	idle, slow := dial(t, address), dial(t, address)
	send(t, idle, asked(1, 7, 1))
	expect(t, idle, join(response(1, 7), ending(1, 7, 1)))
	send(t, slow, asked(1, 0))
	expect(t, slow, response(1, 7))
	ended := make(chan error, 1)
	go func() { ended <- server.Shutdown(context.Background()) }()
	expectEnd(t, idle, nil)
	if late, err := net.Dial("tcp", address); err == nil {
		late.Close()
		t.Fatal("a client was taken")
	}
	expectEnd(t, slow, data.Bytes())
	for range []int{1, 2} {
		if err := <-errs; err != ErrServerClosed {
			t.Fatal(err)
		}
	}
	if err := <-ended; err != nil {
		t.Fatal(err)
	}
}

// Shutdown waits for a client that reads nothing until its context ends.
func TestServerShutdownLimit(t *testing.T) {
	noLeaks(t)
	server, address := started(t, func(limits *ServerLimits) {
		limits.Write, limits.Response = time.Hour, time.Hour
	}, megabytes(t))
	errs := why(server)
	greedy := dial(t, address)
	send(t, greedy, asked(1, 0))
	expect(t, greedy, response(1, 7))
	ctx, cancel := context.WithTimeout(context.Background(), 50*time.Millisecond)
	defer cancel()
	if err := server.Shutdown(ctx); err != context.DeadlineExceeded {
		t.Fatal(err)
	}
	if err := server.Shutdown(context.Background()); err != nil {
		t.Fatal(err)
	}
	if err := <-errs; err != ErrServerClosed {
		t.Fatal(err)
	}
}

// failingListener fails this many times before each connection that it accepts.
type failingListener struct {
	net.Listener
	err    error
	times  int
	failed int // since the last connection
}

func (f *failingListener) Accept() (net.Conn, error) {
	if f.failed++; f.failed <= f.times {
		return nil, f.err
	}
	f.failed = 0
	return f.Listener.Accept()
}

// A server continues after a temporary failure of Accept, and ends when a listener is broken: after
// ten failures in a row.
func TestServerListener(t *testing.T) {
	noLeaks(t)
	server, _ := started(t, nil, parsed(t, ending(1, 7, 1)))
	full := &net.OpError{Op: "accept", Err: syscall.EMFILE}
	for _, row := range []struct {
		err    error
		times  int
		broken bool
	}{
		{full, 12, false}, {syscall.ENFILE, 12, false}, {syscall.ENOBUFS, 12, false},
		{syscall.ENOMEM, 12, false}, {errFailed, 9, false}, {errFailed, 10, true},
	} {
		listener := listen(t, "127.0.0.1:0")
		done := make(chan error, 1)
		failing := &failingListener{Listener: listener, err: row.err, times: row.times}
		go func() { done <- server.Serve(failing) }()
		if row.broken {
			if err := <-done; err != errFailed {
				t.Fatal(err)
			}
			continue
		}
		for count := 0; count < 2; count++ {
			connection := dial(t, listener.Addr().String())
			send(t, connection, asked(1, 0))
			expect(t, connection, join(response(1, 7), ending(1, 7, 1)))
		}
	}
}

// LoadData loads a file of a recording or a list, and refuses others.
func TestLoadData(t *testing.T) {
	path := t.TempDir() + "/data"
	ordered := join(ipv4, announced6, end)
	for name, row := range map[string]struct {
		input, data []byte
		status      Status
		offset      int64
	}{
		"in order":       {ordered, ordered, OK, 0},
		"not in order":   {join(announced6, ipv4, end), ordered, OK, 0},
		"recorded":       {join(cacheResponse, announced6, ipv4, end, end), ordered, OK, 0},
		"changed":        {join(cacheResponse, ipv4, end, cacheResponse, announced6, end), ordered, OK, 0},
		"withdrawn":      {join(cacheResponse, ipv6, ipv4, end), nil, Unknown, 8},
		"twice":          {join(cacheResponse, ipv4, ipv4, end), nil, Duplicate, 28},
		"cut":            {join(ipv4, end[:5]), nil, Short, 20},
		"of versions":    {join(ipv4, withdrawn, end), nil, OtherVersion, 20},
		"of a query":     {resetQuery, nil, Short, 8},
		"of nothing":     {nil, nil, Short, 0},
		"one withdrawal": {join(ipv4, ipv6, end), nil, Unknown, 20},
		"more":           {join(ordered, ipv4[:7]), nil, Short, int64(len(ordered))},
	} {
		if err := os.WriteFile(path, row.input, 0o600); err != nil {
			t.Fatal(err)
		}
		data, err := LoadData(path)
		var fault *Fault
		if row.status == OK {
			if err != nil || !bytes.Equal(data.Bytes(), row.data) {
				t.Fatalf("%s: %x %v", name, data.Bytes(), err)
			}
		} else if !errors.As(err, &fault) || fault.Status != row.status || fault.Offset != row.offset {
			t.Fatalf("%s: %v", name, err)
		}
	}
	if _, err := LoadData(path + "/none"); err == nil {
		t.Fatal("a file that isn't there")
	}
}

// A file is reloaded when it changes; an invalid one is reported once, and the data stay.
func TestServerWatch(t *testing.T) {
	noLeaks(t)
	server, address := started(t, nil)
	path := t.TempDir() + "/data"
	write := func(input []byte) {
		if err := os.WriteFile(path+".new", input, 0o600); err != nil {
			t.Fatal(err)
		}
		if err := os.Rename(path+".new", path); err != nil {
			t.Fatal(err)
		}
	}
	ctx, stop := context.WithCancel(context.Background())
	errs, ended := make(chan error, 100), make(chan struct{})
	go func() {
		defer close(ended)
		server.Watch(ctx, path, time.Millisecond, func(data Data, err error) {
			if err != nil {
				errs <- err
			} else if data.Session() != 7 {
				t.Error(data)
			}
		})
	}()
	if err := <-errs; !errors.Is(err, os.ErrNotExist) {
		t.Fatal(err)
	}
	connection := dial(t, address)
	send(t, connection, asked(1, 0))
	expect(t, connection, reportBytes(1, 2, asked(1, 0), "the cache has no data yet"))
	for serial := uint32(1); serial < 4; serial++ {
		write(join(announced6, ipv4, ending(1, 7, serial)))
		expect(t, connection, numbered(1, 0, 7, serial))
		write(join(ipv4, ending(1, 7, serial)))
		if err := <-errs; !errors.Is(err, ErrSameSerial) {
			t.Fatal(err)
		}
		write(join(ipv4, ending(1, 7, serial)[:13]))
		if err := <-errs; !errors.Is(err, Short) {
			t.Fatal(err)
		}
		send(t, connection, asked(1, 0))
		expect(t, connection, join(response(1, 7), ipv4, announced6, ending(1, 7, serial)))
	}
	stop()
	<-ended
	if len(errs) > 0 {
		t.Fatal(<-errs)
	}
}

// While rename replaces the watched file, the path may still lead to the old file, which lost its
// last link (rename(2) of Linux): it isn't loaded again. What changes in it later is, and so is the
// new file, once, even if it came after the check.
func TestServerWatchReplaced(t *testing.T) {
	folder := t.TempDir()
	path := folder + "/data"
	file, err := os.Create(folder + "/old")
	if err != nil {
		t.Fatal(err)
	}
	defer file.Close()
	if err := os.Symlink(fmt.Sprint("/proc/self/fd/", file.Fd()), path); err != nil {
		t.Fatal(err)
	}
	var server Server
	server.ready()
	taken, refused := 0, 0
	w := newWatcher(&server, path, func(_ Data, err error) {
		if err == nil {
			taken++
		} else if refused++; !errors.Is(err, Short) {
			t.Error(err)
		}
	})
	defer func() { w.spare.Close() }()
	checked := func(what string, ofTaken, ofRefused int) {
		if w.check(); taken != ofTaken || refused != ofRefused {
			t.Fatalf("%s: %d taken, %d refused", what, taken, refused)
		}
	}
	write := func(input []byte) {
		if _, err := file.WriteAt(input, 0); err != nil {
			t.Fatal(err)
		}
	}
	write(end[:13])
	checked("first", 0, 1)
	if err := os.Remove(file.Name()); err != nil {
		t.Fatal(err)
	}
	checked("without a link", 0, 1)
	if err := w.load(); err != nil {
		t.Fatal(err)
	}
	write(ending(1, 7, 1))
	checked("changed", 1, 1)
	if err := os.WriteFile(path+".other", end[:13], 0o600); err != nil {
		t.Fatal(err)
	}
	if err := os.Rename(path+".other", path); err != nil {
		t.Fatal(err)
	}
	if err := w.load(); !errors.Is(err, Short) {
		t.Fatal(err)
	}
	checked("replaced after the check", 1, 1)
}
