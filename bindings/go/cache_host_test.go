//go:build cgo && linux

package rtr

import (
	"context"
	"net"
	"net/netip"
	"os"
	"reflect"
	"runtime"
	"strings"
	"sync"
	"syscall"
	"testing"
	"time"
)

// Saving keeps nothing of a longer file that a killed process left beside.
func TestSaveOverALongerFile(t *testing.T) {
	path := t.TempDir() + "/kept"
	if err := os.WriteFile(path+besideSuffix, make([]byte, 1<<16), 0o600); err != nil {
		t.Fatal(err)
	}
	server := NewServer()
	if err := server.UpdateSaved(parsed(t, sequences(1)[0]), path); err != nil {
		t.Fatal(err)
	}
	if data, err := NewServer().Restore(path); err != nil || !data.Equal(server.Data()) {
		t.Error(data, err)
	}
}

// A file that changes while it is loaded is loaded again at the next check.
func TestWatchChangeInALoad(t *testing.T) {
	w, last := watched(t)
	next := join(ipv4, announced6, ending(1, 7, 2))
	overwrite(t, w.path, sequences(1)[0])
	var once sync.Once
	w.server.Log = func(Level, string, ...any) { // it is called during the load
		once.Do(func() { overwrite(t, w.path, next) })
	}
	for serial := uint32(1); serial <= 2; serial++ {
		w.check()
		if *last != nil || w.server.Data().Serial() != serial {
			t.Fatal(w.server.Data(), *last)
		}
	}
}

// A client that asked before its cache restored the data gets a notify of these.
func TestRestoreNotifies(t *testing.T) {
	noLeaks(t)
	path := t.TempDir() + "/kept"
	if err := NewServer().UpdateSaved(parsed(t, sequences(1)[0]), path); err != nil {
		t.Fatal(err)
	}
	server, address := started(t, nil)
	connection := dial(t, address)
	send(t, connection, asked(1, 0))
	expect(t, connection, reportBytes(1, 2, asked(1, 0), "the cache has no data yet"))
	if _, err := server.Restore(path); err != nil {
		t.Fatal(err)
	}
	expect(t, connection, numbered(1, 0, 7, 1))
}

// A server has the memory of one store only, whether it saves or not.
func TestMemoryOfOneStore(t *testing.T) {
	for name, path := range map[string]string{"saved": t.TempDir() + "/kept", "unsaved": ""} {
		server := NewServer()
		for _, sequence := range sequences(1, 1, 1) {
			var err error
			if data := parsed(t, sequence); path != "" {
				err = server.UpdateSaved(data, path)
			} else {
				err = server.Update(data)
			}
			buffers := server.store.buffers
			if err != nil || (buffers[0] == nil) == (buffers[1] == nil) {
				t.Errorf("%s: %d and %d bytes, %v", name, len(buffers[0]), len(buffers[1]), err)
			}
		}
	}
}

// waits reports whether a goroutine waits in this way in a function of this name.
func waits(way, function string) bool {
	stacks := make([]byte, 1<<20)
	for _, stack := range strings.Split(string(stacks[:runtime.Stack(stacks, true)]), "\n\n") {
		if strings.Contains(stack, way) && strings.Contains(stack, function) {
			return true
		}
	}
	return false
}

// A wake that comes when a client is about to look for the newest data isn't lost.
func TestWakeBeforeALook(t *testing.T) {
	noLeaks(t)
	server := NewServer()
	client, newest := simulate(server, &simulated{}), new(edition)
	client.lock.Lock()
	looked := make(chan struct{})
	go func() {
		defer close(looked)
		client.look()
	}()
	until(t, "it doesn't look", func() bool { return waits("lockSlow", "(*served).look(") })
	server.present.Store(newest)
	client.woken = true
	client.lock.Unlock()
	if <-looked; client.newest != newest {
		t.Error("the wake is lost")
	}
}

// Close closes the connection of a client that doesn't read its answer.
func TestCloseInAnAnswer(t *testing.T) {
	noLeaks(t)
	server, address := started(t, func(limits *ServerLimits) {
		limits.Write, limits.Response = 2*patience, 2*patience
	}, megabytes(t))
	client := dial(t, address)
	send(t, client, asked(1, 0))
	expect(t, client, response(1, 7))
	closed := make(chan struct{})
	go func() {
		defer close(closed)
		server.Close()
	}()
	select {
	case <-closed:
	case <-time.After(patience):
		t.Error("it waits for the client")
		client.Close()
	}
}

// Close returns after the last call of Ended has returned.
func TestCloseAwaitsEnded(t *testing.T) {
	noLeaks(t)
	server, closed, calls := NewServer(), make(chan struct{}), make(chan struct{}, 1)
	server.Ended = func(net.Addr, error) {
		for !waits("[chan receive", "(*Server).Shutdown(") {
			select {
			case <-closed:
				t.Error("Close returned before")
				return
			case <-time.After(time.Millisecond):
			}
		}
		calls <- struct{}{}
	}
	if err := server.Update(parsed(t, ending(1, 7, 1))); err != nil {
		t.Fatal(err)
	}
	listener, done := listen(t, "127.0.0.1:0"), make(chan error, 1)
	go func() { done <- server.Serve(listener) }()
	client := dial(t, listener.Addr().String())
	send(t, client, asked(1, 0))
	expect(t, client, join(response(1, 7), ending(1, 7, 1)))
	server.Close()
	if close(closed); len(calls) != 1 {
		t.Error("Ended goes on")
	}
	<-done
}

// brisk is a listener that always fails, and counts the calls before the pause after a failure.
type brisk struct {
	net.Listener
	failed time.Time
	early  int
}

func (b *brisk) Accept() (net.Conn, error) {
	if time.Since(b.failed) < pause {
		b.early++
	}
	b.failed = time.Now()
	return nil, errFailed
}

// A server pauses after each failure of a listener.
func TestPauseOfAListener(t *testing.T) {
	noLeaks(t)
	server := NewServer()
	defer server.Close()
	listener := &brisk{Listener: listen(t, "127.0.0.1:0")}
	if err := server.Serve(listener); err != errFailed || listener.early > 0 {
		t.Errorf("%d calls are early, %v", listener.early, err)
	}
}

// measured is a connection that counts what the server writes to its socket.
type measured struct {
	*net.TCPConn
	bytes []byte
	filed int
}

func (m *measured) Wrote(bytes []byte, sent int) {
	if bytes == nil {
		m.filed += sent
	} else {
		m.bytes = append(m.bytes, bytes[:sent]...)
	}
}

// measuring is a listener of such connections with small send buffers, which passes on each.
type measuring struct {
	net.Listener
	accepted chan *measured
}

func (m measuring) Accept() (net.Conn, error) {
	connection, err := m.Listener.Accept()
	if err != nil {
		return nil, err
	}
	counting := &measured{TCPConn: connection.(*net.TCPConn)}
	counting.SetWriteBuffer(1 << 14)
	m.accepted <- counting
	return counting, nil
}

// A counting connection gets the number of bytes of all answers, and how many came from a file.
func TestCounter(t *testing.T) {
	noLeaks(t)
	vrps := make([]VRP, 20000)
	for i := range vrps {
		vrps[i] = VRP{netip.MustParsePrefix("192.0.2.0/24"), 24, uint32(i)}
	}
	data, err := NewDataOf(vrps, 1, 7, 1, Timing{3600, 600, 7200})
	if err != nil {
		t.Fatal(err)
	}
	if parts := filed(make([]byte, 8), make([]byte, chunk)); parts[0].file == nil {
		t.Skip("the system has no files in memory")
	} else {
		parts[0].file.Close()
	}
	server, _ := started(t, nil, data)
	listener := measuring{listen(t, "127.0.0.1:0"), make(chan *measured, 1)}
	done := make(chan error, 1)
	go func() { done <- server.Serve(listener) }()
	client := dial(t, listener.Addr().String())
	all, none := join(response(1, 7), data.Bytes()), join(response(1, 7), ending(1, 7, 1))
	send(t, client, asked(1, 0))
	expect(t, client, all)
	send(t, client, asked(1, 7, 1))
	expect(t, client, none)
	client.Close()
	awaitLeft(t, server)
	if c := <-listener.accepted; c.filed != len(all) || string(c.bytes) != string(none) {
		t.Errorf("%d bytes of files, not %d, and %x, not %x", c.filed, len(all), c.bytes, none)
	}
	server.Close()
	if err := <-done; err != ErrServerClosed {
		t.Error(err)
	}
}

// options returns the size of a connection's send buffer, and whether it sends units at once.
func options(t *testing.T, connection *net.TCPConn) (buffer, noDelay int) {
	t.Helper()
	raw, err := connection.SyscallConn()
	if err != nil {
		t.Fatal(err)
	}
	var failures [2]error
	failed := raw.Control(func(socket uintptr) {
		buffer, failures[0] = syscall.GetsockoptInt(int(socket), syscall.SOL_SOCKET,
			syscall.SO_SNDBUF)
		noDelay, failures[1] = syscall.GetsockoptInt(int(socket), syscall.IPPROTO_TCP,
			syscall.TCP_NODELAY)
	})
	if failed != nil || failures != [2]error{} {
		t.Fatal(failed, failures)
	}
	return buffer, noDelay
}

// The send buffer of a client's connection has a fixed size, and small units are sent at once.
func TestOptionsOfConnections(t *testing.T) {
	noLeaks(t)
	server, _ := started(t, nil)
	client, taken := accepted(t)
	client.(*net.TCPConn).SetWriteBuffer(writeBuffer)
	want, _ := options(t, client.(*net.TCPConn))
	server.take(taken)
	if buffer, noDelay := options(t, taken.(*net.TCPConn)); buffer != want || noDelay == 0 {
		t.Errorf("%d bytes, not %d; %d", buffer, want, noDelay)
	}
}

// Each limit of a server is passed on.
func TestEachServerLimit(t *testing.T) {
	s := ServerLimits{
		Connections: 1, Refused: 2, First: 3 * time.Second, Unit: 4 * time.Second,
		Idle: 5 * time.Second, Write: 6 * time.Second, Response: 7 * time.Second,
		Report: 8 * time.Second, Behind: 9, Notify: 10 * time.Second, Keep: 11 * time.Second,
		KeepBytes: 12, Refuse: true,
	}.settings()
	got := []uint64{uint64(s.most_connections), uint64(s.most_refused),
		uint64(s.cache.first_limit), uint64(s.unit_limit), uint64(s.cache.idle_limit),
		uint64(s.write_limit), uint64(s.response_limit), uint64(s.report_limit),
		uint64(s.most_behind), uint64(s.cache.pause), uint64(s.keep), uint64(s.keep_bytes)}
	want := []uint64{1, 2, 3000, 4000, 5000, 6000, 7000, 8000, 9, 10000, 11000, 12}
	if !reflect.DeepEqual(got, want) || !bool(s.cache.refuses) {
		t.Errorf("%d, not %d; %t", got, want, s.cache.refuses)
	}
}

// The changes for clients are computed once, and kept while they have no more than KeepBytes.
func TestKeptChanges(t *testing.T) {
	e := &edition{
		deltas: map[question][]byte{}, limits: ServerLimits{KeepBytes: 100}.settings(),
	}
	first := make([]byte, 60)
	e.keep(question{1, 1}, first)
	e.keep(question{1, 2}, make([]byte, 60))
	if len(e.deltas) != 1 {
		t.Errorf("%d changes are kept", len(e.deltas))
	}
	again, err := e.since(1, 1)
	if err != nil || len(again) != 60 || &again[0] != &first[0] {
		t.Error("they are computed again", err)
	}
}

// New data end the reads of a client whose handshake is done.
func TestNewDataAfterAHandshake(t *testing.T) {
	server := NewServer()
	connection := &shaking{shake: func(context.Context) error { return nil }}
	client := newServed(server, connection)
	server.clients[client] = true
	if err := client.shake(); err != nil {
		t.Fatal(err)
	}
	if server.wake(); !connection.toRead.Equal(passed) {
		t.Error("it reads until", connection.toRead)
	}
}
