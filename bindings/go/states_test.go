//go:build cgo && linux

package rtr

import (
	"context"
	"errors"
	"math"
	"net"
	"os"
	"runtime"
	"strings"
	"testing"
	"time"
)

// A wake between a look and a read isn't lost: the client looks again before it reads.
func TestWakeBeforeARead(t *testing.T) {
	server := NewServer()
	conn := simulated{}
	client := simulate(server, &conn)
	client.look()
	server.wake()
	if client.mayRead() || !conn.toRead.Equal(passed) {
		t.Error("it reads, until", conn.toRead)
	}
	client.look()
	if !client.mayRead() || conn.toRead.Equal(passed) {
		t.Error("it doesn't read again")
	}
}

// A wake between a look and a write isn't lost either: that write doesn't wait.
func TestWakeBeforeAWrite(t *testing.T) {
	server := NewServer()
	client := simulate(server, &simulated{})
	client.look()
	server.wake()
	if client.beginWrite() {
		t.Error("the write waits")
	}
	client.look()
	if !client.beginWrite() {
		t.Error("the next one doesn't wait")
	}
}

// shaking is a simulated connection with a handshake.
type shaking struct {
	simulated
	shake func(context.Context) error
}

func (s *shaking) HandshakeContext(ctx context.Context) error { return s.shake(ctx) }

// A handshake has the time limit of a first query; it doesn't begin once the server is closed; and
// new data don't end the reads of one that is about to begin.
func TestHandshakes(t *testing.T) {
	server := NewServer()
	server.Limits.First, server.Limits.Unit = 20*time.Millisecond, 2*patience
	slow := &shaking{shake: func(ctx context.Context) error {
		select {
		case <-ctx.Done():
			return ctx.Err()
		case <-time.After(patience):
			return nil
		}
	}}
	client := newServed(server, slow)
	server.clients[client] = true
	server.wake()
	if !slow.toRead.IsZero() {
		t.Error("its reads end at", slow.toRead)
	}
	if err := client.shake(); err != errSlowRouter {
		t.Error(err)
	}
	server.closed.Store(true)
	late := &shaking{shake: func(context.Context) error {
		t.Error("a handshake begins")
		return nil
	}}
	if err := newServed(server, late).shake(); err != ErrServerClosed {
		t.Error(err)
	}
}

// New data don't end the wait for a client to read its last report, which lasts 10 seconds
// (docs/SESSIONS.md).
func TestNewDataAfterALastReport(t *testing.T) {
	server := NewServer()
	conn := simulated{takes: math.MaxInt, half: true, coming: []coming{{1000, ipv4}}}
	updates := 0
	conn.waiting = func() {
		if conn.closesWrites == 0 || updates > 0 {
			return
		}
		updates++
		if err := server.Update(parsed(t, ending(1, 7, 1))); err != nil {
			t.Fatal(err)
		}
	}
	err := simulate(server, &conn).serve()
	if !errors.Is(err, ErrNoQuery) || updates != 1 || conn.clock != 11000 {
		t.Error(err, updates, conn.clock)
	}
}

// A fault has the offset of its unit in all bytes that the client sent.
func TestOffsetOfAFault(t *testing.T) {
	server := NewServer()
	if err := server.Update(parsed(t, ending(1, 7, 1))); err != nil {
		t.Fatal(err)
	}
	short := changed(asked(1, 0), 7, 1) // its length is 1
	sent := join(asked(1, 0), asked(1, 7, 1), short)
	conn := simulated{takes: math.MaxInt, coming: []coming{{1000, sent}}}
	var fault *Fault
	err := simulate(server, &conn).serve()
	if !errors.As(err, &fault) || fault.Offset != 8+12 {
		t.Error(err)
	}
}

// openFile returns the open file of an edition's answer with all data to a version; nil for none.
func openFile(e *edition, version uint8) *os.File {
	e.lock.Lock()
	defer e.lock.Unlock()
	return e.files[string(response(version, e.data.Session()))][0].file
}

// until waits until a condition holds.
func until(t *testing.T, what string, holds func() bool) {
	t.Helper()
	for end := time.Now().Add(patience); !holds(); time.Sleep(time.Millisecond) {
		if time.Now().After(end) {
			t.Fatal(what)
		}
	}
}

// awaitLeft waits until all clients of a server have left.
func awaitLeft(t *testing.T, server *Server) {
	t.Helper()
	until(t, "a client stays", func() bool {
		server.lock.Lock()
		defer server.lock.Unlock()
		return len(server.clients) == 0
	})
}

// The file of old data is closed once no client is sent it any more, whether they were replaced
// after it was sent, or meanwhile, or after the client left.
func TestFileOfAnEdition(t *testing.T) {
	noLeaks(t)
	data := megabytes(t)
	whole := join(response(1, 7), data.Bytes())
	for _, row := range []struct {
		name          string
		before, after int // how many bytes the client reads before and after the new data
	}{{"sent", len(whole), 0}, {"meanwhile", 1 << 16, len(whole) - 1<<16}, {"left", 1 << 16, 0}} {
		server, address := started(t, nil, data)
		client := dial(t, address)
		send(t, client, asked(1, 0))
		expect(t, client, whole[:row.before])
		old := server.present.Load()
		file := openFile(old, 1)
		if file == nil {
			t.Skip("the system has no files in memory")
		}
		if err := server.Update(parsed(t, ending(1, 7, 2))); err != nil {
			t.Fatal(err)
		}
		if row.after > 0 {
			if _, err := file.Stat(); err != nil {
				t.Fatal(row.name, err)
			}
			expect(t, client, whole[row.before:])
		} else {
			client.Close()
		}
		until(t, row.name+": the file stays", func() bool { return openFile(old, 1) == nil })
		if _, err := file.Stat(); err == nil {
			t.Fatal(row.name, "the file is open")
		}
	}
}

// A client that takes the last descriptor isn't served, but gets a report; the next one is served
// once there are some again.
func TestServerSpare(t *testing.T) {
	noLeaks(t)
	server, address := started(t, nil, parsed(t, ending(1, 7, 1)))
	first := dial(t, address)
	send(t, first, asked(1, 0))
	expect(t, first, join(response(1, 7), ending(1, 7, 1)))
	near, far := net.Pipe()
	release := withoutDescriptors(t)
	server.take(far)
	release()
	expect(t, near, reportBytes(2, 1, nil, "too many connections"))
	near.Close()
	next := dial(t, address)
	send(t, next, asked(1, 0))
	expect(t, next, join(response(1, 7), ending(1, 7, 1)))
}

// isAtDoor reports whether a listener waits for a client to leave.
func isAtDoor() bool {
	stacks := make([]byte, 1<<20)
	for _, stack := range strings.Split(string(stacks[:runtime.Stack(stacks, true)]), "\n\n") {
		if strings.Contains(stack, "[sync.Cond.Wait") && strings.Contains(stack, "awaitDoor") {
			return true
		}
	}
	return false
}

// A listener that waits for a client to leave ends with the server, before any client has left. The
// server's clock is stopped, so that no limit makes one leave.
func TestListenerEndsAtTheDoor(t *testing.T) {
	noLeaks(t)
	server := NewServer()
	server.Limits.Connections = 0
	begun := time.Now().Add(time.Hour)
	server.clock = clock{begun, func() time.Time { return begun }}
	listener, done := listen(t, "127.0.0.1:0"), make(chan int, 1)
	go func() {
		server.Serve(listener)
		server.lock.Lock()
		defer server.lock.Unlock()
		done <- len(server.clients)
	}()
	report := reportBytes(2, 1, nil, "too many connections")
	for i := 0; i < 64; i++ {
		expectEnd(t, dial(t, listener.Addr().String()), report)
	}
	until(t, "the listener doesn't wait", isAtDoor)
	ctx, end := context.WithCancel(context.Background())
	ended := make(chan error, 1)
	go func() { ended <- server.Shutdown(ctx) }()
	select {
	case left := <-done:
		if left != 64 {
			t.Error("clients:", left)
		}
	case <-time.After(patience):
		t.Error("the listener waits on")
	}
	end()
	if err := <-ended; err != context.Canceled {
		t.Error(err)
	}
}
