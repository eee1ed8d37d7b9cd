//go:build cgo && linux

package rtr

import (
	"context"
	"errors"
	"io"
	"net"
	"reflect"
	"testing"
	"time"
)

// handshaking is a connection whose handshake ends by its context, or fails.
type handshaking struct {
	net.Conn
	began, closed chan struct{}
	fails         bool
}

func (h *handshaking) HandshakeContext(ctx context.Context) error {
	close(h.began)
	if h.fails {
		return errors.New("no handshake")
	}
	<-ctx.Done()
	return ctx.Err()
}

func (h *handshaking) Close() error {
	close(h.closed)
	return h.Conn.Close()
}

// signalling closes a channel at the first read or write.
type signalling struct {
	net.Conn
	reads, writes chan struct{}
}

func (c *signalling) Read(bytes []byte) (int, error) {
	close(c.reads)
	return c.Conn.Read(bytes)
}

func (c *signalling) Write(bytes []byte) (int, error) {
	close(c.writes)
	return c.Conn.Write(bytes)
}

// A context that ends interrupts a client in each of its waits, long before the limits of these do.
func TestContextInEachWait(t *testing.T) {
	noLeaks(t)
	for name, row := range map[string]func(began chan struct{}) (net.Conn, error){
		"a write": func(began chan struct{}) (net.Conn, error) {
			near, _ := net.Pipe()
			return &signalling{near, nil, began}, nil
		},
		"a read": func(began chan struct{}) (net.Conn, error) {
			near, far := net.Pipe()
			go io.CopyN(io.Discard, far, headerSize) // a reset query (RFC 8210 section 5.4)
			return &signalling{near, began, make(chan struct{})}, nil
		},
		"a handshake": func(began chan struct{}) (net.Conn, error) {
			near, _ := net.Pipe()
			return &handshaking{near, began, make(chan struct{}), false}, nil
		},
		"a pause": func(began chan struct{}) (net.Conn, error) {
			close(began)
			return nil, errBroken
		},
		"a dial": nil,
	} {
		began, ended := make(chan struct{}), make(chan error)
		ctx, cancel := context.WithCancel(context.Background())
		client := NewClient("")
		client.Limits.Pause = patience // there is one dial
		client.Limits.Dial, client.Limits.Response = 2*patience, 2*patience
		client.Dial = func(ctx context.Context, _, _ string) (net.Conn, error) {
			if row != nil {
				return row(began)
			}
			close(began)
			<-ctx.Done()
			return nil, ctx.Err()
		}
		go func() { ended <- client.Run(ctx, func(Update) error { return nil }) }()
		<-began
		cancel()
		select {
		case err := <-ended:
			if err != context.Canceled {
				t.Errorf("%s: %v", name, err)
			}
		case <-time.After(patience):
			t.Fatalf("%s: the client runs on", name)
		}
	}
}

// A connection whose handshake fails, or isn't done in time, is closed.
func TestFailedHandshakes(t *testing.T) {
	for name, fails := range map[string]bool{"it fails": true, "it takes too long": false} {
		near, _ := net.Pipe()
		connection := &handshaking{near, make(chan struct{}), make(chan struct{}), fails}
		client := NewClientConn(connection)
		client.Limits.Dial = 20 * time.Millisecond
		ctx, cancel := limited(t)
		if _, err := client.Fetch(ctx); err == nil {
			t.Errorf("%s: there are data", name)
		}
		select {
		case <-connection.closed:
		case <-time.After(patience):
			t.Errorf("%s: the connection is open", name)
		}
		cancel()
	}
}

// Each dial has its own limit, which begins with it.
func TestTimesOfDials(t *testing.T) {
	const each, limit = 60 * time.Millisecond, time.Second
	client := NewClient("")
	client.Limits.Dial, client.Limits.Pause = limit, time.Millisecond
	client.Retry = time.Millisecond
	ctx, cancel := limited(t)
	defer cancel()
	dials := 0
	client.Dial = func(ctx context.Context, _, _ string) (net.Conn, error) {
		until, _ := ctx.Deadline()
		if dials++; time.Until(until) > limit {
			t.Errorf("dial %d has %s", dials, time.Until(until))
		}
		if dials == 4 {
			cancel()
		}
		time.Sleep(each)
		return nil, errBroken
	}
	client.Run(ctx, func(Update) error { return nil })
	if dials != 4 {
		t.Error(dials)
	}
}

// A request that comes between the check for one and the wait ends that wait; one that was taken
// doesn't.
func TestRequestsBeforeAWait(t *testing.T) {
	for name, row := range map[string]struct {
		before func(*askRequest)
		ends   bool
	}{
		"none":            {func(*askRequest) {}, false},
		"before the wait": {(*askRequest).set, true},
		"twice":           {func(r *askRequest) { r.set(); r.set() }, true},
		"taken":           {func(r *askRequest) { r.set(); r.take() }, false},
		"after a wait": {func(r *askRequest) {
			r.setCancel(func() {})
			r.setCancel(nil)
			r.set()
		}, true},
		"in the wait before": {func(r *askRequest) {
			r.setCancel(func() {})
			r.set()
			r.setCancel(nil)
		}, false},
	} {
		var request askRequest
		row.before(&request)
		ended := false
		request.setCancel(func() { ended = true })
		if ended != row.ends {
			t.Errorf("%s: the wait ended: %t", name, ended)
		}
		ended = false
		if request.set(); !ended {
			t.Errorf("%s: a request in the wait didn't end it", name)
		}
	}
}

// A report arrives whole, also at a cache that sends on: bytes that the client didn't read would
// reset the connection.
func TestReportsArrive(t *testing.T) {
	noLeaks(t)
	unknown := []byte{0, 5, 0, 0, 0, 0, 0, 8} // no unit has this type (RFC 8210 section 5.1)
	for name, more := range map[string]int{"a unit": 0, "it sends on": 1 << 19} {
		name, more := name, more
		reports := make(chan []byte, 1)
		client := NewClient(fakeCache(t, func(cache *net.TCPConn) {
			defer cache.Close()
			reader := NewReader(cache)
			readUnit(reader)
			cache.SetWriteBuffer(1 << 14)
			if _, err := cache.Write(append(unknown, make([]byte, more)...)); err != nil {
				t.Errorf("%s: %v", name, err)
			}
			reports <- readUnit(reader)
		}))
		client.AskIn(0)
		client.Limits.Report = patience
		ctx, cancel := limited(t)
		if _, err := client.Fetch(ctx); err == nil || ctx.Err() != nil {
			t.Errorf("%s: %v", name, err)
		}
		cancel()
		if report := <-reports; len(report) < reportSize || Kind(report[1]) != ErrorReport {
			t.Errorf("%s: it sent %x", name, report)
		}
	}
}

// The wait for a cache to read its report has a limit of time, for one that doesn't close, and a
// limit of bytes, for one that keeps sending.
func TestReportsEnd(t *testing.T) {
	noLeaks(t)
	unknown := []byte{0, 5, 0, 0, 0, 0, 0, 8}
	for name, limit := range map[string]time.Duration{
		"it stays": 50 * time.Millisecond, "it sends on": 2 * patience,
	} {
		name, ended := name, make(chan struct{})
		client := NewClient(fakeCache(t, func(cache *net.TCPConn) {
			readUnit(NewReader(cache))
			cache.Write(unknown)
			if name == "it sends on" {
				forever(cache, unknown)
			}
			<-ended
		}))
		client.AskIn(0)
		client.Limits.Report, client.Limits.Dial = limit, 2*patience
		ctx, cancel := limited(t)
		if _, err := client.Fetch(ctx); err == nil || ctx.Err() != nil {
			t.Errorf("%s: %v", name, err)
		}
		cancel()
		close(ended)
	}
}

// The offset of a fault counts the bytes of its own connection, also after others.
func TestOffsetsOfConnections(t *testing.T) {
	noLeaks(t)
	unknown := []byte{1, 5, 0, 0, 0, 0, 0, 8}
	play := func(answer []byte) func(*net.TCPConn) {
		return func(cache *net.TCPConn) {
			defer cache.Close()
			readUnit(NewReader(cache))
			cache.Write(answer)
			io.Copy(io.Discard, cache)
		}
	}
	whole := full(7, 1, ipv4)
	client := quick(fakeCache(t, play(unknown), play(join(whole, unknown)), play(unknown)))
	client.Version = 1
	ctx, cancel := limited(t)
	defer cancel()
	var offsets []int64
	client.Failed = func(err error) {
		var fault *Fault
		if errors.As(err, &fault) {
			offsets = append(offsets, fault.Offset)
		}
		if len(offsets) == 3 {
			cancel()
		}
	}
	client.Run(ctx, func(Update) error { return nil })
	want := []int64{0, int64(len(whole)), 0}
	if !reflect.DeepEqual(offsets, want) {
		t.Errorf("%d, not %d", offsets, want)
	}
}
