//go:build cgo && linux

package rtr

import (
	"context"
	"crypto/tls"
	"errors"
	"io"
	"net"
	"os"
	"testing"
	"time"
)

// TLS whose handshake isn't done when Dial returns it is within the time limit for connecting too,
// which a cache that says nothing lets pass.
func TestStalledHandshakeAfterDial(t *testing.T) {
	noLeaks(t)
	listener := listen(t, "127.0.0.1:0")
	defer listener.Close()
	client := NewClient(listener.Addr().String())
	client.Limits.Dial = 50 * time.Millisecond
	client.Dial = func(ctx context.Context, network, address string) (net.Conn, error) {
		connection, err := new(net.Dialer).DialContext(ctx, network, address)
		if err != nil {
			return nil, err
		}
		return tls.Client(connection, &tls.Config{ServerName: "cache.example"}), nil
	}
	ctx, cancel := limited(t)
	defer cancel()
	if _, err := client.Fetch(ctx); err != errSlowCache {
		t.Error(err)
	}
}

// stuck is a connection that can't write any more, as one of TLS once a write took too long.
type stuck struct {
	net.Conn
	writes int
}

func (s *stuck) Write([]byte) (int, error) {
	s.writes++
	return 0, os.ErrDeadlineExceeded
}

// A connection whose writes time out before their deadline is lost.
func TestStuckWrites(t *testing.T) {
	noLeaks(t)
	near, far := net.Pipe()
	defer far.Close()
	connection := &stuck{Conn: near}
	ctx, cancel := limited(t)
	defer cancel()
	client := NewClientConn(connection)
	client.AskIn(0) // there is no lower version to fall to
	_, err := client.Fetch(ctx)
	if !errors.Is(err, os.ErrDeadlineExceeded) || connection.writes > 2 {
		t.Errorf("%d writes, %v", connection.writes, err)
	}
}

// idle is a connection of a caller's Dial that breaks the rules of io: from one of its writes on it
// takes at most this many bytes without an error, and its reads return neither bytes nor an error.
type idle struct {
	net.Conn
	first, most   int
	writes, reads int
}

func (i *idle) Write(bytes []byte) (int, error) {
	i.writes++
	if i.writes < i.first {
		return len(bytes), nil
	}
	if i.writes > i.first+1 {
		return 0, errBroken // so that a client that repeats its call ends
	}
	return i.most, nil
}

func (i *idle) Read([]byte) (int, error) {
	if i.reads++; i.reads > 1 {
		return 0, errBroken
	}
	return 0, nil
}

// A connection whose write takes too few bytes, or whose read has none, without an error, is lost:
// the client doesn't call it again.
func TestCallsWithoutProgress(t *testing.T) {
	noLeaks(t)
	for name, row := range map[string]struct {
		first, most int
		want        error
	}{
		"a write of nothing": {1, 0, io.ErrShortWrite},
		"a write of some":    {1, headerSize - 1, io.ErrShortWrite},
		"a read of no bytes": {2, 0, io.ErrNoProgress},
	} {
		near, far := net.Pipe()
		connection := &idle{Conn: near, first: row.first, most: row.most}
		client := NewClientConn(connection)
		client.AskIn(0) // there is no lower version to fall to
		ctx, cancel := limited(t)
		if _, err := client.Fetch(ctx); !errors.Is(err, row.want) {
			t.Errorf("%s: %v after %d writes, %d reads", name, err, connection.writes, connection.reads)
		}
		cancel()
		far.Close()
	}
}

// A cache that reads nothing costs the time limits of an answer and of last bytes, no more.
func TestCacheThatReadsNothing(t *testing.T) {
	noLeaks(t)
	near, far := net.Pipe()
	defer far.Close()
	client := NewClientConn(near)
	client.AskIn(0)
	client.Limits.Response, client.Limits.Report = 30*time.Millisecond, 30*time.Millisecond
	ctx, cancel := limited(t)
	defer cancel()
	if _, err := client.Fetch(ctx); err != errSlowCache {
		t.Error(err)
	}
}

// The error of a peer that is too slow says which end that is, as in all languages, and is
// ErrTooSlow.
func TestTextsOfSlowPeers(t *testing.T) {
	noLeaks(t)
	near, far := net.Pipe()
	defer far.Close()
	client := NewClientConn(near)
	client.AskIn(0)
	client.Limits.Response, client.Limits.Report = 30*time.Millisecond, 30*time.Millisecond
	ctx, cancel := limited(t)
	defer cancel()
	_, cache := client.Fetch(ctx)
	for text, err := range map[string]error{
		"rtr: the cache is too slow":  cache,
		"rtr: the router is too slow": simulate(NewServer(), &simulated{}).serve(),
	} {
		if err == nil || err.Error() != text || !errors.Is(err, ErrTooSlow) {
			t.Errorf("%v, not %s", err, text)
		}
	}
}

// The connection is closed if the caller's function panics, of the data or of a failure.
func TestPanicOfTheCaller(t *testing.T) {
	for _, fails := range []bool{false, true} {
		noLeaks(t)
		near, far := net.Pipe()
		go func() {
			far.Read(make([]byte, 8)) // a reset query (RFC 8210 section 5.4)
			if fails {
				far.Write([]byte{1, 10, 0, 2, 0, 0, 0, 16, 0, 0, 0, 0, 0, 0, 0, 0})
				return
			}
			far.Write([]byte{1, 3, 0, 7, 0, 0, 0, 8})
			far.Write([]byte{1, 7, 0, 7, 0, 0, 0, 24, 0, 0, 0, 1,
				0, 0, 14, 16, 0, 0, 2, 88, 0, 0, 28, 32})
		}()
		client := NewClient("")
		client.Dial = func(context.Context, string, string) (net.Conn, error) { return near, nil }
		client.Failed = func(error) { panic("failed") }
		panics(t, func() {
			client.Run(context.Background(), func(Update) error { panic("changed") })
		})
		far.SetReadDeadline(time.Now().Add(patience))
		if _, err := far.Read(make([]byte, 1)); errors.Is(err, os.ErrDeadlineExceeded) {
			t.Error("the connection is still open")
		}
	}
}

// panics runs a function that has to panic.
func panics(t *testing.T, run func()) {
	t.Helper()
	defer func() {
		if recover() == nil {
			t.Error("no panic")
		}
	}()
	run()
}
