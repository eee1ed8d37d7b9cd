package transport_test

import (
	"context"
	"errors"
	"io"
	"net"
	"os"
	"strings"
	"testing"
	"time"

	"fishreef/rtr"
)

// wait is the longest time that a test waits.
const wait = 120 * time.Second

// stalls are the bytes that a peer sends before it stalls.
var stalls = []string{"", "SSH-2.0-x", "SSH-2.0-x\r\n", "SSH-2.0-x\r\n\x00\x00\x01\x00"}

// stall connects to a cache, and sends these bytes and then nothing.
func stall(t *testing.T, address, front string) net.Conn {
	t.Helper()
	connection, err := net.Dial("tcp", address)
	if err != nil {
		t.Fatal(err)
	}
	t.Cleanup(func() { connection.Close() })
	io.WriteString(connection, front)
	return connection
}

// Routers that stall in a handshake are closed after the time limit of a first query, and another
// one is served meanwhile.
func TestStalledRouters(t *testing.T) {
	folder := t.TempDir()
	server := rtr.NewServer()
	server.Limits.First = 5 * time.Second
	slow := make(chan error, 100)
	server.Ended = func(_ net.Addr, err error) {
		if errors.Is(err, rtr.ErrTooSlow) {
			slow <- err
		}
	}
	defer server.Close()
	address, err := served(folder, server)
	if err != nil {
		t.Fatal(err)
	}
	var stalled []net.Conn
	for _, front := range stalls {
		stalled = append(stalled, stall(t, address, front))
	}
	client, err := dialed(folder, address)
	if err != nil {
		t.Fatal(err)
	}
	ctx, cancel := context.WithTimeout(context.Background(), wait)
	defer cancel()
	if data, err := client.Fetch(ctx); err != nil || data.Len() != 1 {
		t.Error(data.Len(), err)
	}
	for _, connection := range stalled {
		connection.SetReadDeadline(time.Now().Add(wait))
		if _, err := io.Copy(io.Discard, connection); errors.Is(err, os.ErrDeadlineExceeded) {
			t.Error("the cache goes on")
		}
		select {
		case <-slow:
		case <-ctx.Done():
			t.Fatal("the cache doesn't say that it was too slow")
		}
	}
}

// stalledCache returns the address of a cache that stalls in a handshake.
func stalledCache(t *testing.T, front string) string {
	t.Helper()
	listener, err := net.Listen("tcp", "127.0.0.1:0")
	if err != nil {
		t.Fatal(err)
	}
	t.Cleanup(func() { listener.Close() })
	go func() {
		for {
			connection, err := listener.Accept()
			if err != nil {
				return
			}
			io.WriteString(connection, front)
			go func() {
				io.Copy(io.Discard, connection)
				connection.Close()
			}()
		}
	}()
	return listener.Addr().String()
}

// A cache that stalls in a handshake is abandoned after the time limit for connecting, without
// data, and at once if the client ends.
func TestStalledCaches(t *testing.T) {
	folder := t.TempDir()
	server := rtr.NewServer()
	defer server.Close()
	if _, err := served(folder, server); err != nil {
		t.Fatal(err)
	}
	for _, front := range stalls {
		client, err := dialed(folder, stalledCache(t, front))
		if err != nil {
			t.Fatal(err)
		}
		client.Limits.Dial = 200 * time.Millisecond
		ctx, cancel := context.WithTimeout(context.Background(), wait)
		data, err := client.Fetch(ctx)
		isLate := errors.Is(err, rtr.ErrTooSlow) || err != nil && strings.Contains(err.Error(), "timeout")
		if !isLate || !data.IsZero() {
			t.Errorf("%q: %d payloads, %v", front, data.Len(), err)
		}
		cancel()
		client.Limits.Dial = time.Hour
		ctx, cancel = context.WithTimeout(context.Background(), 100*time.Millisecond)
		if _, err := client.Fetch(ctx); !errors.Is(err, context.DeadlineExceeded) {
			t.Errorf("%q: %v", front, err)
		}
		cancel()
	}
}

// If a cache allows an hour for the first query, a router that stalls in a handshake is still
// closed, after the half minute that a handshake may take.
func TestHandshakeTime(t *testing.T) {
	folder := t.TempDir()
	server := rtr.NewServer()
	server.Limits.First = time.Hour
	defer server.Close()
	address, err := served(folder, server)
	if err != nil {
		t.Fatal(err)
	}
	began := time.Now()
	lasted := make(chan time.Duration, len(stalls))
	for _, front := range stalls {
		connection := stall(t, address, front)
		connection.SetReadDeadline(began.Add(wait))
		go func() {
			io.Copy(io.Discard, connection)
			lasted <- time.Since(began)
		}()
	}
	for range stalls {
		if took := <-lasted; took < 29*time.Second || took > 60*time.Second {
			t.Errorf("a stalled router is left after %v", took)
		}
	}
}
