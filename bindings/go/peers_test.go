//go:build cgo && linux

package rtr

import (
	"bytes"
	"fmt"
	"io"
	"net"
	"runtime"
	"syscall"
	"testing"
	"time"
)

// patience is the time limit for each step of a test: longer than any takes on a busy machine.
const patience = 60 * time.Second

// noLeaks checks at the end of a test that none of its goroutines is left.
func noLeaks(t *testing.T) {
	t.Helper()
	before := runtime.NumGoroutine()
	t.Cleanup(func() {
		for end := time.Now().Add(patience); ; time.Sleep(time.Millisecond) {
			now := runtime.NumGoroutine()
			if now <= before {
				return
			}
			if time.Now().After(end) {
				stacks := make([]byte, 1<<16)
				stacks = stacks[:runtime.Stack(stacks, true)]
				t.Errorf("%d goroutines, and %d before:\n%s", now, before, stacks)
				return
			}
		}
	})
}

// listen returns a listener on this machine.
func listen(t testing.TB, address string) net.Listener {
	t.Helper()
	listener, err := net.Listen("tcp", address)
	if err != nil {
		t.Fatal(err)
	}
	return listener
}

// reserved returns an address at which only the test may listen. A socket that doesn't listen holds
// the port until the test ends, so that no other process gets it.
func reserved(t testing.TB) string {
	t.Helper()
	socket, err := syscall.Socket(syscall.AF_INET, syscall.SOCK_STREAM|syscall.SOCK_CLOEXEC, 0)
	if err != nil {
		t.Fatal(err)
	}
	t.Cleanup(func() { syscall.Close(socket) })
	if err := syscall.SetsockoptInt(socket, syscall.SOL_SOCKET, syscall.SO_REUSEADDR, 1); err != nil {
		t.Fatal(err)
	}
	if err := syscall.Bind(socket, &syscall.SockaddrInet4{Addr: [4]byte{127, 0, 0, 1}}); err != nil {
		t.Fatal(err)
	}
	name, err := syscall.Getsockname(socket)
	if err != nil {
		t.Fatal(err)
	}
	return fmt.Sprintf("127.0.0.1:%d", name.(*syscall.SockaddrInet4).Port)
}

// started starts a server on 127.0.0.1 with these data, and returns it and its address. limits
// changes its limits.
func started(t *testing.T, change func(*ServerLimits), all ...Data) (*Server, string) {
	t.Helper()
	server := NewServer()
	server.Limits.Notify = 0
	if change != nil {
		change(&server.Limits)
	}
	for _, data := range all {
		if err := server.Update(data); err != nil {
			t.Fatal(err)
		}
	}
	listener := listen(t, "127.0.0.1:0")
	done := make(chan error, 1)
	go func() { done <- server.Serve(listener) }()
	t.Cleanup(func() {
		server.Close()
		if err := <-done; err != ErrServerClosed {
			t.Error(err)
		}
	})
	return server, listener.Addr().String()
}

// dial returns a connection to a server, with a deadline for the whole test.
func dial(t testing.TB, address string) *net.TCPConn {
	t.Helper()
	connection, err := net.Dial("tcp", address)
	if err != nil {
		t.Fatal(err)
	}
	connection.SetDeadline(time.Now().Add(patience))
	t.Cleanup(func() { connection.Close() })
	return connection.(*net.TCPConn)
}

// send sends bytes to a server.
func send(t testing.TB, connection net.Conn, bytes []byte) {
	t.Helper()
	if _, err := connection.Write(bytes); err != nil {
		t.Fatal(err)
	}
}

// expect reads the expected bytes from a server.
func expect(t testing.TB, connection net.Conn, expected []byte) {
	t.Helper()
	got := make([]byte, len(expected))
	n, err := io.ReadFull(connection, got)
	if err != nil || !bytes.Equal(got, expected) {
		t.Fatalf("%d bytes %.100x, but expected are %d, %.100x: %v",
			n, got[:n], len(expected), expected, err)
	}
}

// expectEnd reads until a server closes the connection, after exactly these bytes.
func expectEnd(t testing.TB, connection net.Conn, expected []byte) {
	t.Helper()
	got, err := io.ReadAll(connection)
	if err != nil || !bytes.Equal(got, expected) {
		t.Fatalf("%d bytes %.100x, but expected are %d, %.100x: %v",
			len(got), got, len(expected), expected, err)
	}
}
