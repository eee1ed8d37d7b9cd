package main

import (
	"errors"
	"fmt"
	"net"
	"os"
	"strconv"
	"strings"
	"sync"
	"syscall"
)

// word is a word of FAULTS (../faults.c).
type word struct {
	call, fault       string
	first, last, step uint64
}

// faults decides which calls get a fault.
type faults struct {
	sync.Mutex
	words  []word
	counts map[string]uint64
	seen   string // the file that gets a line for each fault
	secured
}

func newFaults(text, seen string) *faults {
	f := &faults{counts: map[string]uint64{}, seen: seen}
	for _, field := range strings.Fields(text) {
		parts := strings.Split(field+":1", ":")
		w := word{call: parts[0], fault: parts[3]}
		for i, number := range []*uint64{&w.first, &w.last, nil, &w.step} {
			if number != nil {
				*number, _ = strconv.ParseUint(parts[i+1], 10, 64)
			}
		}
		f.words = append(f.words, w)
	}
	return f
}

var numbers = map[string]syscall.Errno{
	"EPIPE": syscall.EPIPE, "EMFILE": syscall.EMFILE, "ENFILE": syscall.ENFILE,
	"ENOMEM": syscall.ENOMEM, "ENOBUFS": syscall.ENOBUFS, "ECONNABORTED": syscall.ECONNABORTED,
	"ECONNREFUSED": syscall.ECONNREFUSED, "ECONNRESET": syscall.ECONNRESET,
	"EHOSTUNREACH": syscall.EHOSTUNREACH, "ENETUNREACH": syscall.ENETUNREACH,
	"ETIMEDOUT": syscall.ETIMEDOUT, "EIO": syscall.EIO,
	"EINTR": syscall.EINTR, "EAGAIN": syscall.EAGAIN,
}

// inject counts a call. It returns the error to inject, and the most bytes that the call may move.
func (f *faults) inject(call string, size int) (errno syscall.Errno, limit int) {
	f.Lock()
	defer f.Unlock()
	f.counts[call]++
	count := f.counts[call]
	for _, w := range f.words {
		if w.call != call || count < w.first || w.last > 0 && count > w.last ||
			(count-w.first)%w.step > 0 {
			continue
		}
		f.record(call, count, w.fault)
		if number, err := strconv.Atoi(w.fault); err == nil {
			if number < size {
				size = number
			}
			continue
		}
		errno = numbers[w.fault]
		if errno == 0 {
			panic("no fault " + w.fault)
		}
	}
	return errno, size
}

// record appends an injected fault to the file.
func (f *faults) record(call string, count uint64, fault string) {
	file, err := os.OpenFile(f.seen, os.O_CREATE|os.O_APPEND|os.O_WRONLY, 0o600)
	if err != nil {
		panic(err)
	}
	defer file.Close()
	fmt.Fprintln(file, call, count, fault)
}

// failed returns an error as net wraps it, or nil for one after which net repeats the call.
func failed(op, call string, errno syscall.Errno) error {
	if errno == 0 || errno == syscall.EINTR || errno == syscall.EAGAIN {
		return nil
	}
	return &net.OpError{Op: op, Net: "tcp", Err: os.NewSyscallError(call, errno)}
}

// conn is a connection of a client whose reads and writes get faults. A short write fails as if its
// deadline were exceeded.
type conn struct {
	*net.TCPConn
	faults *faults
}

func (c conn) Read(bytes []byte) (int, error) {
	for {
		errno, limit := c.faults.inject("receive", len(bytes))
		if err := failed("read", "read", errno); err != nil {
			return 0, err
		}
		if errno == 0 {
			return c.TCPConn.Read(bytes[:limit])
		}
	}
}

func (c conn) Write(bytes []byte) (int, error) {
	for {
		errno, limit := c.faults.inject("send", len(bytes))
		if err := failed("write", "write", errno); err != nil {
			return 0, err
		}
		if errno > 0 {
			continue
		}
		n, err := c.TCPConn.Write(bytes[:limit])
		if err == nil && n < len(bytes) {
			err = os.ErrDeadlineExceeded
		}
		return n, err
	}
}

// socket is a connection below TLS, or one of a server, which writes answers to the descriptor
// itself. Their faults are real: a write that has to wait goes to a full socket first, one that
// breaks to a socket without a peer, and short ones to a small buffer of the system. A write that
// doesn't wait is then over.
type socket struct{ conn }

// Write writes all, as net does after short writes.
func (s socket) Write(bytes []byte) (n int, err error) {
	for n < len(bytes) && (err == nil || errors.Is(err, os.ErrDeadlineExceeded)) {
		var sent int
		if sent, err = s.conn.Write(bytes[n:]); sent == 0 {
			return n, err
		}
		n += sent
	}
	return n, nil
}

func (s socket) SyscallConn() (syscall.RawConn, error) {
	raw, err := s.TCPConn.SyscallConn()
	return rawConn{raw, s.faults}, err
}

type rawConn struct {
	syscall.RawConn
	faults *faults
}

func (r rawConn) Write(write func(socket uintptr) bool) error {
	return r.RawConn.Write(func(descriptor uintptr) bool {
		errno, _ := r.faults.inject("send", 0)
		switch {
		case errno == syscall.EINTR || errno == syscall.EAGAIN:
			if write(full) {
				return true // it doesn't wait now, and comes again
			}
		case errno > 0:
			return write(broken)
		}
		return write(descriptor)
	})
}

// full is a socket whose buffer is full, and broken one without a peer.
var full, broken = sockets()

func sockets() (full, broken uintptr) {
	pair := func() [2]int {
		ends, err := syscall.Socketpair(syscall.AF_UNIX, syscall.SOCK_STREAM|syscall.SOCK_NONBLOCK, 0)
		if err != nil {
			panic(err)
		}
		return ends
	}
	a, b := pair(), pair()
	for {
		if _, err := syscall.Write(a[0], make([]byte, 1)); errors.Is(err, syscall.EAGAIN) {
			break
		}
	}
	syscall.Close(b[1])
	return uintptr(a[0]), uintptr(b[0])
}

// listener is a listener whose accepts get faults.
type listener struct {
	net.Listener
	faults *faults
}

// smallBuffer sets the system's smallest send buffer, which makes most writes short.
const smallBuffer = 1

func (l listener) Accept() (net.Conn, error) {
	for {
		errno, _ := l.faults.inject("accept", 0)
		if err := failed("accept", "accept4", errno); err != nil {
			return nil, err
		}
		if errno > 0 {
			continue
		}
		accepted, err := l.Listener.Accept()
		if err != nil {
			return nil, err
		}
		connection := socket{conn{accepted.(*net.TCPConn), l.faults}}
		for _, w := range l.faults.words {
			if _, err := strconv.Atoi(w.fault); err == nil && w.call == "send" {
				connection.SetWriteBuffer(smallBuffer)
			}
		}
		return connection, nil
	}
}

// dial connects, unless that gets a fault.
func (f *faults) dial(connect func() (net.Conn, error)) (net.Conn, error) {
	errno, _ := f.inject("connect", 0)
	if err := failed("dial", "connect", errno); err != nil {
		return nil, err
	}
	connection, err := connect()
	if err != nil {
		return nil, err
	}
	return f.client(conn{connection.(*net.TCPConn), f}), nil
}
