//go:build cgo && linux

package rtr

import (
	"bytes"
	"io"
	"net"
	"net/netip"
	"os"
	"syscall"
	"testing"
	"time"
)

// stalled is a connection that accepts all of some writes, then a part of one, and times out.
type stalled struct {
	net.Conn
	takes     []int
	deadlines int
}

func (s *stalled) SetWriteDeadline(time.Time) error {
	s.deadlines++
	return nil
}

func (s *stalled) Write(bytes []byte) (int, error) {
	taken := s.takes[0]
	s.takes = s.takes[1:]
	if taken >= len(bytes) {
		return len(bytes), nil
	}
	return taken, os.ErrDeadlineExceeded
}

// After a write that timed out nothing more is written, however much of it was sent.
func TestWriteTakenInPart(t *testing.T) {
	for name, takes := range map[string][]int{
		"nothing":                {0},
		"a part":                 {1},
		"all of one, then some":  {tlsRecord, 5},
		"all of two, then a lot": {tlsRecord, tlsRecord, tlsRecord - 1},
	} {
		connection := &stalled{takes: takes}
		writes := len(takes)
		c := newServed(NewServer(), connection)
		c.reply = reply{parts: [2]piece{{bytes: make([]byte, 1<<20)}}}
		c.answers(0)
		for c.broken == nil {
			c.send()
		}
		if c.broken != errSlowRouter || len(connection.takes) > 0 ||
			connection.deadlines != writes {
			t.Errorf("%s: %v after %d deadlines", name, c.broken, connection.deadlines)
		}
	}
}

// A socket reports progress at once, so that the time limit of a write restarts then, and not at
// the deadline.
func TestWriteToASocket(t *testing.T) {
	noLeaks(t)
	bytes := piece{bytes: make([]byte, 1<<26)}
	file := filed(bytes.bytes[:8], bytes.bytes[8:])[0]
	if file.file == nil {
		t.Fatal("no file")
	}
	writeToASocket(t, bytes)
	writeToASocket(t, file)
}

func writeToASocket(t *testing.T, part piece) {
	listener := listen(t, "127.0.0.1:0")
	defer listener.Close()
	taken := make(chan net.Conn, 1)
	go func() {
		connection, _ := listener.Accept()
		taken <- connection
	}()
	dial(t, listener.Addr().String())
	connection := <-taken
	defer connection.Close()
	c := newServed(NewServer(), connection)
	connection.SetWriteDeadline(time.Now().Add(time.Hour))
	written, err := c.writeSome(&part, true)
	if err != nil || written <= tlsRecord || written == part.size() {
		t.Fatal(written, err)
	}
	connection.SetWriteDeadline(time.Now().Add(50 * time.Millisecond))
	for err == nil {
		_, err = c.writeSome(&part, true)
	}
	if !isTimeout(err) {
		t.Fatal(err)
	}
}

// An answer with much data is a file in memory, unless the limit of file sizes is lower, and one
// with little data is in one piece.
func TestFiled(t *testing.T) {
	all := make([]byte, 5*hugePage/2+1)
	for i := range all {
		all[i] = byte(i * i >> 8)
	}
	for _, length := range []int{8, 32, chunk - 1, chunk, 3*chunk + 1, hugePage / 2, len(all)} {
		parts := filed(all[:8], all[8:length])
		part := parts[0]
		if part.size() != length || (part.file != nil) != (length >= chunk) || parts[1].size() != 0 {
			t.Errorf("%d bytes: %d, a file: %t", length, part.size(), part.file != nil)
		}
		if part.file == nil {
			if !bytes.Equal(part.bytes, all[:length]) {
				t.Errorf("%d bytes: others", length)
			}
			continue
		}
		flags, _, _ := syscall.Syscall(syscall.SYS_FCNTL, part.file.Fd(), syscall.F_GETFD, 0)
		if flags&syscall.FD_CLOEXEC == 0 {
			t.Error("programs that the process starts have the file, too")
		}
		part.file.Seek(0, io.SeekStart)
		if read, err := io.ReadAll(part.file); err != nil || !bytes.Equal(read, all[:length]) {
			t.Errorf("%d bytes: others in the file, %v", length, err)
		}
	}
	maps, err := os.ReadFile("/proc/self/maps")
	if err != nil || bytes.Contains(maps, []byte("memfd:rtr")) {
		t.Error("a file is still mapped", err)
	}
	noDescriptors(t)
	var usual syscall.Rlimit
	if err := syscall.Getrlimit(syscall.RLIMIT_FSIZE, &usual); err != nil {
		t.Fatal(err)
	}
	less := usual
	less.Cur = 1 << 20
	if err := syscall.Setrlimit(syscall.RLIMIT_FSIZE, &less); err != nil {
		t.Fatal(err)
	}
	parts := filed(all[:8], all[8:])
	if err := syscall.Setrlimit(syscall.RLIMIT_FSIZE, &usual); err != nil {
		t.Fatal(err)
	}
	if !bytes.Equal(parts[0].bytes, all[:8]) || !bytes.Equal(parts[1].bytes, all[8:]) {
		t.Error(parts[0].file != nil, len(parts[0].bytes), len(parts[1].bytes))
	}
}

// The file of an edition stays while it is the newest or a client receives it.
func TestFiledEdition(t *testing.T) {
	vrps := make([]VRP, chunk/20)
	for i := range vrps {
		vrps[i] = VRP{netip.MustParsePrefix("192.0.2.0/24"), 24, uint32(i)}
	}
	data, err := NewDataOf(vrps, 1, 4660, 1, Timing{3600, 600, 7200})
	if err != nil {
		t.Fatal(err)
	}
	server := NewServer()
	if err := server.Update(data); err != nil {
		t.Fatal(err)
	}
	e := server.present.Load()
	isOpen := func(part piece) bool {
		_, err := part.file.Stat()
		return err == nil
	}
	opening := []byte{1, 3, 0x12, 0x34, 0, 0, 0, 8} // the cache response (RFC 8210 section 5.5)
	file := func() piece {
		parts, err := e.file(1, opening)
		if err != nil || parts[0].file == nil || !isOpen(parts[0]) {
			t.Fatal(err, "no file")
		}
		return parts[0]
	}
	part := file()
	e.sent()
	if other := file(); !isOpen(part) || other.file != part.file {
		t.Fatal("closed before there was a newer edition")
	}
	if e.replaced(); !isOpen(part) {
		t.Fatal("closed before a client was done with it")
	}
	if e.sent(); isOpen(part) {
		t.Fatal("still open")
	}
	part = file() // for a late client
	if e.sent(); isOpen(part) {
		t.Fatal("open again")
	}
}
