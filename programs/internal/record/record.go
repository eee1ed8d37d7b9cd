// Package record records the bytes of connections to a cache, for the programs that read
// recordings.
package record

import (
	"errors"
	"fmt"
	"net"
	"os"
	"sync"
	"time"

	"fishreef/programs/internal/transport"
	"fishreef/rtr"
)

// Recorder records each connection in a file of its own: the first in the named file, the others
// with .2, .3 and so on after its name. They have the complete units of both directions, in the
// order in which they were sent or received. A second file, with .times after its name, has a line
// for each piece: its offset in the file, its time, and its direction.
type Recorder struct {
	path   string
	report func(error)

	lock  sync.Mutex
	count int
}

// New returns a recorder. It calls report with the error if a piece couldn't be recorded.
//
// Errors: those of the system for the first file, and one if it exists.
func New(path string, report func(error)) (*Recorder, error) {
	file, err := os.OpenFile(path, os.O_WRONLY|os.O_CREATE|os.O_EXCL, 0o644)
	if err != nil {
		return nil, err
	}
	return &Recorder{path: path, report: report}, file.Close()
}

// Record records a connection.
func (r *Recorder) Record(connection net.Conn) (net.Conn, error) {
	file, err := r.next()
	if err != nil {
		return nil, err
	}
	times, err := os.OpenFile(file.Name()+".times", os.O_WRONLY|os.O_CREATE|os.O_TRUNC, 0o644)
	if err != nil {
		file.Close()
		return nil, err
	}
	return &recorded{Conn: connection, file: file, times: times, report: r.report}, nil
}

// next returns the file of the next connection. Existing files stay.
func (r *Recorder) next() (*os.File, error) {
	r.lock.Lock()
	defer r.lock.Unlock()
	for {
		r.count++
		if r.count == 1 {
			return os.OpenFile(r.path, os.O_WRONLY, 0o644)
		}
		path := fmt.Sprintf("%s.%d", r.path, r.count)
		file, err := os.OpenFile(path, os.O_WRONLY|os.O_CREATE|os.O_EXCL, 0o644)
		if !errors.Is(err, os.ErrExist) {
			return file, err
		}
	}
}

// way is the direction of a piece.
type way string

const (
	received way = "received"
	sent     way = "sent"
)

// recorded is a connection that is recorded.
type recorded struct {
	net.Conn
	report func(error)

	lock        sync.Mutex
	file, times *os.File
	offset      int
	partial     []byte // the start of a unit, not recorded yet
	closed      bool
}

// Read reads, and records the units that are now complete.
func (r *recorded) Read(buffer []byte) (int, error) {
	n, err := r.Conn.Read(buffer)
	r.lock.Lock()
	defer r.lock.Unlock()
	r.partial = append(r.partial, buffer[:n]...)
	whole := 0
	for {
		size, err := rtr.UnitSize(r.partial[whole:])
		if err != nil && !errors.Is(err, rtr.Short) {
			whole = len(r.partial) // the rest of the stream isn't units
			break
		}
		if err != nil || size > len(r.partial)-whole {
			break
		}
		whole += size
	}
	r.keep(received, r.partial[:whole])
	r.partial = append(r.partial[:0], r.partial[whole:]...)
	return n, err
}

// Write writes, and records the bytes written.
func (r *recorded) Write(bytes []byte) (int, error) {
	n, err := r.Conn.Write(bytes)
	r.lock.Lock()
	defer r.lock.Unlock()
	r.keep(sent, bytes[:n])
	return n, err
}

// keep writes a piece into the files.
func (r *recorded) keep(way way, piece []byte) {
	if len(piece) == 0 || r.closed {
		return
	}
	at := time.Now().UTC().Format(time.RFC3339Nano)
	_, err := r.file.Write(piece)
	if err == nil {
		_, err = fmt.Fprintf(r.times, "%d %s %s\n", r.offset, at, way)
	}
	r.offset += len(piece)
	if err != nil {
		r.report(err)
	}
}

// CloseWrite closes the writing side.
func (r *recorded) CloseWrite() error { return transport.CloseWrite(r.Conn) }

// Close closes the connection, and records an incomplete last unit.
func (r *recorded) Close() error {
	err := r.Conn.Close()
	r.lock.Lock()
	defer r.lock.Unlock()
	if r.closed {
		return err
	}
	r.keep(received, r.partial)
	r.closed = true
	for _, file := range []*os.File{r.file, r.times} {
		if failed := file.Close(); failed != nil {
			r.report(failed)
		}
	}
	return err
}
