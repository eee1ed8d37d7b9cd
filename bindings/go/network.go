//go:build cgo && linux

package rtr

import (
	"context"
	"io"
	"math"
	"net"
	"time"
)

// peer is the cache of a follower: a clock, and at most one connection. Times are in milliseconds
// of the clock, which is monotonic. That a deadline has passed is no error.
type peer interface {
	now() uint64
	// ended returns the error with which the follower has to end, or nil.
	ended() error
	// rest waits without a connection until a deadline, or until AskNow.
	rest(until uint64) error
	// connect connects until a deadline, and reports whether it did.
	connect(until uint64) (bool, error)
	// read reads until a deadline, or until AskNow.
	read(buffer []byte, until uint64) (int, error)
	// write writes until a deadline, and returns the number of written bytes, also with an error.
	write(bytes []byte, until uint64) (int, error)
	// close sends the last units, if there are some, and closes the connection, if there is one. If
	// reports, the last of them is an error report, and the cache gets time to read it.
	close(last []byte, reports bool)
}

// clock measures milliseconds since newClock.
type clock struct {
	begun time.Time
	time  func() time.Time
}

func newClock() clock { return clock{time.Now(), time.Now} }

func (c clock) now() uint64 {
	return uint64(c.time().Sub(c.begun).Milliseconds())
}

// at converts a time of the clock, and limits it to what a Duration can hold.
func (c clock) at(until uint64) time.Time {
	if most := uint64(math.MaxInt64 / time.Millisecond); until > most {
		until = most
	}
	return c.begun.Add(time.Duration(until) * time.Millisecond)
}

// network is a peer over connections. Its context interrupts waits.
type network struct {
	clock
	askRequest *askRequest
	ctx        context.Context
	dial       func(ctx context.Context, network, address string) (net.Conn, error)
	address    string
	patience   time.Duration // to send the last units
	connection net.Conn
	release    func() // stops closing the connection at the end of the context
}

func (n *network) ended() error {
	return n.ctx.Err()
}

func (n *network) rest(until uint64) error {
	ctx, cancel := context.WithDeadline(n.ctx, n.at(until))
	defer cancel()
	n.askRequest.setCancel(cancel)
	defer n.askRequest.setCancel(nil)
	<-ctx.Done()
	return n.ctx.Err()
}

func (n *network) connect(until uint64) (bool, error) {
	ctx, cancel := context.WithDeadline(n.ctx, n.at(until))
	defer cancel()
	connection, err := n.dial(ctx, "tcp", n.address)
	if s, ok := connection.(shaker); ok && err == nil {
		// A read or write that begins a handshake isn't bounded by its own deadline alone.
		if err = s.HandshakeContext(ctx); err != nil {
			connection.Close()
		}
	}
	switch {
	case err != nil && ctx.Err() == context.DeadlineExceeded && n.ctx.Err() == nil:
		return false, nil
	case err != nil:
		return false, err
	}
	n.connection, n.release = connection, closeAtEnd(n.ctx, connection)
	return true, nil
}

func (n *network) read(buffer []byte, until uint64) (int, error) {
	count, err := n.readUntil(n.at(until), buffer)
	switch {
	case count < 0 || count > len(buffer):
		return 0, errCount
	case count > 0 || isTimeout(err):
		return count, nil
	case err == nil:
		return 0, io.ErrNoProgress
	case err == io.EOF:
		return 0, ErrClosed
	}
	return 0, err
}

func (n *network) write(bytes []byte, until uint64) (int, error) {
	if err := n.connection.SetWriteDeadline(n.at(until)); err != nil {
		return 0, err
	}
	count, err := n.connection.Write(bytes)
	switch {
	case count < 0 || count > len(bytes):
		return 0, errCount
	case count < len(bytes) && err == nil:
		return count, io.ErrShortWrite
	case isTimeout(err) && (count > 0 || n.now() >= until):
		return count, nil
	}
	// TLS whose write timed out refuses each later one at once, also by a timeout.
	return count, err
}

func (n *network) close(last []byte, reports bool) {
	if n.connection == nil {
		return
	}
	if reports {
		sendLast(n.connection, last, n.patience)
	} else if len(last) > 0 && n.connection.SetWriteDeadline(time.Now().Add(n.patience)) == nil {
		// The connection is closed anyway, so an error doesn't matter.
		_, _ = n.connection.Write(last)
	}
	n.release()
	n.connection.Close()
	n.connection = nil
}

// closeAtEnd closes a connection when the context is done; call the returned function to stop that.
func closeAtEnd(ctx context.Context, connection net.Conn) func() {
	done, ended := make(chan struct{}), make(chan struct{})
	go func() {
		defer close(ended)
		select {
		case <-ctx.Done():
			connection.Close()
		case <-done:
		}
	}()
	return func() {
		close(done)
		<-ended
	}
}
