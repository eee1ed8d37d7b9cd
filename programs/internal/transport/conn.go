package transport

import (
	"context"
	"errors"
	"net"
	"sync"
	"sync/atomic"
	"syscall"

	"fishreef/rtr"
)

// Direction is the direction of bytes on a connection.
type Direction string

// The directions, as the cache sees them.
const (
	Sent     Direction = "sent"
	Received Direction = "received"
)

// Peer is the other end of a connection, as its remote address: each connection has its own
// pointer.
type Peer struct {
	net.Addr
	Kind Kind

	text           string // of the address
	sent, received atomic.Int64
}

// newPeer returns the other end of a connection.
func newPeer(connection net.Conn, kind Kind) *Peer {
	address := connection.RemoteAddr()
	return &Peer{Addr: address, Kind: kind, text: address.String()}
}

// String returns the address as text.
func (p *Peer) String() string { return p.text }

// Bytes returns the number of bytes that the cache sent to the peer, or received from it.
func (p *Peer) Bytes(direction Direction) int64 {
	if direction == Sent {
		return p.sent.Load()
	}
	return p.received.Load()
}

// moved counts bytes.
func (p *Peer) moved(direction Direction, bytes int) {
	if direction == Sent {
		p.sent.Add(int64(bytes))
		return
	}
	p.received.Add(int64(bytes))
}

// Observer gets the events of connections. Its methods are called concurrently.
type Observer interface {
	// Opened is called for each connection.
	Opened(*Peer)
	// Speaks is called once the version of a client is known, Leaves at its end.
	Speaks(*Peer, uint8)
	Leaves(*Peer, uint8)
	// Came is called for each unit of the client, which is valid until it returns.
	Came(*Peer, *rtr.Unit)
	// Moved is called with counts of bytes.
	Moved(*Peer, Direction, int)
	// Reported is called for an error report.
	Reported(*Peer, Direction, rtr.ErrorCode)
}

// conn counts the bytes and units of a connection.
type conn struct {
	net.Conn
	peer     *Peer
	observer Observer
	leave    func()
	ended    sync.Once

	lock    sync.Mutex
	closed  bool
	known   bool // the version is known
	version uint8

	partial []byte // received bytes of an incomplete unit; nil once the input isn't units
}

// newConn wraps a connection to count its traffic. leave is called once when it is closed.
func newConn(connection net.Conn, kind Kind, observer Observer, leave func()) *conn {
	peer := newPeer(connection, kind)
	observer.Opened(peer)
	return &conn{
		Conn: connection, peer: peer, observer: observer, leave: leave, partial: make([]byte, 0, 64),
	}
}

// RemoteAddr returns the peer.
func (c *conn) RemoteAddr() net.Addr { return c.peer }

// Read reads, and counts.
func (c *conn) Read(buffer []byte) (int, error) {
	n, err := c.Conn.Read(buffer)
	c.moved(Received, n)
	if n > 0 && c.partial != nil {
		c.partial = append(c.partial, buffer[:n]...)
		c.follow()
	}
	return n, err
}

// moved counts bytes, if there are any.
func (c *conn) moved(direction Direction, bytes int) {
	if bytes == 0 {
		return
	}
	c.peer.moved(direction, bytes)
	c.observer.Moved(c.peer, direction, bytes)
}

// mostFollowed limits the bytes of an incomplete unit.
const mostFollowed = 1 << 16

// units has units that no observer reads any more.
var units = sync.Pool{New: func() any { return new(rtr.Unit) }}

// follow reads the complete units.
func (c *conn) follow() {
	unit := units.Get().(*rtr.Unit)
	defer units.Put(unit)
	for len(c.partial) > 0 {
		var rest []byte
		var err error
		*unit, rest, err = rtr.Next(c.partial)
		if errors.Is(err, rtr.Short) && len(c.partial) < mostFollowed {
			return // the rest is still to come
		}
		if err != nil {
			c.partial = nil
			return
		}
		c.speaks(unit.Version)
		c.observer.Came(c.peer, unit)
		if unit.Kind == rtr.ErrorReport {
			c.observer.Reported(c.peer, Received, unit.Code)
		}
		c.partial = append(c.partial[:0], rest...)
	}
}

// speaks records the version of the first unit.
func (c *conn) speaks(version uint8) {
	c.lock.Lock()
	defer c.lock.Unlock()
	if !c.known && !c.closed {
		c.known, c.version = true, version
		c.observer.Speaks(c.peer, version)
	}
}

// Write writes, and counts.
func (c *conn) Write(bytes []byte) (int, error) {
	n, err := c.Conn.Write(bytes)
	c.Wrote(bytes, n)
	return n, err
}

// SyscallConn returns the socket, unless the transport encrypts.
func (c *conn) SyscallConn() (syscall.RawConn, error) {
	if socket, ok := c.Conn.(*net.TCPConn); ok {
		return socket.SyscallConn()
	}
	return nil, net.ErrClosed
}

// Wrote counts written bytes, and an error report in the bytes to write.
func (c *conn) Wrote(bytes []byte, taken int) {
	// A report is written alone. Long answers are written in chunks, which may begin inside a unit.
	c.moved(Sent, taken)
	if len(bytes) == 0 {
		return
	}
	unit, rest, failed := rtr.Next(bytes)
	if failed == nil && unit.Kind == rtr.ErrorReport && len(rest) == 0 {
		c.observer.Reported(c.peer, Sent, unit.Code)
	}
}

// HandshakeContext runs the handshake, if the transport has one before the first read.
func (c *conn) HandshakeContext(ctx context.Context) error {
	if shaking, ok := c.Conn.(interface{ HandshakeContext(context.Context) error }); ok {
		return shaking.HandshakeContext(ctx)
	}
	return nil
}

// CloseWrite closes the writing side, if the transport supports it.
func (c *conn) CloseWrite() error { return CloseWrite(c.Conn) }

// CloseWrite closes the writing side of a connection, if its transport supports it.
func CloseWrite(connection net.Conn) error {
	if half, ok := connection.(interface{ CloseWrite() error }); ok {
		return half.CloseWrite()
	}
	return net.ErrClosed
}

// Close ends the connection.
func (c *conn) Close() error {
	err := c.Conn.Close()
	c.ended.Do(func() {
		c.lock.Lock()
		c.closed = true
		if c.known {
			c.observer.Leaves(c.peer, c.version)
		}
		c.lock.Unlock()
		c.leave()
	})
	return err
}
