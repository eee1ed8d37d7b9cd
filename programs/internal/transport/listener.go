package transport

import (
	"net"
	"net/netip"
	"sync"

	"fishreef/rtr"
)

// Gate counts the clients of each address, and refuses those above a limit. Several listeners may
// share it.
type Gate struct {
	Most int // the most clients of one address at once

	lock    sync.Mutex
	clients map[netip.Addr]int
	refuser *rtr.Server
	above   *queue
}

// NewGate returns a gate with a limit. It logs each refused client.
func NewGate(most int, log rtr.Log) *Gate {
	g := &Gate{
		Most: most, clients: map[netip.Addr]int{}, refuser: rtr.NewServer(), above: newQueue(),
	}
	// A server with a limit of 0 sends an error report to each client.
	g.refuser.Limits.Connections = 0
	g.refuser.Log = log
	go g.refuser.Serve(g.above)
	return g
}

// Close closes the connections of refused clients.
func (g *Gate) Close() { g.refuser.Close() }

// enter counts a client, and reports whether it is accepted.
func (g *Gate) enter(address netip.Addr) bool {
	g.lock.Lock()
	defer g.lock.Unlock()
	if g.clients[address] >= g.Most {
		return false
	}
	g.clients[address]++
	return true
}

// leave stops counting a client.
func (g *Gate) leave(address netip.Addr) {
	g.lock.Lock()
	defer g.lock.Unlock()
	if g.clients[address]--; g.clients[address] == 0 {
		delete(g.clients, address)
	}
}

// addressOf returns the address of a peer, without its port; the zero Addr if it isn't one of IP.
func addressOf(connection net.Conn) netip.Addr {
	peer, ok := connection.RemoteAddr().(*net.TCPAddr)
	if !ok {
		return netip.Addr{}
	}
	return peer.AddrPort().Addr().Unmap().WithZone("")
}

// Secured wraps a connection in TLS or SSH.
type Secured func(net.Conn) net.Conn

// Plain returns the connection itself, for TCP.
func Plain(connection net.Conn) net.Conn { return connection }

// listener returns the connections of another listener that the gate accepts.
type listener struct {
	net.Listener
	kind     Kind
	secured  Secured
	gate     *Gate
	observer Observer
}

// Guarded returns a listener that wraps accepted connections in a transport, refuses those above
// the gate's limit, and counts their traffic.
func Guarded(bound Bound, secured Secured, gate *Gate, observer Observer) net.Listener {
	return &listener{bound.Listener, bound.Kind, secured, gate, observer}
}

// The send buffer of the system for a client.
const writeBuffer = 1 << 17

// Accept returns the next accepted connection. It never waits for the peer.
func (l *listener) Accept() (net.Conn, error) {
	for {
		connection, err := l.Listener.Accept()
		if err != nil {
			return nil, err
		}
		if tcp, ok := connection.(*net.TCPConn); ok {
			tcp.SetWriteBuffer(writeBuffer)
		}
		address := addressOf(connection)
		if l.gate.enter(address) {
			leave := func() { l.gate.leave(address) }
			return newConn(l.secured(connection), l.kind, l.observer, leave), nil
		}
		l.gate.above.put(newConn(l.secured(connection), l.kind, l.observer, func() {}))
	}
}

// queue is a listener of connections that were accepted elsewhere.
type queue struct {
	waiting chan net.Conn
	ended   chan struct{}
	once    sync.Once
}

func newQueue() *queue {
	return &queue{waiting: make(chan net.Conn, 16), ended: make(chan struct{})}
}

// put adds a connection, or closes it if too many wait.
func (q *queue) put(connection net.Conn) {
	select {
	case q.waiting <- connection:
	default:
		connection.Close()
	}
}

// Accept waits for the next connection.
func (q *queue) Accept() (net.Conn, error) {
	select {
	case connection := <-q.waiting:
		return connection, nil
	case <-q.ended:
		return nil, net.ErrClosed
	}
}

// Close ends Accept.
func (q *queue) Close() error {
	q.once.Do(func() { close(q.ended) })
	return nil
}

// Addr returns an empty address.
func (q *queue) Addr() net.Addr { return &net.TCPAddr{} }
