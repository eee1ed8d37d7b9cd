//go:build cgo && linux

package rtr

// #include "calls.h"
import "C"

import (
	"io"
	"net"
	"sync"
	"syscall"
	"time"
)

// A deadline in the past: it interrupts a read or a write.
var passed = time.Unix(1, 0)

// served is a client of a Server: its connection, and two proved machines of rtr.h. One decides the
// answers, the other when the connection sends, waits and ends. All clients share the editions.
type served struct {
	server     *Server
	connection net.Conn
	raw        syscall.RawConn // the socket, if the connection is one
	counter    Counter         // the connection, if it counts written bytes
	refused    bool            // it gets a report that there are too many connections

	cache   C.struct_rtr_cache
	pace    C.struct_rtr_connection
	serving C.struct_rtr_serving // the last result of the cache
	newest  *edition             // the latest edition that was checked
	reply   reply                // what is being sent
	input   []byte               // received and not handled; in buffer, if it fits
	buffer  [64]byte             // fits queries; longer units get other memory
	offset  int64                // of the input in all received bytes
	closed  bool                 // the client has closed: no more bytes come
	broken  error                // why nothing can be sent any more

	lock    sync.Mutex
	woken   bool   // there may be a newer edition, or the server is closed
	sending bool   // a write may wait; cache and pace don't change until it returns
	last    bool   // nothing is written any more but a report
	shaking func() // interrupts a handshake; nil without one
}

// Counter is a connection over a socket to which the Server writes directly, by SyscallConn. Wrote
// is called with the number of sent bytes, and with the bytes from which they were taken; these are
// nil if they are a file's.
type Counter interface{ Wrote(bytes []byte, sent int) }

func newServed(server *Server, connection net.Conn) *served {
	c := &served{server: server, connection: connection, newest: server.present.Load()}
	if socket, ok := connection.(syscall.Conn); ok {
		c.raw, _ = socket.SyscallConn()
		c.counter, _ = connection.(Counter)
	}
	if _, ok := connection.(shaker); ok {
		c.shaking = func() {} // serve checks whether the server is closed
	}
	c.input = c.buffer[:0]
	settings := server.Limits.settings()
	C.rtr_cache_init(&c.cache, c.now(), &settings.cache)
	C.rtr_connection_init(&c.pace, c.now(), &settings)
	return c
}

func (c *served) now() C.uint64_t { return C.uint64_t(c.server.clock.now()) }

// wake signals a newer edition, or that the server is closed. It doesn't block. It interrupts a
// write only to end the connection, since TLS can't continue after that.
func (c *served) wake(newest *edition) {
	c.lock.Lock()
	defer c.lock.Unlock()
	if c.last {
		return
	}
	c.woken = true
	switch {
	case c.shaking != nil:
		if c.server.closed.Load() {
			c.shaking()
		}
	case !c.sending:
		c.connection.SetReadDeadline(passed)
	case c.nextWith(newest).result == C.RTR_STEP_CLOSE:
		c.connection.SetWriteDeadline(passed)
	}
}

// look loads the newest edition. A later one wakes the client.
func (c *served) look() {
	c.lock.Lock()
	defer c.lock.Unlock()
	c.woken = false
	c.newest = c.server.present.Load()
}

// nextWith returns the next step if this is the newest edition, an rtr_step, with an rtr_cut.
func (c *served) nextWith(newest *edition) C.struct_connection_next_result {
	return C.connection_next(c.pace, c.now(), c.cache, newest.present, newest.number)
}

// wakes returns the deadline of the present step.
func (c *served) wakes() time.Time {
	until := C.connection_wakes(c.pace, c.cache, c.newest.present)
	return c.server.clock.at(uint64(until))
}

// serve serves the client until the connection ends, and returns the reason; nil if the client
// closed it.
func (c *served) serve() error {
	defer c.release()
	if err := c.shake(); err != nil {
		return err
	}
	if c.refused {
		C.rtr_cache_full(&c.cache, c.now(), &c.newest.present, &c.serving)
		c.end()
	}
	for {
		if !c.last && c.pace.unsent == 0 {
			c.look()
			if c.server.closed.Load() {
				return ErrServerClosed
			}
		}
		next := c.nextWith(c.newest)
		if next.result == C.RTR_STEP_CLOSE {
			return c.why(next.cut)
		}
		if err := c.take(next.result); err != nil {
			return err
		}
	}
}

// take carries out a step, an rtr_step.
func (c *served) take(step C.uint8_t) error {
	switch step {
	case C.RTR_STEP_WAIT:
		c.receive()
		return nil
	case C.RTR_STEP_SEND:
		c.send()
		return nil
	case C.RTR_STEP_FINISH:
		c.finish()
		return nil
	}
	c.tell(step)
	switch c.serving.kind {
	case C.RTR_SERVE_WAIT:
		c.skip(int(c.serving.taken))
		return nil
	case C.RTR_SERVE_END:
		c.end()
		return nil
	}
	return c.begin(c.newest)
}

// tell passes an event to the cache: a unit, the end of the connection, or the time.
func (c *served) tell(step C.uint8_t) {
	now, present := c.now(), &c.newest.present
	switch step {
	case C.RTR_STEP_HEAR:
		in, n := cBytes(c.input)
		known := c.newest.known
		C.rtr_cache_read(&c.cache, now, present, firstOf(known), C.size_t(len(known)), in, n,
			C.bool(c.closed), &c.serving)
		C.rtr_connection_heard(&c.pace, now, c.serving.taken)
	case C.RTR_STEP_LOSE:
		C.rtr_cache_lost(&c.cache, now, present, &c.serving)
	default:
		C.rtr_cache_tick(&c.cache, now, present, &c.serving)
	}
}

// skip drops the unit that was answered from the input.
func (c *served) skip(taken int) {
	c.input, c.offset = append(c.buffer[:0], c.input[taken:]...), c.offset+int64(taken)
}

// receive waits until bytes come, wake is called, or a deadline has passed.
func (c *served) receive() {
	if len(c.input) == cap(c.input) {
		c.input = append(c.input, 0)[:len(c.input)]
	}
	if !c.mayRead() {
		return
	}
	n, err := c.connection.Read(c.input[len(c.input):cap(c.input)])
	c.input = c.input[:len(c.input)+n]
	C.rtr_connection_received(&c.pace, c.now(), C.size_t(n))
	switch {
	case n > 0 || err == nil || isTimeout(err):
	case err == io.EOF:
		c.closed = true
		C.rtr_connection_closed(&c.pace)
	default:
		c.lost(err)
	}
}

// mayRead sets the deadline of a read, and reports whether wake wasn't called before.
func (c *served) mayRead() bool {
	until := c.wakes()
	c.lock.Lock()
	defer c.lock.Unlock()
	if !c.woken {
		c.connection.SetReadDeadline(until)
	}
	return !c.woken
}

// why returns the error for the limit that ended the connection, or that broke it, or for the
// cache's reason; nil if the client closed the connection.
func (c *served) why(cut C.uint8_t) error {
	if err, ok := cuts[cut]; ok {
		return err
	}
	if c.broken != nil {
		return c.broken
	}
	switch c.serving.reason {
	case C.RTR_REASON_LOST:
		if c.server.closed.Load() {
			return ErrServerClosed
		}
		return nil
	case C.RTR_REASON_REPORTED:
		return reportedIn(c.input, Reported{router: true})
	case C.RTR_REASON_FAULTY:
		status, detail := Status(c.serving.status), uint8(c.serving.detail)
		return owned(refusal(status, detail, c.input, c.offset))
	case C.RTR_REASON_NO_QUERY, C.RTR_REASON_OTHER_VERSION, C.RTR_REASON_NO_VERSION:
		return breachOf(endings[c.serving.reason], ErrorCode(c.serving.code), c.input)
	}
	return endings[c.serving.reason]
}
