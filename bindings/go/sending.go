//go:build cgo && linux

package rtr

// #include "calls.h"
import "C"

import (
	"math"
	"os"
	"syscall"
)

// The least size of a connection's send buffer. Data of at least this size are sent from a file in
// memory.
const chunk = 1 << 16

// The bytes per write if the connection can't report a partial write at a deadline: the size of a
// TLS record.
const tlsRecord = 1 << 14

// reply is what a client is being sent: the first unit of an answer, and data or changes; or the
// last report.
type reply struct {
	parts   [2]piece
	edition *edition
	filed   bool // the data may be in a file of the edition, which stays until it is released
	begun   bool // sending the first unsent part was tried
}

// part returns the first part that isn't sent.
func (r *reply) part() *piece {
	if r.parts[0].size() > 0 {
		return &r.parts[0]
	}
	return &r.parts[1]
}

// begin begins the answer that the cache decided on, from an edition, and drops the unit that it
// answers from the input.
func (c *served) begin(e *edition) (err error) {
	opening := c.opening()
	c.reply = reply{parts: [2]piece{{bytes: opening}}, edition: e}
	body := &c.reply.parts[1]
	switch version := uint8(c.serving.version); {
	case c.serving.kind == C.RTR_SERVE_ALL && c.raw != nil:
		c.reply.filed = true
		c.reply.parts, err = e.file(version, opening)
	case c.serving.kind == C.RTR_SERVE_ALL:
		*body, err = e.form(version)
	case c.serving.kind == C.RTR_SERVE_CHANGES:
		body.bytes, err = e.since(version, uint32(c.serving.serial))
	}
	if err != nil {
		return err
	}
	c.logs(LevelDebug, "answers", "unit", Kind(opening[1]), "version", opening[0])
	c.skip(int(c.serving.taken))
	c.answers(e.number)
	return nil
}

// answers reports to the pace that an answer begins, from the edition with this number.
func (c *served) answers(number C.uint64_t) {
	size := C.size_t(c.reply.parts[0].size() + c.reply.parts[1].size())
	mustBegin(C.rtr_connection_answers(&c.pace, c.now(), size, number))
}

// end begins the last report, if the cache owes one.
func (c *served) end() {
	report := c.opening()
	c.reply = reply{parts: [2]piece{{bytes: report}}}
	mustBegin(C.rtr_connection_ends(&c.pace, c.now(), C.size_t(len(report))))
	c.lock.Lock()
	defer c.lock.Unlock()
	c.last = true
}

// mustBegin panics if an answer began inside of another, which is a bug of this package.
func mustBegin(begun C.bool) {
	if !begun {
		panic("rtr: an answer began inside of another")
	}
}

// opening returns the first unit of an answer, or the report that is owed.
func (c *served) opening() []byte {
	if !c.serving.reports {
		output := make([]byte, serialSize)
		out, capacity := cBytes(output)
		return output[:C.rtr_cache_unit(&c.serving, out, capacity)]
	}
	output := make([]byte, longestUnit)
	in, n := cBytes(c.input)
	out, capacity := cBytes(output)
	var written C.size_t
	C.rtr_cache_report(&c.serving, in, n, out, capacity, &written)
	return output[:written]
}

// send sends some of what is unsent, or waits for the client to take it. It first tries without
// waiting, so that what a socket takes at once is sent however many newer data have come.
func (c *served) send() {
	part := c.reply.part()
	sent, err := c.writeSome(part, c.beginWrite())
	c.endWrite()
	part.skip(sent)
	c.reply.begun = part.size() > 0
	C.rtr_connection_sent(&c.pace, c.now(), C.size_t(sent))
	switch {
	case err != nil && (c.raw == nil || !isTimeout(err)):
		c.lost(err)
	case c.pace.unsent == 0:
		c.sent()
	case c.reply.begun:
		c.look()
	}
}

// beginWrite sets the deadline of a write, and reports whether the write may wait.
func (c *served) beginWrite() (wait bool) {
	until := c.wakes()
	c.lock.Lock()
	defer c.lock.Unlock()
	c.connection.SetWriteDeadline(until)
	c.sending = !c.woken && (c.reply.begun || c.raw == nil)
	return c.sending
}

func (c *served) endWrite() {
	c.lock.Lock()
	defer c.lock.Unlock()
	c.sending = false
}

// writeSome writes some of a part. With wait it returns a timeout if nothing was sent before the
// deadline; without it, it sends only what a socket takes at once, and nothing to another
// connection.
func (c *served) writeSome(part *piece, wait bool) (sent int, err error) {
	switch {
	case c.raw == nil && !wait:
		return 0, nil
	case c.raw == nil:
		// At a deadline a write may have been sent in part, and TLS can't continue it.
		bytes := part.bytes
		if len(bytes) > tlsRecord {
			bytes = bytes[:tlsRecord]
		}
		return c.connection.Write(bytes)
	}
	full := false
	failed := c.raw.Write(func(socket uintptr) bool {
		sent, err = part.send(int(socket))
		full = err == syscall.EAGAIN
		return !full || !wait
	})
	switch {
	case failed != nil || full:
		return 0, failed
	case err != nil:
		return 0, os.NewSyscallError("write", err)
	}
	if c.counter != nil {
		c.counter.Wrote(part.bytes, sent)
	}
	return sent, nil
}

// lost reports to the pace that the connection broke, since reading or writing failed, or a write
// that timed out can't be continued. A limit that has ended it by now is the reason.
func (c *served) lost(err error) {
	c.look()
	switch {
	case c.nextWith(c.newest).result == C.RTR_STEP_CLOSE:
		return
	case c.last:
	case isTimeout(err):
		c.broken = errSlowRouter
	case c.server.closed.Load():
		c.broken = ErrServerClosed
	default:
		c.broken = err
	}
	C.rtr_connection_broke(&c.pace)
}

// sent is called when all of an answer, or of the last report, is sent.
func (c *served) sent() {
	if c.serving.kind == C.RTR_SERVE_ALL || c.serving.kind == C.RTR_SERVE_CHANGES {
		data := c.reply.edition.data
		c.logs(LevelDebug, "answered", "session", data.Session(), "serial", data.Serial())
	}
	c.release()
}

// release releases what was being sent.
func (c *served) release() {
	if c.reply.filed {
		c.reply.edition.sent()
	}
	c.reply = reply{}
}

// finish closes the connection for writing, and drops what comes until the client closes it, or the
// deadline passes: closing it with unread bytes would reset it, and the report might be lost. A
// connection that can't be closed for writing alone is closed at once.
func (c *served) finish() {
	until := c.wakes()
	half, ok := c.connection.(interface{ CloseWrite() error })
	if ok && half.CloseWrite() == nil && c.connection.SetReadDeadline(until) == nil {
		discard(c.connection, math.MaxInt)
	}
	C.rtr_connection_closed(&c.pace)
}
