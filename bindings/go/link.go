//go:build cgo && linux

package rtr

// #include "calls.h"
import "C"

import (
	"fmt"
	"math"
)

// link is a router's end of a session: the proved client of rtr.h, and its buffers. It does no I/O
// and has no clock. Times are in milliseconds.
type link struct {
	end    C.struct_rtr_link
	input  []byte     // payload units of an answer, followed by bytes that were read
	data   [2][]byte  // one holds the data; the next answer is written to the other
	index  []C.size_t // to sort the payload units of an answer
	output []byte     // bytes to send
	most   uint64     // the largest size of a buffer in bytes, or of the index in entries
	filled int        // bytes in the input before the last call
	gaveUp bool       // a buffer couldn't grow at the last call
}

// todo is the next action of the host.
type todo = C.struct_rtr_todo

// The actions of the host.
const (
	todoWait    = C.RTR_TODO_WAIT
	todoConnect = C.RTR_TODO_CONNECT
	todoClose   = C.RTR_TODO_CLOSE
	todoData    = C.RTR_TODO_DATA
	todoDropped = C.RTR_TODO_DROPPED
	todoNoData  = C.RTR_TODO_NO_DATA
	todoGrow    = C.RTR_TODO_INPUT_ROOM // the first of the actions that grow a buffer, done by step
)

const (
	mostBuffer  = math.MaxInt / 2  // the largest size of a buffer
	firstOutput = longestUnit + 64 // fits a report after some queries
)

// newLink returns a link without data.
func newLink(s settings) *link {
	l := &link{output: make([]byte, firstOutput), most: mostBuffer}
	C.rtr_link_init(&l.end, &s)
	return l
}

// restart resets the link to no data and no connection, for the same cache. Pauses between retries
// continue to grow.
func (l *link) restart() {
	must(C.rtr_link_again(&l.end))
	l.data = [2][]byte{}
}

// must panics if a call was refused, which is a bug of this package.
func must(status C.uint8_t) {
	if status != C.RTR_LINK_OK {
		panic(fmt.Sprintf("rtr: a call of a router's end was refused with status %d", status))
	}
}

// buffers returns the buffers for a call.
func (l *link) buffers() (b C.struct_rtr_link_buffers) {
	b.input, b.input_length = cBytes(l.input)
	b.first, b.first_length = cBytes(l.data[0])
	b.second, b.second_length = cBytes(l.data[1])
	b.index, b.index_length = firstOf(l.index), C.size_t(len(l.index))
	b.output, b.output_length = cBytes(l.output)
	return b
}

// opened tells the link that the connection is open.
func (l *link) opened() {
	must(C.rtr_link_opened(&l.end))
}

// lost tells the link that connecting failed, or that the connection was lost.
func (l *link) lost() {
	must(C.rtr_link_lost(&l.end))
}

// received tells the link that size bytes were read into the buffer of inputTail.
func (l *link) received(size int) {
	must(C.link_received(&l.end, l.buffers(), C.size_t(size)))
}

// sent tells the link that the first size bytes of unsent were sent.
func (l *link) sent(size int) {
	must(C.link_sent(&l.end, l.buffers(), C.size_t(size)))
}

// state returns how much the buffers hold.
func (l *link) state(now uint64) C.struct_rtr_link_state {
	held := C.link_state(&l.end, l.buffers(), C.uint64_t(now))
	must(held.result)
	return held.state
}

// inputTail returns the free part of the input buffer, to read into; after todoWait it isn't empty.
func (l *link) inputTail(now uint64) []byte {
	return l.input[l.state(now).filled:]
}

// unsent returns the bytes to send.
func (l *link) unsent(now uint64) []byte {
	return l.output[:l.state(now).unsent]
}

// next returns the next action. It grows buffers as needed; if one can't grow enough, it gives up
// the answer, which closes the connection.
func (l *link) next(now uint64) todo {
	return l.step(now, func() (todo, C.uint8_t) {
		next := C.link_next(&l.end, l.buffers(), C.uint64_t(now))
		return next.todo, next.result
	})
}

// askNow asks for the present data before the refresh time, and returns the next action, as next
// does.
func (l *link) askNow(now uint64) todo {
	return l.step(now, func() (todo, C.uint8_t) {
		next := C.link_ask_now(&l.end, l.buffers(), C.uint64_t(now))
		return next.todo, next.result
	})
}

// step repeats a call until every buffer is long enough, or one can't grow.
func (l *link) step(now uint64, call func() (todo, C.uint8_t)) todo {
	l.filled, l.gaveUp = int(l.state(now).filled), false
	for {
		next, status := call()
		must(status)
		if next.kind < todoGrow {
			l.follow(next)
			return next
		}
		if !l.grow(next) {
			return l.giveUp(now)
		}
	}
}

// giveUp tells the link that a buffer can't grow, and returns the next action.
func (l *link) giveUp(now uint64) todo {
	l.gaveUp = true
	next := C.link_give_up(&l.end, l.buffers(), C.uint64_t(now))
	must(next.result)
	l.follow(next.todo)
	return next.todo
}

// follow releases the buffers of data that an action drops.
func (l *link) follow(t todo) {
	if bool(t.drops) || t.kind == todoDropped {
		l.data = [2][]byte{}
	}
}

// grow grows the buffer that an action names, and reports whether the limit allows it. The input
// and the output at least double, so that few bytes are copied.
func (l *link) grow(t todo) bool {
	size := uint64(t.room)
	if size > l.most {
		return false
	}
	switch t.kind {
	case C.RTR_TODO_INPUT_ROOM:
		l.input = resized(l.input, l.doubled(l.input, size))
	case C.RTR_TODO_FIRST_ROOM:
		l.data[0] = make([]byte, size)
	case C.RTR_TODO_SECOND_ROOM:
		l.data[1] = make([]byte, size)
	case C.RTR_TODO_INDEX_ROOM:
		l.index = make([]C.size_t, size)
	case C.RTR_TODO_OUTPUT_ROOM:
		l.output = resized(l.output, l.doubled(l.output, size))
	}
	return true
}

// doubled returns twice the size of a buffer if that is enough and allowed, else the needed size.
func (l *link) doubled(buffer []byte, size uint64) uint64 {
	if twice := 2 * uint64(len(buffer)); size < twice && twice <= l.most {
		return twice
	}
	return size
}

// resized returns a buffer of a larger size that begins with the same bytes.
func resized(buffer []byte, size uint64) []byte {
	larger := make([]byte, size)
	copy(larger, buffer)
	return larger
}

// inputFrom returns the input from the unit that an action names; it is valid until the next call.
func (l *link) inputFrom(t todo) []byte {
	return l.input[t.offset:l.filled]
}

// newData returns the data of the last answer. The link doesn't write to them any more, nor to the
// data before them, which others may still read.
func (l *link) newData(now uint64) Data {
	held, which := l.state(now), 0
	if held.second {
		which = 1
	}
	shown := fitted(l.data[which], int(held.shown))
	l.data = [2][]byte{}
	l.data[which] = shown
	l.release(now)
	return checkedData(shown)
}

// release frees the memory that a long answer needed.
func (l *link) release(now uint64) {
	l.index = nil
	if len(l.input) > 2*chunk {
		l.input = append([]byte{}, l.input[:l.state(now).filled]...)
	}
}
