//go:build cgo && linux

package rtr

import (
	"sync"
	"sync/atomic"
	"time"
	"unsafe"
)

// AskNow makes the client query its cache before the refresh time has passed: at once, or
// Limits.Pause after its last query. Without a connection it connects at once, or after
// Limits.Pause if it queried or connected less than that ago. It doesn't interrupt a connection
// attempt, or an answer. The proved machine decides all of this.
//
// Any goroutine may call it at any time. If neither Run, Fetch nor Follow runs the client, nothing
// happens; a copy of a client is another client.
func (c *Client) AskNow() {
	c.requestsOf().set()
}

// askRequests are the requests of the followers that run for a client.
type askRequests struct {
	client *Client // a copy of the client gets its own
	lock   sync.Mutex
	all    map[*askRequest]bool
}

// requestsOf returns the requests of the followers that run for the client. It is atomic, since a
// Client has no lock, so that it may be copied.
func (c *Client) requestsOf() *askRequests {
	field := (*unsafe.Pointer)(unsafe.Pointer(&c.askRequests))
	for {
		found := (*askRequests)(atomic.LoadPointer(field))
		if found != nil && found.client == c {
			return found
		}
		created := &askRequests{client: c, all: map[*askRequest]bool{}}
		atomic.CompareAndSwapPointer(field, unsafe.Pointer(found), unsafe.Pointer(created))
	}
}

// set sets the request of each follower.
func (rs *askRequests) set() {
	rs.lock.Lock()
	defer rs.lock.Unlock()
	for request := range rs.all {
		request.set()
	}
}

// add adds the request of a follower that starts to run.
func (rs *askRequests) add(request *askRequest) {
	rs.lock.Lock()
	defer rs.lock.Unlock()
	rs.all[request] = true
}

// remove removes the request of a follower that has run.
func (rs *askRequests) remove(request *askRequest) {
	rs.lock.Lock()
	defer rs.lock.Unlock()
	delete(rs.all, request)
}

// askRequest is a request to query now, for one follower.
type askRequest struct {
	lock       sync.Mutex
	pending    bool   // set, and not taken yet
	interrupts bool   // set while the follower didn't wait: its next wait ends at once
	cancel     func() // interrupts the follower's wait; nil if it doesn't wait
}

// set sets the request, and interrupts the follower's wait.
func (r *askRequest) set() {
	r.lock.Lock()
	defer r.lock.Unlock()
	r.pending = true
	if r.cancel != nil {
		r.cancel()
	} else {
		r.interrupts = true
	}
}

// take reports whether a request is pending, and clears it.
func (r *askRequest) take() bool {
	r.lock.Lock()
	defer r.lock.Unlock()
	pending := r.pending
	r.pending, r.interrupts = false, false
	return pending
}

// setCancel registers the function that interrupts the current wait; nil clears it.
func (r *askRequest) setCancel(cancel func()) {
	r.lock.Lock()
	defer r.lock.Unlock()
	if r.cancel = cancel; cancel != nil && r.interrupts {
		r.interrupts = false
		cancel()
	}
}

// readUntil reads from the connection until a deadline, or until a request is set.
func (n *network) readUntil(at time.Time, buffer []byte) (int, error) {
	if err := n.connection.SetReadDeadline(at); err != nil {
		return 0, err
	}
	n.askRequest.setCancel(func() { n.connection.SetReadDeadline(passed) })
	defer n.askRequest.setCancel(nil)
	return n.connection.Read(buffer)
}
