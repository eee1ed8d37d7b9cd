//go:build cgo && linux

package rtr

// #include "calls.h"
import "C"

import "errors"

// errDone ends a follower after it has got its data.
var errDone = errors.New("rtr: done")

// show passes new data to the caller.
func (f *follower) show(data Data) {
	f.logs(LevelInfo, "data", data.fields()...)
	f.update(data)
}

// drop drops the data, if there are any.
func (f *follower) drop() {
	if !f.data.IsZero() {
		f.logs(LevelWarn, "data dropped", f.data.fields()...)
		f.update(Data{})
	}
}

// update passes data to the caller: the zero Data if they were dropped.
func (f *follower) update(data Data) {
	old := f.data
	f.data = data
	if f.stopped == nil {
		f.stop(f.changed(updateOf(old, data)))
	}
}

// failed reports a failure to the caller. It ends a follower that gets data only once, or that has
// no other connection.
func (f *follower) failed(err error) {
	f.logs(LevelWarn, "failed", "error", err)
	if f.once || f.last {
		f.stop(err)
	}
	if f.stopped == nil && f.onFailure != nil {
		f.onFailure(err)
	}
}

// stop ends the follower if err isn't nil.
func (f *follower) stop(err error) {
	if f.stopped == nil {
		f.stopped = err
	}
}

// logQueries logs the queries among the unsent bytes that weren't logged yet.
func (f *follower) logQueries() {
	for unsent := f.link.unsent(f.peer.now()); f.logged < len(unsent); {
		unit := unsent[f.logged:]
		if kind := Kind(unit[1]); kind != ErrorReport {
			f.logs(LevelDebug, "asks", "query", kind, "version", unit[0])
		}
		f.logged += unitLength(unit)
	}
}

// reason returns why a connection ends; nil if the link reconnects in another version.
func (f *follower) reason(t todo) error {
	switch C.todo_failure(t, C.bool(f.link.gaveUp)) {
	case C.RTR_CLIENT_NONE:
		return nil
	case C.RTR_CLIENT_LOST:
		return f.err
	case C.RTR_CLIENT_SLOW:
		return errSlowCache
	case C.RTR_CLIENT_TOO_LONG:
		return ErrTooLong
	case C.RTR_CLIENT_REFUSED:
		return owned(refusal(Status(t.status), uint8(t.detail), f.link.inputFrom(t), int64(t.position)))
	case C.RTR_CLIENT_REPORTED:
		return reportedIn(f.link.inputFrom(t), Reported{})
	case C.RTR_CLIENT_EXPIRED:
		return ErrExpired
	case C.RTR_CLIENT_MEMORY:
		return ErrNoMemory
	}
	return breachOf(breaches[cause(t.cause)], ErrorCode(t.code), f.link.inputFrom(t))
}
