//go:build cgo && linux

package rtr

// #include "calls.h"
import "C"

import (
	"fmt"
	"time"
	"unsafe"
)

// The size of the head of a file with a store.
const storeHead = int(unsafe.Sizeof(C.struct_rtr_store_head{}))

// The least memory for the changes between two data.
const leastChanges = 1 << 12

// store is what a Server serves and saves: the struct of rtr.h, and both buffers. A buffer is never
// written again after its store is served, since clients are sent parts of it.
type store struct {
	stores  C.struct_rtr_stores
	buffers [2][]byte
}

// newStore returns the store of a server that saves, and never had data.
func newStore() (s store) {
	C.rtr_stores_new(&s.stores)
	return s
}

// unsavedStore returns the store of a server that doesn't save: it takes only data of this session,
// and serves them at once.
func unsavedStore(session uint16) (s store) {
	C.rtr_stores_unsaved(&s.stores, C.uint16_t(session))
	return s
}

// storesError is a status without another error: the bytes aren't data, or aren't a history.
type storesError C.uint8_t

func (e storesError) Error() string { return fmt.Sprintf("rtr: status %d of a store", uint8(e)) }

// both returns both buffers for a call.
func (s *store) both() (both C.struct_rtr_stores_buffers) {
	both.first, both.first_length = cBytes(s.buffers[0])
	both.second, both.second_length = cBytes(s.buffers[1])
	return both
}

// workIn returns memory for a call to work in.
func workIn(index []C.size_t, buffer, spare []byte) (work C.struct_rtr_work) {
	work.index, work.index_length = firstOf(index), C.size_t(len(index))
	work.buffer, work.buffer_length = cBytes(buffer)
	work.spare, work.spare_length = cBytes(spare)
	return work
}

// state returns what the buffers have, and the indexes of the one that is served and the other.
func (s *store) state() (state C.struct_rtr_stores_state, served, other int) {
	if state = C.stores_state(s.stores, s.both()).state; state.second {
		return state, 1, 0
	}
	return state, 0, 1
}

// served returns the served store and its history, both nil if there is none.
func (s *store) served() (store, history []byte) {
	state, served, _ := s.state()
	if !state.serves {
		return nil, nil
	}
	offset, end := int(state.offset), int(state.offset+state.length)
	return s.buffers[served][:end:end], s.buffers[served][offset:end:end]
}

// toSave returns the pending store; nil if there is none.
func (s *store) toSave() []byte {
	state, _, other := s.state()
	if !state.waits {
		return nil
	}
	return s.buffers[other][:state.taken]
}

// start loads the store of a file, and reports whether it is one; if not, s must not be used.
func (s *store) start(store []byte) bool {
	s.buffers = [2][]byte{store, nil}
	work := workIn(make([]C.size_t, len(store)/shortestPayload), make([]byte, len(store)), nil)
	answer := C.stores_start(&s.stores, C.size_t(len(store)), s.both(), work)
	return answer.status == C.RTR_STORES_OK
}

// take takes new data, and returns an rtr_stores_status. Unless that is RTR_STORES_OK, nothing
// changes. At first it allocates what suffices for few changes.
func (s *store) take(data Data, limits ServerLimits) C.struct_rtr_stores_answer {
	store, history := s.served()
	present, _ := firstPart(history)
	size := len(data.bytes)
	changes := (len(store)+size)/32 + leastChanges
	spare := 32 + size + changes + len(history) - len(present)
	output := len(store) - len(history) + spare + 18
	answer := s.takeIn(data, limits, changes, spare, output)
	if answer.status == C.RTR_STORES_NO_ROOM {
		changes = len(store) + size
		spare = 2*changes + 32
		answer = s.takeIn(data, limits, changes, spare, changes+spare+18)
	}
	return answer
}

// takeIn is take with memory of these sizes: for the changes, for the history, and for the store.
func (s *store) takeIn(
	data Data, limits ServerLimits, changes, history, output int,
) C.struct_rtr_stores_answer {
	_, _, other := s.state()
	s.buffers[other] = make([]byte, output)
	settings := limits.settings()
	kept := C.struct_rtr_history_limits{time: settings.keep, bytes: settings.keep_bytes}
	work := workIn(nil, make([]byte, changes), make([]byte, history))
	in, size := cBytes(data.bytes)
	answer := C.stores_take(&s.stores, in, size, C.uint64_t(time.Now().UnixMilli()), kept,
		s.both(), work)
	s.buffers[other] = fitted(s.buffers[other], int(answer.length))
	return answer
}

// saved records that the pending store is saved, so that it is served from now on; a no-op if none
// is pending.
func (s *store) saved() {
	C.rtr_stores_saved(&s.stores)
	_, _, other := s.state()
	s.buffers[other] = nil
}

// firstPart returns the sequence at the start of a history, or of the steps back behind its data,
// and the steps behind that; both nil if there is none.
func firstPart(history []byte) (sequence, steps []byte) {
	in, n := cBytes(history)
	part := C.history_data(in, n)
	if !part.result {
		return nil, nil
	}
	end := part.offset + part.length
	return history[part.offset:end:end], history[end:]
}

// serialsOf returns the serial numbers of the earlier data of a history, the latest first.
func serialsOf(history []byte) []C.uint32_t {
	in, n := cBytes(history)
	all := make([]C.uint32_t, C.history_serials(in, n, nil, 0).wanted)
	C.history_serials(in, n, firstOf(all), C.size_t(len(all)))
	return all
}

// changesSince returns the changes that lead a client of a version from the data of a serial number
// to the present data of a history. At first it allocates what suffices for short steps.
func changesSince(history []byte, version uint8, serial uint32) ([]byte, error) {
	_, steps := firstPart(history)
	changes, status := changesIn(history, version, serial, len(steps), 2*len(steps)+2*longestEnd)
	if status == C.RTR_STORES_NO_ROOM {
		changes, status = changesIn(history, version, serial, len(history), 2*len(history))
	}
	if status != C.RTR_STORES_OK {
		return nil, storesError(status)
	}
	return changes, nil
}

// changesIn is changesSince with memory of these sizes: an index for all units in this many bytes,
// and a buffer.
func changesIn(
	history []byte, version uint8, serial uint32, indexed, size int,
) ([]byte, C.uint8_t) {
	index, output := make([]C.size_t, indexed/shortestPayload), make([]byte, size+longestEnd)
	work := workIn(index, make([]byte, size), make([]byte, len(history)))
	in, n := cBytes(history)
	out, capacity := cBytes(output)
	answer := C.history_since(in, n, C.uint32_t(serial), C.uint8_t(version), work, out, capacity)
	return fitted(output, int(answer.length)), answer.status
}

// sealed returns the head of a file with this store.
func sealed(store []byte) []byte {
	in, n := cBytes(store)
	head := C.store_seal(in, n)
	return C.GoBytes(unsafe.Pointer(&head), C.int(storeHead))
}

// unsealed returns the store of a file, also of one that begins with rtrkept1, of versions before
// 0.3.0; nil if the file isn't whole.
func unsealed(file []byte) []byte {
	in, n := cBytes(file)
	if C.rtr_store_open(in, n) {
		return file[storeHead:]
	}
	store := make([]byte, len(file))
	out, capacity := cBytes(store)
	if C.store_open_old(in, n, out, capacity).status != C.RTR_STORES_OK {
		return nil
	}
	return store
}
