//go:build cgo && linux

package rtr

// #include "rtr.h"
import "C"

import (
	"fmt"
	"sync"
)

// The number of versions of the protocol.
const versions = highestVersion + 1

// edition is a cache's data at one serial number, with the history in the store that has them;
// before its first data a cache has an empty one. Immutable, except for caches of encoded answers.
type edition struct {
	number  C.uint64_t           // counts the data of the server
	present C.struct_rtr_present // session and serial number of the data
	data    Data                 // the present data of the history
	history []byte               // of rtr.h
	known   []C.uint32_t         // the earlier serial numbers that it has, for rtr_cache_read

	lock       sync.Mutex
	forms      [versions]Data      // for clients without a socket
	files      map[string][2]piece // answers to clients with one, by their first unit
	sends      int                 // the number of clients that are being sent a file
	old        bool                // there is a newer edition
	deltas     map[question][]byte
	deltaBytes C.size_t // of them
	limits     C.struct_rtr_server_settings
}

// question is a serial query, without its session.
type question struct {
	version uint8
	serial  uint32
}

// newEdition returns the edition of a history.
func newEdition(number C.uint64_t, history []byte, limits ServerLimits) *edition {
	sequence, _ := firstPart(history)
	data := checkedData(sequence)
	present := C.struct_rtr_present{
		has: true, session: C.uint16_t(data.Session()), serial: C.uint32_t(data.Serial()),
	}
	return &edition{
		number: number, present: present,
		data: data, history: history, known: serialsOf(history),
		files: map[string][2]piece{}, deltas: map[question][]byte{}, limits: limits.settings(),
	}
}

// alike returns new data in the version in which the store takes them.
func (e *edition) alike(data Data) (Data, error) {
	var present C.uint8_t
	if e.present.has {
		present = C.uint8_t(e.data.Version())
	}
	return data.For(uint8(C.rtr_stores_version(&e.present, present, C.uint16_t(data.Session()),
		C.uint8_t(data.Version()))))
}

// refused returns the error for new data that the store didn't take; nil if they are the present
// ones.
func (e *edition) refused(data Data, answer C.struct_rtr_stores_answer) error {
	switch answer.status {
	case C.RTR_STORES_SAME_DATA:
		return nil
	case C.RTR_STORES_OTHER_TIMES:
		return ErrNewTiming
	case C.RTR_STORES_OLD_SERIAL:
		return &serialError{e.data.Serial(), data.Serial()}
	case C.RTR_STORES_SESSION_LEFT:
		return ErrSessionLeft
	case C.RTR_STORES_OTHER_SESSION:
		return ErrOneSession
	case C.RTR_STORES_OTHER_VERSION:
		return &Fault{Status: UnitVersion, Detail: uint8(answer.detail), Offset: -1}
	}
	return storesError(answer.status)
}

// serialError is an ErrSameSerial with the serial numbers of the old and the new data.
type serialError struct{ old, new uint32 }

func (e *serialError) Error() string {
	return fmt.Sprintf("%v: new %d, present %d", ErrSameSerial, e.new, e.old)
}

func (e *serialError) Unwrap() error { return ErrSameSerial }

// form returns the data as encoded for clients of version.
func (e *edition) form(version uint8) (piece, error) {
	e.lock.Lock()
	defer e.lock.Unlock()
	var err error
	if e.forms[version].IsZero() {
		e.forms[version], err = e.data.For(version)
	}
	return piece{bytes: e.forms[version].Bytes()}, err
}

// file returns an answer that begins with this unit and has all data: as a file in memory, if they
// are large. All clients of a version get the same, which a socket sends in one call. It stays open
// until sent is called.
func (e *edition) file(version uint8, opening []byte) ([2]piece, error) {
	e.lock.Lock()
	defer e.lock.Unlock()
	e.sends++
	if parts, ok := e.files[string(opening)]; ok {
		return parts, nil
	}
	data, err := e.data.For(version)
	if err != nil {
		return [2]piece{}, err
	}
	parts := filed(opening, data.Bytes())
	e.files[string(opening)] = parts
	return parts, nil
}

// sent releases what file returned.
func (e *edition) sent() {
	e.lock.Lock()
	defer e.lock.Unlock()
	e.sends--
	e.closeUnused()
}

// replaced records that there is a newer edition.
func (e *edition) replaced() {
	e.lock.Lock()
	defer e.lock.Unlock()
	e.old = true
	e.closeUnused()
}

// closeUnused closes the files of an old edition that isn't being sent to any client.
func (e *edition) closeUnused() {
	if !e.old || e.sends > 0 {
		return
	}
	for _, parts := range e.files {
		if file := parts[0].file; file != nil {
			file.Close()
		}
	}
	e.files = map[string][2]piece{}
}

// since returns the changes for clients of a version, from the data of a known serial number, or
// from these data.
func (e *edition) since(version uint8, serial uint32) ([]byte, error) {
	e.lock.Lock()
	defer e.lock.Unlock()
	return e.sinceIn(version, serial)
}

// sinceIn is since, with the lock. It keeps the changes as the limits say.
func (e *edition) sinceIn(version uint8, serial uint32) (changes []byte, err error) {
	query := question{version, serial}
	if changes, ok := e.deltas[query]; ok {
		return changes, nil
	}
	if version == e.data.Version() {
		changes, err = changesSince(e.history, version, serial)
	} else if changes, err = e.sinceIn(e.data.Version(), serial); err == nil {
		changes, err = formFor(changes, version)
	}
	if err == nil {
		e.keep(query, changes)
	}
	return changes, err
}

// keep keeps changes for further clients, if the limits let it.
func (e *edition) keep(query question, changes []byte) {
	size := C.size_t(len(changes))
	if size > 0 && bool(C.rtr_server_keeps(&e.limits, e.deltaBytes, size)) {
		e.deltas[query] = changes
		e.deltaBytes += size
	}
}
