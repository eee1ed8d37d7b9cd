//go:build cgo && linux

// Package rtr reads and writes the units (PDUs) of the RPKI to Router protocol (RFC 6810, RFC
// 8210), of all eleven types, by calls of the proved library rtr_c. What the library's functions
// promise is proved; this package is tested.
//
// # A connection
//
// NewReader reads units from an io.Reader, one at a time, and NewWriter writes them to an
// io.Writer:
//
//	reader := rtr.NewReader(bufio.NewReader(connection))
//	for {
//		unit, err := reader.Next()
//		if err == io.EOF {
//			break // the peer closed the connection after a whole unit
//		}
//		if err != nil {
//			return err
//		}
//		fmt.Println(unit.Kind, unit.Serial)
//	}
//
// Reader.Sequence loops over the units that a cache sends after its cache response: payload units,
// and an end of data.
//
// # Bytes in memory
//
// Next reads the first unit of a slice, and Unit.AppendBinary appends one. Normalise, NormaliseFor
// and SameMeaning take whole sequences.
//
// # Data and deltas
//
// Data is the data of a cache, or a router's copy of them. Delta computes the changes from old data
// to new, and Apply applies all changes of a delta, or none; Order puts changes that came in any
// order into the form that Apply takes, and Sequence.Collect reads them from a connection.
//
// # Clients and caches
//
// A Client follows the data of a cache over TCP, and a Server is a cache. Follow follows the first
// of several caches that has data. docs/SESSIONS.md describes what they do in each state, by the
// sections of RFC 8210.
//
// # Errors
//
// A unit that is refused gives a *Fault, for errors.As, with the offset and the bytes of the unit,
// and the error report that is owed to the peer. Each Status is an error, for errors.Is. Errors of
// an io.Reader and an io.Writer are returned unchanged.
//
// # Goroutines and memory
//
// Several goroutines may call the package at once, but use a Reader, Sequence, Units or Writer from
// one at a time. Slices may be nil or empty. An output must not overlap an input, and until a call
// returns no other goroutine may write to its arguments or read its output. Reading or writing a
// unit allocates nothing once the buffers are as long as the longest unit; an error does.
//
// Copyright (c) 2026, the authors of Fishreef; copyright (c) 2018, NLnet Labs. BSD 3-Clause
// License: see the file LICENSE at the top of the repository.
package rtr

/*
#cgo CFLAGS: -I${SRCDIR}/../c
#cgo amd64 LDFLAGS: -L${SRCDIR}/../../prebuilt/x86_64 -lrtr_wire
#cgo arm64 LDFLAGS: -L${SRCDIR}/../../prebuilt/aarch64 -lrtr_wire
#include "calls.h"
*/
import "C"

import (
	"net/netip"
	"sync"
	"unsafe"
)

// cBytes returns the address of a slice, or null if it is empty, and its length.
func cBytes(b []byte) (*C.uint8_t, C.size_t) {
	if len(b) == 0 {
		return nil, 0
	}
	return (*C.uint8_t)(&b[0]), C.size_t(len(b))
}

// firstOf returns the address of a slice, or null if it is empty.
func firstOf[T any](slice []T) *T {
	if len(slice) == 0 {
		return nil
	}
	return &slice[0]
}

// unitSize is UnitSize with a status in place of an error.
func unitSize(input []byte) (size int, status Status, detail uint8) {
	in, n := cBytes(input)
	sized := C.unit_size(in, n)
	return int(sized.size), Status(sized.result), uint8(sized.detail)
}

// line writes the line of the first unit of input, as far as it fits, and returns the length of the
// whole line, and the unit's size.
func line(input []byte, offset uint64, output []byte) (
	length, size int, status Status, detail uint8) {
	in, n := cBytes(input)
	out, capacity := cBytes(output)
	a := C.line(in, n, C.uint64_t(offset), out, capacity)
	return int(a.length), int(a.size), Status(a.status), uint8(a.detail)
}

// object is like line, for the object in JSON.
func object(
	input []byte, offset uint64, output []byte,
) (length, size int, status Status, detail uint8) {
	in, n := cBytes(input)
	out, capacity := cBytes(output)
	a := C.json(in, n, C.uint64_t(offset), out, capacity)
	return int(a.length), int(a.size), Status(a.status), uint8(a.detail)
}

// sequenceState is the state of a check, without the names of the announced payloads.
type sequenceState = C.struct_rtr_check

// naming is the name of a unit's payload, and how it changes the set of announced names.
type naming struct {
	size, length      int
	status            Status
	detail            uint8
	begins, announces bool
}

// checkName writes the name of the payload of input's first unit.
func checkName(input, output []byte) naming {
	in, n := cBytes(input)
	out, capacity := cBytes(output)
	a := C.check_name(in, n, out, capacity)
	return naming{int(a.size), int(a.length), Status(a.status), uint8(a.detail), bool(a.begins),
		bool(a.announces)}
}

// checkUnit appends a line for each rule that input's first unit breaks, and returns the state
// after it.
func checkUnit(lines []string, state sequenceState, input []byte, wasThere bool, offset uint64) (
	[]string, sequenceState) {
	in, n := cBytes(input)
	step := C.check_unit(state, in, n, C.bool(wasThere))
	for _, finding := range step.answer.findings {
		lines = appendFinding(lines, finding, offset)
	}
	return lines, step.check
}

// checkEnd appends a line on what is missing at the end of the input, if something is.
func checkEnd(lines []string, state sequenceState, offset uint64) []string {
	return appendFinding(lines, C.check_end(state), offset)
}

func appendFinding(lines []string, finding C.struct_rtr_finding, offset uint64) []string {
	if finding.rule == C.RTR_RULE_NONE {
		return lines
	}
	var output [findingRoom]byte
	out, capacity := cBytes(output[:])
	n := C.finding_line(finding, C.uint64_t(offset), out, capacity)
	return append(lines, string(output[:n]))
}

// changeLine is like line, for the change that the unit makes.
func changeLine(input, output []byte) (length int, status Status) {
	in, n := cBytes(input)
	out, capacity := cBytes(output)
	a := C.change_line(in, n, out, capacity)
	return int(a.length), Status(a.status)
}

// changeJSON is like changeLine, for the object in JSON.
func changeJSON(input, output []byte) (length int, status Status) {
	in, n := cBytes(input)
	out, capacity := cBytes(output)
	a := C.change_json(in, n, out, capacity)
	return int(a.length), Status(a.status)
}

// The tables of names, for name.
const (
	namedStatus   = C.RTR_NAMED_STATUS
	namedKind     = C.RTR_NAMED_KIND
	namedCause    = C.RTR_NAMED_CAUSE
	namedReason   = C.RTR_NAMED_REASON
	namedCode     = C.RTR_NAMED_CODE
	namedTimeRule = C.RTR_NAMED_TIME_RULE
)

// brokenTimeRule returns the number of the first rule of RFC 8210 section 6 that the times of a
// cache break, or 0.
func brokenTimeRule(t Timing) uint16 {
	refresh, retry, expire := C.uint32_t(t.Refresh), C.uint32_t(t.Retry), C.uint32_t(t.Expire)
	return uint16(C.rtr_times_rule(refresh, retry, expire))
}

// name returns the name of a number of one of these tables; for a rule on times, its text.
func name(table uint8, number uint16) string {
	var text [textRoom]byte
	out, capacity := cBytes(text[:])
	n := C.name(C.uint8_t(table), C.uint16_t(number), out, capacity).text_length
	return string(text[:n])
}

// statusText returns the text of a status with its detail.
func statusText(status Status, detail uint8) string {
	var text [textRoom]byte
	out, capacity := cBytes(text[:])
	n := C.text(C.uint8_t(status), C.uint8_t(detail), out, capacity).text_length
	return string(text[:n])
}

// statusTextAt returns the text of a status with its detail, and an offset.
func statusTextAt(status Status, detail uint8, offset uint64) string {
	var text [textAtRoom]byte
	out, capacity := cBytes(text[:])
	length := C.text_at(C.uint8_t(status), C.uint8_t(detail), C.uint64_t(offset), out, capacity)
	return string(text[:length.text_length])
}

// reportText returns what an error report of this code and text says.
func reportText(code ErrorCode, reported string) string {
	var text [reportTextRoom]byte
	in, n := cBytes([]byte(reported))
	out, capacity := cBytes(text[:])
	length := C.report_text(C.uint16_t(code), in, n, out, capacity).text_length
	return string(text[:length])
}

// parse sets the unit to input's first unit, and returns its size. If that is refused, the unit
// stays unchanged, and the size is that of the refused unit for PrefixRule, else 0.
func (unit *Unit) parse(input []byte) (size int, status Status, detail uint8) {
	in, n := cBytes(input)
	shown := C.next(in, n)
	if shown.result == C.RTR_OK {
		unit.set(&shown.unit, input)
	}
	return int(shown.unit.size), Status(shown.result), uint8(shown.unit.detail)
}

// set sets the unit to u, which was read from the front of input.
func (unit *Unit) set(u *C.struct_rtr_unit, input []byte) {
	*unit = Unit{
		Kind: Kind(u.kind), Version: uint8(u.version), Announce: u.action == 1,
		MaxLength: uint8(u.max_length), ASN: uint32(u.asn), Customer: uint32(u.customer),
		Session: uint16(u.session), Serial: uint32(u.serial), Refresh: uint32(u.refresh),
		Retry: uint32(u.retry), Expire: uint32(u.expire), Code: ErrorCode(u.code),
	}
	switch unit.Kind {
	case IPv4Prefix:
		unit.Prefix = prefix(netip.AddrFrom4(*(*[4]byte)(unsafe.Pointer(&u.address))), u)
	case IPv6Prefix:
		unit.Prefix = prefix(netip.AddrFrom16(*(*[16]byte)(unsafe.Pointer(&u.address))), u)
	case RouterKey:
		unit.KeyIdentifier = *(*[20]byte)(unsafe.Pointer(&u.key_identifier))
		unit.KeyInfo = part(input, u.part_start, u.part_length)
	case ASPA:
		unit.Providers = part(input, u.part_start, u.part_length)
	case ErrorReport:
		// 0 if the inner lengths of a report don't fit.
		if u.part_start > 0 {
			unit.Enclosed = part(input, u.part_start, u.part_length)
			unit.Text = part(input, u.text_start, u.text_length)
		}
	}
}

// decoded is a batch of units that one call of the library decoded: a call of C from Go takes
// longer than decoding a unit.
type decoded struct {
	units       [64]C.struct_rtr_unit
	next, count int
}

// decodedPool holds the unused batches of NextMany.
var decodedPool = sync.Pool{New: func() any { return new(decoded) }}

// fill replaces the batch by the first units of input, at most this number. It returns the status
// and the detail of the unit after them if that is refused; Short at the end of the input.
func (p *decoded) fill(input []byte, most int) (status Status, detail uint8) {
	if most > len(p.units) {
		most = len(p.units)
	}
	in, n := cBytes(input)
	decoded := C.next_many(in, n, &p.units[0], C.size_t(most))
	p.next, p.count = 0, int(decoded.count)
	if decoded.result != C.RTR_OK {
		detail = uint8(p.units[decoded.count].detail)
	}
	return Status(decoded.result), detail
}

// take sets the unit to the next one of the batch, which input begins with, and returns the input
// after it.
func (p *decoded) take(unit *Unit, input []byte) []byte {
	next := &p.units[p.next]
	p.next++
	unit.set(next, input)
	return input[next.size:]
}

func prefix(address netip.Addr, u *C.struct_rtr_unit) netip.Prefix {
	return netip.PrefixFrom(address, int(u.prefix_length))
}

// part returns a part of the input; appending to it copies it.
func part(input []byte, start, length C.size_t) []byte {
	return input[start : start+length : start+length]
}

// write writes the unit with this part to the front of output, a report without its text.
func (unit *Unit) write(part, output []byte) (int, Status) {
	in, n := cBytes(part)
	out, capacity := cBytes(output)
	done := C.write_unit(unit.inC(n), in, n, out, capacity)
	return int(done.written), Status(done.result)
}

// inC converts the unit for C. The family of an invalid prefix is 0.
func (unit *Unit) inC(partLength C.size_t) C.struct_rtr_unit {
	u := C.struct_rtr_unit{
		part_length: partLength, asn: C.uint32_t(unit.ASN),
		customer: C.uint32_t(unit.Customer), serial: C.uint32_t(unit.Serial),
		refresh: C.uint32_t(unit.Refresh), retry: C.uint32_t(unit.Retry),
		expire: C.uint32_t(unit.Expire), session: C.uint16_t(unit.Session),
		code: C.uint16_t(unit.Code), kind: C.uint8_t(unit.Kind),
		version: C.uint8_t(unit.Version), max_length: C.uint8_t(unit.MaxLength),
	}
	if unit.Announce {
		u.action = 1
	}
	if unit.Prefix.IsValid() {
		u.prefix_length = C.uint8_t(unit.Prefix.Bits())
		if address := unit.Prefix.Addr(); address.Is4() {
			u.family = 4
			*(*[4]byte)(unsafe.Pointer(&u.address)) = address.As4()
		} else {
			u.family = 6
			*(*[16]byte)(unsafe.Pointer(&u.address)) = address.As16()
		}
	}
	*(*[20]byte)(unsafe.Pointer(&u.key_identifier)) = unit.KeyIdentifier
	return u
}

// errorCode returns the code of the report that the peer is owed for this status of input's first
// unit, and whether it is owed one.
func errorCode(status Status, input []byte) (ErrorCode, bool) {
	in, n := cBytes(input)
	owed := C.error_code(C.uint8_t(status), in, n)
	return ErrorCode(owed.code), bool(owed.result)
}

// isReportOwed reports whether the peer is owed a report about a unit that is refused: not if the
// unit is an error report, whatever is wrong with it.
func isReportOwed(unit []byte) bool {
	_, owed := errorCode(UnitType, unit)
	return owed
}

// versionHas is Kind.In.
func versionHas(version uint8, kind Kind) bool {
	return bool(C.rtr_version_has(C.uint8_t(version), C.uint8_t(kind)))
}

// serialOrder returns the order of serial numbers, an rtr_order of rtr.h.
func serialOrder(left, right uint32) uint8 {
	return uint8(C.rtr_serial_order(C.uint32_t(left), C.uint32_t(right)))
}

// normalise is Normalise with a status in place of an error.
func normalise(input, output []byte, limit uint64) (Progress, Status, uint8) {
	in, n := cBytes(input)
	out, capacity := cBytes(output)
	return progressOf(C.normalise_slice(in, n, out, capacity, C.uint64_t(limit)))
}

// normaliseFor is NormaliseFor with a status in place of an error.
func normaliseFor(input, output []byte, limit uint64, version uint8) (Progress, Status, uint8) {
	in, n := cBytes(input)
	out, capacity := cBytes(output)
	return progressOf(C.normalise_for_slice(in, n, out, capacity, C.uint64_t(limit),
		C.uint8_t(version)))
}

// progressOf converts the result of a call that normalises.
func progressOf(a C.struct_rtr_answer) (Progress, Status, uint8) {
	progress := Progress{uint64(a.units), uint64(a.forms), int(a.taken), int(a.written)}
	return progress, Status(a.status), uint8(a.detail)
}

// comparison is the result of comparing two inputs: whether they mean the same, or the fault of
// one.
type comparison struct {
	same   bool
	side   Side
	status Status
	detail uint8
	offset int
}

// compare is SameMeaning with a status in place of an error.
func compare(left, right []byte, limit uint64) comparison {
	l, n := cBytes(left)
	r, m := cBytes(right)
	a := C.same_meaning(l, n, r, m, C.uint64_t(limit))
	return comparison{bool(a.same), Side(a.side), Status(a.status), uint8(a.detail), int(a.offset)}
}
