//go:build cgo && linux

package rtr

import (
	"bytes"
	"encoding/binary"
	"errors"
	"fmt"
	"math"
	"sync"
)

// Timing has the three times of an end of data, in seconds (RFC 8210 section 6). Version 0 has
// none.
type Timing struct {
	Refresh uint32 // from an end of data to the next query
	Retry   uint32 // from a query that failed to the next one
	Expire  uint32 // from an end of data to when its data may not be used any more
}

// RecommendedTiming are the times that RFC 8210 section 6 recommends.
var RecommendedTiming = Timing{
	Refresh: usualRefresh, Retry: usualRetry, Expire: usualExpire,
}

// ErrTiming: RFC 8210 section 6 doesn't allow these times.
var ErrTiming = errors.New("rtr: a cache may not send these times")

// Check returns nil if a cache may send these times, else an ErrTiming with the rule of RFC 8210
// section 6 that they break: the refresh time is 1 to 86400 seconds, the retry time 1 to 7200, the
// expire time 600 to 172800, and longer than both.
func (t Timing) Check() error {
	return timesError(brokenTimeRule(t))
}

// timesError returns the error for the rule of this number, or nil for 0.
func timesError(rule uint16) error {
	if rule == 0 {
		return nil
	}
	return fmt.Errorf("%w: %s", ErrTiming, name(namedTimeRule, rule))
}

// Data is the data of a cache, or a router's copy of them: payloads, and an end of data with their
// version, session, serial number and timing. It is kept in canonical form: announcements in the
// order of payloads, no two of the same payload name, all of one version. A Data never changes, so
// several goroutines may use one at once.
//
// The zero Data stands for no data: calls refuse it with Short. NewData makes data without
// payloads.
type Data struct {
	bytes   []byte // the units, and the end of data
	session uint16
	serial  uint32
	timing  Timing
	counted *counted
	lookup  *lookup
}

// counted is what copies of a Data share: the number of its payload units of each kind, which the
// first use counts.
type counted struct {
	once  sync.Once
	kinds [16]int
}

// NewData makes data without payloads. Data of version 0 have no timing.
//
// Errors: a Fault with UnitVersion for a version above 2.
func NewData(version uint8, session uint16, serial uint32, timing Timing) (Data, error) {
	end := Unit{
		Kind: EndOfData, Version: version, Session: session, Serial: serial,
		Refresh: timing.Refresh, Retry: timing.Retry, Expire: timing.Expire,
	}
	bytes, err := end.AppendBinary(nil)
	if err != nil {
		return Data{}, err
	}
	return checkedData(bytes), nil
}

// ParseData parses data in canonical form, without withdrawals, at the start of input. It ignores
// what follows the end of data. Load takes recordings, and lists in any order. The bits of the
// input that have no meaning are zero in the data.
//
// Errors, each a Fault with the offset and the bytes of the unit: Short to PrefixRule;
// NotCanonical.
func ParseData(input []byte) (Data, error) {
	// Applying no changes to data checks their form, and writes them.
	if at := endOf(input); at >= 0 {
		output := make([]byte, at+longestEnd)
		if written, err := apply(input, input[at:], output); err == nil {
			return checkedData(output[:written:written]), nil
		}
	}
	// A delta from data to themselves is only their end of data.
	_, err := delta(input, input, make([]byte, longestEnd))
	return Data{}, err
}

// endOf returns the offset of the first end of data in an input, by the lengths in headers; -1 if
// there is none.
func endOf(input []byte) int {
	for at := 0; at+headerSize <= len(input); {
		size := unitLength(input[at:])
		switch {
		case Kind(input[at+1]) == EndOfData:
			return at
		case size < headerSize || size > len(input)-at:
			return -1
		}
		at += size
	}
	return -1
}

// Load makes data of a whole recording or list, with the payload units in any order. A list is
// payload units and an end of data. A recording is what a cache sent, with or without the router's
// queries: one answer or several, each with or without a cache response. As in a router, an answer
// changes the data before it only in the same session, and if it doesn't answer a reset query (RFC
// 8210 sections 5.1, 5.3 to 5.5, 5.9 and 8). hasCut reports that an answer was left out, since the
// next one began before its end of data.
//
// Errors, each a Fault with the offset and the bytes of the first unit that is refused:
//   - Short to PrefixRule; Short at the end of an input whose last answer has no end of data, or
//     that has no answer;
//   - Duplicate or Unknown if a payload is announced that is present, or withdrawn that isn't (RFC
//     8210 section 12);
//   - OtherVersion for a payload unit or an end of data of another version than the units before it
//     in its answer, or than the data that this changes;
//   - OtherSession for an end of data of another session than its answer; OldSerial if its serial
//     number comes before that of the data that its answer changes (RFC 1982);
//   - ResetInside or ReportInside for a cache reset or an error report inside an answer.
func Load(input []byte) (data Data, hasCut bool, err error) {
	output := make([]byte, len(input))
	length, hasCut, err := load(input, make([]byte, len(input)), output)
	if err != nil {
		return Data{}, false, err
	}
	return checkedData(fitted(output, length)), hasCut, nil
}

// unitLength returns the length in the header of a unit that was checked.
func unitLength(unit []byte) int {
	return int(binary.BigEndian.Uint32(unit[4:]))
}

// checkedData returns the data of these bytes, which were checked, and end with the end of data.
func checkedData(bytes []byte) Data {
	var end Unit
	_, last := parts(bytes)
	end.parse(last)
	return Data{
		bytes: bytes[:len(bytes):len(bytes)], session: end.Session, serial: end.Serial,
		timing:  Timing{Refresh: end.Refresh, Retry: end.Retry, Expire: end.Expire},
		counted: new(counted), lookup: new(lookup),
	}
}

// Equal reports whether two data have the same payloads, version, session, serial number and
// timing.
func (d Data) Equal(other Data) bool {
	return bytes.Equal(d.bytes, other.bytes)
}

// SamePayloads reports whether two data have the same version and payloads.
func (d Data) SamePayloads(other Data) bool {
	if d.IsZero() || other.IsZero() {
		return d.IsZero() && other.IsZero()
	}
	own, _ := parts(d.bytes)
	others, _ := parts(other.bytes)
	return d.Version() == other.Version() && bytes.Equal(own, others)
}

// With returns the data with another session, serial number and timing, without parsing them. Data
// of version 0 have no timing.
//
// Errors: a Fault with Short for the zero Data.
func (d Data) With(session uint16, serial uint32, timing Timing) (Data, error) {
	if d.IsZero() {
		return Data{}, &Fault{Status: Short, Offset: -1}
	}
	other, err := NewData(d.Version(), session, serial, timing)
	if _, end := parts(d.bytes); err != nil || bytes.Equal(end, other.bytes) {
		return d, err
	}
	other.counted = d.counted
	all := append([]byte(nil), d.bytes...) // make would first clear them
	_, end := parts(all)
	copy(end, other.bytes)
	other.bytes = all[:len(all):len(all)]
	return other, nil
}

// IsZero reports whether this is the zero Data.
func (d Data) IsZero() bool {
	return len(d.bytes) == 0
}

// Bytes returns the data in canonical form: the sequence that answers a reset query, after a cache
// response. It isn't a copy: don't change the bytes.
func (d Data) Bytes() []byte {
	return d.bytes
}

// Len returns the number of payloads. The first call of this or Count counts them.
func (d Data) Len() int {
	all := 0
	for _, count := range d.kinds() {
		all += count
	}
	return all
}

// Count returns the number of payloads of a kind.
func (d Data) Count(kind Kind) int {
	kinds := d.kinds()
	if int(kind) >= len(kinds) {
		return 0
	}
	return kinds[kind]
}

// kinds returns the number of payloads of each kind.
func (d Data) kinds() [16]int {
	if d.IsZero() {
		return [16]int{}
	}
	d.counted.once.Do(func() {
		for units, _ := parts(d.bytes); len(units) > 0; units = units[unitLength(units):] {
			d.counted.kinds[units[1]%16]++
		}
	})
	return d.counted.kinds
}

// some returns 0 if there are no payloads, else 1: what a group asks, without a count.
func (d Data) some() int {
	if endOffset(d.bytes) > 0 {
		return 1
	}
	return 0
}

// Version returns the protocol version of each unit and of the end of data.
func (d Data) Version() uint8 {
	if d.IsZero() {
		return 0
	}
	return d.bytes[0]
}

// Session returns the session of the end of data.
func (d Data) Session() uint16 {
	return d.session
}

// Serial returns the serial number of the end of data.
func (d Data) Serial() uint32 {
	return d.serial
}

// Timing returns the times of the end of data, zero in version 0.
func (d Data) Timing() Timing {
	return d.timing
}

// For converts the data for clients of a protocol version: without the payloads that the version
// lacks, and with an end of data of this version. Data of version 0 get the recommended timing in
// other versions.
//
// Errors, each a Fault: UnitVersion for a version above 2.
func (d Data) For(version uint8) (Data, error) {
	if version == d.Version() && !d.IsZero() {
		return d, nil
	}
	form, err := formFor(d.bytes, version)
	if err != nil {
		return Data{}, err
	}
	return checkedData(form), nil
}

// formFor converts a sequence in canonical form to a version.
func formFor(sequence []byte, version uint8) ([]byte, error) {
	output := make([]byte, len(sequence)+longestEnd)
	progress, err := NormaliseFor(sequence, output, math.MaxUint64, version)
	return fitted(output, progress.Written), err
}

// parts returns the payload units of a sequence in canonical form, and its end of data.
func parts(sequence []byte) (units, end []byte) {
	offset := endOffset(sequence)
	return sequence[:offset], sequence[offset:]
}

// fitted returns the written front of an output; a copy, if more than a quarter isn't used.
func fitted(output []byte, written int) []byte {
	if written < len(output)-len(output)/4 {
		return append([]byte{}, output[:written]...)
	}
	return output[:written:written]
}

// Units returns a loop over the payload units of the data, in the order of payloads.
//
//	for units := data.Units(); units.Scan(); {
//		fmt.Println(units.Unit().Kind)
//	}
func (d Data) Units() *Units {
	return &Units{rest: d.bytes}
}

// Units is a loop over the payload units of Data or of an Update.
type Units struct {
	rest  []byte
	form  []byte // the current unit
	unit  Unit
	ahead *decoded
}

// Scan moves to the next payload unit, for Unit. It returns false after the last one.
func (u *Units) Scan() bool {
	if len(u.rest) == 0 || Kind(u.rest[1]) == EndOfData {
		return false
	}
	if u.ahead == nil {
		u.ahead = new(decoded)
	}
	if u.ahead.next == u.ahead.count {
		u.ahead.fill(u.rest, len(u.ahead.units))
	}
	if u.ahead.count == 0 {
		return false
	}
	rest := u.ahead.take(&u.unit, u.rest)
	u.form, u.rest = u.rest[:len(u.rest)-len(rest)], rest
	return true
}

// Unit returns the current unit. It is valid until the next call of Scan; Clone copies it.
func (u *Units) Unit() *Unit {
	return &u.unit
}

// AppendLine appends to b what ChangeLine returns for the current unit, without another copy.
func (u *Units) AppendLine(b []byte) []byte {
	return appendChange(changeLine, b, u.form)
}

// AppendJSON is like AppendLine, for ChangeJSON.
func (u *Units) AppendJSON(b []byte) []byte {
	return appendChange(changeJSON, b, u.form)
}

// Delta returns the changes that lead a router from the old data to the new (RFC 8210 section 8.2),
// in canonical form, with the end of data of the new. Apply applies them to the old data.
//
// Errors, each a Fault, in this order: Short for the zero Data; UnitVersion if the new data are of
// another version; OtherSession if they are of another session.
func Delta(old, new Data) ([]byte, error) {
	return leading(delta, old, new)
}

// leading returns what a call writes for the changes from old data to new.
func leading(call func(old, new, output []byte) (int, error), old, new Data) ([]byte, error) {
	// Most changes are much shorter than the data.
	output := make([]byte, len(old.bytes)/8+len(new.bytes)/8)
	written, err := call(old.bytes, new.bytes, output)
	if errors.Is(err, NoRoom) {
		output = make([]byte, len(old.bytes)+len(new.bytes))
		written, err = call(old.bytes, new.bytes, output)
	}
	if err != nil {
		return nil, err
	}
	return fitted(output, written), nil
}

// changesBetween returns the changes between data of any versions and sessions, in the higher
// version. The zero Data stands for none.
func changesBetween(old, new Data) ([]byte, error) {
	if old.IsZero() { // also if both are
		return new.bytes, nil
	}
	return leading(between, old, new)
}

// Apply returns the data after all of the changes, with the end of data of the changes, or an
// error. An announced ASPA replaces the one of its customer. The changes are in canonical form, as
// Delta and Order write them; what follows their end of data is ignored.
//
// Errors, each a Fault, in this order, with offsets in the changes:
//   - Short for the zero Data;
//   - Short to PrefixRule, or NotCanonical, at the first unit of the changes that is refused;
//   - UnitVersion or OtherSession if the changes are of another version or session than the data;
//   - Duplicate or Unknown at the first of the changes that isn't allowed (RFC 8210 section 12);
//     the cache is owed a report.
func Apply(data Data, changes []byte) (Data, error) {
	output := make([]byte, len(data.bytes)+len(changes))
	written, err := apply(data.bytes, changes, output)
	if err != nil {
		return Data{}, err
	}
	return checkedData(fitted(output, written)), nil
}

// ApplyInOrder returns the data after the changes of an answer, applied one after the other in the
// order in which they came, with the end of data of the changes, or an error. An announced ASPA
// replaces the one of its customer. The changes are a sequence, as a cache sends it after its
// response; what follows its end of data is ignored.
//
// Errors, each a Fault, in this order, with offsets in the changes:
//   - Short for the zero Data;
//   - Short to PrefixRule at the first unit of the changes that is refused, or NotCanonical at one
//     that isn't of the version of those before it;
//   - UnitVersion or OtherSession if the changes are of another version or session than the data;
//   - Duplicate or Unknown at the first of the changes, as they came, that announces a payload that
//     is then present, or withdraws one that isn't (RFC 8210 section 12); the cache is owed a
//     report.
func ApplyInOrder(data Data, changes []byte) (Data, error) {
	output := make([]byte, len(data.bytes)+len(changes))
	written, err := applyInOrder(data.bytes, changes, output, len(changes)/shortestPayload)
	if err != nil {
		return Data{}, err
	}
	return checkedData(fitted(output, written)), nil
}

// Order returns the net effect of the sequence at the start of changes, in canonical form. Caches
// send deltas in any order, and Apply takes them only in canonical form; ApplyInOrder takes them as
// they are. If each of the changes is allowed, Apply with the result of Order has the same effect
// as the changes one after the other.
//
// Errors, each a Fault with the offset and the bytes of the unit, in this order:
//   - Short to PrefixRule, at the first unit that is refused;
//   - NotCanonical if a unit isn't of the version of the end of data;
//   - Duplicate or Unknown if a payload is announced, or withdrawn, twice with nothing in between,
//     at the second unit;
//   - Undecided if an ASPA is announced and in the end withdrawn, at its last withdrawal.
//
// If several units break one of the last two rules, it is the first in the order of payloads.
func Order(changes []byte) ([]byte, error) {
	output := make([]byte, len(changes))
	written, err := order(changes, output, len(changes)/shortestPayload)
	if err != nil {
		return nil, err
	}
	return fitted(output, written), nil
}
