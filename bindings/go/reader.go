//go:build cgo && linux

package rtr

import (
	"errors"
	"io"
)

// Reader reads units of all kinds from an io.Reader, one at a time. It reads a unit's header, and
// then exactly the rest of the unit: it never reads ahead. So give it a bufio.Reader where reads
// are expensive, as on a socket or a file.
//
// The length in a header is checked first: the buffer doesn't grow for a length that no unit has,
// and never above 65535 bytes.
type Reader struct {
	reader io.Reader
	buffer []byte
	filled int   // bytes in buffer: of the last unit, or of an incomplete one
	size   int   // of the last unit, which the next call drops; 0 after an error
	offset int64 // of the first byte in buffer
	unit   Unit
}

// The buffer's first size: enough for all units but some router keys, error reports and ASPAs.
const firstBuffer = 64

// The number of reads in a row that may return neither bytes nor an error.
const emptyReads = 100

// ErrNoReader: the Reader has no io.Reader, like the zero one.
var ErrNoReader = errors.New("rtr: the Reader has no io.Reader: NewReader makes one that has")

var errCount = errors.New(
	"rtr: the io.Reader or the connection returned an impossible count of bytes")

// NewReader returns a Reader that reads from an io.Reader.
func NewReader(reader io.Reader) *Reader {
	return &Reader{reader: reader, buffer: make([]byte, firstBuffer)}
}

// Next reads a unit. The unit, and its slices, are valid until the next call; Clone copies them.
// Next allocates nothing unless the buffer has to grow or there is an error.
//
// Errors:
//   - io.EOF if the input ends after a complete unit, or is empty;
//   - a Fault with Short, which is an io.ErrUnexpectedEOF too, if it ends inside a unit;
//   - a Fault with one of UnitType to EmptyProviders if a header is refused. What follows it isn't
//     read, and each further call returns the same;
//   - a Fault with PrefixRule if the lengths of a prefix break their rule. The next call continues
//     after that unit;
//   - that of the io.Reader, unchanged. The bytes read so far are kept, so that the next call
//     continues there, for instance after a deadline;
//   - ErrNoReader for the zero Reader.
func (r *Reader) Next() (*Unit, error) {
	return r.next(false)
}

// next is Next; inside a sequence it also refuses the types that a sequence can't have.
func (r *Reader) next(inSequence bool) (*Unit, error) {
	if r == nil || r.reader == nil {
		return nil, ErrNoReader
	}
	if r.size > 0 {
		r.offset += int64(r.size)
		r.filled, r.size = 0, 0
	}
	if err := r.fill(headerSize); err != nil {
		return nil, r.ended(err)
	}
	if kind := r.buffer[1]; inSequence && !Kind(kind).inSequence() {
		return nil, r.fault(UnitType, kind)
	}
	size, status, detail := unitSize(r.buffer[:headerSize])
	if status != OK {
		return nil, r.fault(status, detail)
	}
	if err := r.fill(size); err != nil {
		return nil, r.ended(err)
	}
	size, status, detail = r.unit.parse(r.buffer[:size])
	r.size = size
	if status != OK {
		return nil, r.fault(status, detail)
	}
	return &r.unit, nil
}

// fill reads until the buffer has size bytes of the unit.
func (r *Reader) fill(size int) error {
	r.grow(size)
	for empty := 0; r.filled < size; {
		n, err := r.reader.Read(r.buffer[r.filled:size])
		if n < 0 || n > size-r.filled {
			return errCount
		}
		r.filled += n
		if err != nil && r.filled < size {
			return err
		}
		if n > 0 {
			empty = 0
		} else if empty++; empty == emptyReads {
			return io.ErrNoProgress
		}
	}
	return nil
}

// grow grows the buffer to at least this size; it at least doubles, up to the longest unit.
func (r *Reader) grow(size int) {
	if size <= len(r.buffer) {
		return
	}
	if twice := 2 * len(r.buffer); size < twice {
		size = twice
	}
	if size > longestUnit {
		size = longestUnit
	}
	buffer := make([]byte, size)
	copy(buffer, r.buffer[:r.filled])
	r.buffer = buffer
}

// ended returns the error of an incomplete unit.
func (r *Reader) ended(err error) error {
	if err == io.EOF && r.filled > 0 {
		return r.fault(Short, 0)
	}
	return err
}

// fault returns a fault of the unit in the buffer, with a copy of its bytes.
func (r *Reader) fault(status Status, detail uint8) error {
	unit := append([]byte{}, r.buffer[:r.filled]...)
	return &Fault{Status: status, Detail: detail, Offset: r.offset, Unit: unit}
}

// Offset returns the offset of the next unit: the bytes of all units so far.
func (r *Reader) Offset() int64 {
	return r.offset + int64(r.size)
}

// Bytes returns the bytes of the unit that Next returned, as they were read, or of a prefix that it
// refused; none after another error. They are valid until the next call.
func (r *Reader) Bytes() []byte {
	return r.buffer[:r.size:r.size]
}

// Sequence is a loop over the units of a sequence: payload units up to an end of data, as a cache
// sends them after its cache response.
//
//	sequence := reader.Sequence(1 << 24)
//	for sequence.Scan() {
//		unit := sequence.Unit()
//	}
//	if err := sequence.Err(); err != nil {
//		return err
//	}
type Sequence struct {
	reader *Reader
	limit  uint64
	unit   *Unit
	err    error
	ended  bool
}

// Sequence begins a sequence with the next unit. It has at most limit units, including the end of
// data.
func (r *Reader) Sequence(limit uint64) *Sequence {
	return &Sequence{reader: r, limit: limit}
}

// Scan reads the next unit, for Unit. It returns false after the end of data, and at an error.
func (s *Sequence) Scan() bool {
	if s.ended {
		return false
	}
	s.unit, s.err = s.next()
	if s.err != nil {
		s.ended = true
		return false
	}
	s.ended = s.unit.Kind == EndOfData
	s.limit--
	return true
}

// next reads the next unit; the end of the input is an error.
func (s *Sequence) next() (*Unit, error) {
	if s.reader == nil {
		return nil, ErrNoReader
	}
	if s.limit == 0 {
		return nil, &Fault{Status: TooMany, Offset: s.reader.Offset()}
	}
	unit, err := s.reader.next(true)
	if err == io.EOF {
		err = s.reader.fault(Short, 0)
	}
	return unit, err
}

// Unit returns the unit that Scan read: a payload unit, or at last the end of data. It is valid
// until the next call; Clone copies it. After an error it is nil.
func (s *Sequence) Unit() *Unit {
	return s.unit
}

// Err returns the error that ended the loop; nil if the end of data did. After an error of the
// io.Reader another Sequence can continue.
//
// Errors: a Fault with TooMany, before a unit is read; those of Reader.Next, but a Fault with Short
// instead of io.EOF, and first of all UnitType for a type that no sequence has.
func (s *Sequence) Err() error {
	return s.err
}

// Collect reads the rest of the sequence, and returns the bytes of its units as they were read:
// changes, which Order puts into canonical form for Apply. It keeps at most this number of bytes.
//
// Errors: those of Err, and a Fault with NoRoom at the unit that doesn't fit. The units before it
// are lost.
func (s *Sequence) Collect(most int) ([]byte, error) {
	var all []byte
	for s.Scan() {
		unit := s.reader.Bytes()
		if len(unit) > most-len(all) {
			return nil, &Fault{Status: NoRoom, Offset: s.reader.offset}
		}
		all = append(all, unit...)
	}
	return all, s.Err()
}
