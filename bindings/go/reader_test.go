//go:build cgo && linux

package rtr

import (
	"bytes"
	"encoding/binary"
	"errors"
	"io"
	"math"
	"reflect"
	"testing"
	"testing/iotest"
)

// asRead is the ways in which an io.Reader may return its bytes.
var asRead = map[string]func(io.Reader) io.Reader{
	"whole":           func(r io.Reader) io.Reader { return r },
	"one byte a read": iotest.OneByteReader,
	"half":            iotest.HalfReader,
	"error with data": iotest.DataErrReader,
	"empty reads":     func(r io.Reader) io.Reader { return &emptyReader{reader: r} },
}

// emptyReader reads nothing each second time.
type emptyReader struct {
	reader io.Reader
	empty  bool
}

func (e *emptyReader) Read(b []byte) (int, error) {
	e.empty = !e.empty
	if e.empty {
		return 0, nil
	}
	return iotest.OneByteReader(e.reader).Read(b)
}

type readerFunc func([]byte) (int, error)

func (f readerFunc) Read(b []byte) (int, error) { return f(b) }

type writerFunc func([]byte) (int, error)

func (f writerFunc) Write(b []byte) (int, error) { return f(b) }

var errFailed = errors.New("failed")

// A session of all kinds is read, however its bytes come, and written back.
func TestReader(t *testing.T) {
	for name, as := range asRead {
		var written bytes.Buffer
		reader, writer := NewReader(as(bytes.NewReader(session()))), NewWriter(&written)
		offset := int64(0)
		for _, s := range shownUnits {
			if reader.Offset() != offset {
				t.Fatalf("%s: at %d", name, reader.Offset())
			}
			unit, err := reader.Next()
			if err != nil || !reflect.DeepEqual(*unit, s.unit) || !bytes.Equal(reader.Bytes(), s.bytes) {
				t.Fatalf("%s: %+v %v", name, unit, err)
			}
			if err := writer.Write(unit); err != nil {
				t.Fatal(err)
			}
			offset += int64(len(s.bytes))
		}
		for i := 0; i < 3; i++ {
			if unit, err := reader.Next(); unit != nil || err != io.EOF || reader.Offset() != offset {
				t.Fatalf("%s: %+v %v", name, unit, err)
			}
		}
		if !bytes.Equal(written.Bytes(), session()) {
			t.Fatalf("%s: %x", name, written.Bytes())
		}
	}
}

// A session that is truncated at each of its bytes: whole units come, and then io.EOF between two
// units, or else a fault that is an io.ErrUnexpectedEOF, and has the offset and the bytes of the
// unit.
func TestCut(t *testing.T) {
	all := session()
	for cut := range all {
		for name, as := range asRead {
			reader := NewReader(as(bytes.NewReader(all[:cut])))
			at := 0
			for _, s := range shownUnits {
				if at+len(s.bytes) > cut {
					break
				}
				unit, err := reader.Next()
				if err != nil || !reflect.DeepEqual(*unit, s.unit) {
					t.Fatalf("%d, %s: %+v %v", cut, name, unit, err)
				}
				at += len(s.bytes)
			}
			unit, err := reader.Next()
			if unit != nil || reader.Offset() != int64(at) || (err == io.EOF) != (at == cut) {
				t.Fatalf("%d, %s: %+v %v", cut, name, unit, err)
			}
			var fault *Fault
			if err != io.EOF && (!errors.Is(err, io.ErrUnexpectedEOF) || !errors.As(err, &fault) ||
				fault.Offset != int64(at) || !bytes.Equal(fault.Unit, all[at:cut])) {
				t.Fatalf("%d, %s: %v", cut, name, err)
			}
		}
	}
}

// A sequence that ends without an end of data ends with an io.ErrUnexpectedEOF, even between two
// units.
func TestCutSequence(t *testing.T) {
	all := join(ipv4, key, end)
	for cut := 0; cut <= len(all); cut++ {
		sequence := NewReader(bytes.NewReader(all[:cut])).Sequence(3)
		count, expected := 0, 0
		for sequence.Scan() {
			count++
		}
		for _, size := range []int{len(ipv4), len(ipv4) + len(key), len(all)} {
			if size <= cut {
				expected++
			}
		}
		err := sequence.Err()
		if count != expected || (err == nil) != (cut == len(all)) ||
			errors.Is(err, io.ErrUnexpectedEOF) != (err != nil) {
			t.Fatalf("%d: %d units, %v", cut, count, err)
		}
	}
}

// A sequence begins at the Reader's position, ends after its end of data, and has no other units.
func TestSequenceInSession(t *testing.T) {
	reader := NewReader(bytes.NewReader(join(cacheResponse, ipv4, end, serialNotify)))
	if unit, err := reader.Next(); err != nil || unit.Kind != CacheResponse {
		t.Fatal(err)
	}
	var kinds []Kind
	sequence := reader.Sequence(2)
	for sequence.Scan() {
		kinds = append(kinds, sequence.Unit().Kind)
	}
	if sequence.Err() != nil || !reflect.DeepEqual(kinds, []Kind{IPv4Prefix, EndOfData}) {
		t.Fatalf("%v %v", kinds, sequence.Err())
	}
	if unit, err := reader.Next(); err != nil || unit.Kind != SerialNotify {
		t.Fatalf("%v %v", unit, err)
	}
	for _, other := range []byte{0, 1, 2, 3, 5, 8, 10, 12, 255} {
		// Its length doesn't matter.
		sequence := NewReader(bytes.NewReader([]byte{1, other, 0, 0, 0xff, 0, 0, 0})).Sequence(1)
		if sequence.Scan() {
			t.Fatalf("%v", Kind(other))
		}
		if status, detail := numbers(sequence.Err()); Status(status) != UnitType || detail != other {
			t.Fatalf("%v: %v", Kind(other), sequence.Err())
		}
	}
}

// failing returns an error at every second read, and the bytes in between one by one.
type failing struct {
	rest   []byte
	failed bool
}

func (f *failing) Read(b []byte) (int, error) {
	f.failed = !f.failed
	if f.failed {
		return 0, errFailed
	}
	if len(f.rest) == 0 {
		return 0, io.EOF
	}
	n := copy(b[:1], f.rest)
	f.rest = f.rest[n:]
	return n, nil
}

// An io.Reader that fails at each byte: its error is returned unchanged, and nothing is lost.
func TestFailing(t *testing.T) {
	reader := NewReader(&failing{rest: session()})
	failures := 0
	next := func() (*Unit, error) {
		for {
			unit, err := reader.Next()
			if err != errFailed {
				return unit, err
			}
			if unit != nil || len(reader.Bytes()) != 0 {
				t.Fatalf("%v", unit)
			}
			failures++
		}
	}
	for _, s := range shownUnits {
		if unit, err := next(); err != nil || !reflect.DeepEqual(*unit, s.unit) {
			t.Fatalf("%+v %v", unit, err)
		}
	}
	if _, err := next(); err != io.EOF || failures != len(session())+1 {
		t.Fatalf("%d %v", failures, err)
	}
}

// io.Readers that read nothing forever, or return impossible results.
func TestOddReaders(t *testing.T) {
	stuck := readerFunc(func([]byte) (int, error) { return 0, nil })
	if _, err := NewReader(stuck).Next(); err != io.ErrNoProgress {
		t.Fatal(err)
	}
	for _, n := range []int{-1, 9, math.MaxInt} {
		n := n
		wrong := readerFunc(func([]byte) (int, error) { return n, nil })
		if _, err := NewReader(wrong).Next(); err != errCount {
			t.Fatal(err)
		}
	}
}

// hostile is a header and the fault that it is refused with, by docs/PROTOCOL.md.
type hostile struct {
	version, kind, flags byte
	length               uint32
	status               Status
}

// hostileLengths has headers of every type.
func hostileLengths() []hostile {
	var rows []hostile
	for kind, size := range map[byte]uint32{0: 12, 1: 12, 2: 8, 3: 8, 4: 20, 6: 32, 8: 8} {
		for _, length := range []uint32{
			0, 1, 7, size - 1, size + 1, size + 256, 65535, 65536, 1 << 31, 1<<32 - 1,
		} {
			rows = append(rows, hostile{1, kind, 0, length, UnitLength})
		}
	}
	for _, length := range []uint32{0, 7, 8, 11, 13, 23, 24, 25, 65536, 1<<32 - 1} {
		rows = append(rows, hostile{0, 7, 0, length, UnitLength}, hostile{3, 7, 0, length, UnitVersion})
	}
	for _, length := range []uint32{0, 7, 8, 11, 12, 13, 23, 25, 65536, 1<<32 - 1} {
		rows = append(rows, hostile{1, 7, 0, length, UnitLength}, hostile{2, 7, 0, length, UnitLength})
	}
	for kind, least := range map[byte]uint32{9: 32, 10: 16, 11: 12} {
		for _, length := range []uint32{0, 7, 8, least - 1} {
			rows = append(rows, hostile{2, kind, 0, length, UnitLength})
		}
		for _, length := range []uint32{65536, 65537, 1 << 31, 1<<32 - 1} {
			rows = append(rows, hostile{2, kind, 1, length, TooLong})
		}
	}
	for _, length := range []uint32{13, 17, 65535} {
		rows = append(rows, hostile{2, 11, 1, length, UnitLength})
	}
	for _, kind := range []byte{5, 12, 255} {
		rows = append(rows, hostile{1, kind, 0, 1<<32 - 1, UnitType})
	}
	return append(rows, hostile{2, 11, 1, 12, EmptyProviders},
		hostile{2, 11, 0xff, 12, EmptyProviders})
}

// A hostile length is refused before anything but the header is read, and before the buffer grows.
func TestHostileLengths(t *testing.T) {
	for _, row := range hostileLengths() {
		input := make([]byte, 108)
		copy(input, []byte{row.version, row.kind, row.flags})
		binary.BigEndian.PutUint32(input[4:], row.length)
		rest := bytes.NewReader(input)
		reader := NewReader(rest)
		for i := 0; i < 2; i++ {
			var fault *Fault
			unit, err := reader.Next()
			if unit != nil || !errors.As(err, &fault) || fault.Status != row.status || fault.Offset != 0 {
				t.Fatalf("%+v: %v %v", row, unit, err)
			}
			if !bytes.Equal(fault.Unit, input[:8]) || rest.Len() != 100 ||
				len(reader.buffer) != firstBuffer {
				t.Fatalf("%+v: %+v, %d bytes left", row, fault, rest.Len())
			}
		}
		if _, _, err := Next(input); !errors.Is(err, row.status) {
			t.Fatalf("%+v: %v", row, err)
		}
		if size, err := UnitSize(input); size != 0 || !errors.Is(err, row.status) {
			t.Fatalf("%+v: %d %v", row, size, err)
		}
	}
}

// No byte after the unit is read, and the buffer is never longer than 65535 bytes.
func TestNothingReadAhead(t *testing.T) {
	input := bytes.NewReader(nil)
	reader := NewReader(input)
	for _, size := range []int{32, 33, 64, 65, 127, 128, 129, 1000, 40000, 40001, 65535} {
		unit := Unit{Kind: RouterKey, Version: 1, KeyInfo: make([]byte, size-32)}
		form, err := unit.MarshalBinary()
		if err != nil {
			t.Fatal(err)
		}
		for _, reader := range []*Reader{reader, NewReader(input)} {
			input.Reset(append(form, 7))
			if _, err := reader.Next(); err != nil || input.Len() != 1 || len(reader.buffer) > 65535 {
				t.Fatalf("%d: %d bytes left, %v", size, input.Len(), err)
			}
		}
	}
}

// A Sequence ends when its io.Reader fails, and another continues.
func TestSequenceFails(t *testing.T) {
	reader := NewReader(&failing{rest: join(ipv4, end)})
	var kinds []Kind
	for failures := 0; ; failures++ {
		sequence := reader.Sequence(2)
		for sequence.Scan() {
			kinds = append(kinds, sequence.Unit().Kind)
		}
		if sequence.Scan() {
			t.Fatal("it goes on")
		}
		if sequence.Err() == nil {
			break
		}
		if sequence.Err() != errFailed || failures > len(ipv4)+len(end) {
			t.Fatal(sequence.Err())
		}
	}
	if !reflect.DeepEqual(kinds, []Kind{IPv4Prefix, EndOfData}) {
		t.Fatal(kinds)
	}
}

// A prefix that breaks its rule is refused with its bytes, and the next call skips it.
func TestGoingOn(t *testing.T) {
	refused := []byte{1, 4, 0, 0, 0, 0, 0, 20, 1, 33, 33, 0, 192, 0, 2, 0, 0, 1, 0, 15}
	reader := NewReader(bytes.NewReader(join(ipv6, refused, ipv4)))
	if unit, err := reader.Next(); err != nil || unit.Kind != IPv6Prefix {
		t.Fatal(err)
	}
	var fault *Fault
	unit, err := reader.Next()
	if unit != nil || !errors.As(err, &fault) || fault.Status != PrefixRule || fault.Detail != 1 ||
		fault.Offset != 32 || !bytes.Equal(reader.Bytes(), refused) || reader.Offset() != 52 {
		t.Fatalf("%+v %v", unit, err)
	}
	if unit, err := reader.Next(); err != nil || unit.Kind != IPv4Prefix {
		t.Fatal(err)
	}
	if !bytes.Equal(fault.Unit, refused) {
		t.Fatalf("%x: the fault has no bytes of its own", fault.Unit)
	}
}

// An io.Writer that fails, and one that writes less than it should.
func TestWriterFails(t *testing.T) {
	unit := shownUnits[4].unit
	failing := writerFunc(func([]byte) (int, error) { return 3, errFailed })
	if err := NewWriter(failing).Write(&unit); err != errFailed {
		t.Fatal(err)
	}
	short := writerFunc(func(b []byte) (int, error) { return len(b) - 1, nil })
	if err := NewWriter(short).Write(&unit); err != io.ErrShortWrite {
		t.Fatal(err)
	}
}

// Each unit is one call of Write.
func TestWholeWrites(t *testing.T) {
	var sizes, expected []int
	writer := NewWriter(writerFunc(func(b []byte) (int, error) {
		sizes = append(sizes, len(b))
		return len(b), nil
	}))
	for _, s := range shownUnits {
		if err := writer.Write(&s.unit); err != nil {
			t.Fatal(err)
		}
		expected = append(expected, len(s.bytes))
	}
	if !reflect.DeepEqual(sizes, expected) {
		t.Fatalf("%v", sizes)
	}
}
