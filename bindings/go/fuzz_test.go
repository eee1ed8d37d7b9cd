//go:build cgo && linux

package rtr

import (
	"bytes"
	"io"
	"reflect"
	"testing"
	"testing/iotest"
)

// A Reader returns the same units as Next for any bytes, however they come; and the form of a unit
// means the same.
func FuzzReader(f *testing.F) {
	f.Add(session())
	for _, shown := range shownUnits {
		f.Add(shown.bytes)
	}
	f.Fuzz(func(t *testing.T, input []byte) {
		reader, rest := NewReader(iotest.OneByteReader(bytes.NewReader(input))), input
		for len(rest) > 0 {
			expected, after, err := Next(rest)
			unit, failed := reader.Next()
			if status, detail := numbers(err); err != nil {
				if s, d := numbers(failed); s != status || d != detail || reader.Offset() < 0 {
					t.Fatalf("%x: %v, and in memory %v", rest, failed, err)
				}
				return
			}
			if failed != nil || !reflect.DeepEqual(*unit, expected) {
				t.Fatalf("%x: %+v %v, and in memory %+v", rest, unit, failed, expected)
			}
			form, err := unit.MarshalBinary()
			if err != nil || len(form) > len(rest)-len(after) {
				t.Fatalf("%x: %x %v", rest, form, err)
			}
			again, _, err := Next(form)
			if err != nil {
				t.Fatalf("%x: %v", form, err)
			}
			if second, err := again.MarshalBinary(); err != nil || !bytes.Equal(second, form) {
				t.Fatalf("%x: %x %v", form, second, err)
			}
			rest = after
		}
		if unit, err := reader.Next(); unit != nil || err != io.EOF {
			t.Fatalf("%+v %v", unit, err)
		}
	})
}

// The result of Order for any bytes is in canonical form, and a fixed point; the delta from no data
// to data is the data; and the delta between two data turns one into the other.
func FuzzOrder(f *testing.F) {
	f.Add(join(ipv4, announced6, key, end))
	f.Add(join(withdrawn4, otherIPv4, announced6, end))
	f.Add(join(aspa, withdrawn, changed(end, 0, 2)))
	f.Fuzz(func(t *testing.T, input []byte) {
		ordered, err := Order(input)
		if err != nil {
			if data, err := ParseData(input); err == nil {
				t.Fatalf("%x are data: %x", input, data.Bytes())
			}
			return
		}
		again, err := Order(ordered)
		if err != nil || !bytes.Equal(again, ordered) {
			t.Fatalf("%x: %x %v", ordered, again, err)
		}
		data, err := ParseData(ordered)
		if err != nil {
			return // something is withdrawn
		}
		nothing, err := NewData(data.Version(), data.Session(), 0, RecommendedTiming)
		if err != nil {
			t.Fatal(err)
		}
		changes, err := Delta(nothing, data)
		if err != nil || !bytes.Equal(changes, data.Bytes()) || !bytes.Equal(changes, ordered) {
			t.Fatalf("%x: %x %v", ordered, changes, err)
		}
		back, err := Delta(data, nothing)
		if err != nil {
			t.Fatal(err)
		}
		if left, err := Apply(data, back); err != nil || !left.Equal(nothing) {
			t.Fatalf("%x: %x %v", back, left.Bytes(), err)
		}
	})
}
