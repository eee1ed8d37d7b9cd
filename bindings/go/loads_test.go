//go:build cgo && linux

package rtr

import (
	"bytes"
	"errors"
	"fmt"
	"os"
	"strings"
	"testing"
)

// recording is a recording or a list of the file tests/loads, which describes its fields.
type recording struct {
	name    string
	units   [][]byte
	data    []byte
	offset  int64
	refused string
	hasCut  bool
}

func (r *recording) bytes() []byte { return bytes.Join(r.units, nil) }

// answers returns the number of ends of data.
func (r *recording) answers() (count int) {
	for _, unit := range r.units {
		if Kind(unit[1]) == EndOfData {
			count++
		}
	}
	return count
}

func readRecordings(t *testing.T) (all []*recording) {
	file, err := os.ReadFile("../../tests/loads")
	if err != nil {
		t.Fatal(err)
	}
	last := &recording{}
	for _, row := range strings.Split(string(file), "\n") {
		word, rest, found := strings.Cut(row, " ")
		switch {
		case !found || word == "#":
		case word == "load":
			last = &recording{name: rest}
			all = append(all, last)
		case word == "unit":
			last.units = append(last.units, unspaced(rest))
		case word == "data":
			last.data = append(last.data, unspaced(rest)...)
		case word == "refused":
			if _, err := fmt.Sscanf(rest, "%d", &last.offset); err != nil {
				t.Fatal(row)
			}
			_, last.refused, _ = strings.Cut(rest, " ")
		case word == "cut":
			last.hasCut = true
		default:
			t.Fatal(row)
		}
	}
	if len(all) <= 40 {
		t.Fatal(len(all))
	}
	return all
}

// checkFault checks that Load refuses an input because of the unit at the offset.
func checkFault(t *testing.T, input []byte, offset int64, text string) {
	data, hasCut, err := Load(input)
	var fault *Fault
	if !errors.As(err, &fault) || !data.IsZero() || hasCut {
		t.Fatal(data, hasCut, err)
	}
	if err.Error() != fmt.Sprintf("rtr: %s, at byte %d", text, offset) {
		t.Fatal(err)
	}
	if fault.Offset != offset || !bytes.HasPrefix(input[offset:], fault.Unit) {
		t.Fatalf("%d %x", fault.Offset, fault.Unit)
	}
	_, _, unread := Next(input[offset:])
	whole := unitLength(append(input[offset:], make([]byte, 8)...))
	if unread == nil && len(fault.Unit) != whole {
		t.Fatalf("%x", fault.Unit)
	}
}

// Each recording and each list is loaded as the file says, or refused.
func TestLoad(t *testing.T) {
	for _, rec := range readRecordings(t) {
		t.Run(rec.name, func(t *testing.T) {
			input := rec.bytes()
			if rec.refused != "" {
				checkFault(t, input, rec.offset, rec.refused)
				return
			}
			data, hasCut, err := Load(input)
			if err != nil || !bytes.Equal(data.Bytes(), rec.data) || hasCut != rec.hasCut {
				t.Fatalf("%x %v %v", data.Bytes(), hasCut, err)
			}
			if parsed, err := ParseData(rec.data); err != nil || !data.Equal(parsed) ||
				data.Len() != parsed.Len() {
				t.Fatal(parsed, err)
			}
			again, hasCut, err := Load(data.Bytes())
			if err != nil || hasCut || !again.Equal(data) {
				t.Fatal(again, err)
			}
		})
	}
}

// A recording that is cut off after any byte is refused, with the offset of the incomplete unit.
func TestLoadCutOff(t *testing.T) {
	for _, rec := range readRecordings(t) {
		if rec.refused != "" || rec.answers() != 1 {
			continue
		}
		t.Run(rec.name, func(t *testing.T) {
			input, begin := rec.bytes(), 0
			for _, unit := range rec.units {
				for length := begin; length < begin+len(unit); length++ {
					checkFault(t, input[:length:length], int64(begin), "unexpected end of input")
				}
				begin += len(unit)
			}
		})
	}
}

// Many payloads in reverse order, and then a withdrawal of each second one.
func TestLoadMany(t *testing.T) {
	const count = 5000
	unit := func(flags byte, asn int) []byte {
		return []byte{1, 4, 0, 0, 0, 0, 0, 20, flags, 8, 8, 0, 10, 0, 0, 0,
			0, 0, byte(asn >> 8), byte(asn)}
	}
	var first, second, left []byte
	for asn := count; asn > 0; asn-- {
		first = append(first, unit(1, asn)...)
		if asn%2 == 0 {
			second = append(second, unit(0, asn)...)
		}
	}
	for asn := 1; asn <= count; asn += 2 {
		left = append(left, unit(1, asn)...)
	}
	data, _, err := Load(join(first, ending(1, 7, 1), second, ending(1, 7, 2)))
	if err != nil || data.Len() != count/2 || !bytes.Equal(data.Bytes(), join(left, ending(1, 7, 2))) {
		t.Fatal(data.Len(), err)
	}
}
