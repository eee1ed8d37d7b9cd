//go:build cgo && linux

package rtr

import (
	"errors"
	"net/netip"
	"strings"
	"testing"
)

// A line that doesn't fit the first buffer, and units that are incomplete or have no line.
func TestLongLines(t *testing.T) {
	long := append([]byte{1, 10, 0, 0, 0, 0, 4, 16, 0, 0, 0, 0, 0, 0, 4, 0}, make([]byte, 1024)...)
	line, _, err := UnitLine(nil, long, 0)
	want := `0 v1 error report code 0 (Corrupt Data) pdu "" text "` +
		strings.Repeat(`\x00`, 1024) + `"`
	if err != nil || string(line) != want {
		t.Errorf("%v, a line of %d bytes, but expected are %d", err, len(line), len(want))
	}
	for length := range long {
		if line, _, err := UnitLine(nil, long[:length], 0); !errors.Is(err, Short) || len(line) > 0 {
			t.Fatalf("%v with %d bytes", err, length)
		}
	}
	if _, _, err := UnitLine(nil, []byte{1, 5, 0, 0, 0, 0, 0, 8}, 0); !errors.Is(err, UnitType) {
		t.Error(err)
	}
}

// A loop appends the lines of its units to what the buffer has, however long they are.
func TestAppendedLines(t *testing.T) {
	key := &Unit{Kind: RouterKey, Version: 1, Announce: true, KeyInfo: make([]byte, 4*lineRoom)}
	prefix := &Unit{Kind: IPv4Prefix, Version: 1, Announce: true, MaxLength: 8,
		Prefix: netip.MustParsePrefix("10.0.0.0/8")}
	end := &Unit{Kind: EndOfData, Version: 1, Session: 1, Serial: 1}
	var sequence []byte
	for _, unit := range []*Unit{prefix, key, end} {
		var err error
		if sequence, err = unit.AppendBinary(sequence); err != nil {
			t.Fatal(err)
		}
	}
	units := &Units{rest: sequence}
	for _, want := range []*Unit{prefix, key} {
		if !units.Scan() {
			t.Fatal("no unit")
		}
		line, object := units.AppendLine([]byte("1 ")), units.AppendJSON([]byte("2 "))
		if string(line) != "1 "+ChangeLine(want) || string(object) != "2 "+ChangeJSON(want) {
			t.Errorf("%.80s, %.80s", line, object)
		}
	}
	if units.Scan() {
		t.Error("an end of data is no payload")
	}
}
