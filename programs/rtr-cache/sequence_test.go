package main

import (
	"strings"
	"testing"

	"fishreef/programs/internal/trial"
)

// Units of version 1, for recordings.
const (
	resetQuery  = "\x01\x02\x00\x00\x00\x00\x00\x08"
	serialQuery = "\x01\x01\x12\x34\x00\x00\x00\x0c\x00\x00\x00\x07"
	response    = "\x01\x03\x12\x34\x00\x00\x00\x08"
	withdrawn   = "\x01\x04\x00\x00\x00\x00\x00\x14\x00\x18\x18\x00\xc0\x00\x02\x00\x00\x00\xfb\xf0"
	announced   = "\x01\x04\x00\x00\x00\x00\x00\x14\x01\x18\x18\x00\xc0\x00\x02\x00\x00\x00\xfb\xf0"
	other       = "\x01\x04\x00\x00\x00\x00\x00\x14\x01\x18\x1a\x00\xc6\x33\x64\x00\x00\x00\xfb\xf1"
)

// end returns an end of data with this serial number.
func end(serial string) string {
	return "\x01\x07\x12\x34\x00\x00\x00\x18\x00\x00\x00" + serial +
		"\x00\x00\x0e\x10\x00\x00\x02\x58\x00\x00\x1c\x20"
}

// A file of units is a recording of one or several answers, or a list, in any order; the data after
// all of them are served. An invalid one is refused, with the offset.
func TestSequences(t *testing.T) {
	folder := t.TempDir()
	const (
		first  = "IPv4 prefix 192.0.2.0/24-24 AS64496"
		second = "IPv4 prefix 198.51.100.0/24-26 AS64497"
	)
	for _, c := range []struct{ name, units, leaves string }{
		{"a list", announced + other + end("\x07"), first + "\n" + second},
		{"in another order", other + announced + end("\x07"), first + "\n" + second},
		{"an answer", response + other + announced + end("\x07"), first + "\n" + second},
		{"with its query", resetQuery + response + announced + end("\x07"), first},
		{
			"two answers",
			response + announced + end("\x07") + serialQuery + response + other + withdrawn +
				end("\x08"), second,
		},
	} {
		trial.Write(t, folder+"/f", c.units)
		process, address := started(t, folder, "--sequence", "f")
		process.Says("f: session", 1)
		if data := fetched(t, address, 2); lines(data) != c.leaves {
			t.Errorf("%s: %s", c.name, lines(data))
		}
		process.End()
	}
	whole := response + announced + end("\x07")
	for _, c := range []struct{ name, units, says string }{
		{"nothing", "", "f: offset 0: unexpected end of input"},
		{"no payloads", response + end("\x07"), "f: input: no payloads"},
		{"no end", response + announced, "f: offset 28: unexpected end of input"},
		{"no unit", announced + "GET / HTTP/1.0\r\n\r\n", "f: offset 20: unit type 69 is not allowed here"},
		{"a withdrawal", response + withdrawn + end("\x07"), "f: offset 8: withdrawal of an unknown record"},
		{"a fault in the second answer", whole + whole, "f: offset 60: duplicate announcement"},
		{"a second answer cut off", whole + response + other, "f: offset 80: unexpected end of input"},
		{
			"changes of another version", whole + strings.ReplaceAll(response+other, "\x01\x04", "\x02\x04"),
			"f: offset 60: of another version than the units before",
		},
	} {
		trial.Write(t, folder+"/f", c.units)
		process, _ := started(t, folder, "--sequence", "f")
		process.Says(c.says, 1)
		if process.Lines("session") != 0 {
			t.Errorf("%s: %s", c.name, process.Stderr())
		}
		process.End()
	}
	trial.Write(t, folder+"/f", response+other+whole)
	process, _ := started(t, folder, "--sequence", "f", "--empty")
	process.Says("f: left out: an answer without an end of data", 1)
	process.Says("serial 1: 1 payload", 1)
	process.End()
	trial.Write(t, folder+"/f", response+end("\x07"))
	process, _ = started(t, folder, "--sequence", "f", "--empty")
	process.Says("serial 1: 0 payloads", 1)
	if !strings.Contains(process.Stderr(), "0 announced, 0 withdrawn") {
		t.Error(process.Stderr())
	}
}
