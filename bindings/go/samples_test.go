//go:build cgo && linux

package rtr

import (
	"bytes"
	"encoding/hex"
	"errors"
	"fmt"
	"os"
	"path/filepath"
	"runtime"
	"strings"
	"testing"
)

// sample is a unit of the file tests/samples, which describes its rows.
type sample struct {
	unit        string
	bytes, form []byte
	refused     string
	line, json  string
	change      string
	object      string
}

// samples are the samples of the file.
var samples = readSamples()

func readSamples() []sample {
	// The program of the tests may run in another folder than that of this file.
	_, here, _, _ := runtime.Caller(0)
	file, err := os.ReadFile(filepath.Join(filepath.Dir(here), "../../tests/samples"))
	if err != nil {
		panic(err)
	}
	var all []sample
	for _, row := range strings.Split(string(file), "\n") {
		if row == "" || row[0] == '#' {
			continue
		}
		word, rest, _ := strings.Cut(row, " ")
		if word == "unit" {
			all = append(all, sample{unit: rest})
			continue
		}
		last := &all[len(all)-1]
		switch word {
		case "bytes":
			last.bytes = unspaced(rest)
		case "form":
			last.form = unspaced(rest)
		case "refused":
			last.refused = rest
		case "line":
			last.line = rest
		case "change":
			last.change = rest
		case "object":
			last.object = rest
		case "json":
			last.json = rest
		default:
			panic("a sample has no " + word)
		}
	}
	return all
}

// unspaced decodes hex digits.
func unspaced(row string) []byte {
	digits, err := hex.DecodeString(strings.ReplaceAll(row, " ", ""))
	if err != nil {
		panic(err)
	}
	return digits
}

// sampleOf returns the bytes of the sample of this name.
func sampleOf(name string) []byte {
	for _, s := range samples {
		if s.unit == name {
			return s.bytes[:len(s.bytes):len(s.bytes)]
		}
	}
	panic("there is no sample " + name)
}

// Each sample is decoded and encoded as the file says, or refused.
func TestSamples(t *testing.T) {
	if len(samples) < 50 {
		t.Fatalf("%d samples", len(samples))
	}
	for _, s := range samples {
		t.Run(s.unit, s.check)
	}
}

func (s sample) check(t *testing.T) {
	line, size, err := UnitLine([]byte("> "), append(s.bytes[:len(s.bytes):len(s.bytes)], 1), 24)
	switch expected := "> 24" + strings.TrimPrefix(s.line, "0"); {
	case s.line == "" && (string(line) != "> " || size != 0):
		t.Errorf("%s, %d", line, size)
	case s.line != "" && (err != nil || size != len(s.bytes) || string(line) != expected):
		t.Errorf("%s, %d, %v, but expected is %s", line, size, err, expected)
	}
	object, size, err := UnitJSON(nil, s.bytes, 0)
	if string(object) != s.json || s.json != "" && (err != nil || size != len(s.bytes)) {
		t.Errorf("%s, %d, %v, but expected is %s", object, size, err, s.json)
	}
	unit, rest, err := Next(s.bytes)
	if s.refused != "" {
		var fault *Fault
		if !errors.As(err, &fault) || err.Error() != fmt.Sprintf("rtr: %s, at byte 0", s.refused) {
			t.Errorf("%v, but expected is %s", err, s.refused)
		}
		return
	}
	form, failed := unit.AppendBinary(nil)
	if expected := s.written(); err != nil || len(rest) > 0 || failed != nil ||
		!bytes.Equal(form, expected) {
		t.Fatalf("%x, %x, %v, %v, but expected is %x", form, rest, err, failed, expected)
	}
	// The change of a unit that isn't in normal form is that of its normal form.
	if s.form == nil && (ChangeLine(&unit) != s.change || ChangeJSON(&unit) != s.object) {
		t.Errorf("%s, %s", ChangeLine(&unit), ChangeJSON(&unit))
	}
}

// written returns the form of the sample.
func (s sample) written() []byte {
	if s.form == nil {
		return s.bytes
	}
	return s.form
}
