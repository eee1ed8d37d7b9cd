//go:build cgo && linux

package rtr

import (
	"encoding/binary"
	"errors"
	"os"
	"os/exec"
	"strings"
	"testing"
)

// check returns the lines of the rules that a recording breaks, up to a unit that is refused.
func check(recording []byte) (string, error) {
	var checker Checker
	var text strings.Builder
	for rest := recording; len(rest) > 0; {
		found, size, err := checker.Unit(rest)
		if err != nil {
			return text.String(), err
		}
		for _, finding := range found {
			text.WriteString(finding.String() + "\n")
		}
		rest = rest[size:]
	}
	for _, finding := range checker.Finish() {
		text.WriteString(finding.String() + "\n")
	}
	return text.String(), nil
}

// The recordings of the file that RTR_FINDINGS names, or else of tests/programs/listings.py
// --findings, with the lines of what they break.
func TestFindings(t *testing.T) {
	rows, err := exec.Command("python3", "../../tests/programs/listings.py", "--findings").Output()
	if path := os.Getenv("RTR_FINDINGS"); path != "" {
		rows, err = os.ReadFile(path)
	}
	if errors.Is(err, exec.ErrNotFound) {
		t.Skip("there is no python3 to print recordings, and RTR_FINDINGS names no file of them")
	}
	if err != nil {
		t.Fatal(err)
	}
	count := 0
	for ; len(rows) > 0; count++ {
		size := binary.LittleEndian.Uint32(rows)
		length := binary.LittleEndian.Uint32(rows[4:])
		recording, lines := rows[8:8+size], string(rows[8+size:8+size+length])
		if got, err := check(recording); err != nil || got != lines {
			t.Errorf("% x: %q, %v; not %q", recording, got, err, lines)
		}
		rows = rows[8+size+length:]
	}
	if count < 50 {
		t.Errorf("%d rows", count)
	}
}

// The fault of a refused unit comes after the findings before it.
func TestFindingsBeforeRefusal(t *testing.T) {
	hosts := changed(ipv4, 15, 1)
	for _, row := range []struct {
		last []byte
		err  error
	}{
		{hosts[:9], Short},
		{[]byte{2, 11, 1, 0, 0, 0, 0, 12, 0, 1, 0, 15}, EmptyProviders},
	} {
		got, err := check(append(append([]byte{}, hosts...), row.last...))
		if got != "offset 0: host bits of the prefix are not zero\n" || !errors.Is(err, row.err) {
			t.Errorf("%q, %v", got, err)
		}
	}
}
