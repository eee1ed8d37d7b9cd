//go:build cgo && linux

package rtr

import (
	"bytes"
	"encoding/binary"
	"errors"
	"os"
	"os/exec"
	"testing"
)

// deltaCase is a case that tests/libraries/deltas.py wrote: a call, and its expected result.
type deltaCase struct {
	call, status, side, detail uint8
	offset                     int64
	first, second, output      []byte
}

// deltaCases returns the cases in the file $RTR_DELTAS, or of deltas.py without that.
// Without python3 the test is skipped.
func deltaCases(t *testing.T) (all []deltaCase) {
	path := os.Getenv("RTR_DELTAS")
	rest, err := os.ReadFile(path)
	if path == "" {
		rest, err = exec.Command("python3", "../../tests/libraries/deltas.py").Output()
	}
	if errors.Is(err, exec.ErrNotFound) {
		t.Skip("there is no python3 to make cases, and RTR_DELTAS names no file of them")
	}
	if err != nil {
		t.Fatal(err)
	}
	for len(rest) > 0 {
		c := deltaCase{call: rest[0], status: rest[1], side: rest[2], detail: rest[3]}
		c.offset = int64(binary.LittleEndian.Uint64(rest[4:]))
		lengths := rest[12:36]
		rest = rest[44:] // without the size of the index: here an entry for each unit
		for i, part := range []*[]byte{&c.first, &c.second, &c.output} {
			length := binary.LittleEndian.Uint64(lengths[8*i:])
			*part, rest = rest[:length], rest[length:]
		}
		all = append(all, c)
	}
	return all
}

// called makes the call of the case, with an index entry for each possible unit.
func (c *deltaCase) called() ([]byte, error) {
	switch output := make([]byte, len(c.first)+len(c.second)); c.call {
	case 0:
		written, err := delta(c.first, c.second, output)
		return output[:written], err
	case 1:
		written, err := apply(c.first, c.second, output)
		return output[:written], err
	case 3:
		units := len(c.second) / shortestPayload
		written, err := applyInOrder(c.first, c.second, output, units)
		return output[:written], err
	case 4:
		written, err := between(c.first, c.second, output)
		return output[:written], err
	}
	return Order(c.first)
}

// The expected results are computed without the library.
func TestDeltaCases(t *testing.T) {
	const noIndex = 17
	for i, c := range deltaCases(t) {
		if c.status == noIndex {
			continue
		}
		output, err := c.called()
		status, detail := numbers(err)
		if status != c.status || detail != c.detail || !bytes.Equal(output, c.output) {
			t.Fatalf("case %d: %x %v", i, output, err)
		}
		var fault *Fault
		if !errors.As(err, &fault) {
			continue
		}
		input := [][]byte{nil, c.first, c.second}[c.side]
		if c.side == 0 {
			c.offset = -1
		} else {
			input = input[c.offset:]
		}
		if fault.Offset != c.offset || !bytes.HasPrefix(input, fault.Unit) {
			t.Fatalf("case %d: %+v", i, fault)
		}
	}
}
