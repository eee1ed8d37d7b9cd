//go:build cgo && linux

package rtr

// #include "calls.h"
import "C"

// delta writes the delta from old to new to output, and returns its length.
func delta(old, new, output []byte) (int, error) {
	first, n := cBytes(old)
	second, m := cBytes(new)
	out, capacity := cBytes(output)
	return lengthOf(C.delta(first, n, second, m, out, capacity), old, new)
}

// between writes the changes from old to new, of any versions and sessions, to output, and returns
// their length. An empty slice stands for no data.
func between(old, new, output []byte) (int, error) {
	first, n := cBytes(old)
	second, m := cBytes(new)
	out, capacity := cBytes(output)
	return lengthOf(C.changes_between(first, n, second, m, out, capacity), old, new)
}

// endOffset returns the offset of the end of data in data in canonical form: 0 if there are no
// payloads.
func endOffset(data []byte) int {
	bytes, n := cBytes(data)
	return int(C.rtr_end_offset(bytes, n))
}

// apply writes the data after the changes to output, and returns their length.
func apply(data, changes, output []byte) (int, error) {
	first, n := cBytes(data)
	second, m := cBytes(changes)
	out, capacity := cBytes(output)
	return lengthOf(C.apply(first, n, second, m, out, capacity), data, changes)
}

// applyInOrder writes the data after the changes, in the order in which they came, to output, and
// returns their length. The changes have at most this number of payload units.
func applyInOrder(data, changes, output []byte, units int) (int, error) {
	index := make([]C.size_t, units+1)
	first, n := cBytes(data)
	second, m := cBytes(changes)
	out, capacity := cBytes(output)
	a := C.apply_in_order(first, n, second, m, &index[0], C.size_t(units), out, capacity)
	return lengthOf(a, data, changes)
}

// order writes the changes in canonical form to output, and returns their length. They have at most
// this number of payload units.
func order(changes, output []byte, units int) (int, error) {
	index := make([]C.size_t, units+1)
	in, n := cBytes(changes)
	out, capacity := cBytes(output)
	return lengthOf(C.order(in, n, &index[0], C.size_t(units), out, capacity), changes)
}

// load writes the data of a recording or a list to output, and returns their length and whether an
// answer was left out. Work and output are as long as the input.
func load(input, work, output []byte) (int, bool, error) {
	index := make([]C.size_t, len(input)/shortestPayload)
	in, n := cBytes(input)
	between, size := cBytes(work)
	out, capacity := cBytes(output)
	a := C.load(in, n, firstOf(index), C.size_t(len(index)), between, size, out, capacity)
	if status := Status(a.status); status != OK {
		return 0, false, refusal(status, uint8(a.detail), input[a.offset:], int64(a.offset))
	}
	return int(a.length), bool(a.has_cut), nil
}

// lengthOf returns the written length of an answer, or its fault in one of the inputs.
func lengthOf(a C.struct_rtr_data_answer, inputs ...[]byte) (int, error) {
	status, detail := Status(a.status), uint8(a.detail)
	switch {
	case status == OK:
		return int(a.written), nil
	case a.side == 0:
		return 0, &Fault{Status: status, Detail: detail, Offset: -1}
	}
	input := inputs[a.side-1]
	return 0, refusal(status, detail, input[a.offset:], int64(a.offset))
}
