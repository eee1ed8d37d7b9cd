//go:build cgo && linux

package rtr

// UnitLine appends to b the line that rtr_list prints for input's first unit, with this offset of
// the unit in its line and without the newline, and returns the size of the unit. Like rtr_list it
// shows a prefix whose lengths break their rule, which Next refuses. The errors are those of
// UnitSize, and Short if the unit isn't complete; then nothing is appended.
func UnitLine(b, input []byte, offset uint64) ([]byte, int, error) {
	return unitBy(line, b, input, offset)
}

// UnitJSON is like UnitLine, for the JSON object that rtr_list --json prints.
func UnitJSON(b, input []byte, offset uint64) ([]byte, int, error) {
	return unitBy(object, b, input, offset)
}

// unitCall writes a text about input's first unit: line or object.
type unitCall func(input []byte, offset uint64, output []byte) (int, int, Status, uint8)

// unitBy appends the text that a call writes.
func unitBy(call unitCall, b, input []byte, offset uint64) ([]byte, int, error) {
	capacity := lineRoom
	for {
		b = grown(b, capacity)
		length, size, status, detail := call(input, offset, b[len(b):len(b)+capacity])
		switch status {
		case OK:
			return b[:len(b)+length], size, nil
		case NoRoom:
			capacity = length
		default:
			return b, 0, refusal(status, detail, input, 0)
		}
	}
}

// ChangeLine returns a payload unit as the line that rtr_diff prints, without the newline; "" for
// any other unit, and for one that AppendBinary refuses. Key info is in base64url without padding
// (RFC 4648 section 5).
func ChangeLine(unit *Unit) string {
	return changeBy(changeLine, unit)
}

// ChangeJSON returns a payload unit as the JSON object that rtr_diff --json prints; "" for any
// other unit, and for one that AppendBinary refuses.
func ChangeJSON(unit *Unit) string {
	return changeBy(changeJSON, unit)
}

// changeCall writes a text about the change of a unit: changeLine or changeJSON.
type changeCall func(input, output []byte) (int, Status)

// changeBy returns the text that a call writes.
func changeBy(call changeCall, unit *Unit) string {
	// Most units and lines fit these arrays, which stay on the stack.
	var formArray, lineArray [lineRoom]byte
	form, err := unit.AppendBinary(formArray[:0])
	if err != nil {
		return ""
	}
	return string(appendChange(call, lineArray[:0], form))
}

// appendChange appends the text that a call writes about the unit of these bytes.
func appendChange(call changeCall, b, form []byte) []byte {
	capacity := lineRoom
	for {
		b = grown(b, capacity)
		length, status := call(form, b[len(b):len(b)+capacity])
		if status != NoRoom {
			return b[:len(b)+length]
		}
		capacity = length
	}
}
