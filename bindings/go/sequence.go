//go:build cgo && linux

package rtr

// Progress counts what a call that normalises has read and written: complete units, and the end of
// data if it was accepted.
type Progress struct {
	Units   uint64 // payload units read from the input
	Forms   uint64 // payload units written to the output
	Taken   int    // bytes read from the input
	Written int    // bytes written to the output
}

// Normalise normalises the sequence at the start of input: it reads payload units up to an end of
// data, and writes the normal form of each, and the end of data, to the front of output. It reads
// at most limit units, including the end of data.
//
// It succeeds if and only if input begins with fewer than limit valid payload units and an end of
// data, and their normal form fits into output. It always fits if output is as long as input. What
// follows the end of data isn't read.
//
// Errors, in this order, each a Fault: TooMany; Short to PrefixRule; NoRoom. Then Progress counts
// the complete units before the error; their normal form is written. A caller may continue after
// them with a longer output, more input or another limit.
func Normalise(input, output []byte, limit uint64) (Progress, error) {
	progress, status, detail := normalise(input, output, limit)
	return progress, stopped(input, progress, status, detail)
}

// NormaliseFor is Normalise for clients of one protocol version. Units that the version doesn't
// have are checked and counted in Units but not written. All others, and the end of data, are
// written in this version. An output 12 bytes longer than the input always suffices, since an end
// of data has 12 bytes in version 0 and 24 in versions 1 and 2.
//
// For a version above the highest, 2, it fails with UnitVersion before it reads or writes anything.
func NormaliseFor(input, output []byte, limit uint64, version uint8) (Progress, error) {
	progress, status, detail := normaliseFor(input, output, limit, version)
	if status == UnitVersion && version > highestVersion {
		// The argument is refused, not a unit.
		return progress, &Fault{Status: status, Detail: detail, Offset: -1}
	}
	return progress, stopped(input, progress, status, detail)
}

// stopped returns the error of a call that normalises, or nil.
func stopped(input []byte, progress Progress, status Status, detail uint8) error {
	if status == OK {
		return nil
	}
	return refusal(status, detail, input[progress.Taken:], int64(progress.Taken))
}

// SameMeaning reports whether both inputs begin with sequences of the same meaning, of fewer than
// limit payload units each.
//
// The error is a Fault with one of Short to TooMany, and with Side and Offset in that input: that
// of left, or if left is accepted, that of right.
func SameMeaning(left, right []byte, limit uint64) (bool, error) {
	result := compare(left, right, limit)
	if result.status == OK {
		return result.same, nil
	}
	input := left
	if result.side == Right {
		input = right
	}
	fault := refusal(result.status, result.detail, input[result.offset:], int64(result.offset))
	fault.Side = result.side
	return false, fault
}
