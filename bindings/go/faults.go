//go:build cgo && linux

package rtr

import (
	"fmt"
	"io"
)

// Status is the result of a call. Each but OK is an error, for errors.Is; calls return it in a
// Fault. Short to PrefixRule are about a unit, and are checked in the order of docs/PROTOCOL.md.
type Status uint8

// String returns the text of the status.
func (s Status) String() string {
	return name(namedStatus, uint16(s))
}

// Error returns the same text.
func (s Status) Error() string {
	return s.String()
}

// Side is one of the two inputs of SameMeaning.
type Side uint8

// String returns the name of the input.
func (s Side) String() string {
	switch s {
	case Left:
		return "left"
	case Right:
		return "right"
	}
	return "neither"
}

// Fault is the error of a refused unit, or of a call. errors.Is finds its Status in it, and
// io.ErrUnexpectedEOF if that is Short.
type Fault struct {
	Status Status
	Detail uint8 // a type, a version or a rule on prefix lengths, as the Status says, else 0
	// The input of SameMeaning that has the refused unit; else 0.
	Side Side
	// The offset of the refused unit in bytes, from the first byte that the Reader read, or from
	// the start of the input. -1 if no unit was refused.
	Offset int64
	// The bytes of that unit, as far as they are present; only the header, if the length in it is
	// wrong. They share memory with the input of Next, UnitSize, Normalise, NormaliseFor,
	// SameMeaning and the calls on changes; those of a Reader are a copy.
	Unit []byte
}

// Error returns a text with the detail and the offset.
func (f *Fault) Error() string {
	if f.Offset < 0 {
		return "rtr: " + f.Text()
	}
	text := "rtr: " + statusTextAt(f.Status, f.Detail, uint64(f.Offset))
	if f.Side != 0 {
		return fmt.Sprintf("%s of the %v input", text, f.Side)
	}
	return text
}

// Text returns the text of the status with the detail, without the offset.
func (f *Fault) Text() string {
	return statusText(f.Status, f.Detail)
}

// Unwrap returns the Status, so that errors.Is(err, rtr.NoRoom) works.
func (f *Fault) Unwrap() error {
	return f.Status
}

// Is makes a Fault whose Status is Short an io.ErrUnexpectedEOF.
func (f *Fault) Is(target error) bool {
	return f.Status == Short && target == io.ErrUnexpectedEOF
}

// Code returns the error code for the fault, and whether the peer is owed a report: it isn't if no
// unit was refused, or if the refused unit is an error report (RFC 8210 section 5.11).
func (f *Fault) Code() (code ErrorCode, owed bool) {
	if f.Offset < 0 {
		return 0, false
	}
	return errorCode(f.Status, f.Unit)
}

// Report returns the error report that is owed to the peer (RFC 8210 section 5.11), and whether one
// is owed, as Code does. It has the unit's bytes, a text that states what is wrong, and the version
// of the unit: set Version if the session has another. A report has at most 65519 bytes of unit and
// text: the unit is cut to that, and then the text.
func (f *Fault) Report() (report *Unit, owed bool) {
	code, owed := f.Code()
	if !owed {
		return nil, false
	}
	return reportOn(code, f.Unit, f.Text()), true
}

// reportOn returns the error report with this code and text about a unit, in the version of that
// unit.
func reportOn(code ErrorCode, unit []byte, text string) *Unit {
	report := &Unit{Kind: ErrorReport, Code: code, Enclosed: unit, Text: []byte(text)}
	if len(unit) > 0 {
		report.Version = unit[0]
	}
	if len(report.Enclosed) > mostReportParts {
		report.Enclosed = report.Enclosed[:mostReportParts]
	}
	if left := mostReportParts - len(report.Enclosed); len(report.Text) > left {
		report.Text = report.Text[:left]
	}
	return report
}

// refusal returns the fault of input's first unit, which is at this offset.
func refusal(status Status, detail uint8, input []byte, offset int64) *Fault {
	size := len(input)
	switch status {
	case Short:
	case PrefixRule, NotCanonical, Duplicate, Unknown, Undecided, OtherVersion, OtherSession,
		OldSerial, ResetInside, ReportInside:
		// The unit is complete.
		size, _, _ = unitSize(input)
	case TooMany, NoRoom:
		size = 0
	default:
		// The length in the header can't be trusted.
		size = headerSize
	}
	if size > len(input) {
		size = len(input)
	}
	return &Fault{Status: status, Detail: detail, Offset: offset, Unit: input[:size:size]}
}

// ErrorCode is the code of an error report (RFC 8210 section 12). Those above 8 are as in the Rust
// crate rpki.
type ErrorCode uint16

// String returns the name of the code.
func (c ErrorCode) String() string {
	return name(namedCode, uint16(c))
}
