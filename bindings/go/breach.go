//go:build cgo && linux

package rtr

// #include "rtr.h"
import "C"

import (
	"errors"
	"fmt"
	"net"
	"os"
	"time"
)

// The rules of a session that a unit can break; a Breach has one of them, and the unit.
var (
	// ErrOtherVersion: the unit's version isn't that of the session.
	ErrOtherVersion = errors.New(causeOtherVersion.String())
	// ErrHigherVersion: the answer's version is above that of the query.
	ErrHigherVersion = errors.New(causeHigherVersion.String())
	// ErrNoVersion: the query's version isn't supported at all.
	ErrNoVersion = errors.New(reasonText(C.RTR_REASON_NO_VERSION))
	// ErrOtherSession: a unit's session differs from that of the data.
	ErrOtherSession = errors.New(causeOtherSession.String())
	// ErrSerialBack: the end of data has an earlier serial number than the query.
	ErrSerialBack = errors.New(causeOldSerial.String())
	// ErrOtherData: there are changes, but the serial number is that of the query.
	ErrOtherData = errors.New(causeOtherData.String())
	// ErrNoQuery: the unit of a client isn't a query.
	ErrNoQuery = errors.New(reasonText(C.RTR_REASON_NO_QUERY))
	// ErrMisplaced: a unit of this type isn't allowed at this point of the session.
	ErrMisplaced = errors.New(causeOutOfPlace.String())
	// ErrNoPayload: the version has no payload unit of this type.
	ErrNoPayload = errors.New(causeNoSuchPayload.String())
)

// cause is the reason why a connection ends.
type cause uint8

// The causes for which a Client has errors of their own.
const (
	causeLost          cause = C.RTR_CAUSE_LOST
	causeSlow          cause = C.RTR_CAUSE_SLOW
	causeReported      cause = C.RTR_CAUSE_REPORTED
	causeOutOfPlace    cause = C.RTR_CAUSE_OUT_OF_PLACE
	causeNoSuchPayload cause = C.RTR_CAUSE_NO_SUCH_PAYLOAD
	causeOtherVersion  cause = C.RTR_CAUSE_OTHER_VERSION
	causeHigherVersion cause = C.RTR_CAUSE_HIGHER_VERSION
	causeOtherSession  cause = C.RTR_CAUSE_OTHER_SESSION
	causeOldSerial     cause = C.RTR_CAUSE_OLD_SERIAL
	causeOtherData     cause = C.RTR_CAUSE_OTHER_DATA
	causeTooLong       cause = C.RTR_CAUSE_TOO_LONG
	causeNotApplied    cause = C.RTR_CAUSE_NOT_APPLIED
	causeExpired       cause = C.RTR_CAUSE_EXPIRED
)

// String returns the text of the cause, as in reports.
func (c cause) String() string {
	return name(namedCause, uint16(c))
}

// breaches maps the machine's causes to errors.
var breaches = map[cause]error{
	causeOutOfPlace:    ErrMisplaced,
	causeNoSuchPayload: ErrNoPayload,
	causeOtherVersion:  ErrOtherVersion,
	causeHigherVersion: ErrHigherVersion,
	causeOtherSession:  ErrOtherSession,
	causeOldSerial:     ErrSerialBack,
	causeOtherData:     ErrOtherData,
}

// The reasons for which a Server ends a connection, besides a Fault, a Breach, a Reported,
// ErrTooSlow, and errors of the connection itself.
var (
	// ErrServerClosed: the Server was closed or shut down.
	ErrServerClosed = errors.New("rtr: " + failureClosed)
	// ErrManyClients: the limit of clients is reached.
	ErrManyClients = errors.New("rtr: " + reasonText(C.RTR_REASON_FULL))
	// ErrSessionEnded: the client has data of the former session.
	ErrSessionEnded = errors.New("rtr: " + reasonText(C.RTR_REASON_NEW_SESSION))
	// ErrUnknownData: a serial query was refused, since Limits.Refuse is set.
	ErrUnknownData = errors.New("rtr: " + reasonText(C.RTR_REASON_UNKNOWN))
	// ErrBehind: three newer data have come while the client received an answer.
	ErrBehind = errors.New("rtr: " + failureBehind)
)

// Reasons for which a Server refuses data that differ from its present data.
var (
	// ErrSameSerial: the session is the same, and the serial number isn't later (RFC 1982).
	ErrSameSerial = errors.New("rtr: " + failureOldSerial)
	// ErrNewTiming: the session is the same, and only the timing differs.
	ErrNewTiming = errors.New("rtr: " + failureOtherTimes)
	// ErrSessionLeft: the data are of another session, which the server had before the present one.
	ErrSessionLeft = errors.New("rtr: " + failureSessionLeft)
	// ErrOneSession: the server doesn't save, and its data are of another session.
	ErrOneSession = errors.New("rtr: " + failureOtherSession)
	// ErrUnsaved: the server has data that it didn't save, so it doesn't save these.
	ErrUnsaved = errors.New("rtr: " + failureUnsaved)
)

// endings maps reasons to errors.
var endings = map[C.uint8_t]error{
	C.RTR_REASON_SLOW:          errSlowRouter,
	C.RTR_REASON_FULL:          ErrManyClients,
	C.RTR_REASON_NO_QUERY:      ErrNoQuery,
	C.RTR_REASON_OTHER_VERSION: ErrOtherVersion,
	C.RTR_REASON_NO_VERSION:    ErrNoVersion,
	C.RTR_REASON_NEW_SESSION:   ErrSessionEnded,
	C.RTR_REASON_UNKNOWN:       ErrUnknownData,
}

// cuts maps the limits that end a connection to errors.
var cuts = map[C.uint8_t]error{
	C.RTR_CUT_SLOW:        errSlowRouter,
	C.RTR_CUT_NEW_SESSION: ErrSessionEnded,
	C.RTR_CUT_BEHIND:      ErrBehind,
}

// reasonText returns the text of a reason for which a cache ends a session, as in reports.
func reasonText(reason C.uint8_t) string {
	return name(namedReason, uint16(reason))
}

// ErrTooSlow: the peer exceeded a time limit. errors.Is finds it in the error of a Client, whose
// text says that the cache is too slow, and in that of a Server, which says it of the router.
var ErrTooSlow = errors.New("rtr: " + failureSlow)

// The errors in which errors.Is finds ErrTooSlow.
var (
	errSlowCache  = slowPeer(causeSlow.String())
	errSlowRouter = slowPeer(reasonText(C.RTR_REASON_SLOW))
)

// slowPeer is ErrTooSlow with a text that says which peer it is.
type slowPeer string

// Error returns the text.
func (s slowPeer) Error() string {
	return "rtr: " + string(s)
}

// Unwrap returns ErrTooSlow.
func (s slowPeer) Unwrap() error {
	return ErrTooSlow
}

// Breach is a unit that breaks a rule of the session, which ends it. A unit that is malformed is a
// Fault. errors.Is finds the reason in it.
type Breach struct {
	Reason error     // one of the errors above
	Code   ErrorCode // of its report (RFC 8210 section 12)
	Unit   []byte    // the bytes of the unit that were read
}

// Error returns the reason; Unit has the type and the version.
func (b *Breach) Error() string {
	return "rtr: " + b.Reason.Error()
}

// Unwrap returns the reason.
func (b *Breach) Unwrap() error {
	return b.Reason
}

// Report returns the error report that is owed to the peer, and whether one is owed: it isn't if
// the unit is an error report itself (RFC 8210 section 5.11).
func (b *Breach) Report() (report *Unit, owed bool) {
	if !isReportOwed(b.Unit) {
		return nil, false
	}
	return reportOn(b.Code, b.Unit, b.Reason.Error()), true
}

// Reported is an error report that the peer sent, which ended the session unless it says that a
// cache has no data yet: then errors.Is finds ErrNoData in it.
type Reported struct {
	Version uint8
	Code    ErrorCode
	Text    string // as received
	router  bool   // it came from a router, not from a cache
	noData  bool   // the link took it for a cache without data
}

// Is reports whether the target is ErrNoData, and the report the answer of a cache without data.
func (r *Reported) Is(target error) bool {
	return r.noData && target == ErrNoData
}

// Error returns which end reports an error, the code, and the first bytes of the quoted text, of
// which any but printable ASCII is a question mark.
func (r *Reported) Error() string {
	text := causeReported.String()
	if r.router {
		text = reasonText(C.RTR_REASON_REPORTED)
	}
	return fmt.Sprintf("rtr: %s: %s", text, reportText(r.Code, r.Text))
}

// breachOf returns a breach with this reason and code, and a copy of input's first unit.
func breachOf(why error, code ErrorCode, input []byte) error {
	size, err := UnitSize(input)
	if err != nil {
		size = headerSize
	}
	if size > len(input) {
		size = len(input)
	}
	return &Breach{Reason: why, Code: code, Unit: append([]byte{}, input[:size]...)}
}

// owned returns the error, with a copy of the unit if it is a Fault.
func owned(err error) error {
	var fault *Fault
	if errors.As(err, &fault) {
		fault.Unit = clone(fault.Unit)
	}
	return err
}

// reportedIn returns a Reported with the content of the error report at the start of these bytes;
// the fields that say who sent it, and what it means, are those of the argument.
func reportedIn(input []byte, report Reported) error {
	unit, _, err := Next(input)
	if err != nil {
		return err
	}
	report.Version, report.Code, report.Text = unit.Version, unit.Code, string(unit.Text)
	return &report
}

// isTimeout reports whether a deadline has passed.
func isTimeout(err error) bool {
	return errors.Is(err, os.ErrDeadlineExceeded)
}

// sendLast writes a last unit to a connection, if there is one, and gives the peer time to read it:
// closing a connection with unread bytes resets it, and the unit may be lost.
func sendLast(connection net.Conn, last []byte, patience time.Duration) {
	if len(last) == 0 {
		return
	}
	if connection.SetDeadline(time.Now().Add(patience)) != nil {
		return
	}
	if _, err := connection.Write(last); err != nil {
		return
	}
	if half, ok := connection.(interface{ CloseWrite() error }); !ok || half.CloseWrite() != nil {
		return
	}
	discard(connection, lastReportBytes)
}

// How many bytes are dropped at a time: a page of memory, since few come after a last report.
const discardBuffer = 1 << 12

// discard reads and drops bytes until the end of the connection, at most this number.
func discard(connection net.Conn, most int) {
	buffer := make([]byte, discardBuffer)
	for most > 0 {
		n, err := connection.Read(buffer)
		if err != nil {
			return
		}
		most -= n
	}
}
