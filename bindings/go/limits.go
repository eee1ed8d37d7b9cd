//go:build cgo && linux

package rtr

import "time"

// ClientLimits limit the time and the memory that a cache can cost a Client. Zero, or less, stands
// for the default.
type ClientLimits struct {
	Dial     time.Duration // to connect, at most
	Response time.Duration // from a query to the end of data that answers it, at most
	Bytes    int           // of the payload units of a response, at most
	Units    uint64        // payload units of a response, at most
	Pause    time.Duration // between two connections, and between two queries, at least
	Report   time.Duration // to send an error report, and for the cache to read it, at most
}

// usualClientLimits returns the machine's defaults, for a cache of some million payloads, and two
// seconds for a report.
func usualClientLimits() ClientLimits {
	usual := usualSettings(highestVersion)
	return ClientLimits{
		Dial:     span(usual.connect_limit),
		Response: span(usual.response_limit),
		Bytes:    int(usual.most_bytes),
		Units:    uint64(usual.most_units),
		Pause:    span(usual.pause),
		Report:   lastReportLimit * time.Millisecond,
	}
}

// orUsual returns the limits, with the default for each that is zero or negative.
func (l ClientLimits) orUsual() ClientLimits {
	usual := usualClientLimits()
	return ClientLimits{
		Dial:     unlessZero(l.Dial, usual.Dial),
		Response: unlessZero(l.Response, usual.Response),
		Bytes:    unlessZero(l.Bytes, usual.Bytes),
		Units:    unlessZero(l.Units, usual.Units),
		Pause:    unlessZero(l.Pause, usual.Pause),
		Report:   unlessZero(l.Report, usual.Report),
	}
}

// unlessZero returns a limit, or its default if it is zero or negative.
func unlessZero[T time.Duration | int | uint64](set, usual T) T {
	if set <= 0 {
		return usual
	}
	return set
}
