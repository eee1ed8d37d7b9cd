package fetch

import (
	"compress/flate"
	"compress/gzip"
	"context"
	"errors"
	"io"
	"net"
	"net/url"
	"time"
)

// Reason is the result of a fetch, in one word.
type Reason string

// The results of fetches: a new list, the former list, or the reason of a failure.
const (
	NewList     Reason = "new"
	SameList    Reason = "same"
	Name        Reason = "name"        // the host name has no address
	Connect     Reason = "connect"     // the server or the proxy can't be connected
	Certificate Reason = "certificate" // the server's certificate isn't trusted, or TLS failed
	Timeout     Reason = "timeout"     // the answer wasn't complete in time
	Status      Reason = "status"      // the status is neither 200 nor 304
	Redirect    Reason = "redirect"    // there are too many redirects, or one leaves https
	Cut         Reason = "cut"         // the body was truncated, or its end can't be verified
	Size        Reason = "size"        // the list is too long
	Encoding    Reason = "encoding"    // the body's compression is unknown, or broken
	Disk        Reason = "disk"        // the list can't be stored
	Other       Reason = "other"
)

// Failures lists the reasons of a Failure.
var Failures = []Reason{
	Name, Connect, Certificate, Timeout, Status, Redirect, Cut, Size, Encoding, Disk, Other,
}

// Failure is the error of a fetch.
type Failure struct {
	Reason Reason
	Text   string
	After  time.Duration // the server's Retry-After; 0 if it sent none
}

// Error returns the text.
func (f *Failure) Error() string { return f.Text }

// failureOf returns the failure for an error of a request, or of reading its answer.
func failureOf(err error) *Failure {
	var failure *Failure
	var wrapped *url.Error
	if errors.As(err, &failure) {
		return failure
	}
	if errors.As(err, &wrapped) {
		err = wrapped.Err
	}
	return &Failure{Reason: reasonOf(err), Text: err.Error()}
}

// reasonOf returns the reason of an error.
func reasonOf(err error) Reason {
	var timed interface{ Timeout() bool }
	var operation *net.OpError
	switch {
	case errors.Is(err, context.DeadlineExceeded), errors.As(err, &timed) && timed.Timeout():
		return Timeout
	case errors.As(err, new(*net.DNSError)):
		return Name
	case errors.As(err, &operation) && isOfTLS(operation):
		return Certificate
	case errors.As(err, &operation) && (operation.Op == "dial" || operation.Op == "proxyconnect"):
		return Connect
	case errors.Is(err, gzip.ErrHeader), errors.Is(err, gzip.ErrChecksum),
		errors.As(err, new(flate.CorruptInputError)):
		return Encoding
	case errors.Is(err, io.ErrUnexpectedEOF), errors.Is(err, io.EOF), errors.As(err, &operation):
		return Cut
	}
	return Other
}

// isOfTLS reports whether an error is one of TLS after its handshake: an alert.
func isOfTLS(operation *net.OpError) bool {
	return operation.Op == "remote error" || operation.Op == "local error"
}
