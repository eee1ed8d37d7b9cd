//go:build cgo && linux

package rtr

import (
	"context"
	"crypto/rand"
	"encoding/binary"
	"errors"
	"net"
	"time"
)

// The versions of the protocol: the highest, and that in which a Client asks if no other is set. The
// lowest is 0.
const (
	HighestVersion uint8 = highestVersion
	UsualVersion   uint8 = usualVersion
)

// Client is the router's side: it gets the data of a cache, and follows their changes (RFC 8210
// sections 6 to 8). NewClient(address) is the same as Client{Address: address}.
type Client struct {
	Address  string       // as net.Dial takes it, for IPv4 or IPv6
	Version  uint8        // the highest version in which it asks: 1 or 2; 0 stands for 1
	Version0 bool         // it asks in version 0 only (RFC 6810); Version is then ignored
	Limits   ClientLimits // of the time and the memory that a cache can cost it
	// If not zero, these replace the times of the cache's end of data.
	Refresh, Retry, Expire time.Duration
	// Failed is called with the reason when a connection ends, or when the cache has no data yet
	// (ErrNoData); the client retries. It may be nil.
	Failed func(error)
	// Log is called with a line for each connection, query, change of data and failure. It may be
	// nil.
	Log Log
	// Dial connects to the address until the context ends, by TLS, SSH, or another transport (RFC
	// 8210 section 9). If it is nil, the client uses TCP.
	Dial func(ctx context.Context, network, address string) (net.Conn, error)

	connection  net.Conn     // the only one, if NewClientConn made the client
	askRequests *askRequests // of the followers that run this client; requestsOf returns them
}

// NewClient makes a Client of version 1 (RFC 8210), with limits for a cache of some million
// payloads. ASPAs need version 2, for which caches in use have several layouts.
func NewClient(address string) *Client {
	return &Client{Address: address, Version: usualVersion, Limits: usualClientLimits()}
}

// AskIn sets the highest version in which the client asks, from 0 to 2: Version and Version0.
func (c *Client) AskIn(version uint8) {
	c.Version, c.Version0 = version, version == 0
}

// highest returns the highest version in which the client asks.
func (c *Client) highest() uint8 {
	switch {
	case c.Version0:
		return 0
	case c.Version == 0:
		return usualVersion
	}
	return c.Version
}

// The reasons for which a Client ends a connection or has no data, besides a Fault, a Breach, a
// Reported, ErrTooSlow, and errors of the connection itself.
var (
	// ErrClosed: the cache closed the connection.
	ErrClosed = errors.New("rtr: " + causeLost.String())
	// ErrExpired: the cache didn't refresh the data in time, and they were dropped.
	ErrExpired = errors.New("rtr: " + causeExpired.String())
	// ErrNoData: the cache has no data yet (RFC 8210 section 8.4), as its error report says:
	// errors.Is finds this in the Reported.
	ErrNoData = errors.New("rtr: " + NoDataAvailable.String())
	// ErrEmpty: the cache has no payloads, which doesn't count as data for Follow.
	ErrEmpty = errors.New("rtr: " + failureEmpty)
	// ErrTooLong: an answer has more bytes or units than the limits allow.
	ErrTooLong = errors.New("rtr: " + causeTooLong.String())
	// ErrNoMemory: an answer is larger than a slice can be.
	ErrNoMemory = errors.New("rtr: " + failureNoMemory)
)

// Fetch gets all data once. It falls back to a lower version if the cache has no higher one.
//
// Errors: a Fault, a Breach, a Reported, ErrTooSlow, ErrTooLong, ErrNoMemory, ErrClosed, that of
// the context, or one of the connection.
func (c *Client) Fetch(ctx context.Context) (Data, error) {
	f := c.follower(ctx, newClock(), func(Update) error { return errDone })
	f.once = true
	if err := f.runFor(c); err != errDone {
		return Data{}, unlessEnded(ctx, err)
	}
	return f.data, nil
}

// Run follows the data of the cache until the context ends or changed returns an error, and
// returns that error. It calls changed after each complete answer, also one without changes, and
// when it drops the data; data are always those of the cache at one serial number. It reconnects
// when a connection ends.
func (c *Client) Run(ctx context.Context, changed func(Update) error) error {
	return unlessEnded(ctx, c.follower(ctx, newClock(), changed).runFor(c))
}

// unlessEnded returns the error of the context if that has ended, else the follower's error.
func unlessEnded(ctx context.Context, err error) error {
	if ctx.Err() != nil {
		return ctx.Err()
	}
	return err
}

// follower returns a follower with this clock that uses the client's connections. Later changes of
// the client's fields don't affect it.
func (c *Client) follower(
	ctx context.Context, clock clock, changed func(Update) error,
) *follower {
	limits := c.Limits.orUsual()
	var chance [2]byte
	// At an error it stays zero: then clients may retry at the same time.
	_, _ = rand.Read(chance[:])
	f := &follower{
		link:  newLink(settingsOf(c, limits, binary.LittleEndian.Uint16(chance[:]))),
		cache: c.Address, log: c.Log, last: c.connection != nil,
		changed: changed, onFailure: c.Failed,
	}
	f.peer = &network{
		clock: clock, askRequest: &f.askRequest,
		ctx: ctx, dial: c.dialer(), address: c.Address, patience: limits.Report,
	}
	return f
}

// runFor runs a follower, and passes calls of the client's AskNow to it.
func (f *follower) runFor(c *Client) error {
	all := c.requestsOf()
	all.add(&f.askRequest)
	defer all.remove(&f.askRequest)
	return f.run()
}
