//go:build cgo && linux

package rtr

import (
	"context"
	"errors"
	"net"
)

// NewClientConn makes a Client like NewClient, but with this connection only: Run and Fetch end
// with it, and return why it ended. So they can't fall back to a lower version.
func NewClientConn(connection net.Conn) *Client {
	client := NewClient("")
	client.connection = connection
	return client
}

// dialer returns the function by which the client connects.
func (c *Client) dialer() func(context.Context, string, string) (net.Conn, error) {
	switch {
	case c.connection != nil:
		used := false
		return func(context.Context, string, string) (net.Conn, error) {
			if used {
				return nil, errNoOther
			}
			used = true
			return c.connection, nil
		}
	case c.Dial != nil:
		return c.Dial
	}
	return new(net.Dialer).DialContext
}

// errNoOther reports that a client needs another connection than its only one, which has ended.
var errNoOther = errors.New("rtr: " + failureNoOther)
