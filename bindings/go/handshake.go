//go:build cgo && linux

package rtr

import (
	"context"
	"errors"
)

// shaker is a connection that begins with a handshake, such as TLS.
type shaker interface {
	HandshakeContext(ctx context.Context) error
}

// shake does the handshake of a connection that has one, within Limits.First. A handshake can't
// continue after a deadline, so new data don't interrupt it; closing the server does.
func (c *served) shake() error {
	connection, ok := c.connection.(shaker)
	if !ok {
		return nil
	}
	ctx, end := context.WithTimeout(context.Background(), c.server.Limits.First)
	defer end()
	c.setShaking(end)
	if c.server.closed.Load() {
		return ErrServerClosed
	}
	err := connection.HandshakeContext(ctx)
	c.setShaking(nil)
	switch {
	case err == nil:
		return nil
	case c.server.closed.Load():
		return ErrServerClosed
	case errors.Is(ctx.Err(), context.DeadlineExceeded):
		return errSlowRouter
	}
	return err
}

// setShaking registers the function that interrupts a handshake.
func (c *served) setShaking(end func()) {
	c.lock.Lock()
	defer c.lock.Unlock()
	c.shaking = end
}
