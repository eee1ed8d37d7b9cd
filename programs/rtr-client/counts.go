package main

import (
	"context"
	"fmt"
	"io"
	"net"
	"sort"
	"sync"
	"sync/atomic"

	"fishreef/programs/internal/transport"
	"fishreef/rtr"
)

// counts are the statistics of the program.
type counts struct {
	received, sent atomic.Int64 // bytes

	lock                 sync.Mutex
	connections          map[string]int
	failures             map[string]int
	changes              int // of the data
	announced, withdrawn int
	present              rtr.Data
}

func newCounts() *counts {
	return &counts{connections: map[string]int{}, failures: map[string]int{}}
}

// counted returns a dial function that counts the connections' bytes.
func (c *counts) counted(connect transport.Dial) transport.Dial {
	return func(ctx context.Context, network, address string) (net.Conn, error) {
		connection, err := connect(ctx, network, address)
		if err != nil {
			return nil, err
		}
		c.lock.Lock()
		c.connections[address]++
		c.lock.Unlock()
		return &countedConn{connection, c}, nil
	}
}

// failed counts a failure of a cache.
func (c *counts) failed(name string) {
	c.lock.Lock()
	defer c.lock.Unlock()
	c.failures[name]++
}

// changed counts the changes of an update.
func (c *counts) changed(update rtr.Update) {
	c.lock.Lock()
	defer c.lock.Unlock()
	c.changes++
	c.present = update.Data
	for changes := update.Changes(); changes.Scan(); {
		if changes.Unit().Announce {
			c.announced++
		} else {
			c.withdrawn++
		}
	}
}

// say prints the statistics.
func (c *counts) say(output io.Writer) {
	c.lock.Lock()
	defer c.lock.Unlock()
	var names []string
	for name := range c.connections {
		names = append(names, name)
	}
	for name := range c.failures {
		if c.connections[name] == 0 {
			names = append(names, name)
		}
	}
	sort.Strings(names)
	for _, name := range names {
		fmt.Fprintf(output, "rtr-client: %s: connections %d, failures %d\n",
			name, c.connections[name], c.failures[name])
	}
	fmt.Fprintf(output, "rtr-client: bytes received %d, sent %d\n",
		c.received.Load(), c.sent.Load())
	fmt.Fprintf(output, "rtr-client: payloads %d, changes of the data %d, ",
		c.present.Len(), c.changes)
	fmt.Fprintf(output, "announced %d, withdrawn %d\n", c.announced, c.withdrawn)
}

// countedConn is a connection whose bytes are counted.
type countedConn struct {
	net.Conn
	counts *counts
}

// Read reads, and counts.
func (c *countedConn) Read(buffer []byte) (int, error) {
	n, err := c.Conn.Read(buffer)
	c.counts.received.Add(int64(n))
	return n, err
}

// Write writes, and counts.
func (c *countedConn) Write(bytes []byte) (int, error) {
	n, err := c.Conn.Write(bytes)
	c.counts.sent.Add(int64(n))
	return n, err
}

// CloseWrite closes the writing side.
func (c *countedConn) CloseWrite() error {
	if half, ok := c.Conn.(interface{ CloseWrite() error }); ok {
		return half.CloseWrite()
	}
	return net.ErrClosed
}
