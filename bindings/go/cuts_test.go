//go:build cgo && linux

package rtr

import (
	"bytes"
	"errors"
	"io"
	"net"
	"testing"
)

// A router that closes inside a unit gets a report about it, if it still reads, and the server gets
// a Fault with that unit and its offset in all received bytes.
func TestRouterClosesInAUnit(t *testing.T) {
	noLeaks(t)
	query := asked(1, 7, 1)
	for name, row := range map[string]struct {
		whole, cut []byte
		reads      bool
	}{
		"a header":                {nil, query[:5], true},
		"a body":                  {nil, query[:11], true},
		"after a query":           {query, query[:9], true},
		"and doesn't read":        {nil, query[:9], false},
		"later, and doesn't read": {query, query[:1], false},
	} {
		server, address := started(t, nil, parsed(t, ending(1, 7, 1)))
		ended := why(server)
		client := dial(t, address)
		if row.whole != nil {
			send(t, client, row.whole)
			expect(t, client, join(response(1, 7), ending(1, 7, 1)))
		}
		send(t, client, row.cut)
		if row.reads {
			client.CloseWrite()
			expectEnd(t, client, reportBytes(1, 0, row.cut, "unexpected end of input"))
		}
		client.Close()
		var fault *Fault
		if err := <-ended; !errors.As(err, &fault) || !errors.Is(err, io.ErrUnexpectedEOF) ||
			fault.Status != Short || fault.Offset != int64(len(row.whole)) ||
			!bytes.Equal(fault.Unit, row.cut) {
			t.Errorf("%s: %#v", name, err)
		}
	}
}

// A cache that closes inside a unit gets a report about it, and the client's caller gets a Fault
// with that unit and its offset in all received bytes. Data that were complete before stay.
func TestCacheClosesInAUnit(t *testing.T) {
	noLeaks(t)
	first := full(7, 1, ipv4)
	for name, row := range map[string]struct{ whole, cut []byte }{
		"a header":            {nil, first[:7]},
		"a response":          {first[:8], ipv4[:19]},
		"an end of data":      {first[:28], ending(1, 7, 1)[:23]},
		"a notify after that": {first, numbered(1, 0, 7, 2)[:11]},
	} {
		reports, failed := make(chan []byte, 1), make(chan error, 1)
		client := quick(fakeCache(t, func(cache *net.TCPConn) {
			reader := NewReader(cache)
			readUnit(reader)
			cache.Write(join(row.whole, row.cut))
			cache.CloseWrite()
			reports <- readUnit(reader)
		}, play(t, nil)))
		client.Version = 1
		ctx, cancel := limited(t)
		updates := 0
		client.Failed = func(err error) {
			select {
			case failed <- err:
			default:
			}
			cancel()
		}
		client.Run(ctx, func(Update) error {
			updates++
			return nil
		})
		want := reportBytes(1, 0, row.cut, "unexpected end of input")
		if report := <-reports; !bytes.Equal(report, want) {
			t.Errorf("%s: the cache got %x, not %x", name, report, want)
		}
		var fault *Fault
		if err := <-failed; !errors.As(err, &fault) || !errors.Is(err, io.ErrUnexpectedEOF) ||
			fault.Status != Short || fault.Offset != int64(len(row.whole)) ||
			!bytes.Equal(fault.Unit, row.cut) {
			t.Errorf("%s: %#v", name, err)
		}
		if want := len(row.whole) / len(first); updates != want {
			t.Errorf("%s: %d updates, not %d", name, updates, want)
		}
	}
}

// torn is a connection that ends inside of what its transport sends, such as a record of TLS, once
// some bytes were read.
type torn struct {
	net.Conn
	first []byte
}

func (c *torn) Read(buffer []byte) (int, error) {
	n := copy(buffer, c.first)
	if c.first = c.first[n:]; n == 0 {
		return 0, io.ErrUnexpectedEOF
	}
	return n, nil
}

// A transport that ends in the middle isn't taken for a close by the peer, on either end.
func TestTransportEndsInside(t *testing.T) {
	noLeaks(t)
	near, far := net.Pipe()
	go io.Copy(io.Discard, far)
	client := NewClientConn(&torn{Conn: near, first: full(7, 1)[:8]})
	client.AskIn(1)
	ctx, cancel := limited(t)
	defer cancel()
	if _, err := client.Fetch(ctx); err != io.ErrUnexpectedEOF {
		t.Error("the client:", err)
	}
	far.Close()
	near, far = net.Pipe()
	go io.Copy(io.Discard, far)
	server := NewServer()
	defer server.Close()
	router := newServed(server, &torn{Conn: near, first: asked(1, 0)})
	if err := router.serve(); err != io.ErrUnexpectedEOF {
		t.Error("the server:", err)
	}
	near.Close()
	far.Close()
}
