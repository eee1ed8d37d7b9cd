//go:build cgo && linux

package rtr

import (
	"context"
	"net"
	"testing"
)

// addressed returns the answer to a query for the addresses of a name (RFC 1035 section 4): these
// of IPv4, and none of IPv6.
func addressed(query []byte, addresses ...net.IP) []byte {
	end := 12
	for query[end] != 0 {
		end += 1 + int(query[end])
	}
	question := query[12 : end+5]
	if queryType := question[len(question)-3]; queryType != 1 {
		addresses = nil
	}
	answer := join(query[:2], []byte{0x81, 0x80, 0, 1, 0, byte(len(addresses)), 0, 0, 0, 0}, question)
	for _, address := range addresses {
		answer = append(answer, 0xc0, 12, 0, 1, 0, 1, 0, 0, 0, 60, 0, 4)
		answer = append(answer, address.To4()...)
	}
	return answer
}

// resolved runs a name server that returns these addresses for every name, until the test ends.
func resolved(t *testing.T, addresses ...net.IP) {
	t.Helper()
	server, err := net.ListenPacket("udp", "127.0.0.1:0")
	if err != nil {
		t.Fatal(err)
	}
	before := net.DefaultResolver
	net.DefaultResolver = &net.Resolver{
		PreferGo: true,
		Dial: func(ctx context.Context, _, _ string) (net.Conn, error) {
			return new(net.Dialer).DialContext(ctx, "udp", server.LocalAddr().String())
		},
	}
	ended := make(chan struct{})
	t.Cleanup(func() {
		net.DefaultResolver = before
		server.Close()
		<-ended
	})
	go func() {
		defer close(ended)
		query := make([]byte, 1<<16)
		for {
			size, from, err := server.ReadFrom(query)
			if err != nil {
				return
			}
			server.WriteTo(addressed(query[:size], addresses...), from)
		}
	}()
}

// If only one of the two addresses of a name has a cache, that is used, in either order.
func TestSecondAddress(t *testing.T) {
	noLeaks(t)
	data := parsed(t, join(ipv4, ending(1, 7, 9)))
	_, address := started(t, nil, data)
	_, port, err := net.SplitHostPort(address)
	if err != nil {
		t.Fatal(err)
	}
	here, nobody := net.IPv4(127, 0, 0, 1), net.IPv4(127, 0, 0, 9)
	for _, order := range [][]net.IP{{nobody, here}, {here, nobody}, {nobody, nobody, here}} {
		resolved(t, order...)
		ctx, cancel := limited(t)
		client := NewClient(net.JoinHostPort("cache.example", port))
		got, err := client.Fetch(ctx)
		cancel()
		if err != nil || !got.Equal(data) {
			t.Error(order, got, err)
		}
	}
}
