//go:build cgo && linux

package rtr_test

import (
	"context"
	"errors"
	"fmt"
	"net"

	"fishreef/rtr"
)

// follow prints what a cache announces and withdraws, until the context ends. It stores nothing:
// the client has the data.
func follow(ctx context.Context, address string) error {
	client := rtr.NewClient(address)
	client.Failed = func(err error) { fmt.Println(err) } // and it reconnects
	return client.Run(ctx, func(update rtr.Update) error {
		for changes := update.Changes(); changes.Scan(); {
			unit := changes.Unit()
			fmt.Println(unit.Announce, unit.Kind, unit.Prefix, unit.ASN)
		}
		fmt.Println("serial number", update.Data.Serial(), "payloads:", update.Data.Len())
		if update.Data.Len() == 0 {
			return errNothing
		}
		return nil
	})
}

// errNothing ends the client.
var errNothing = errors.New("the cache has nothing any more")

// serve starts a cache at an address, which serves this sequence; after another Update it notifies
// its clients. Close stops it.
func serve(address string, sequence []byte) (*rtr.Server, net.Addr, error) {
	data, err := rtr.ParseData(sequence)
	if err != nil {
		return nil, nil, err
	}
	listener, err := net.Listen("tcp", address)
	if err != nil {
		return nil, nil, err
	}
	server := rtr.NewServer()
	go server.Serve(listener)
	return server, listener.Addr(), server.Update(data)
}

// A client follows a cache, which first has one prefix, and then nothing.
func ExampleServer() {
	server, address, err := serve("127.0.0.1:0", []byte{
		1, 4, 0, 0, 0, 0, 0, 20, 1, 23, 26, 0, 192, 0, 2, 0, 0, 1, 0, 15,
		1, 7, 0, 7, 0, 0, 0, 24, 0, 0, 0, 1, 0, 0, 0x0e, 0x10, 0, 0, 2, 0x58, 0, 0, 0x1c, 0x20,
	})
	if err != nil {
		fmt.Println(err)
		return
	}
	defer server.Close()
	data, err := rtr.NewClient(address.String()).Fetch(context.Background())
	fmt.Println(data.Len(), "payload", err)
	nothing, err := rtr.NewData(1, 7, 2, rtr.RecommendedTiming)
	if err != nil || server.Update(nothing) != nil {
		return
	}
	fmt.Println(follow(context.Background(), address.String()))
	// Output:
	// 1 payload <nil>
	// serial number 2 payloads: 0
	// the cache has nothing any more
}
