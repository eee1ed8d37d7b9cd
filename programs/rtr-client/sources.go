package main

import (
	"context"
	"net"

	"fishreef/programs/internal/record"
	"fishreef/programs/internal/transport"
	"fishreef/rtr"
)

// sources returns the caches, with clients that count and record their connections.
func (o *options) sources(counts *counts) ([]rtr.Source, error) {
	connect, err := o.connect()
	if err != nil {
		return nil, err
	}
	if o.record != "" {
		recorder, err := record.New(o.record, func(err error) { say(err) })
		if err != nil {
			return nil, err
		}
		connect = recorded(connect, recorder)
	}
	var sources []rtr.Source
	for _, address := range o.addresses {
		client := rtr.NewClient(address)
		client.AskIn(o.version)
		client.Dial = counts.counted(connect)
		sources = append(sources, rtr.Source{Name: address, Client: client})
	}
	return sources, nil
}

// recorded returns a dial function that records the connections.
func recorded(connect transport.Dial, recorder *record.Recorder) transport.Dial {
	return func(ctx context.Context, network, address string) (net.Conn, error) {
		connection, err := connect(ctx, network, address)
		if err != nil {
			return nil, err
		}
		wrapped, err := recorder.Record(connection)
		if err != nil {
			connection.Close()
			return nil, err
		}
		return wrapped, nil
	}
}

// connect returns the dial function.
func (o *options) connect() (transport.Dial, error) {
	switch {
	case o.ssh.User != "":
		return o.ssh.Dialer()
	case o.useTLS:
		return o.tls.Dialer()
	}
	return new(net.Dialer).DialContext, nil
}
