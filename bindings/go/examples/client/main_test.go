package main

import (
	"bytes"
	"context"
	"errors"
	"net"
	"net/netip"
	"reflect"
	"strings"
	"testing"
	"time"

	"fishreef/rtr"
)

// patience is the time limit of a test for each thing that it waits for.
const patience = 120 * time.Second

// cache starts a cache without data, and returns it and its address.
func cache(t *testing.T) (*rtr.Server, string) {
	t.Helper()
	listener, err := net.Listen("tcp", "127.0.0.1:0")
	if err != nil {
		t.Fatal(err)
	}
	server := rtr.NewServer()
	server.Limits.Notify = 0
	go server.Serve(listener)
	t.Cleanup(server.Close)
	return server, listener.Addr().String()
}

// update updates a cache to data of this serial number, with one prefix and these origins.
func update(t *testing.T, server *rtr.Server, serial uint32, origins ...uint32) {
	t.Helper()
	var vrps []rtr.VRP
	for _, asn := range origins {
		prefix := netip.MustParsePrefix("192.0.2.0/24")
		vrps = append(vrps, rtr.VRP{Prefix: prefix, MaxLength: 24, ASN: asn})
	}
	data, err := rtr.NewDataOf(vrps, 1, 7, serial, rtr.RecommendedTiming)
	if err == nil {
		err = server.Update(data)
	}
	if err != nil {
		t.Fatal(err)
	}
}

// line returns the line of a change.
func line(sign, asn string) string {
	return sign + " IPv4 prefix 192.0.2.0/24-24 AS" + asn + "\n"
}

// written sends what a client writes, one change of the data at a time.
type written chan string

func (w written) Write(text []byte) (int, error) {
	w <- string(text)
	return len(text), nil
}

// says waits for the next text, and compares it.
func (w written) says(t *testing.T, want string) {
	t.Helper()
	select {
	case got := <-w:
		if got != want {
			t.Fatalf("%q, not %q", got, want)
		}
	case <-time.After(patience):
		t.Fatalf("%q doesn't come", want)
	}
}

// The client follows the first cache that has data; a change of caches prints the differences.
func TestPrefer(t *testing.T) {
	first, address := cache(t)
	second, other := cache(t)
	update(t, second, 5, 1, 2)
	opts, ok := arguments([]string{"--prefer", address, "--prefer", other})
	if !ok {
		t.Fatal(opts)
	}
	ctx, cancel := context.WithCancel(context.Background())
	output, ended := make(written, 100), make(chan error, 1)
	go func() { ended <- run(ctx, opts, output) }()
	output.says(t, line("+", "1")+line("+", "2"))
	update(t, second, 6, 1, 2, 3)
	output.says(t, line("+", "3"))
	update(t, first, 1, 2, 4)
	output.says(t, line("+", "4")+line("-", "1")+line("-", "3"))
	update(t, second, 7, 9) // the client doesn't follow it any more
	update(t, first, 2, 2)
	output.says(t, line("-", "4"))
	cancel()
	if err := <-ended; !errors.Is(err, context.Canceled) {
		t.Error(err)
	}
}

// With --once the client ends after the first data, or once all caches have failed.
func TestPreferOnce(t *testing.T) {
	ctx, cancel := context.WithTimeout(context.Background(), patience)
	defer cancel()
	_, address := cache(t)
	second, other := cache(t)
	opts := options{addresses: []string{address, address, other}, version: 1, once: true}
	var output bytes.Buffer
	err := run(ctx, opts, &output)
	if err == nil || !strings.HasPrefix(err.Error(), other+": ") || output.Len() > 0 {
		t.Fatal(err, output.String())
	}
	update(t, second, 5, 1)
	if err := run(ctx, opts, &output); err != nil || output.String() != line("+", "1") {
		t.Fatal(err, output.String())
	}
}

// Valid and invalid command lines.
func TestArguments(t *testing.T) {
	most := strings.Fields(strings.Repeat("--prefer a:1 ", rtr.MostMembers))
	for _, words := range [][]string{
		{}, {"--once"}, {"a"}, {"a:1", "b:2"}, {"a:1", "--version"}, {"a:1", "--version", "3"},
		{"--version", "a:1"}, {"a:1", "--other"}, {"--help"}, {"--prefer"}, {"--prefer", "a"},
		{"--prefer", "-a:1"}, {"--prefer", "a:1", "b:2"}, {"a:1", "--prefer", "b:2"}, {"", "a:1"},
		append(most[:len(most):len(most)], "--prefer", "a:1"),
	} {
		if opts, ok := arguments(words); ok {
			t.Error(words, opts)
		}
	}
	for _, row := range []struct {
		words []string
		want  options
	}{
		{[]string{"a:1"}, options{[]string{"a:1"}, 1, false, false}},
		{[]string{"--once", "[::1]:2", "--json"}, options{[]string{"[::1]:2"}, 1, true, true}},
		{
			[]string{"--prefer", "a:1", "--version", "2", "--prefer", "b:2"},
			options{[]string{"a:1", "b:2"}, 2, false, false},
		},
	} {
		if got, ok := arguments(row.words); !ok || !reflect.DeepEqual(got, row.want) {
			t.Error(row.words, got)
		}
	}
	if got, ok := arguments(most); !ok || len(got.addresses) != rtr.MostMembers {
		t.Error(got)
	}
}
