//go:build cgo && linux

package rtr

import (
	"context"
	"errors"
	"fmt"
	"net"
	"net/netip"
	"testing"
	"time"
)

// collector is a listener that forwards data only if they changed: it is called for each answer.
type collector struct {
	changes chan string
	last    string
}

func (t *collector) Data(source Source, update Update) error {
	data := source.Name + ": none"
	if !update.Data.IsZero() {
		data = fmt.Sprintf("%s: %d", source.Name, update.Data.Serial())
	}
	if data != t.last {
		t.changes <- data
	}
	t.last = data
	return nil
}

func (t *collector) Failed(Source, error) error { return nil }

// says waits for the next data of a listener.
func (t *collector) says(test *testing.T, want string) {
	test.Helper()
	select {
	case got := <-t.changes:
		if got != want {
			test.Fatalf("%s, not %s", got, want)
		}
	case <-time.After(patience):
		test.Fatalf("%s doesn't come", want)
	}
}

// cache starts a cache at this address, with data of this serial number.
func cache(t *testing.T, address string, serial uint32) (*Server, string) {
	t.Helper()
	listener, err := net.Listen("tcp", address)
	if err != nil {
		t.Fatal(err)
	}
	server := NewServer()
	server.Limits.Notify = 0
	update(t, server, serial)
	go server.Serve(listener)
	t.Cleanup(server.Close)
	return server, listener.Addr().String()
}

// update updates a cache to data of this serial number.
func update(t *testing.T, server *Server, serial uint32) {
	t.Helper()
	vrp := VRP{Prefix: netip.MustParsePrefix("192.0.2.0/24"), MaxLength: 24, ASN: serial}
	data, err := NewDataOf([]VRP{vrp}, 1, 7, serial, RecommendedTiming)
	if err == nil {
		err = server.Update(data)
	}
	if err != nil {
		t.Fatal(err)
	}
}

// sourcesAt returns sources at these addresses, with this expire time.
func sourcesAt(expire time.Duration, addresses ...string) (sources []Source) {
	for number, address := range addresses {
		client := NewClient(address)
		client.Expire = expire
		sources = append(sources, Source{Name: fmt.Sprint(number), Client: client})
	}
	return sources
}

// following runs a function that follows caches, until the test ends.
func following(t *testing.T, follow func(context.Context, Listener) error) *collector {
	ctx, cancel := context.WithCancel(context.Background())
	listener, ended := &collector{changes: make(chan string, 100)}, make(chan error)
	go func() { ended <- follow(ctx, listener) }()
	t.Cleanup(func() {
		cancel()
		if err := <-ended; !errors.Is(err, context.Canceled) {
			t.Error(err)
		}
	})
	return listener
}

// followingAt follows caches at these addresses, with this expire time.
func followingAt(t *testing.T, expire time.Duration, addresses ...string) *collector {
	return following(t, func(ctx context.Context, listener Listener) error {
		return Follow(ctx, sourcesAt(expire, addresses...), listener)
	})
}

// The data of a dead cache are shown until the next one has a complete answer, and those of the
// preferred one again as soon as it has a complete answer.
func TestNewer(t *testing.T) {
	first, address := cache(t, reserved(t), 1)
	second, other := cache(t, "127.0.0.1:0", 5)
	listener := followingAt(t, 0, address, other)
	listener.says(t, "0: 1")
	first.Close()
	listener.says(t, "1: 5")
	update(t, second, 6)
	listener.says(t, "1: 6")
	cache(t, address, 2)
	listener.says(t, "0: 2")
	update(t, second, 7) // the first cache replaces it
	select {
	case got := <-listener.changes:
		t.Error(got)
	case <-time.After(time.Second):
	}
}

// While no other cache answers, data stay until they expire.
func TestExpired(t *testing.T) {
	const expire = 3 * time.Second
	first, address := cache(t, reserved(t), 1)
	began := time.Now()
	listener := followingAt(t, expire, address, reserved(t))
	listener.says(t, "0: 1")
	first.Close()
	listener.says(t, "0: none")
	// The client's clock counts whole milliseconds.
	if lived := time.Since(began); lived < expire-time.Millisecond {
		t.Error(lived)
	}
}

// The next cache is asked once a silent one has exceeded the patience.
func TestSilent(t *testing.T) {
	silent, err := net.Listen("tcp", "127.0.0.1:0")
	if err != nil {
		t.Fatal(err)
	}
	defer silent.Close()
	_, other := cache(t, "127.0.0.1:0", 5)
	settings := GroupSettings{Patience: 500 * time.Millisecond}
	began := time.Now()
	listener := following(t, func(ctx context.Context, listener Listener) error {
		return FollowWith(ctx, sourcesAt(0, silent.Addr().String(), other), settings, listener)
	})
	listener.says(t, "1: 5")
	if took := time.Since(began); took < settings.Patience {
		t.Error(took)
	}
}

// A stopped source is started again when the preferred one fails again.
func TestAgain(t *testing.T) {
	address := reserved(t)
	second, other := cache(t, "127.0.0.1:0", 5)
	listener := followingAt(t, 0, address, other)
	listener.says(t, "1: 5")
	for serial := uint32(6); serial < 9; serial++ {
		first, _ := cache(t, address, serial-5)
		listener.says(t, fmt.Sprintf("0: %d", serial-5))
		update(t, second, serial)
		first.Close()
		listener.says(t, fmt.Sprintf("1: %d", serial))
	}
}

// empty updates a cache to data without payloads, of this serial number.
func empty(t *testing.T, server *Server, serial uint32) {
	t.Helper()
	data, err := NewData(1, 7, serial, RecommendedTiming)
	if err == nil {
		err = server.Update(data)
	}
	if err != nil {
		t.Fatal(err)
	}
}

// An empty answer is data only if there is a single cache.
func TestEmpty(t *testing.T) {
	first, address := cache(t, "127.0.0.1:0", 1)
	empty(t, first, 2)
	_, other := cache(t, "127.0.0.1:0", 5)
	alone := followingAt(t, 0, address)
	both := followingAt(t, 0, address, other)
	alone.says(t, "0: 2")
	both.says(t, "1: 5")
	update(t, first, 3)
	alone.says(t, "0: 3")
	both.says(t, "0: 3")
}

// Too many sources are refused.
func TestTooManySources(t *testing.T) {
	for _, count := range []int{MostMembers + 1, 100} {
		err := Follow(context.Background(), make([]Source, count), &collector{})
		if err != TooManyMembers {
			t.Error(count, err)
		}
	}
}

// If data are dropped and no other cache has any, the listener gets the zero Data.
func TestNone(t *testing.T) {
	first, address := cache(t, reserved(t), 1)
	listener := followingAt(t, time.Second, address)
	listener.says(t, "0: 1")
	first.Close()
	listener.says(t, "0: none")
	cache(t, address, 2)
	listener.says(t, "0: 2")
}

// The next caches are asked one after the other.
func TestNext(t *testing.T) {
	gone := reserved(t)
	third, last := cache(t, "127.0.0.1:0", 9)
	listener := followingAt(t, 0, gone, gone, last)
	listener.says(t, "2: 9")
	update(t, third, 10)
	listener.says(t, "2: 10")
}
