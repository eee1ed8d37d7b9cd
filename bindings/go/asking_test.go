//go:build cgo && linux

package rtr

import (
	"bytes"
	"context"
	"io"
	"net"
	"sync"
	"testing"
	"time"
)

// quiet is a cache that plays scenes, fails the test if a query comes soon after them, and then
// closes the connection.
func quiet(t *testing.T, scenes ...scene) func(*net.TCPConn) {
	return func(cache *net.TCPConn) {
		reader := NewReader(cache)
		for _, s := range scenes {
			if got := readUnit(reader); !bytes.Equal(got, s.query) {
				t.Errorf("%x was asked, not %x", got, s.query)
			}
			cache.Write(s.answer)
		}
		cache.SetReadDeadline(time.Now().Add(50 * time.Millisecond))
		if got := readUnit(reader); got != nil {
			t.Errorf("%x was asked", got)
		}
	}
}

// AskNow makes a waiting client ask, once, from its own goroutine and from another. That of another
// client does nothing.
func TestAskNow(t *testing.T) {
	noLeaks(t)
	first, second := scene{reset1, full(7, 1)}, scene{asked(1, 7, 1), full(7, 2)}
	for name, row := range map[string]struct {
		ask    func(*Client)
		scenes []scene
	}{
		"its own":   {(*Client).AskNow, []scene{first, second}},
		"another":   {func(client *Client) { go client.AskNow() }, []scene{first, second}},
		"twice":     {func(client *Client) { client.AskNow(); client.AskNow() }, []scene{first, second}},
		"of others": {func(client *Client) { other := *client; other.AskNow() }, []scene{first}},
	} {
		client := quick(fakeCache(t, quiet(t, row.scenes...),
			play(t, nil, scene{asked(1, 7, uint32(len(row.scenes))), full(7, 3)})))
		client.Version = 1
		updates, failures := follow(t, client, func(update Update) bool {
			if update.Data.Serial() == 1 {
				row.ask(client)
			}
			return update.Data.Serial() == 3
		})
		if len(updates) != len(row.scenes)+1 || len(failures) != 1 {
			t.Fatalf("%s: %d updates, %s", name, len(updates), texts(failures))
		}
	}
}

// longest is a retry time that no test waits for.
const longest = time.Hour

// dialing returns a client of a cache with these connections, in order; a nil is a connection that
// can't be made, about which dialed is called before the client knows of it. Its waits for a cache
// that isn't alive are longest.
func dialing(t *testing.T, dialed func(*Client, net.Conn), all ...func(*net.TCPConn)) *Client {
	var made []func(*net.TCPConn)
	for _, one := range all {
		if one != nil {
			made = append(made, one)
		}
	}
	client := quick(fakeCache(t, made...))
	client.Version, client.Retry = 1, longest
	next := 0
	client.Dial = func(ctx context.Context, network, address string) (net.Conn, error) {
		one := all[next]
		if next++; one == nil {
			dialed(client, nil)
			return nil, errBroken
		}
		connection, err := new(net.Dialer).DialContext(ctx, network, address)
		if err != nil {
			return nil, err
		}
		dialed(client, connection)
		return connection, nil
	}
	return client
}

// Without a connection AskNow makes the next one: at once, where the client would wait for a second,
// for two, and then for its retry time each time.
func TestAskNowOffline(t *testing.T) {
	noLeaks(t)
	client := dialing(t, func(*Client, net.Conn) {}, quiet(t, scene{reset1, full(7, 1)}), nil, nil,
		nil, nil, play(t, nil, scene{asked(1, 7, 1), full(7, 2)}))
	ctx, cancel := limited(t)
	defer cancel()
	failures := 0
	client.Failed = func(error) {
		failures++
		client.AskNow()
	}
	err := client.Run(ctx, func(update Update) error {
		if update.Data.Serial() == 2 {
			return errEnough
		}
		return nil
	})
	if err != errEnough || failures != 5 {
		t.Fatal(failures, err)
	}
}

// hasty is a connection that calls AskNow at its end, before the client knows of that.
type hasty struct {
	*net.TCPConn
	client *Client
}

func (h hasty) Read(bytes []byte) (int, error) {
	n, err := h.TCPConn.Read(bytes)
	if err == io.EOF {
		h.client.AskNow()
	}
	return n, err
}

// A request that comes between the loss of a connection, or a failed dial, and its close makes the
// next connection, where the client would wait for its retry time.
func TestAskNowAtALoss(t *testing.T) {
	noLeaks(t)
	ends := func(query []byte) func(*net.TCPConn) { return play(t, nil, scene{query, nil}) }
	client := dialing(t, func(client *Client, connection net.Conn) {
		if connection == nil {
			client.AskNow()
		}
	}, quiet(t, scene{reset1, full(7, 1)}), nil, nil, nil, ends(asked(1, 7, 1)), ends(reset1),
		ends(reset1), play(t, nil, scene{reset1, full(7, 2)}))
	over := client.Dial
	client.Dial = func(ctx context.Context, network, address string) (net.Conn, error) {
		connection, err := over(ctx, network, address)
		if err != nil {
			return nil, err
		}
		return hasty{connection.(*net.TCPConn), client}, nil
	}
	if _, failures := follow(t, client, func(update Update) bool {
		return update.Data.Serial() == 2
	}); len(failures) != 7 {
		t.Fatal(texts(failures))
	}
}

// wakes starts a wait, lets a request be set before it or while it waits, and checks that it ends.
func wakes(t *testing.T, before bool, wait func(*askRequest)) {
	t.Helper()
	request := new(askRequest)
	if before {
		request.set()
	}
	ended := make(chan struct{})
	go func() {
		wait(request)
		close(ended)
	}()
	for waits := before; !waits; time.Sleep(time.Millisecond) {
		request.lock.Lock()
		waits = request.cancel != nil
		request.lock.Unlock()
	}
	if !before {
		request.set()
	}
	select {
	case <-ended:
	case <-time.After(patience):
		t.Fatalf("it waits, though it was asked before: %v", before)
	}
	if request.cancel != nil || !request.take() || request.take() {
		t.Error("the request isn't taken once after the wait")
	}
}

// A request ends each kind of wait, be it set before that or during it.
func TestAskNowInWaits(t *testing.T) {
	noLeaks(t)
	ours, theirs := net.Pipe()
	defer theirs.Close()
	defer ours.Close()
	ctx, cancel := context.WithCancel(context.Background())
	defer cancel()
	n := &network{clock: newClock(), ctx: ctx, connection: ours}
	until := n.now() + uint64(longest.Milliseconds())
	for _, before := range []bool{true, false} {
		wakes(t, before, func(request *askRequest) {
			n.askRequest = request
			if err := n.rest(until); err != nil {
				t.Error(err)
			}
		})
		wakes(t, before, func(request *askRequest) {
			n.askRequest = request
			if count, err := n.read(make([]byte, 1), until); count != 0 || err != nil {
				t.Error(count, err)
			}
		})
	}
}

// A request interrupts one wait: none after it was taken, and no second one.
func TestAskNowInterruptsOnce(t *testing.T) {
	request, calls := new(askRequest), 0
	count := func() { calls++ }
	request.set()
	request.take()
	request.setCancel(count)
	request.setCancel(nil)
	if calls != 0 {
		t.Error("a request that was taken interrupts a wait")
	}
	request.set()
	for wait := 0; wait < 2; wait++ {
		request.setCancel(count)
		request.setCancel(nil)
	}
	if calls != 1 {
		t.Errorf("it interrupts %d waits", calls)
	}
}

// While an answer comes AskNow does nothing.
func TestAskNowInAnAnswer(t *testing.T) {
	noLeaks(t)
	clients := make(chan *Client, 1)
	answer := full(7, 1, ipv4)
	client := quick(fakeCache(t, func(cache *net.TCPConn) {
		reader := NewReader(cache)
		readUnit(reader)
		cache.Write(answer[:30])
		(<-clients).AskNow()
		cache.Write(answer[30:])
		quiet(t)(cache)
	}, play(t, nil, scene{asked(1, 7, 1), full(7, 3)})))
	client.Version = 1
	clients <- client
	if updates, _ := follow(t, client, func(update Update) bool {
		return update.Data.Serial() == 3
	}); len(updates) != 2 {
		t.Fatal(len(updates))
	}
}

// hurried is a connection whose first read calls AskNow before the client has the bytes.
type hurried struct {
	*net.TCPConn
	first  *sync.Once
	client *Client
}

func (h hurried) Read(bytes []byte) (int, error) {
	n, err := h.TCPConn.Read(bytes)
	h.first.Do(h.client.AskNow)
	return n, err
}

// A request comes before an answer that is read later, all of it at once.
func TestAskNowBeforeAnAnswer(t *testing.T) {
	noLeaks(t)
	client := quick(fakeCache(t, quiet(t, scene{reset1, full(7, 1, ipv4)}),
		play(t, nil, scene{asked(1, 7, 1), full(7, 3)})))
	client.Version = 1
	var first sync.Once
	client.Dial = func(ctx context.Context, network, address string) (net.Conn, error) {
		connection, err := new(net.Dialer).DialContext(ctx, network, address)
		if err != nil {
			return nil, err
		}
		return hurried{connection.(*net.TCPConn), &first, client}, nil
	}
	if updates, _ := follow(t, client, func(update Update) bool {
		return update.Data.Serial() == 3
	}); len(updates) != 2 {
		t.Fatal(len(updates))
	}
}

// AskNow asks a cache that has no data yet for all data.
func TestAskNowWithoutData(t *testing.T) {
	noLeaks(t)
	client := quick(fakeCache(t, play(t, nil, scene{reset1, report(1, 2)}, scene{reset1, full(7, 3)})))
	client.Version, client.Retry = 1, patience
	ctx, cancel := limited(t)
	defer cancel()
	client.Failed = func(error) { client.AskNow() }
	err := client.Run(ctx, func(update Update) error { return errEnough })
	if err != errEnough {
		t.Fatal(err)
	}
}

// A client that doesn't run any more, or yet, ignores AskNow.
func TestAskNowWithoutRun(t *testing.T) {
	noLeaks(t)
	client := quick(fakeCache(t, play(t, nil, scene{reset1, full(7, 3)})))
	client.Version = 1
	for turn := 0; turn < 2; turn++ {
		client.AskNow()
		ctx, cancel := limited(t)
		data, err := client.Fetch(ctx)
		cancel()
		if err != nil || data.Serial() != 3 {
			t.Fatal(err)
		}
	}
	if len(client.requestsOf().all) > 0 {
		t.Error("a request is left")
	}
}

// asks returns a listener that calls AskNow of clients at the first data, and ends with the second.
type asks []*Client

func (a asks) Data(_ Source, update Update) error {
	if update.Data.Serial() == 2 {
		return errEnough
	}
	for _, client := range a {
		client.AskNow()
	}
	return nil
}

func (a asks) Failed(_ Source, err error) error { return err }

// AskNow works under Follow, for the sources that run.
func TestAskNowInFollow(t *testing.T) {
	noLeaks(t)
	for count := 1; count <= 3; count++ {
		var sources []Source
		var clients asks
		for i := 0; i < count; i++ {
			client := quick(fakeCache(t, play(t, nil, scene{reset1, full(7, 1, ipv4)},
				scene{asked(1, 7, 1), full(7, 2)})))
			client.Version = 1
			sources, clients = append(sources, Source{Client: client}), append(clients, client)
		}
		ctx, cancel := limited(t)
		if err := Follow(ctx, sources, clients); err != errEnough {
			t.Errorf("of %d: %v", count, err)
		}
		cancel()
	}
}

// AskNow, called repeatedly, doesn't disturb a client in any state.
func TestAskNowAgainAndAgain(t *testing.T) {
	noLeaks(t)
	_, address := started(t, nil, megabytes(t))
	client := quick(address)
	client.Version = 1
	ctx, cancel := context.WithCancel(context.Background())
	asks := make(chan struct{})
	go func() {
		defer close(asks)
		for ctx.Err() == nil {
			client.AskNow()
		}
	}()
	updates, failures := follow(t, client, func(Update) bool { return true })
	cancel()
	<-asks
	if len(updates) != 1 || len(failures) > 0 {
		t.Fatal(len(updates), texts(failures))
	}
}
