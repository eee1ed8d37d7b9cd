//go:build cgo && linux

package rtr

import (
	"context"
	"fmt"
	"math"
	"net"
	"os"
	"reflect"
	"syscall"
	"testing"
	"time"
)

// A request that comes between two pauses of a client ends the second one.
func TestRequestBetweenPauses(t *testing.T) {
	noLeaks(t)
	ctx, cancel := limited(t)
	defer cancel()
	var request askRequest
	n := &network{clock: newClock(), askRequest: &request, ctx: ctx}
	if err := n.rest(0); err != nil {
		t.Fatal(err)
	}
	request.set()
	if err := n.rest(math.MaxUint64); err != nil {
		t.Error("the request is lost:", err)
	}
}

// askedInBetween is a connection that gets a request while the deadline of a read is set.
type askedInBetween struct {
	net.Conn
	request *askRequest
	asked   bool
	until   time.Time
}

func (a *askedInBetween) SetReadDeadline(until time.Time) error {
	if !a.asked {
		a.asked = true
		a.request.set()
	}
	a.until = until
	return nil
}

func (a *askedInBetween) Read([]byte) (int, error) { return 0, os.ErrDeadlineExceeded }

// A request that comes when a client is about to read ends that read.
func TestRequestBeforeARead(t *testing.T) {
	var request askRequest
	connection := &askedInBetween{request: &request}
	n := &network{clock: newClock(), askRequest: &request, connection: connection}
	if _, err := n.read(make([]byte, 1), math.MaxUint64); err != nil {
		t.Error(err)
	}
	if !connection.until.Equal(passed) {
		t.Error("it reads until", connection.until)
	}
}

// No failure is passed on once the function for data has returned an error.
func TestNoFailureAfterTheEnd(t *testing.T) {
	noLeaks(t)
	client := quick(fakeCache(t,
		play(t, nil, scene{reset1, join(full(7, 1, ipv4), numbered(1, 0, 8, 1))})))
	client.Version = 1
	client.Failed = func(err error) { t.Error(err) }
	ctx, cancel := limited(t)
	defer cancel()
	err := client.Run(ctx, func(update Update) error {
		if update.Data.IsZero() { // a notify of another session drops the data
			return errEnough
		}
		return nil
	})
	if err != errEnough {
		t.Error(err)
	}
}

// Follow passes failures to its listener, and doesn't call Failed of a source's client.
func TestFailuresOfASource(t *testing.T) {
	noLeaks(t)
	client := quick("")
	client.Dial = func(context.Context, string, string) (net.Conn, error) { return nil, errBroken }
	client.Failed = func(err error) { t.Error(err) }
	ctx, cancel := limited(t)
	defer cancel()
	err := Follow(ctx, []Source{{Client: client}}, ears{failed: func(_ Source, err error) error {
		return err
	}})
	if err != errBroken {
		t.Error(err)
	}
}

// filledQueue returns an address whose queue is full, so that connecting to it waits.
func filledQueue(t *testing.T) (address string) {
	t.Helper()
	socket, err := syscall.Socket(syscall.AF_INET, syscall.SOCK_STREAM|syscall.SOCK_CLOEXEC, 0)
	if err != nil {
		t.Fatal(err)
	}
	t.Cleanup(func() { syscall.Close(socket) })
	here := &syscall.SockaddrInet4{Addr: [4]byte{127, 0, 0, 1}}
	if err := syscall.Bind(socket, here); err != nil {
		t.Fatal(err)
	}
	if err := syscall.Listen(socket, 0); err != nil {
		t.Fatal(err)
	}
	name, err := syscall.Getsockname(socket)
	if err != nil {
		t.Fatal(err)
	}
	address = net.JoinHostPort("127.0.0.1", fmt.Sprint(name.(*syscall.SockaddrInet4).Port))
	dial(t, address) // the only one that the queue has room for
	return address
}

// Connecting by TCP, without a Dial of the caller, ends by its time limit.
func TestLimitOfTCP(t *testing.T) {
	noLeaks(t)
	client := NewClient(filledQueue(t))
	client.Limits.Dial = 50 * time.Millisecond
	ctx, cancel := limited(t)
	defer cancel()
	ended := make(chan error, 1)
	go func() {
		_, err := client.Fetch(ctx)
		ended <- err
	}()
	select {
	case err := <-ended:
		if err != errSlowCache {
			t.Error(err)
		}
	case <-time.After(2 * patience):
		t.Error("it still connects")
	}
}

// firsts collects the first field of each line of a log.
type firsts struct{ lines }

func (f *firsts) log(_ Level, message string, fields ...any) {
	if len(fields) > 2 {
		fields = fields[:2]
	}
	f.lines.log(0, fmt.Sprintf("%s: %v", message, fields))
}

// Each line of a log begins with the cache or the client that it is about, and the line about a
// listener with its address.
func TestLogOfPeers(t *testing.T) {
	noLeaks(t)
	var ours, theirs firsts
	server := NewServer()
	if err := server.Update(parsed(t, ending(1, 7, 1))); err != nil {
		t.Fatal(err)
	}
	server.Log = theirs.log
	listener := listen(t, "127.0.0.1:0")
	done := make(chan error, 1)
	go func() { done <- server.Serve(listener) }()
	address, local := listener.Addr().String(), ""
	client := quick(address)
	client.Version, client.Log = 1, ours.log
	client.Dial = func(ctx context.Context, network, address string) (net.Conn, error) {
		connection, err := new(net.Dialer).DialContext(ctx, network, address)
		if err == nil {
			local = connection.LocalAddr().String()
		}
		return connection, err
	}
	follow(t, client, func(Update) bool { return true })
	of := func(what string) string { return ": [" + what + "]" }
	cache, router := of("cache "+address), of("client "+local)
	ours.has(t, "0 connected"+cache, "0 asks"+cache, "0 data"+cache)
	theirs.has(t, "0 listening"+of("address "+address), "0 connected"+router, "0 answers"+router,
		"0 answered"+router, "0 ended"+router)
	server.Close()
	<-done
}

// A source that is started again goes on with its link, whose pauses continue to grow.
func TestSourceStartedAgain(t *testing.T) {
	noLeaks(t)
	ctx, cancel := limited(t)
	defer cancel()
	dials, client := make(chan struct{}), quick("")
	client.Dial = func(ctx context.Context, _, _ string) (net.Conn, error) {
		select {
		case dials <- struct{}{}:
		case <-ctx.Done():
		}
		return nil, errBroken
	}
	group, err := NewGroup(1, UsualGroupSettings(), 0)
	if err != nil {
		t.Fatal(err)
	}
	c := &chooser{
		sources: []Source{{Client: client}}, group: group, events: make(chan sourceEvent),
		clock: newClock(), members: make([]member, 1),
	}
	defer c.running.Wait()
	var links [2]*link
	for run := range links {
		c.start(ctx, 0)
		select {
		case <-dials:
		case <-ctx.Done():
			t.Errorf("run %d doesn't connect", run)
		}
		c.stop(0)
		links[run] = <-c.members[0].ended
		c.members[0].ended <- links[run]
	}
	if links[0] != links[1] {
		t.Error("it has another link")
	}
}

// Each limit and time of a client is passed on, and a number above 32 bits as the highest.
func TestEachClientLimit(t *testing.T) {
	client := NewClient("")
	client.Refresh, client.Retry, client.Expire = 1*time.Second, 2*time.Second, 3*time.Second
	client.Limits = ClientLimits{
		Dial: 4 * time.Second, Response: 5 * time.Second, Bytes: 6, Units: math.MaxUint64,
		Pause: 7 * time.Second, Report: 8 * time.Second,
	}
	f := client.follower(context.Background(), newClock(), nil)
	s := settingsOf(client, client.Limits, 9)
	got := []uint64{uint64(s.refresh), uint64(s.retry), uint64(s.expire), uint64(s.connect_limit),
		uint64(s.response_limit), uint64(s.most_bytes), uint64(s.most_units), uint64(s.pause),
		uint64(f.peer.(*network).patience.Milliseconds()), uint64(s.chance)}
	want := []uint64{1000, 2000, 3000, 4000, 5000, 6, math.MaxUint32, 7000, 8000, 9}
	if !reflect.DeepEqual(got, want) {
		t.Errorf("%d, not %d", got, want)
	}
}
