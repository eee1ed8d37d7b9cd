//go:build cgo && linux

package rtr

import (
	"bytes"
	"context"
	"errors"
	"net"
	"sync"
	"sync/atomic"
	"testing"
	"time"
)

// ears is a listener of functions, which may be nil.
type ears struct {
	data   func(Source, Update) error
	failed func(Source, error) error
}

func (e ears) Data(source Source, update Update) error {
	if e.data == nil {
		return nil
	}
	return e.data(source, update)
}

func (e ears) Failed(source Source, err error) error {
	if e.failed == nil {
		return nil
	}
	return e.failed(source, err)
}

// Follow returns after all its clients have ended, whether its context ends or its listener returns
// an error.
func TestFollowAwaitsClients(t *testing.T) {
	noLeaks(t)
	for name, want := range map[string]error{"context": context.Canceled, "listener": errEnough} {
		ctx, cancel := limited(t)
		began, returned := make(chan struct{}), make(chan struct{})
		first, second := quick("first"), quick("second")
		first.Dial = func(context.Context, string, string) (net.Conn, error) { return nil, errBroken }
		second.Dial = func(ctx context.Context, _, _ string) (net.Conn, error) {
			close(began)
			<-ctx.Done()
			select {
			case <-returned:
				t.Errorf("%s: Follow returned before a client", name)
			case <-time.After(50 * time.Millisecond):
			}
			return nil, ctx.Err()
		}
		listener := ears{failed: func(Source, error) error {
			select {
			case <-began:
				if want == errEnough {
					return want
				}
				cancel()
			default:
			}
			return nil
		}}
		err := Follow(ctx, []Source{{Client: first}, {Client: second}}, listener)
		close(returned)
		if !errors.Is(err, want) {
			t.Errorf("%s: %v", name, err)
		}
		cancel()
	}
}

// After a source was stopped and started again, only data of its second run are shown. Data of the
// first run that come late are dropped.
func TestLateDataOfAStoppedRun(t *testing.T) {
	noLeaks(t)
	// Whether late data are taken or dropped may be chance, if nothing checks their run.
	for round := 0; round < 16; round++ {
		lateData(t)
	}
}

// lateData follows two sources. The second one's first run has data 5, which it passes on only when
// its second run has been started, and its second run has data 6.
func lateData(t *testing.T) {
	t.Helper()
	lost, has, late := make(chan struct{}), make(chan struct{}), make(chan struct{})
	var up atomic.Bool        // whether the first source can be reached
	var failures atomic.Int64 // of it, since it was lost
	sources := sourcesAt(0, fakeCache(t, func(cache *net.TCPConn) {
		readUnit(NewReader(cache))
		cache.Write(full(7, 1, ipv4))
		<-lost
	}), fakeCache(t, play(t, nil, scene{reset1, full(7, 5, ipv4)}),
		play(t, nil, scene{reset1, full(7, 6, ipv4)})))
	first, second := sources[0].Client, sources[1].Client
	// It waits so long between two failures without a query (docs/SESSIONS.md).
	first.Limits.Pause, first.Refresh, first.Retry = 1, 1, 1
	first.Dial = func(ctx context.Context, network, address string) (net.Conn, error) {
		if !up.Load() {
			return nil, errBroken
		}
		return new(net.Dialer).DialContext(ctx, network, address)
	}
	var dials atomic.Int64
	second.Dial = func(ctx context.Context, network, address string) (net.Conn, error) {
		dials.Add(1)
		return new(net.Dialer).DialContext(ctx, network, address)
	}
	var once sync.Once
	second.Log = func(_ Level, message string, _ ...any) {
		if message == "data" {
			once.Do(func() {
				close(has)
				<-late
			})
		}
	}
	shown := make(chan uint32, 100)
	ctx, cancel := limited(t)
	defer cancel()
	ended := make(chan error, 1)
	go func() {
		ended <- Follow(ctx, sources, ears{func(_ Source, update Update) error {
			shown <- update.Data.Serial()
			return nil
		}, func(source Source, _ error) error {
			if source.Name == "0" {
				failures.Add(1)
			}
			return nil
		}})
	}()
	<-has
	up.Store(true)
	if serial := <-shown; serial != 1 { // so the second source is stopped
		t.Fatal(serial)
	}
	up.Store(false)
	failures.Store(0)
	close(lost)
	// After the first of these the second source was started again.
	until(t, "the first source goes on", func() bool { return failures.Load() > 9 })
	if made := dials.Load(); made != 1 {
		t.Errorf("it made %d connections before its first run had ended", made)
	}
	close(late)
	if serial := <-shown; serial != 6 {
		t.Errorf("data %d are shown", serial)
	}
	cancel()
	if err := <-ended; !errors.Is(err, context.Canceled) {
		t.Error(err)
	}
}

// The changes of an update lead from the data that the listener got before, also if those were of
// another source.
func TestChangesBetweenSources(t *testing.T) {
	noLeaks(t)
	lost := make(chan struct{})
	sources := sourcesAt(0, fakeCache(t, func(cache *net.TCPConn) {
		readUnit(NewReader(cache))
		cache.Write(full(7, 1, ipv4))
		<-lost
	}, play(t, nil)), fakeCache(t, play(t, nil, scene{reset1, full(9, 5, otherIPv4)})))
	expected := map[string][]byte{"0": ipv4, "1": join(otherIPv4, withdrawn4)}
	ctx, cancel := limited(t)
	defer cancel()
	err := Follow(ctx, sources, ears{data: func(source Source, update Update) error {
		if got := changesOf(update); !bytes.Equal(got, expected[source.Name]) {
			t.Errorf("source %s: %x", source.Name, got)
		}
		if source.Name == "1" {
			return errEnough
		}
		close(lost)
		return nil
	}})
	if err != errEnough {
		t.Error(err)
	}
}

// Once a source has data, all sources after it are stopped, not only the next one.
func TestAllOthersStop(t *testing.T) {
	noLeaks(t)
	left := make(chan struct{})
	var up atomic.Bool
	sources := sourcesAt(0, fakeCache(t, play(t, nil, scene{reset1, full(7, 1, ipv4)})), "nowhere",
		fakeCache(t, func(cache *net.TCPConn) {
			play(t, nil, scene{reset1, full(7, 5, ipv4)})(cache)
			close(left)
		}))
	sources[0].Client.Limits.Pause, sources[0].Client.Refresh = 1, 1
	sources[0].Client.Retry = 1
	sources[0].Client.Dial = func(ctx context.Context, network, address string) (net.Conn, error) {
		if !up.Load() {
			return nil, errBroken
		}
		return new(net.Dialer).DialContext(ctx, network, address)
	}
	sources[1].Client.Dial = func(context.Context, string, string) (net.Conn, error) {
		return nil, errBroken
	}
	ctx, cancel := limited(t)
	defer cancel()
	ended := make(chan error, 1)
	go func() {
		ended <- Follow(ctx, sources, ears{data: func(source Source, _ Update) error {
			up.Store(true)
			return nil
		}})
	}()
	select {
	case <-left:
	case <-time.After(patience / 2):
		t.Error("the last source goes on")
	}
	cancel()
	if err := <-ended; !errors.Is(err, context.Canceled) {
		t.Error(err)
	}
}

// When the only data expire, the listener gets none of the source that had them, and no failure
// that speaks of an empty answer.
func TestDataOfTheSecondExpire(t *testing.T) {
	noLeaks(t)
	sources := sourcesAt(50*time.Millisecond, "nowhere",
		fakeCache(t, play(t, nil, scene{reset1, full(7, 5, ipv4)})))
	sources[0].Client.Dial = func(context.Context, string, string) (net.Conn, error) {
		return nil, errBroken
	}
	ctx, cancel := limited(t)
	defer cancel()
	updates := 0
	err := Follow(ctx, sources, ears{func(source Source, update Update) error {
		if updates++; source.Name != "1" || update.Data.IsZero() != (updates == 2) {
			t.Errorf("source %s has %d payloads", source.Name, update.Data.Len())
		}
		if updates == 2 {
			return errEnough
		}
		return nil
	}, func(_ Source, err error) error {
		if errors.Is(err, ErrEmpty) {
			t.Error(err)
		}
		return nil
	}})
	if err != errEnough {
		t.Error(err)
	}
}

// An empty answer of one of several sources is a failure of its own.
func TestFailureOfAnEmptyAnswer(t *testing.T) {
	noLeaks(t)
	sources := sourcesAt(0, fakeCache(t, play(t, nil, scene{reset1, full(7, 1)})), "nowhere")
	ctx, cancel := limited(t)
	defer cancel()
	err := Follow(ctx, sources, ears{failed: func(_ Source, err error) error { return err }})
	if err != ErrEmpty {
		t.Error(err)
	}
}
