//go:build cgo && linux

package rtr

import (
	"context"
	"errors"
	"net"
	"sync"
	"testing"
	"time"
)

// That a caller ends its client isn't a failure of the cache.
func TestContextIsNoFailure(t *testing.T) {
	noLeaks(t)
	ctx, cancel := limited(t)
	client := quick(fakeCache(t, func(cache *net.TCPConn) {
		reader := NewReader(cache)
		readUnit(reader)
		cancel()
		readUnit(reader)
	}))
	client.Failed = func(err error) { t.Error(err) }
	if err := client.Run(ctx, nil); !errors.Is(err, context.Canceled) {
		t.Error(err)
	}
}

// Data that expire without a connection are dropped, and the caller gets the reason.
func TestExpireOffline(t *testing.T) {
	noLeaks(t)
	client := quick(fakeCache(t, func(cache *net.TCPConn) {
		readUnit(NewReader(cache))
		cache.Write(full(7, 1, ipv4))
	}))
	client.Version, client.Expire = 1, 200*time.Millisecond
	dials := 0
	client.Dial = func(ctx context.Context, network, address string) (net.Conn, error) {
		if dials++; dials > 1 {
			return nil, errBroken
		}
		return new(net.Dialer).DialContext(ctx, network, address)
	}
	ctx, cancel := limited(t)
	defer cancel()
	var serials []uint32
	client.Failed = func(err error) {
		if errors.Is(err, ErrExpired) {
			cancel()
		}
	}
	err := client.Run(ctx, func(update Update) error {
		serials = append(serials, update.Data.Serial())
		return nil
	})
	if !errors.Is(err, context.Canceled) || len(serials) != 2 || serials[1] != 0 {
		t.Error(err, serials)
	}
}

// Clients have random numbers, so that they don't retry at the same time.
func TestChances(t *testing.T) {
	ctx, cancel := limited(t)
	defer cancel()
	chances := map[uint16]bool{}
	for i := 0; i < 16; i++ {
		f := NewClient("").follower(ctx, newClock(), nil)
		chances[uint16(f.link.end.settings.chance)] = true
	}
	if len(chances) < 2 {
		t.Error(chances)
	}
}

// AskNow reaches all runs of a client.
func TestAskNowOfSeveralRuns(t *testing.T) {
	noLeaks(t)
	client := quick(fakeCache(t, play(t, nil, scene{reset1, full(7, 1)},
		scene{asked(1, 7, 1), full(7, 2)})))
	client.Version = 1
	ctx, cancel := limited(t)
	defer cancel()
	var have, running sync.WaitGroup
	for i := 0; i < 3; i++ {
		have.Add(1)
		running.Add(1)
		go func() {
			defer running.Done()
			err := client.Run(ctx, func(update Update) error {
				if update.Data.Serial() == 2 {
					return errEnough
				}
				have.Done()
				return nil
			})
			if err != errEnough {
				t.Error(err)
			}
		}()
	}
	have.Wait()
	client.AskNow()
	running.Wait()
}
