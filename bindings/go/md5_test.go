//go:build cgo && linux

package rtr_test

import (
	"context"
	"errors"
	"net"
	"net/netip"
	"syscall"
	"testing"
	"time"
	"unsafe"

	"fishreef/rtr"
)

// md5Signed makes a socket sign its segments to this peer with a key, and accept only signed ones
// (RFC 2385; RFC 8210 section 9.3). It is a Control of net.Dialer and net.ListenConfig.
func md5Signed(peer netip.Addr, key string) func(string, string, syscall.RawConn) error {
	return func(_, _ string, socket syscall.RawConn) (err error) {
		const option = 14 // TCP_MD5SIG of Linux, with its struct tcp_md5sig
		var signed [216]byte
		family := uint16(syscall.AF_INET)
		at := 4
		if peer.Is6() {
			family, at = syscall.AF_INET6, 8
		}
		*(*uint16)(unsafe.Pointer(&signed[0])) = family
		copy(signed[at:], peer.AsSlice())
		*(*uint16)(unsafe.Pointer(&signed[130])) = uint16(len(key))
		copy(signed[136:], key)
		failed := socket.Control(func(descriptor uintptr) {
			err = syscall.SetsockoptString(int(descriptor), syscall.IPPROTO_TCP, option, string(signed[:]))
		})
		if failed != nil {
			return failed
		}
		return err
	}
}

// overMD5 returns a client that shares a key with its cache.
func overMD5(cache netip.AddrPort, key string) *rtr.Client {
	dialer := &net.Dialer{Control: md5Signed(cache.Addr(), key)}
	client := rtr.NewClient(cache.String())
	client.Dial = dialer.DialContext
	return client
}

// Both ends sign with one key, over IPv4 and IPv6; with another key, or none, they don't connect.
func TestOverMD5(t *testing.T) {
	ctx, cancel := context.WithTimeout(context.Background(), tlsWait)
	defer cancel()
	for _, address := range []string{"127.0.0.1:0", "[::1]:0"} {
		router := netip.MustParseAddrPort(address).Addr()
		listening := net.ListenConfig{Control: md5Signed(router, "a key")}
		listener, err := listening.Listen(ctx, "tcp", address)
		if errors.Is(err, syscall.ENOPROTOOPT) || errors.Is(err, syscall.EPERM) {
			t.Skip("the system has no TCP-MD5: ", err)
		}
		if err != nil {
			t.Logf("%s: %v", address, err)
			continue
		}
		server := rtr.NewServer()
		if err := server.Update(twoPayloads(t)); err != nil {
			t.Fatal(err)
		}
		go server.Serve(listener)
		defer server.Close()
		cache := netip.MustParseAddrPort(listener.Addr().String())
		if data, err := overMD5(cache, "a key").Fetch(ctx); err != nil || data.Len() != 2 {
			t.Errorf("%v: %d payloads, %v", cache, data.Len(), err)
		}
		without := rtr.NewClient(cache.String())
		for _, other := range []*rtr.Client{overMD5(cache, "another key"), without} {
			other.Limits.Dial = 300 * time.Millisecond
			if data, err := other.Fetch(ctx); !errors.Is(err, rtr.ErrTooSlow) || !data.IsZero() {
				t.Errorf("%v: %d payloads, %v", cache, data.Len(), err)
			}
		}
	}
}
