//go:build cgo && linux

package rtr

import (
	"context"
	"errors"
	"io"
	"net"
	"os"
	"strings"
	"testing"
	"time"
)

// The zero Server serves, with the limits of NewServer.
func TestZeroServer(t *testing.T) {
	noLeaks(t)
	data := parsed(t, join(ipv4, ending(1, 7, 9)))
	server, listener := new(Server), listen(t, "127.0.0.1:0")
	done := make(chan error, 1)
	go func() { done <- server.Serve(listener) }()
	if err := server.Update(data); err != nil {
		t.Fatal(err)
	}
	ctx, cancel := limited(t)
	defer cancel()
	got, err := (&Client{Address: listener.Addr().String()}).Fetch(ctx)
	if err != nil || !got.Equal(data) {
		t.Fatal(got, err)
	}
	server.Close()
	if err := <-done; err != ErrServerClosed {
		t.Fatal(err)
	}
	if server.Limits != NewServer().Limits || server.Limits == (ServerLimits{}) {
		t.Fatal(server.Limits)
	}
}

// Each call may be the first of a zero Server.
func TestZeroServerCalls(t *testing.T) {
	noLeaks(t)
	path := t.TempDir() + "/kept"
	calls := map[string]func(*Server){
		"Close":    func(s *Server) { s.Close() },
		"Shutdown": func(s *Server) { s.Shutdown(context.Background()) },
		"Save": func(s *Server) {
			if err := s.Save(path); err != nil {
				t.Error(err)
			}
		},
		"Restore": func(s *Server) {
			if _, err := s.Restore(path); !errors.Is(err, os.ErrNotExist) {
				t.Error(err)
			}
		},
		"Update": func(s *Server) {
			if err := s.Update(Data{}); !isShort(err) {
				t.Error(err)
			}
		},
		"Watch": func(s *Server) {
			ctx, cancel := context.WithCancel(context.Background())
			cancel()
			s.Watch(ctx, path, time.Hour, func(Data, error) {})
		},
	}
	for name, call := range calls {
		t.Run(name, func(t *testing.T) { call(new(Server)) })
	}
}

func isShort(err error) bool {
	var fault *Fault
	return errors.As(err, &fault) && fault.Status == Short
}

// If any limit is set, all are used as set; setting only Refuse keeps the default limits.
func TestZeroServerLimits(t *testing.T) {
	usual := NewServer().Limits
	usual.Refuse = true
	refusing := &Server{Limits: ServerLimits{Refuse: true}}
	refusing.ready()
	if refusing.Limits != usual {
		t.Error(refusing.Limits)
	}
	own := ServerLimits{Connections: 3, Idle: time.Minute}
	limited := &Server{Limits: own}
	limited.ready()
	if limited.Limits != own {
		t.Error(limited.Limits)
	}
}

// A server that was closed or shut down refuses data with an error.
func TestServerUpdateClosed(t *testing.T) {
	data := parsed(t, join(ipv4, ending(1, 7, 9)))
	next := parsed(t, join(ipv4, ending(1, 7, 10)))
	ends := map[string]func(*Server){
		"Close":    func(s *Server) { s.Close() },
		"Shutdown": func(s *Server) { s.Shutdown(context.Background()) },
	}
	for name, end := range ends {
		t.Run(name, func(t *testing.T) {
			server, path := NewServer(), t.TempDir()+"/kept"
			if err := server.UpdateSaved(data, path); err != nil {
				t.Fatal(err)
			}
			end(server)
			if err := server.Update(next); err != ErrServerClosed {
				t.Error(err)
			}
			if err := server.UpdateSaved(next, path+".other"); err != ErrServerClosed {
				t.Error(err)
			}
			if _, err := os.Stat(path + ".other"); !os.IsNotExist(err) {
				t.Error("data were saved that no client gets")
			}
			if _, err := server.Restore(path); err != ErrServerClosed {
				t.Error(err)
			}
			if err := server.Serve(listen(t, "127.0.0.1:0")); err != ErrServerClosed {
				t.Error(err)
			}
		})
	}
}

// A Reader, a Sequence and a Writer without a stream return an error.
func TestZeroReader(t *testing.T) {
	for name, reader := range map[string]*Reader{"zero": {}, "of nil": NewReader(nil)} {
		if unit, err := reader.Next(); unit != nil || err != ErrNoReader {
			t.Error(name, unit, err)
		}
		if len(reader.Bytes()) != 0 || reader.Offset() != 0 {
			t.Error(name, reader.Bytes(), reader.Offset())
		}
		sequence := reader.Sequence(10)
		if sequence.Scan() || sequence.Err() != ErrNoReader || sequence.Unit() != nil {
			t.Error(name, sequence.Err())
		}
	}
	var sequence Sequence
	if sequence.Scan() || sequence.Err() != ErrNoReader {
		t.Error(sequence.Err())
	}
	for name, writer := range map[string]*Writer{"zero": {}, "of nil": NewWriter(nil)} {
		if err := writer.Write(&Unit{Kind: ResetQuery, Version: 1}); err != ErrNoWriter {
			t.Error(name, err)
		}
	}
	if _, err := NewReader(strings.NewReader("")).Next(); err != io.EOF {
		t.Error(err)
	}
}

// The version in which a client first asks, by its fields.
func TestClientVersion(t *testing.T) {
	for name, row := range map[string]struct {
		client   *Client
		expected byte
	}{
		"zero":         {&Client{}, 1},
		"NewClient":    {NewClient(""), 1},
		"version 1":    {&Client{Version: 1}, 1},
		"version 2":    {&Client{Version: 2}, 2},
		"version 0":    {&Client{Version0: true}, 0},
		"both":         {&Client{Version: 2, Version0: true}, 0},
		"above":        {&Client{Version: 9}, 2},
		"asked in 0":   {askingIn(NewClient(""), 0), 0},
		"asked in 2":   {askingIn(&Client{}, 2), 2},
		"0, and in 1":  {askingIn(&Client{Version0: true}, 1), 1},
		"NewClientOf0": {askingIn(NewClientConn(nil), 0), 0},
	} {
		t.Run(name, func(t *testing.T) {
			ours, theirs := net.Pipe()
			defer theirs.Close()
			client := row.client
			client.connection = ours
			ctx, cancel := limited(t)
			defer cancel()
			failed := make(chan error, 1)
			go func() {
				_, err := client.Fetch(ctx)
				failed <- err
			}()
			query := make([]byte, 8)
			if _, err := io.ReadFull(theirs, query); err != nil || query[0] != row.expected {
				t.Error(query, err)
			}
			theirs.Close()
			<-failed
		})
	}
}

// askingIn returns the client, which asks in a version.
func askingIn(client *Client, version uint8) *Client {
	client.AskIn(version)
	return client
}

// A negative duration is that of a client without one: the default holds.
func TestNegativeDurations(t *testing.T) {
	client := NewClient("")
	client.Limits.Dial, client.Refresh = -time.Second, -time.Nanosecond
	unset := NewClient("")
	negative := settingsOf(client, client.Limits.orUsual(), 0)
	usual := settingsOf(unset, unset.Limits, 0)
	if negative != usual {
		t.Errorf("got %+v, want %+v", negative, usual)
	}
}
