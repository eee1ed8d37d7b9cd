//go:build cgo && linux

package rtr

import (
	"context"
	"io"
	"net"
	"runtime"
	"strings"
	"sync"
	"testing"
	"time"
)

// underLock calls a function; its name tells its goroutine in a list of all.
func underLock(call func(), done chan<- struct{}) {
	defer close(done)
	call()
}

// waitsForLock reports whether the goroutine of underLock waits for a lock.
func waitsForLock() bool {
	stacks := make([]byte, 1<<20)
	stacks = stacks[:runtime.Stack(stacks, true)]
	for _, one := range strings.Split(string(stacks), "\n\n") {
		if strings.Contains(one, "rtr.underLock") && strings.Contains(one, "runtime_SemacquireMutex") {
			return true
		}
	}
	return false
}

// takes checks that a call waits for a lock that another goroutine has, and ends once it can have
// it; and calls these functions while it waits.
func takes(t *testing.T, name string, lock *sync.Mutex, call func(), meanwhile ...func()) {
	t.Helper()
	done := make(chan struct{})
	lock.Lock()
	go underLock(call, done)
	for end := time.Now().Add(patience); !waitsForLock(); runtime.Gosched() {
		select {
		case <-done:
			t.Errorf("%s doesn't take the lock", name)
			lock.Unlock()
			return
		default:
		}
		if time.Now().After(end) {
			t.Errorf("%s neither ends nor waits", name)
			break
		}
	}
	for _, one := range meanwhile {
		one()
	}
	lock.Unlock()
	<-done
}

// quietListener is a listener without clients.
type quietListener struct{ net.Listener }

func (quietListener) Close() error { return nil }

// unheard is a connection that its client has closed, or that is closed here.
type unheard struct{ net.Conn }

func (unheard) Read([]byte) (int, error)         { return 0, io.EOF }
func (unheard) SetReadDeadline(time.Time) error  { return nil }
func (unheard) SetWriteDeadline(time.Time) error { return nil }
func (unheard) RemoteAddr() net.Addr             { return &net.TCPAddr{} }
func (unheard) Close() error                     { return nil }

// What goroutines share is read and changed under its lock: by the server, by its clients, by the
// data that they share, and by requests of callers.
func TestLocks(t *testing.T) {
	noLeaks(t)
	all := sequences(1, 1, 1)
	server := NewServer()
	if err := server.Update(parsed(t, all[0])); err != nil {
		t.Fatal(err)
	}
	served, edition := newServed(server, unheard{}), server.present.Load()
	ended, end := context.WithCancel(context.Background())
	end()
	requests, request := new(Client).requestsOf(), new(askRequest)
	data, update := parsed(t, all[1]), updateOf(parsed(t, all[0]), parsed(t, all[1]))
	for _, row := range []struct {
		name string
		lock *sync.Mutex
		call func()
	}{
		{"Update", &server.updating, func() { server.Update(parsed(t, all[0])) }},
		{"ChangeSession", &server.updating, server.ChangeSession},
		{"Save", &server.updating, func() { server.Save(t.TempDir() + "/kept") }},
		{"enter", &server.lock, func() { server.enter(quietListener{}) }},
		{"awaitDoor", &server.lock, server.awaitDoor},
		{"take", &server.lock, func() { server.take(unheard{}) }},
		{"wake of all", &server.lock, server.wake},
		{"leave", &server.lock, func() { server.leave(quietListener{}) }},
		{"wake", &served.lock, func() { served.wake(edition) }},
		{"look", &served.lock, served.look},
		{"mayRead", &served.lock, func() { served.mayRead() }},
		{"beginWrite", &served.lock, func() { served.beginWrite() }},
		{"endWrite", &served.lock, served.endWrite},
		{"setShaking", &served.lock, func() { served.setShaking(nil) }},
		{"end", &served.lock, served.end},
		{"form", &edition.lock, func() { edition.form(1) }},
		{"file", &edition.lock, func() { edition.file(1, []byte{1}) }},
		{"sent", &edition.lock, edition.sent},
		{"since", &edition.lock, func() { edition.since(1, edition.data.Serial()) }},
		{"replaced", &edition.lock, edition.replaced},
		{"requests' set", &requests.lock, requests.set},
		{"requests' add", &requests.lock, func() { requests.add(request) }},
		{"requests' remove", &requests.lock, func() { requests.remove(request) }},
		{"a request's set", &request.lock, request.set},
		{"a request's take", &request.lock, func() { request.take() }},
		{"a request's setCancel", &request.lock, func() { request.setCancel(nil) }},
		{"noteChanges", &data.lookup.lock, func() { data.lookup.noteChanges(nil, nil) }},
		{"changesFrom", &data.lookup.lock, func() { data.lookup.changesFrom(nil) }},
		{"Changes", &update.changes.lock, func() { update.Changes() }},
	} {
		takes(t, row.name, row.lock, row.call)
	}
	takes(t, "Shutdown", &server.lock, func() { server.Shutdown(ended) }, func() {
		if server.closed.Load() {
			t.Error("a server is closed without the lock")
		}
	})
}

// A restored file, and the end of a client, change a server under its locks.
func TestLocksOfOthers(t *testing.T) {
	noLeaks(t)
	path := t.TempDir() + "/kept"
	if err := NewServer().UpdateSaved(parsed(t, sequences(1)[0]), path); err != nil {
		t.Fatal(err)
	}
	server := NewServer()
	takes(t, "Restore", &server.updating, func() { server.Restore(path) })
	server.enter(quietListener{})
	client := newServed(server, unheard{})
	server.clients[client] = true
	server.running.Add(1)
	takes(t, "serve", &server.lock, func() { server.serve(client, 0) })
	if server.clients[client] {
		t.Error("a client that has left is counted")
	}
	server.leave(quietListener{})
	server.Close()
}
