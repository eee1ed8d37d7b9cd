//go:build cgo && linux

package rtr

import (
	"context"
	"runtime"
	"testing"
	"time"
)

// reaches lets a link go on until it asks its program for something, which has to be this.
func reaches(t *testing.T, l *link, kind int) {
	t.Helper()
	next := l.next(0)
	for int(next.kind) != kind {
		switch next.kind {
		case todoWait, todoConnect, todoClose, todoData, todoDropped, todoNoData:
			t.Fatalf("it asks for %d, and not for %d", next.kind, kind)
		}
		next = l.next(0)
	}
}

// The memory that a long answer needed is given back once its data are there, or its connection is
// over: the input has what came behind, the index and the buffer of the data before are gone.
func TestMemoryOfAnAnswer(t *testing.T) {
	data := megabytes(t)
	answer := join(response(1, 7), data.Bytes())
	for _, whole := range []bool{true, false} {
		link := newLink(usualSettings(1))
		reaches(t, link, todoConnect)
		link.opened()
		for left := answer[:len(answer)-1]; len(left) > 0; {
			reaches(t, link, todoWait)
			count := copy(link.inputTail(0), left)
			link.received(count)
			left = left[count:]
		}
		if len(link.input) < len(answer)-1 {
			t.Fatal("the answer isn't in the input")
		}
		if whole {
			reaches(t, link, todoWait)
			copy(link.inputTail(0), answer[len(answer)-1:])
			link.received(1)
			reaches(t, link, todoData)
			if !link.newData(0).Equal(data) {
				t.Fatal("there are other data")
			}
		} else {
			link.lost()
			reaches(t, link, todoClose)
			link.release(0)
		}
		if len(link.input) > 2*chunk || link.index != nil {
			t.Errorf("%v: %d bytes of input, %d of the index", whole, len(link.input), len(link.index))
		}
		if kept := len(link.data[0]) + len(link.data[1]); kept > len(data.Bytes()) {
			t.Errorf("%v: %d bytes are kept", whole, kept)
		}
	}
}

// A client keeps nothing of an answer once it is closed, at whichever byte of the answer that is.
func TestMemoryOfAFollower(t *testing.T) {
	noLeaks(t)
	answer := join(response(1, 7), megabytes(t).Bytes())
	client := quick("")
	client.Version = 1
	f := &follower{link: newLink(settingsOf(client, client.Limits.orUsual(), 0)), peer: new(flood)}
	f.peer.(*flood).coming = answer[:len(answer)-1]
	for f.todo == nil || f.todo.kind != todoClose {
		f.perform(f.next())
	}
	if len(f.link.input) > 2*chunk {
		t.Errorf("%d bytes of input", len(f.link.input))
	}
}

// flood is a cache that sends bytes at once, and then closes.
type flood struct {
	coming []byte
}

func (*flood) now() uint64                               { return 0 }
func (*flood) ended() error                              { return nil }
func (*flood) rest(uint64) error                         { return nil }
func (*flood) connect(uint64) (bool, error)              { return true, nil }
func (*flood) write(bytes []byte, _ uint64) (int, error) { return len(bytes), nil }
func (*flood) close([]byte, bool)                        {}

func (f *flood) read(buffer []byte, _ uint64) (int, error) {
	if len(f.coming) == 0 {
		return 0, ErrClosed
	}
	count := copy(buffer, f.coming)
	f.coming = f.coming[count:]
	return count, nil
}

// A server keeps nothing of an answer for a client that was sent all of it, nor of a long unit that
// it has read.
func TestMemoryOfAClient(t *testing.T) {
	server := NewServer()
	if err := server.Update(megabytes(t)); err != nil {
		t.Fatal(err)
	}
	client := simulate(server, &simulated{takes: 1 << 30, coming: []coming{{0, reset1}}})
	client.look()
	for client.pace.unsent == 0 {
		if err := client.take(client.nextWith(client.newest).result); err != nil {
			t.Fatal(err)
		}
	}
	for client.pace.unsent > 0 {
		client.send()
	}
	if r := client.reply; r.edition != nil || r.parts[0].size() > 0 || r.parts[1].bytes != nil {
		t.Error("an answer that was sent is kept")
	}
	client.input = append(make([]byte, 0, longestUnit), reset1...)
	client.skip(len(reset1))
	if len(client.input) > 0 || cap(client.input) > len(client.buffer) {
		t.Errorf("%d bytes are kept for units", cap(client.input))
	}
}

// Watch stops its timer when its context ends: timers that aren't stopped are never freed by
// versions of Go before 1.23.
func TestWatchStopsItsTimer(t *testing.T) {
	noLeaks(t)
	const count = 10000
	ctx, cancel := context.WithCancel(context.Background())
	cancel()
	server, missing := NewServer(), t.TempDir()+"/missing"
	objects := func() uint64 {
		var now runtime.MemStats
		runtime.GC()
		runtime.ReadMemStats(&now)
		return now.HeapObjects
	}
	before := objects()
	for i := 0; i < count; i++ {
		server.Watch(ctx, missing, time.Hour, func(Data, error) {})
	}
	if after := objects(); after > before+count {
		t.Errorf("%d objects are kept", after-before)
	}
}
