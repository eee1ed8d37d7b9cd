//go:build cgo && linux

package rtr

import (
	"fmt"
	"io"
	"math"
	"net"
	"os"
	"strconv"
	"strings"
	"time"
)

// cacheEnd is a server, and its connection in a scene.
type cacheEnd struct {
	net.Conn // nil: other methods aren't called
	*steps
	server   *Server
	client   *served
	broken   bool
	deadline [2]time.Time // of the next read, and of the next write
	later    []step       // steps that came while it wrote
	window   uint64       // how many bytes the router reads, until a step changes that
}

// The indexes of the deadlines.
const (
	toRead = iota
	toWrite
)

func newCacheEnd(s *steps) sceneEnd {
	p := &cacheEnd{steps: s, server: NewServer()}
	begun := time.Unix(1<<30, 0)
	p.server.clock = clock{begun, func() time.Time {
		return begun.Add(time.Duration(p.clock) * time.Millisecond)
	}}
	return p
}

func (p *cacheEnd) SetDeadline(until time.Time) error {
	p.deadline = [2]time.Time{until, until}
	return nil
}

func (p *cacheEnd) SetReadDeadline(until time.Time) error {
	p.deadline[toRead] = until
	return nil
}

func (p *cacheEnd) SetWriteDeadline(until time.Time) error {
	p.deadline[toWrite] = until
	return nil
}

// until returns a deadline by the simulated clock.
func (p *cacheEnd) until(which int) uint64 {
	if p.deadline[which].Before(p.server.clock.begun) {
		return 0
	}
	return uint64(p.deadline[which].Sub(p.server.clock.begun).Milliseconds())
}

// waits advances the clock to the next step, if the deadline doesn't come first.
func (p *cacheEnd) waits(which int) error {
	until := p.until(which)
	switch {
	case len(p.pending) > 0:
	case until <= p.clock:
		return os.ErrDeadlineExceeded
	case !p.has(until):
		return errDone
	}
	next := p.pending[0].time
	if until <= next {
		next = until
	}
	if next > p.clock {
		p.clock = next
	}
	if next == until {
		return os.ErrDeadlineExceeded
	}
	return nil
}

// Read takes steps until bytes come, or the deadline passes.
func (p *cacheEnd) Read(buffer []byte) (int, error) {
	p.pending, p.later = append(p.later, p.pending...), nil
	for {
		if err := p.waits(toRead); err != nil {
			return 0, err
		}
		s := &p.pending[0]
		if s.what == ">" {
			n := copy(buffer, s.data)
			if s.data = s.data[n:]; len(s.data) == 0 {
				p.pending = p.pending[1:]
			}
			return n, nil
		}
		what := s.what
		if err := p.next(); err != nil {
			return 0, err
		}
		switch {
		case what == "closes":
			return 0, io.EOF
		case p.broken:
			return 0, errBroken
		}
	}
}

// Write records what is written, as far as the router reads it, and takes steps until it reads
// everything, or the deadline passes.
func (p *cacheEnd) Write(bytes []byte) (int, error) {
	for written := 0; ; {
		if p.broken {
			return written, errBroken
		}
		taken := len(bytes) - written
		if uint64(taken) > p.window {
			taken = int(p.window)
		}
		p.window -= uint64(taken)
		p.sends("cache", bytes[written:written+taken])
		if written += taken; written == len(bytes) {
			return written, nil
		}
		if err := p.waits(toWrite); err != nil {
			return written, err
		}
		if what := p.pending[0].what; what == ">" || what == "closes" {
			p.later, p.pending = append(p.later, p.pending[0]), p.pending[1:]
		} else if err := p.next(); err != nil {
			return written, err
		}
	}
}

// next takes a step that isn't about the connection.
func (p *cacheEnd) next() error {
	s := p.pending[0]
	p.pending = p.pending[1:]
	if s.time > p.clock {
		p.clock = s.time
	}
	switch s.what {
	case "breaks":
		p.broken = true
	case "takes":
		window, err := strconv.ParseUint(string(s.data), 10, 64)
		p.window = window
		return err
	case "data":
		data, err := ParseData(s.data)
		if err != nil {
			return err
		}
		return p.update(data)
	case "forgets":
		p.forgets(s.data)
	case "saves":
		return p.server.Save(string(s.data))
	case "restores":
		_, err := p.server.Restore(string(s.data))
		return err
	}
	return nil
}

// update gives the server data, which it saves nowhere. For a scene that goes back to a session,
// the server forgets which ones it left.
func (p *cacheEnd) update(data Data) error {
	nowhere := &saver{save: func([]byte) error { return nil }, owns: true}
	if err := nowhere.begin(); err != nil {
		return err
	}
	if p.server.saver != nil {
		p.server.saver = nowhere // a file that was restored stays as it is
	}
	err := p.server.update(data, nowhere, func() {})
	if err == ErrSessionLeft {
		p.server.store = newStore()
		err = p.server.update(data, nowhere, func() {})
	}
	return err
}

// forgets drops the server's deltas from data up to a serial number.
func (p *cacheEnd) forgets(serial []byte) {
	present := p.server.present.Load()
	_, steps := firstPart(present.history)
	kept := len(present.history) - len(steps)
	for _, known := range present.known {
		if fmt.Sprint(known) == string(serial) {
			history := present.history[:kept]
			p.server.present.Store(newEdition(present.number, history, p.server.Limits))
		}
		_, after := firstPart(steps)
		kept, steps = kept+len(steps)-len(after), after
	}
}

// play runs a server through the scene.
func (p *cacheEnd) play() error {
	for p.has(math.MaxUint64) {
		what := p.pending[0].what
		if err := p.next(); err != nil {
			return err
		}
		if what != "connects" && what != "beyond" {
			continue
		}
		p.client, p.broken = newServed(p.server, p), false
		p.later, p.window = nil, math.MaxUint64
		p.server.clients = map[*served]bool{p.client: true}
		p.client.refused = what == "beyond"
		p.client.serve()
		if !p.over {
			p.does("closes")
		}
		p.server.clients = map[*served]bool{}
	}
	return nil
}

// parse returns the name of a step of the router or the data, with its bytes or word.
func (p *cacheEnd) parse(words []string) (what, with string) {
	switch {
	case words[0] == "router>":
		return ">", strings.Join(words[1:], "")
	case words[0] == "data":
		return "data", strings.Join(words[2:len(words)-1], "")
	case words[0] == "at":
		return "at", ""
	case words[0] != "router":
		return words[0], words[1]
	case len(words) == 3:
		return words[1], words[2]
	case len(words) > 3:
		return "beyond", ""
	}
	return words[1], ""
}

func (p *cacheEnd) set(name string, number uint64) {
	span := time.Duration(number) * time.Millisecond
	switch name {
	case "usual", "date":
	case "first-limit":
		p.server.Limits.First = span
	case "idle-limit":
		p.server.Limits.Idle = span
	case "pause":
		p.server.Limits.Notify = span
	case "refuses":
		p.server.Limits.Refuse = true
	case "keep-bytes":
		p.server.Limits.KeepBytes = int(number)
	default:
		panic("no setting " + name)
	}
}
