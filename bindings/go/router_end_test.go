//go:build cgo && linux

package rtr

import (
	"errors"
	"os"
	"strings"
	"time"
)

// routerEnd is a client, and its peer in a scene.
type routerEnd struct {
	*steps
	client       Client
	chance       uint16
	open, broken bool // open from a connect to a close
	askRequest   *askRequest
}

func newRouterEnd(s *steps) sceneEnd { return &routerEnd{steps: s} }

func (p *routerEnd) now() uint64 { return p.clock }

func (p *routerEnd) ended() error {
	if p.over {
		return errDone
	}
	return nil
}

// next returns the next step, if it comes before the time; else it advances the clock to the time.
func (p *routerEnd) next(until uint64) (step, error) {
	if !p.has(until) {
		return step{}, errDone
	}
	s := p.pending[0]
	if s.time >= until && until > p.clock {
		p.clock = until
		return step{}, os.ErrDeadlineExceeded
	}
	p.pending = p.pending[1:]
	p.clock = s.time
	return s, nil
}

func (p *routerEnd) rest(until uint64) error {
	for {
		s, err := p.next(until)
		switch {
		case errors.Is(err, os.ErrDeadlineExceeded):
			return nil
		case err != nil:
			return err
		case s.what == "asks":
			p.askRequest.set()
			return nil
		}
	}
}

var errBroken = errors.New("broken")

func (p *routerEnd) connect(until uint64) (bool, error) {
	p.does("connects")
	p.open, p.broken = true, false
	for {
		s, err := p.next(until)
		switch {
		case errors.Is(err, os.ErrDeadlineExceeded):
			return false, nil
		case err != nil:
			return false, err
		case s.what == "accepts":
			return true, nil
		case s.what == "refuses":
			return false, errBroken
		case s.what == "asks":
			p.askRequest.set()
		}
	}
}

func (p *routerEnd) read(buffer []byte, until uint64) (int, error) {
	for {
		s, err := p.next(until)
		switch {
		case errors.Is(err, os.ErrDeadlineExceeded):
			return 0, nil
		case err != nil:
			return 0, err
		case s.what == ">":
			return copy(buffer, s.data), nil
		case s.what == "closes":
			return 0, ErrClosed
		case s.what == "breaks":
			p.broken = true
			return 0, errBroken
		case s.what == "asks":
			p.askRequest.set()
			return 0, nil
		}
	}
}

func (p *routerEnd) write(bytes []byte, until uint64) (int, error) {
	p.steps.sends("router", bytes)
	return len(bytes), nil
}

func (p *routerEnd) close(last []byte, reports bool) {
	if !p.broken {
		p.steps.sends("router", last)
	}
	if p.open && !p.over {
		p.does("closes")
	}
	p.open = false
}

// play runs a client through the scene.
func (p *routerEnd) play() error {
	f := &follower{
		peer: p, link: newLink(settingsOf(&p.client, p.client.Limits.orUsual(), p.chance)),
	}
	p.askRequest = &f.askRequest
	f.onFailure = func(err error) {
		if errors.Is(err, ErrNoData) {
			p.does("no data")
		}
	}
	f.changed = func(update Update) error {
		if update.Data.IsZero() {
			p.does("drops")
			return nil
		}
		p.does("shows { %x }", update.Data.Bytes())
		return nil
	}
	if err := f.run(); err != errDone {
		return err
	}
	return nil
}

// parse returns the name of a step of the cache or the caller.
func (p *routerEnd) parse(words []string) (what, with string) {
	switch words[0] {
	case "cache>":
		return ">", strings.Join(words[1:], "")
	case "at":
		return "at", ""
	}
	return words[1], ""
}

// set reads a setting of the scene.
func (p *routerEnd) set(name string, number uint64) {
	span := time.Duration(number) * time.Millisecond
	switch name {
	case "version":
		p.client.AskIn(uint8(number))
	case "chance":
		p.chance = uint16(number)
	case "pause":
		p.client.Limits.Pause = span
	case "connect-limit":
		p.client.Limits.Dial = span
	case "response-limit":
		p.client.Limits.Response = span
	case "refresh":
		p.client.Refresh = span
	case "retry":
		p.client.Retry = span
	case "expire":
		p.client.Expire = span
	case "most-units":
		p.client.Limits.Units = number
	case "most-bytes":
		p.client.Limits.Bytes = int(number)
	default:
		panic("no setting " + name)
	}
}
