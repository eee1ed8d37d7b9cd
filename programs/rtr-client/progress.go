package main

import (
	"fmt"
	"os"
	"sync"
	"time"
)

// The time between two updates of the line of progress, and the bytes before the first.
const (
	pace  = 200 * time.Millisecond
	least = 1 << 16
)

// progress is a line on a terminal that shows how much of an answer has come.
type progress struct {
	terminal *os.File
	counts   *counts
	stop     chan struct{}
	ended    sync.WaitGroup

	lock  sync.Mutex
	since int64 // bytes received when the line was last cleared
	shown bool
}

// newProgress shows progress, if the file is a terminal, until end is called.
func newProgress(terminal *os.File, counts *counts) *progress {
	p := &progress{terminal: terminal, counts: counts, stop: make(chan struct{})}
	if !isTerminal(terminal) {
		return p
	}
	p.ended.Add(1)
	go p.run()
	return p
}

// run shows the line while bytes come.
func (p *progress) run() {
	defer p.ended.Done()
	ticks := time.NewTicker(pace)
	defer ticks.Stop()
	for {
		select {
		case <-p.stop:
			return
		case <-ticks.C:
			p.show()
		}
	}
}

// show writes the line.
func (p *progress) show() {
	p.lock.Lock()
	defer p.lock.Unlock()
	if received := p.counts.received.Load() - p.since; received >= least {
		fmt.Fprintf(p.terminal, "\rrtr-client: %.1f MB have come ", float64(received)/1e6)
		p.shown = true
	}
}

// clear removes the line, before another one is written.
func (p *progress) clear() {
	p.lock.Lock()
	defer p.lock.Unlock()
	if p.shown {
		fmt.Fprint(p.terminal, "\r\x1b[K")
	}
	p.since, p.shown = p.counts.received.Load(), false
}

// end stops the updates, and removes the line.
func (p *progress) end() {
	close(p.stop)
	p.ended.Wait()
	p.clear()
}
