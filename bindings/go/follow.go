//go:build cgo && linux

package rtr

import (
	"context"
	"sync"
	"time"
)

// Source is a cache for Follow, with the client that reaches it.
type Source struct {
	Name   string
	Client *Client // its Failed isn't called; its AskNow works
}

// Listener gets the data and the failures of the sources of Follow, one call at a time. A call that
// returns an error ends Follow.
type Listener interface {
	// Data is called after an answer with the source and its data, which may be unchanged; with the
	// zero Data if the source dropped its data and no other source has any. The changes lead from
	// the data of the previous call, even if that had another source.
	Data(Source, Update) error
	// Failed is called with the reason when a connection to a source ends, or when the source has
	// no data yet (ErrNoData), or no payloads (ErrEmpty).
	Failed(Source, error) error
}

// chooser follows sources by the decisions of a Group.
type chooser struct {
	sources  []Source
	listener Listener
	clock    clock
	group    *Group
	events   chan sourceEvent
	members  []member
	shown    Data // the zero Data if there are none
	running  sync.WaitGroup
}

// member is the state of a source.
type member struct {
	stop  context.CancelFunc // nil if it doesn't run
	run   int                // how often it was started
	data  Data
	ended chan *link // gets the link of its last run when that ends; nil before the first run
}

// sourceEvent is new data of a source, or a failure.
type sourceEvent struct {
	index, run int   // of the source, and of its run
	todo       *todo // of its link, for the group; nil if an earlier event had it
	data       Data
	failed     error
}

// Follow follows the most preferred of at most MostMembers sources whose cache answers, until the
// context ends or the listener returns an error. When a source fails, its data are kept until the
// next source has a complete answer, or they expire. If a source fails, or has no complete answer
// within the patience, Follow asks the sources after it, one after the other; it stops them as soon
// as that source has a complete answer. The settings are UsualGroupSettings, but an empty answer of
// a single source counts as data.
//
// Errors: TooManyMembers; that of the listener, or of the context.
func Follow(ctx context.Context, sources []Source, listener Listener) error {
	settings := UsualGroupSettings()
	settings.EmptyIsData = len(sources) == 1
	return FollowWith(ctx, sources, settings, listener)
}

// FollowWith is Follow with other settings.
func FollowWith(ctx context.Context, sources []Source, settings GroupSettings,
	listener Listener) error {
	group, err := NewGroup(len(sources), settings, 0)
	if err != nil {
		return err
	}
	ctx, cancel := context.WithCancel(ctx)
	c := &chooser{
		sources: sources, listener: listener, clock: newClock(), group: group,
		events: make(chan sourceEvent), members: make([]member, len(sources)),
	}
	defer c.running.Wait()
	defer cancel()
	if len(sources) > 0 {
		c.start(ctx, 0)
	}
	for err == nil {
		err = c.next(ctx)
	}
	return err
}

// next waits for an event, or for the end of the patience, and carries out the group's decision.
func (c *chooser) next(ctx context.Context) error {
	over, release := c.patience()
	defer release()
	select {
	case <-ctx.Done():
		return ctx.Err()
	case <-over:
		return c.obey(ctx, 0, c.group.Tick(c.now()))
	case e := <-c.events:
		if e.run != c.members[e.index].run {
			return nil // that run was stopped
		}
		return c.handle(ctx, e)
	}
}

// now returns the time by the group's clock.
func (c *chooser) now() time.Duration {
	return time.Duration(c.clock.now()) * time.Millisecond
}

// patience returns a channel that receives a value at the group's wake time, and the function that
// releases its timer.
func (c *chooser) patience() (over <-chan time.Time, release func()) {
	at, wakes := c.group.Wakes()
	if !wakes {
		return nil, func() {}
	}
	timer := time.NewTimer(at - c.now())
	return timer.C, func() { timer.Stop() }
}

// handle reports an event to the group, passes a failure to the listener, and carries out the
// group's decision.
func (c *chooser) handle(ctx context.Context, e sourceEvent) error {
	decision, failed := c.report(e)
	if failed != nil {
		if err := c.listener.Failed(c.sources[e.index], failed); err != nil {
			return err
		}
	}
	return c.obey(ctx, e.index, decision)
}

// report reports an event to the group. It returns the decision, and the failure that the event is,
// or nil.
func (c *chooser) report(e sourceEvent) (Decision, error) {
	failed, payloads := e.failed, e.data.some()
	if failed == nil {
		c.members[e.index].data = e.data
		if !e.data.IsZero() && !c.group.Counts(payloads) {
			failed = ErrEmpty
		}
	}
	if e.todo == nil {
		return Decision{Stop: -1, Start: -1}, failed
	}
	return c.group.tell(c.now(), e.index, *e.todo, payloads), failed
}

// obey carries out a decision of the group about an event of the member at this index.
func (c *chooser) obey(ctx context.Context, index int, decision Decision) error {
	var err error
	switch decision.Shown {
	case GroupData:
		err = c.show(decision.Member, c.members[decision.Member].data)
	case GroupNothing:
		err = c.show(index, Data{})
	}
	if decision.Stop >= 0 {
		for i := decision.Stop; i < len(c.sources); i++ {
			c.stop(i)
		}
	}
	if decision.Start >= 0 {
		c.start(ctx, decision.Start)
	}
	return err
}

// show passes the data of a source to the listener, with the changes from the previous data.
func (c *chooser) show(index int, data Data) error {
	update := updateOf(c.shown, data)
	c.shown = data
	return c.listener.Data(c.sources[index], update)
}

// start starts to follow a source, once its last run has ended.
func (c *chooser) start(ctx context.Context, index int) {
	m := &c.members[index]
	ctx, m.stop = context.WithCancel(ctx)
	m.run++
	before, ended := m.ended, make(chan *link, 1)
	m.ended = ended
	run, client := m.run, c.sources[index].Client
	var f *follower
	send := func(e sourceEvent) {
		e.index, e.run, e.todo = index, run, f.takeTodo()
		select {
		case c.events <- e:
		case <-ctx.Done():
		}
	}
	c.running.Add(1)
	go func() {
		defer c.running.Done()
		f = client.follower(ctx, c.clock, func(update Update) error {
			send(sourceEvent{data: update.Data})
			return ctx.Err()
		})
		f.onFailure = func(err error) { send(sourceEvent{failed: err}) }
		if before != nil {
			f.link = <-before
			f.link.restart()
		}
		f.runFor(client)
		ended <- f.link
	}()
}

// takeTodo returns the link's last action, once; then nil.
func (f *follower) takeTodo() *todo {
	taken := f.todo
	f.todo = nil
	return taken
}

// stop stops following a source, and drops its data.
func (c *chooser) stop(index int) {
	if m := &c.members[index]; m.stop != nil {
		m.stop()
		*m = member{run: m.run + 1, ended: m.ended}
	}
}
