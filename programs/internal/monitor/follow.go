package monitor

import (
	"context"
	"errors"
	"net"
	"strings"
	"time"

	"fishreef/programs/internal/fetch"
	"fishreef/programs/internal/payloads"
	"fishreef/programs/internal/transport"
	"fishreef/rtr"
)

// follower follows a source, and sends its events.
type follower struct {
	source   Source
	index    int // the index of the source
	settings *Settings
	dials    map[transport.Kind]transport.Dial
	fetcher  *fetch.Fetcher // of a list by URL; nil for others
	fetched  chan struct{}
	events   chan<- event
	failing  bool // the last event of a list was a failure
}

// newFollower returns a follower.
//
// Errors: those of the file of authorities.
func newFollower(
	source Source, index int, settings *Settings, dials map[transport.Kind]transport.Dial,
	events chan<- event,
) (*follower, error) {
	f := &follower{source: source, index: index, settings: settings, dials: dials, events: events}
	if source.List.URL == nil {
		return f, nil
	}
	var err error
	f.fetched = make(chan struct{}, 1)
	f.fetcher, err = fetch.New(source.List.URL, settings.Fetch, f.fetched)
	return f, err
}

// run follows until the context ends.
func (f *follower) run(ctx context.Context) {
	switch {
	case f.source.Transport != "":
		f.followCache(ctx)
	case f.fetcher != nil:
		f.followURL(ctx)
	default:
		f.followFile(ctx)
	}
}

// send sends an event, unless the context ends.
func (f *follower) send(ctx context.Context, e event) {
	e.source = f.index
	select {
	case f.events <- e:
	case <-ctx.Done():
	}
}

// sendFailure sends a failure as one line.
func (f *follower) sendFailure(ctx context.Context, err error) {
	f.failing = true
	text := strings.ReplaceAll(err.Error(), "rtr: ", "")
	f.send(ctx, event{failure: strings.ReplaceAll(text, "\n", "; ")})
}

// followCache follows a cache as a router does.
func (f *follower) followCache(ctx context.Context) {
	client := rtr.NewClient(f.source.Address)
	client.AskIn(f.settings.Version)
	client.Refresh = f.settings.Refresh
	client.Dial = func(ctx context.Context, network, address string) (net.Conn, error) {
		return f.dials[f.source.Transport](ctx, network, address)
	}
	client.Failed = func(err error) { f.sendFailure(ctx, err) }
	client.Run(ctx, func(update rtr.Update) error {
		data := update.Data
		f.send(ctx, event{
			data: data, version: data.Version(), cache: true, lost: data.IsZero(),
			same: !update.Changes().Scan(),
		})
		return ctx.Err()
	})
}

// list is the state of a list, which is reread when it changes, or when an item of it expires.
type list struct {
	seen    payloads.Stamp
	read    bool // the state seen was read
	expired payloads.Expired
}

// read reads a list, unless it is unchanged.
func (f *follower) read(ctx context.Context, l *list, body *payloads.Body) {
	state := f.settings.Reader.StateOf(f.source.List, body)
	now := time.Now()
	expires := l.read && state == l.seen && l.expired.Has(now)
	if l.read && state == l.seen && !expires {
		return
	}
	how := payloads.Read{Now: now, Body: body, Expires: expires}
	got, err := f.settings.Reader.Read(ctx, f.source.List, how)
	if errors.Is(err, payloads.ErrChanged) || ctx.Err() != nil {
		return
	}
	*l = list{got.State, !payloads.IsTransient(err), got.Expired}
	if err != nil {
		f.sendFailure(ctx, err)
		return
	}
	f.sendPayloads(ctx, got.Data)
}

// sendPayloads sends the payloads of a list, in the version in which it is compared.
func (f *follower) sendPayloads(ctx context.Context, data rtr.Data) {
	most := version(f.source.List.Format, f.settings.Version)
	data, err := payloads.In(data, most)
	if err != nil {
		f.sendFailure(ctx, err)
		return
	}
	f.failing = false
	f.send(ctx, event{data: data, version: most})
}

// followFile follows a local file.
func (f *follower) followFile(ctx context.Context) {
	ticks := time.NewTicker(f.settings.Look)
	defer ticks.Stop()
	for l := new(list); ctx.Err() == nil; {
		f.read(ctx, l, nil)
		select {
		case <-ctx.Done():
		case <-ticks.C:
		}
	}
}

// followURL follows a list by its URL.
func (f *follower) followURL(ctx context.Context) {
	ended := make(chan struct{})
	go func() {
		defer close(ended)
		f.fetcher.Run(ctx)
	}()
	var body *payloads.Body
	defer func() {
		<-ended
		if body != nil {
			body.Close()
		}
	}()
	ticks := time.NewTicker(f.settings.Look)
	defer ticks.Stop()
	for l := new(list); ; {
		select {
		case <-ctx.Done():
			return
		case <-ticks.C:
		case <-f.fetched:
			body = f.fetch(ctx, l, body)
		}
		if body != nil {
			f.read(ctx, l, body)
		}
	}
}

// fetch takes the results of fetches, and returns the newest list.
func (f *follower) fetch(ctx context.Context, l *list, body *payloads.Body) *payloads.Body {
	got := f.fetcher.Take()
	if got.Body != nil {
		if body != nil {
			body.Close()
		}
		body = got.Body
	}
	switch {
	case len(got.Results) == 0:
	case got.Failure != nil:
		f.sendFailure(ctx, errors.New("it can't be fetched: "+got.Failure.Text))
	case got.Body == nil && f.failing:
		l.read = false // the former list is sent again
	case got.Body == nil:
		f.send(ctx, event{alive: true})
	}
	return body
}
