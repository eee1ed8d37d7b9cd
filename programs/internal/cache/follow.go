package cache

import (
	"context"
	"crypto/sha256"
	"errors"
	"sort"
	"strings"
	"time"

	"fishreef/programs/internal/payloads"
	"fishreef/programs/internal/trust"
	"fishreef/programs/internal/words"
	"fishreef/rtr"
)

// followed is a file that a cache follows.
type followed struct {
	payloads.File
	remote  *remote        // the list to fetch; nil for a local file
	looked  bool           // it was checked before
	seen    payloads.Stamp // its state at the last check
	when    time.Time      // the time of the last check
	again   bool           // the last read failed by an error of the system
	settles settling
	data    rtr.Data // its payloads when it was last accepted, if there are other files
	taken   int      // their number
	size    int      // their size in bytes
	anchors payloads.Anchors
	held    *held          // its held list; nil for none
	offered *payloads.List // its list that is held or contradicted, if there are other files
	problem error          // why it wasn't accepted at the last check
	expired payloads.Expired
}

// settling is the state of a file that is being written in place, and the start of that state.
type settling struct {
	state payloads.Stamp
	since time.Duration
}

// held is a list that isn't accepted yet.
type held struct {
	sum   [sha256.Size]byte // of its payloads
	state payloads.Stamp    // of the file, at the last read
	since time.Duration     // when it was first read
}

// A file that is written in place is read once it hasn't changed for this time, since it is written
// in pieces.
const settled = 2 * time.Second

// look reads the files that changed, or all of them if asked to, and reports whether a file is
// still being written.
func (c *Cache) look(ctx context.Context, asked bool) (changing bool) {
	c.tick(c.time())
	c.save()
	for _, file := range c.files {
		state, there := c.stateOf(file)
		if !there {
			continue
		}
		running := c.running() // the file may have changed until its state was read
		expires := file.expires(state, c.clock.Now())
		if !c.needsRead(file, state, running) && !expires && !asked {
			continue
		}
		if file.isSettling(state, running) && !asked {
			changing = true
			continue
		}
		how := payloads.Read{
			Now: c.clock.Now(), Expires: expires, Body: file.body(), Size: file.size,
		}
		list, err := c.settings.Reader.Read(ctx, file.File, how)
		if errors.Is(err, payloads.ErrChanged) {
			changing = true
			continue
		}
		if ctx.Err() != nil {
			return false
		}
		if err == nil {
			err = c.take(file, list, expires && list.State == state, running)
		}
		c.note(file, list, err, asked)
	}
	c.confirmed = c.confirmed && changing
	return changing
}

// tick reads the clock, and logs if it was set.
func (c *Cache) tick(system time.Time, running time.Duration) {
	c.lock.Lock()
	defer c.lock.Unlock()
	before := c.clock.Fault(c.settings.Rules)
	c.clock = c.clock.Look(system, running, c.settings.Rules, c.confirmed)
	now := c.clock.Fault(c.settings.Rules)
	switch {
	case now != "" && before == "":
		c.log.Warn(now)
	case now == "" && before != "":
		c.log.Info("the system's clock is accepted again")
	}
}

// needsRead reports whether a file has to be read: it wasn't read yet, the last read failed, it
// changed, the clock went back, or its held list may be accepted now.
func (c *Cache) needsRead(file *followed, state payloads.Stamp, running time.Duration) bool {
	switch {
	case !file.looked, file.again, state != file.seen, c.clock.Now().Before(file.when):
		return true
	case file.held == nil:
		return false
	}
	quiet := !c.settings.Rules.Hold && running-file.held.since >= c.settings.Rules.Quiet
	return quiet || c.confirmed
}

// expires reports whether the file is unchanged since it was accepted, and more of its items have
// expired.
func (f *followed) expires(state payloads.Stamp, now time.Time) bool {
	return f.looked && f.problem == nil && f.seen == state && f.expired.Has(now)
}

// isSettling reports whether the file is being written in place.
func (f *followed) isSettling(state payloads.Stamp, running time.Duration) bool {
	gone := payloads.Stamp{}
	inPlace := f.seen == gone || state.Inode == f.seen.Inode && state.Device == f.seen.Device
	if f.remote != nil || !f.looked || !inPlace || state == gone || state.SameContent(f.seen) {
		return false
	}
	if f.settles.state != state {
		f.settles = settling{state, running}
	}
	return running-f.settles.since < settled
}

// nextExpiry returns the time when the next item of an accepted file expires; zero for none.
func (c *Cache) nextExpiry() (next time.Time) {
	for _, file := range c.files {
		at := file.expired.Next
		if file.problem == nil && !at.IsZero() && (next.IsZero() || at.Before(next)) {
			next = at
		}
	}
	return next
}

// take serves the new payloads of a file, unless they withdraw more than the guard allows, or
// contradict another file.
func (c *Cache) take(
	file *followed, list payloads.List, expires bool, running time.Duration,
) error {
	for _, other := range c.files {
		if other != file && other.data.IsZero() && other.offered == nil {
			c.recordAccepted(file, list)
			c.log.Infof("%s: %s, waiting for %s", file.Path,
				words.Number(list.Data.Len(), "payload"), other.Path)
			return nil
		}
	}
	merged, others, err := c.merged(file, list)
	if err == nil && c.same(merged) {
		c.log.Infof("%s: nothing changed", file.Path)
	} else if err == nil {
		err = c.replace(merged, file, list, others, expires, running)
	}
	if err == nil {
		c.recordAccepted(file, list)
		c.acceptOffered(others)
	} else if isOffer(err) && len(c.files) > 1 {
		file.offered = &list
	}
	return err
}

// merged returns the payloads of all files, with a new list for one of them. It first uses the
// offered lists only of files without data, then of all files if the data contradict each other; it
// also returns the files whose offered lists were used. So files that change one after the other
// can agree again.
func (c *Cache) merged(
	file *followed, list payloads.List,
) (merged rtr.Data, others []*followed, err error) {
	for _, first := range []bool{true, false} {
		var all []rtr.Data
		others = nil
		for _, other := range c.files {
			switch {
			case other == file:
				all = append(all, list.Data)
			case other.offered != nil && (!first || other.data.IsZero()):
				all, others = append(all, other.offered.Data), append(others, other)
			default:
				all = append(all, other.data)
			}
		}
		merged, err = payloads.Merged(all...)
		if !errors.As(err, new(*payloads.Contradiction)) {
			break
		}
	}
	return merged, others, err
}

// isOffer reports whether a list is refused only because of the served data, or of another file.
func isOffer(err error) bool {
	return errors.As(err, new(*trust.Held)) || errors.As(err, new(*payloads.Contradiction))
}

// replace serves merged payloads instead of the present ones, unless they withdraw too much.
func (c *Cache) replace(
	merged rtr.Data, file *followed, list payloads.List, others []*followed, expires bool,
	running time.Duration,
) error {
	next, err := c.next(merged)
	if err != nil {
		return err
	}
	size, err := c.sizeOf(next)
	judged := size
	if err == nil && c.waits != nil {
		judged, err = sizeBetween(c.waits.data, next)
	}
	if err == nil {
		err = c.judge(file, list, judged, others, expires, running)
	}
	if err == nil {
		err = c.update(next, file.Path, size)
	}
	return err
}

// sizeBetween returns the size of the change between data of one session.
func sizeBetween(old, next rtr.Data) (payloads.Size, error) {
	delta, err := rtr.Delta(old, next)
	if err != nil {
		return payloads.Size{}, err
	}
	return payloads.SizeOf(old, delta), nil
}

// sizeOf returns the size of the change to new data.
func (c *Cache) sizeOf(next rtr.Data) (payloads.Size, error) {
	if c.present.IsZero() {
		return payloads.Size{
			Had: payloads.Kinds(c.present), Announced: payloads.Kinds(next), Withdrawn: trust.Counts{},
		}, nil
	}
	delta, err := c.server.Changes(next)
	if err != nil {
		return payloads.Size{}, err
	}
	return payloads.SizeOf(c.present, delta), nil
}

// acceptOffered records that the offered lists of files were taken.
func (c *Cache) acceptOffered(files []*followed) {
	for _, file := range files {
		list := *file.offered
		c.recordAccepted(file, list)
		c.note(file, list, nil, false)
		c.log.Infof("%s: %s accepted", file.Path, words.Number(list.Data.Len(), "payload"))
	}
}

// recordAccepted records that a list was accepted.
func (c *Cache) recordAccepted(file *followed, list payloads.List) {
	c.lock.Lock()
	defer c.lock.Unlock()
	file.held, file.offered = nil, nil
	file.taken, file.size = list.Data.Len(), len(list.Data.Bytes())
	file.expired = list.Expired
	file.anchors = list.Anchors
	if len(c.files) > 1 {
		file.data = list.Data
	}
	c.metrics.Expired(file.Path, list.Expired.LeftOut)
}

// judge returns an error, and holds the list, if the list and the offered lists of other files
// together would withdraw more than the guard allows.
func (c *Cache) judge(
	file *followed, list payloads.List, size payloads.Size, others []*followed, expires bool,
	running time.Duration,
) error {
	same := file.held != nil && (file.held.state.SameContent(list.State) ||
		file.held.sum == sha256.Sum256(list.Data.Bytes()))
	offer := trust.Offer{
		Had: size.Had, Withdrawn: size.Withdrawn, Expiry: expires,
		Anchors:   file.lost(list.Anchors),
		Confirmed: c.confirmed && same || c.settings.Force && !file.looked,
	}
	for _, other := range others {
		offer.Anchors = append(offer.Anchors, other.lost(other.offered.Anchors)...)
	}
	if same {
		offer.Same = running - file.held.since
		file.held.state = list.State
	}
	err := c.settings.Rules.Judge(offer)
	if err != nil && !same {
		file.held = &held{sha256.Sum256(list.Data.Bytes()), list.State, running}
	}
	return err
}

// lost returns the trust anchors of the file when it was last accepted, with the number of their
// items then and in a new list.
func (f *followed) lost(has payloads.Anchors) (all []trust.Anchor) {
	for name, had := range f.anchors {
		all = append(all, trust.Anchor{Name: name, Had: had, Has: has[name]})
	}
	sort.Slice(all, func(i, j int) bool { return all[i].Name < all[j].Name })
	return all
}

// note logs the result of checking a file, and a repeated result only if a person asked.
func (c *Cache) note(file *followed, list payloads.List, err error, asked bool) {
	if !errors.As(err, new(*trust.Held)) {
		file.held = nil
	}
	if !isOffer(err) {
		file.offered = nil
	}
	c.lock.Lock()
	before := file.problem
	sameState := file.seen == list.State
	file.looked, file.seen, file.problem = true, list.State, err
	file.when = c.clock.Now()
	c.lock.Unlock()
	file.again = payloads.IsTransient(err)
	if list.Notes != "" && (asked || !sameState) {
		c.log.Warnf("%s: %s", file.Path, strings.ReplaceAll(list.Notes, "\n", "; "))
	}
	if err == nil {
		c.metrics.Took(file.Path, file.written())
		return
	}
	if !asked && before != nil && before.Error() == err.Error() && (sameState || file.held != nil) {
		return // it was logged already
	}
	c.metrics.Refused(file.Path)
	c.log.Warnf("%s: %s", file.Path, plainText(err))
}

// health returns the faults.
func (c *Cache) health() []trust.Fault {
	c.lock.Lock()
	defer c.lock.Unlock()
	known := trust.State{
		Data: !c.present.IsZero(), Payloads: c.present.Len(), Had: c.had, Clock: c.clock,
	}
	if c.waits != nil {
		known.Unsaved = c.waits.reason
	}
	for _, file := range c.files {
		var problem error
		if file.problem != nil {
			problem = errors.New(plainText(file.problem))
		}
		var unfetched error
		if file.remote != nil && file.remote.failure != nil {
			unfetched = errors.New(plainText(file.remote.failure))
		}
		known.Files = append(known.Files, trust.File{
			Path: file.Path, Looked: file.looked, Problem: problem, Unfetched: unfetched,
			Held: errors.As(file.problem, new(*trust.Held)), Written: file.written(),
			Taken: file.taken, Expired: file.expired.LeftOut,
		})
	}
	return c.settings.Rules.Health(known)
}
