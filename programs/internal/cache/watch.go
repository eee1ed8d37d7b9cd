package cache

import (
	"context"
	"path/filepath"
	"time"

	"github.com/coreos/go-systemd/v22/daemon"
	"github.com/fsnotify/fsnotify"
)

// A file is checked once nothing was written to its folder for this time, since writers write in
// pieces.
const quiet = 100 * time.Millisecond

// The next expiry is computed again at least this often, since the system's clock may be set.
const longest = time.Hour

// untilNext returns the time until the next item of a file expires, or saving is retried.
func (c *Cache) untilNext() time.Duration {
	wait := c.untilExpiry()
	if c.waits == nil {
		return wait
	}
	if saving := c.waits.retry.at - c.running(); saving < wait {
		wait = saving
	}
	if wait < quiet {
		return quiet
	}
	return wait
}

// untilExpiry returns the time until the next item of a file expires.
func (c *Cache) untilExpiry() time.Duration {
	next := c.nextExpiry()
	switch wait := next.Sub(c.clock.Now()); {
	case next.IsZero() || wait > longest:
		return longest
	case wait < quiet:
		return quiet
	default:
		return wait
	}
}

// follow checks the files when something is written in their folders, on signals, when an item
// expires, and periodically, until the context ends or a listener fails. It returns the listener's
// error.
func (c *Cache) follow(ctx context.Context, signals Signals, s *sockets) error {
	events, stop := c.watch()
	defer stop()
	ticks := time.NewTicker(c.settings.Look)
	defer ticks.Stop()
	soon := time.NewTimer(0)
	defer soon.Stop()
	ready := false
	expiry := time.NewTimer(longest)
	defer expiry.Stop()
	for {
		select {
		case <-ctx.Done():
			return nil
		case err := <-s.failed:
			return err
		case event := <-events:
			if c.isFollowed(event.Name) {
				soon.Reset(quiet)
			}
			continue
		case <-signals.Confirm:
			c.log.Info("SIGUSR1: accepting what is held")
			c.confirmed = true
		case <-signals.Reload:
			c.notify(daemon.SdNotifyReloading)
			c.reload(ctx, s, soon, expiry)
			continue
		case <-soon.C:
		case <-c.fetched:
		case <-ticks.C:
		case <-expiry.C:
		}
		c.lookAndWait(ctx, false, soon, expiry)
		if !ready && ctx.Err() == nil {
			ready = true
			c.notify(daemon.SdNotifyReady)
		}
	}
}

// lookAndWait checks the files, and sets the timers for the next check: soon after a change, and at
// the next expiry of an item or retry of saving.
func (c *Cache) lookAndWait(ctx context.Context, asked bool, soon, expiry *time.Timer) {
	if c.look(ctx, asked) {
		soon.Reset(quiet)
	}
	expiry.Reset(c.untilNext())
}

// paths returns the local files that the cache follows: lists and SLURM files.
func (c *Cache) paths() []string {
	all := append([]string(nil), c.settings.Reader.Slurm...)
	for _, file := range c.files {
		if file.remote == nil {
			all = append(all, file.Path)
		}
	}
	return all
}

// isFollowed reports whether this is the path of a file that the cache follows.
func (c *Cache) isFollowed(path string) bool {
	for _, followed := range c.paths() {
		if filepath.Clean(followed) == filepath.Clean(path) {
			return true
		}
	}
	return false
}

// reload reloads all files, certificates and keys, and fetches all lists. If a certificate or a key
// is invalid, the former one stays in use.
func (c *Cache) reload(ctx context.Context, s *sockets, soon, expiry *time.Timer) {
	for _, load := range s.reload {
		if err := load(); err != nil {
			c.log.Errorf("%v: the previous one stays in use", err)
		}
	}
	c.fetchAgain()
	c.lookAndWait(ctx, true, soon, expiry)
	c.notify(daemon.SdNotifyReady)
}

// watch returns a channel that receives an event for each write to a folder of the files. If the
// system can't report these, files are only checked periodically.
func (c *Cache) watch() (events <-chan fsnotify.Event, stop func()) {
	watcher, err := fsnotify.NewWatcher()
	if err != nil {
		c.log.Warnf("files are checked every %v, and not when they change: %v",
			c.settings.Look, err)
		return nil, func() {}
	}
	for _, path := range c.paths() {
		if err := watcher.Add(filepath.Dir(path)); err != nil {
			c.log.Warnf("%s is checked every %v, and not when it changes: %v",
				path, c.settings.Look, err)
		}
	}
	go func() {
		for err := range watcher.Errors {
			c.log.Warnf("a change of a file may be noticed late: %v", err)
		}
	}()
	return watcher.Events, func() { watcher.Close() }
}
