package cache

import (
	"context"
	"crypto/rand"
	"encoding/binary"
	"errors"
	"fmt"
	"math"
	"os"
	"runtime/debug"
	"sync"
	"time"

	"github.com/sirupsen/logrus"

	"fishreef/programs/internal/clients"
	"fishreef/programs/internal/logs"
	"fishreef/programs/internal/metrics"
	"fishreef/programs/internal/payloads"
	"fishreef/programs/internal/state"
	"fishreef/programs/internal/trust"
	"fishreef/programs/internal/words"
	"fishreef/rtr"
)

// Cache is a running cache.
type Cache struct {
	settings Settings
	log      *logrus.Logger
	lines    *logs.Lines // of the log, about routers
	metrics  *metrics.Metrics
	clients  *clients.Clients
	server   *rtr.Server
	folder   *state.Folder // nil for none
	files    []*followed
	fetched  chan struct{} // has a value when a fetch ended
	time     func() (system time.Time, running time.Duration)

	lock      sync.Mutex // guards the fields below, and the files
	present   rtr.Data   // the data that are served
	had       bool       // the cache has served payloads
	waits     *waiting   // the data that are served once they are saved; nil for none
	clock     trust.Clock
	confirmed bool // a person confirmed the held list
}

// New returns a cache with the data of its state folder.
//
// Errors: those of the folder, of the file of authorities, and of the system if it has no random
// number.
func New(settings Settings, log *logrus.Logger) (*Cache, error) {
	c := &Cache{
		settings: settings, log: log, lines: logs.NewLines(log),
		metrics: metrics.New(), clients: clients.New(),
		server: rtr.NewServer(), time: systemTime(),
		fetched: make(chan struct{}, 1),
	}
	c.server.Limits.Connections = settings.Clients
	c.server.Limits.Refuse = settings.Refuse
	c.server.Log = c.logClient
	for _, file := range settings.Files {
		c.files = append(c.files, &followed{File: file})
		c.metrics.Follows(file.Path)
	}
	c.metrics.Judges(c.health)
	c.metrics.Collects(c.clients)
	if err := c.remotes(); err != nil {
		return nil, err
	}
	if settings.State == "" {
		return c, nil
	}
	folder, err := state.Open(settings.State)
	if err != nil {
		return nil, err
	}
	c.folder = folder
	switch data, err := folder.Restore(c.server); {
	case err == nil:
		c.recordServed(data, settings.State, nil)
	case errors.Is(err, os.ErrNotExist):
	case errors.Is(err, rtr.ErrTorn), errors.Is(err, rtr.ErrTiming):
		log.Warnf("%s: another session begins", plainText(err))
	default:
		folder.Close()
		return nil, err
	}
	return c, nil
}

// systemTime returns the system's time, and the machine's uptime, which doesn't change when the
// clock is set.
func systemTime() func() (time.Time, time.Duration) {
	start := time.Now()
	return func() (time.Time, time.Duration) {
		now := time.Now()
		return now, now.Sub(start)
	}
}

// Close closes all connections, and releases the state folder. It first waits for answers that have
// begun, unless the context ends.
func (c *Cache) Close(ctx context.Context) {
	if err := c.server.Shutdown(ctx); err != nil {
		c.log.Warnf("answers were cut off: %v", err)
	}
	if c.folder != nil {
		c.folder.Close()
	}
}

// recordServed records the served data, their source, and the size of the change; nil if that isn't
// known.
func (c *Cache) recordServed(data rtr.Data, from string, size *payloads.Size) {
	c.lock.Lock()
	defer c.lock.Unlock()
	c.present = data
	c.had = c.had || data.Len() > 0
	c.metrics.Serves(data, time.Now())
	c.clients.Serves(data)
	line := fmt.Sprintf("%s: session %d serial %d: %s",
		from, data.Session(), data.Serial(), words.Number(data.Len(), "payload"))
	if size != nil {
		c.metrics.Changes(*size)
		line += ", " + size.String()
	}
	if data.Len() == 0 && c.had {
		c.log.Warn(line)
		return
	}
	c.log.Info(line)
}

// accepted returns the data that were accepted last: the data that wait to be saved, or else the
// data that are served.
func (c *Cache) accepted() rtr.Data {
	if c.waits != nil {
		return c.waits.data
	}
	return c.present
}

// next returns payloads with the next serial number, or with the first one of a random session.
func (c *Cache) next(merged rtr.Data) (rtr.Data, error) {
	session := c.accepted().Session()
	if c.accepted().IsZero() {
		var err error
		if session, err = newSession(); err != nil {
			return rtr.Data{}, err
		}
	}
	return merged.With(session, after(c.present.Serial()), c.settings.Timing)
}

// update serves new data, which replace any data that wait to be saved. If they can't be saved,
// they wait, too.
func (c *Cache) update(next rtr.Data, from string, size payloads.Size) error {
	err := c.serve(next)
	var unsaved *state.Unsaved
	switch {
	case errors.As(err, &unsaved):
		c.metrics.Unsaved()
		c.await(waiting{next, from, size, unsaved.Reason, retry{}.next(c.running())})
		return nil
	case err != nil:
		return err
	}
	c.recordSaved()
	c.recordServed(c.server.Data(), from, &size)
	debug.FreeOSMemory() // of the file's content, and of the former data
	return nil
}

// after returns the serial number after this one. It is never 0, since a router that lost its first
// answer asks for changes since 0.
func after(serial uint32) uint32 {
	if serial == math.MaxUint32 {
		return 1
	}
	return serial + 1
}

// newSession returns a random session.
func newSession() (uint16, error) {
	var chance [2]byte
	if _, err := rand.Read(chance[:]); err != nil {
		return 0, fmt.Errorf("a new session: %w", err)
	}
	return binary.BigEndian.Uint16(chance[:]), nil
}

// serve serves data, and first saves them if there is a state folder.
func (c *Cache) serve(data rtr.Data) error {
	if c.folder != nil {
		return c.folder.Update(c.server, data)
	}
	return c.server.Update(data)
}

// waiting are data that couldn't be saved, and are served once they are.
type waiting struct {
	data   rtr.Data
	from   string
	size   payloads.Size
	reason error
	retry  retry
}

// await lets data wait to be saved, and logs why.
func (c *Cache) await(data waiting) {
	c.lock.Lock()
	defer c.lock.Unlock()
	line := fmt.Sprintf("%s: %s: %v; trying again in %v",
		c.settings.State, rtr.UnservedText, data.reason, data.retry.pause)
	if c.waits == nil {
		c.log.Error(line)
	} else {
		c.log.Warn(line)
	}
	c.waits = &data
}

// recordSaved records that no data wait to be saved any more.
func (c *Cache) recordSaved() {
	c.lock.Lock()
	defer c.lock.Unlock()
	if c.waits != nil {
		c.log.Infof("%s: the data are saved again", c.settings.State)
	}
	c.waits = nil
}

// save retries to save data that couldn't be saved, if it is time for that, and serves them.
func (c *Cache) save() {
	if c.waits == nil || c.running() < c.waits.retry.at {
		return
	}
	again := *c.waits
	err := c.serve(again.data)
	var unsaved *state.Unsaved
	if errors.As(err, &unsaved) {
		again.reason, again.retry = unsaved.Reason, again.retry.next(c.running())
		c.await(again)
		return
	}
	if err != nil { // the server is closed
		c.log.Warnf("%s: %s", again.from, plainText(err))
		return
	}
	c.recordSaved()
	c.recordServed(c.server.Data(), again.from, &again.size)
}

// running returns the time for which the cache has run.
func (c *Cache) running() time.Duration {
	_, running := c.time()
	return running
}

// retry is the next retry of saving, by the time for which the cache has run.
type retry struct{ at, pause time.Duration }

// next returns the retry after this one, which failed; after the zero retry, the first one.
func (r retry) next(now time.Duration) retry {
	pause := rtr.RetryAfter(r.pause)
	return retry{now + pause, pause}
}

// same reports whether these payloads were accepted already, with the same times.
func (c *Cache) same(merged rtr.Data) bool {
	accepted := c.accepted()
	return !accepted.IsZero() && accepted.Timing() == c.settings.Timing &&
		payloads.Same(accepted, merged)
}
