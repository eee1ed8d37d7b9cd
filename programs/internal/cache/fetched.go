package cache

import (
	"context"
	"sync"
	"time"

	"github.com/sirupsen/logrus"

	"fishreef/programs/internal/fetch"
	"fishreef/programs/internal/payloads"
)

// remote is the state of a list that a cache fetches.
type remote struct {
	fetcher *fetch.Fetcher
	body    *payloads.Body // nil before the first list
	written time.Time      // when the list was written
	failure *fetch.Failure // of the last fetch; nil if it succeeded
}

// remotes returns a fetcher for each file that has a URL.
//
// Errors: those of the file of authorities.
func (c *Cache) remotes() error {
	settings := c.settings.Fetch
	settings.Folder = c.settings.State
	for _, file := range c.files {
		if file.URL == nil {
			continue
		}
		fetcher, err := fetch.New(file.URL, settings, c.fetched)
		if err != nil {
			return err
		}
		file.remote = &remote{fetcher: fetcher}
		c.metrics.Fetches(file.Path)
	}
	return nil
}

// fetch fetches lists until the context ends; the returned function waits for that.
func (c *Cache) fetch(ctx context.Context) (wait func()) {
	var running sync.WaitGroup
	for _, file := range c.files {
		if file.remote == nil {
			continue
		}
		fetcher := file.remote.fetcher
		running.Add(1)
		go func() {
			defer running.Done()
			fetcher.Run(ctx)
		}()
	}
	return func() {
		running.Wait()
		for _, file := range c.files {
			if file.remote != nil && file.remote.body != nil {
				file.remote.body.Close()
			}
		}
	}
}

// fetchAgain fetches all lists at once, after reloading the authorities.
func (c *Cache) fetchAgain() {
	for _, file := range c.files {
		if file.remote == nil {
			continue
		}
		if err := file.remote.fetcher.Load(); err != nil {
			c.log.Errorf("%v: the previous ones stay in use", err)
		}
		file.remote.fetcher.Again()
	}
}

// stateOf returns the state of a file, and false if nothing has been fetched yet.
func (c *Cache) stateOf(file *followed) (payloads.Stamp, bool) {
	if file.remote == nil {
		return c.settings.Reader.StateOf(file.File, nil), true
	}
	c.takeFetches(file)
	if file.remote.body == nil {
		return payloads.Stamp{}, false
	}
	return c.settings.Reader.StateOf(file.File, file.remote.body), true
}

// body returns the fetched list of a file; nil for a local file.
func (f *followed) body() *payloads.Body {
	if f.remote == nil {
		return nil
	}
	return f.remote.body
}

// written returns when a file was written, as of the last read.
func (f *followed) written() time.Time {
	if f.remote != nil {
		return f.remote.written
	}
	return f.seen.Time()
}

// takeFetches takes the results of a file's fetches, and logs each reason once.
func (c *Cache) takeFetches(file *followed) {
	news := file.remote.fetcher.Take()
	for _, result := range news.Results {
		c.metrics.Fetched(file.Path, string(result))
	}
	if len(news.Results) == 0 {
		return
	}
	c.lock.Lock()
	before := file.remote.failure
	file.remote.failure = news.Failure
	if !news.At.IsZero() {
		file.remote.written = news.Written
	}
	c.lock.Unlock()
	if news.Body != nil {
		if file.remote.body != nil {
			file.remote.body.Close()
		}
		file.remote.body = news.Body
	}
	if !news.At.IsZero() {
		c.metrics.Confirmed(file.Path, news.At)
		if news.Body == nil && file.looked && file.problem == nil {
			c.metrics.Written(file.Path, news.Written)
		}
	}
	c.logFetch(file.Path, before, news)
}

// logFetch logs a failure with a new reason, and the end of a failure.
func (c *Cache) logFetch(name string, before *fetch.Failure, news fetch.News) {
	next := news.Next.Round(time.Second).String()
	switch failure := news.Failure; {
	case failure == nil && before != nil:
		c.log.Infof("%s: it can be fetched again", name)
	case failure == nil:
		c.log.WithField("next", next).Debugf("%s: fetched (%s)", name, news.Results[len(news.Results)-1])
	default:
		line := c.log.WithFields(logrus.Fields{"reason": failure.Reason, "next": next})
		text := name + ": it can't be fetched: " + plainText(failure)
		if before != nil && before.Text == failure.Text {
			line.Debug(text)
			return
		}
		line.Warn(text)
	}
}
