// Package fetch fetches a list from a web server periodically: only if it changed, within limits of
// size and time, and with growing pauses after failures.
package fetch

import (
	"context"
	"crypto/tls"
	"math/rand"
	"net/http"
	"net/url"
	"sync"
	"sync/atomic"
	"time"

	"fishreef/programs/internal/payloads"
	"fishreef/programs/internal/transport"
)

// Settings are the settings for all lists of a program.
type Settings struct {
	Every     time.Duration // the time between two fetches
	Timeout   time.Duration // the time limit of a fetch, from the connection to the last byte
	Bytes     int64         // the most bytes of a list, after decompression
	Folder    string        // where lists are stored; "" for the system's folder of temporary files
	Authority string        // a file with authorities (PEM); "" for those of the system
}

// News has the results of the fetches since the last Take.
type News struct {
	Body    *payloads.Body // the newest list, which the caller has to close; nil for none
	Written time.Time      // when the list was written, by the server; zero if no fetch succeeded
	At      time.Time      // when a fetch last succeeded; zero if none did
	Failure *Failure       // of the last fetch; nil if it succeeded
	Next    time.Duration  // from the last fetch to the next one
	Results []Reason       // the result of each fetch
}

// Fetcher fetches one list.
type Fetcher struct {
	url      *url.URL
	settings Settings
	client   atomic.Pointer[http.Client]
	notify   chan<- struct{}
	again    chan struct{}

	known  condition // the condition of the newest list
	bodies uint64    // the number of fetched lists

	lock sync.Mutex
	news News
}

// New returns a fetcher, which sends a value when Take has something new, unless one is pending.
//
// Errors: those of the file of authorities.
func New(at *url.URL, settings Settings, notify chan<- struct{}) (*Fetcher, error) {
	f := &Fetcher{url: at, settings: settings, notify: notify, again: make(chan struct{}, 1)}
	return f, f.Load()
}

// Load reloads the authorities. After an error the former ones stay in use.
func (f *Fetcher) Load() (err error) {
	config := &tls.Config{MinVersion: tls.VersionTLS12}
	if path := f.settings.Authority; path != "" {
		if config.RootCAs, err = transport.Authorities(path); err != nil {
			return err
		}
	}
	f.client.Store(&http.Client{
		CheckRedirect: checkRedirect,
		Transport: &http.Transport{
			Proxy: http.ProxyFromEnvironment, TLSClientConfig: config,
			DisableKeepAlives: true, MaxResponseHeaderBytes: 1 << 16,
		},
	})
	return nil
}

// Again makes Run fetch the list at once, whether it changed or not.
func (f *Fetcher) Again() {
	select {
	case f.again <- struct{}{}:
	default:
	}
}

// Take returns the results since the last call.
func (f *Fetcher) Take() News {
	f.lock.Lock()
	defer f.lock.Unlock()
	news := f.news
	f.news = News{Failure: news.Failure, Next: news.Next}
	return news
}

// Run fetches until the context ends.
func (f *Fetcher) Run(ctx context.Context) {
	defer func() {
		if body := f.Take().Body; body != nil {
			body.Close()
		}
	}()
	failures, anew := 0, false
	for {
		got, err := f.get(ctx, anew)
		if ctx.Err() != nil {
			if got != nil && got.body != nil {
				got.body.Close()
			}
			return
		}
		failures++
		if err == nil {
			failures = 0
		}
		wait := f.pause(failures, err)
		f.note(got, err, wait)
		timer := time.NewTimer(wait)
		select {
		case <-ctx.Done():
			timer.Stop()
			return
		case <-f.again:
			timer.Stop()
			anew = true
		case <-timer.C:
			anew = false
		}
	}
}

// firstPause is the pause after the first failure; it doubles with each further one, up to the time
// between two fetches.
const firstPause = 10 * time.Second

// pause returns the time until the next fetch after this many failures, or longer if the server
// asks for that, with up to a tenth of random delay, so that caches don't ask at the same time.
func (f *Fetcher) pause(failures int, err error) time.Duration {
	wait := f.settings.Every
	if failures > 0 {
		doubled := firstPause
		for i := 1; i < failures && doubled < wait; i++ {
			doubled *= 2
		}
		if doubled < wait {
			wait = doubled
		}
	}
	if failure, ok := err.(*Failure); ok && failure.After > wait {
		wait = failure.After
	}
	return wait + time.Duration(rand.Int63n(int64(wait)/10+1))
}

// note adds the result of a fetch to the news.
func (f *Fetcher) note(got *list, err error, next time.Duration) {
	f.lock.Lock()
	defer f.lock.Unlock()
	f.news.Next, f.news.Failure = next, nil
	result := SameList
	switch {
	case err != nil:
		f.news.Failure = failureOf(err)
		result = f.news.Failure.Reason
	case got.body != nil:
		if f.news.Body != nil {
			f.news.Body.Close()
		}
		f.news.Body, result = got.body, NewList
	}
	if err == nil {
		f.known, f.news.Written, f.news.At = got.condition, got.written, time.Now()
	}
	f.news.Results = append(f.news.Results, result)
	select {
	case f.notify <- struct{}{}:
	default:
	}
}
