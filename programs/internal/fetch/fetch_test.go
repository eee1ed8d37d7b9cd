package fetch

import (
	"context"
	"errors"
	"net"
	"net/http"
	"net/http/httptest"
	"net/url"
	"testing"
	"time"
)

// Waits grow from ten seconds to the time between two fetches, and are at most a tenth longer. A
// busy server may delay the next fetch.
func TestPause(t *testing.T) {
	f := &Fetcher{settings: Settings{Every: 5 * time.Minute}}
	for _, row := range []struct {
		failures int
		err      error
		wait     time.Duration
	}{
		{0, nil, 5 * time.Minute},
		{1, &Failure{}, 10 * time.Second},
		{2, &Failure{}, 20 * time.Second},
		{3, &Failure{}, 40 * time.Second},
		{4, &Failure{}, 80 * time.Second},
		{5, &Failure{}, 160 * time.Second},
		{6, &Failure{}, 5 * time.Minute},
		{1000, &Failure{}, 5 * time.Minute},
		{1, &Failure{After: time.Minute}, time.Minute},
		{6, &Failure{After: time.Second}, 5 * time.Minute},
	} {
		for try := 0; try < 100; try++ {
			got := f.pause(row.failures, row.err)
			if got < row.wait || got > row.wait+row.wait/10 {
				t.Fatalf("after %d failures: %v", row.failures, got)
			}
		}
	}
	f.settings.Every = time.Second
	if got := f.pause(3, &Failure{}); got > 2*time.Second {
		t.Error(got)
	}
}

// Retry-After is in seconds or a date, and counts up to an hour.
func TestRetryAfter(t *testing.T) {
	later := time.Now().Add(30 * time.Minute).UTC().Format(http.TimeFormat)
	for text, limits := range map[string][2]time.Duration{
		"": {0, 0}, "soon": {0, 0}, "-5": {0, 0}, "0": {0, 0}, "90": {90 * time.Second, 90 * time.Second},
		"7200": {time.Hour, time.Hour}, "99999999999999": {0, 0},
		later:                           {29 * time.Minute, 30 * time.Minute},
		"Sat, 01 Jan 2000 00:00:00 GMT": {0, 0},
	} {
		server := httptest.NewServer(http.HandlerFunc(func(answer http.ResponseWriter, _ *http.Request) {
			answer.Header().Set("Retry-After", text)
			answer.WriteHeader(http.StatusServiceUnavailable)
		}))
		at, err := parse(server.URL)
		if err != nil {
			t.Fatal(err)
		}
		f, err := New(at, Settings{Every: time.Hour, Timeout: time.Minute, Bytes: 1}, nil)
		if err != nil {
			t.Fatal(err)
		}
		_, err = f.get(context.Background(), false)
		failure, ok := err.(*Failure)
		if !ok || failure.Reason != Status || failure.After < limits[0] || failure.After > limits[1] {
			t.Errorf("%q: %#v", text, err)
		}
		server.Close()
	}
}

// Whether an argument is a URL or a file.
func TestIsURL(t *testing.T) {
	for word, isURL := range map[string]bool{
		"http://h/f": true, "https://h/f": true, "HTTPS://h/f": true, "http:/f": true, "https:f": true,
		"ftp://h/f": true, "file:///f": true, "/var/lib/json": false, "http": false, "https.json": false,
		"./http:f": false, "a:b": false,
	} {
		if IsURL(word) != isURL {
			t.Error(word)
		}
	}
}

// In TLS 1.3 a server that requires a certificate reports that after the handshake (RFC 8446
// section 4.4.2.4): an alert is a failure of TLS, a reset connection a body that was cut off.
func TestReasons(t *testing.T) {
	for operation, reason := range map[string]Reason{
		"remote error": Certificate, "local error": Certificate, "read": Cut, "dial": Connect,
		"proxyconnect": Connect,
	} {
		err := &url.Error{Op: "Get", Err: &net.OpError{Op: operation, Err: errors.New("alert")}}
		if got := failureOf(err).Reason; got != reason {
			t.Errorf("%s: %s", operation, got)
		}
	}
}
