package fetch

import (
	"compress/gzip"
	"context"
	"crypto/sha256"
	"crypto/tls"
	"fmt"
	"io"
	"net/http"
	"net/http/httptrace"
	"os"
	"strconv"
	"strings"
	"sync/atomic"
	"syscall"
	"time"

	"fishreef/programs/internal/payloads"
	"fishreef/programs/internal/words"
)

// mostRedirects is the most redirects of a fetch.
const mostRedirects = 5

// mostAfter is the longest time by which a server may delay the next fetch.
const mostAfter = time.Hour

// condition identifies a list, for a conditional request (RFC 9110 section 13).
type condition struct {
	tag      string // the ETag; "" for none
	modified string // Last-Modified; "" for none
	sum      [sha256.Size]byte
}

// list is the answer of a server.
type list struct {
	condition
	body    *payloads.Body // nil for the former list
	written time.Time
}

// checkRedirect allows a redirect, unless it leaves https or is one too many.
func checkRedirect(next *http.Request, before []*http.Request) error {
	switch {
	case len(before) > mostRedirects:
		return &Failure{Reason: Redirect, Text: fmt.Sprintf("more than %d redirects", mostRedirects)}
	case !isWeb(next.URL.Scheme):
		return &Failure{Reason: Redirect, Text: "a redirect to " + next.URL.Scheme}
	case before[len(before)-1].URL.Scheme == "https" && next.URL.Scheme != "https":
		return &Failure{Reason: Redirect, Text: "a redirect from https to http"}
	}
	return nil
}

// get fetches the list once, if it changed; with anew, in any case.
//
// Errors: a Failure.
func (f *Fetcher) get(ctx context.Context, anew bool) (*list, error) {
	limited, cancel := context.WithTimeout(ctx, f.settings.Timeout)
	defer cancel()
	got, err := f.ask(limited, anew)
	if err == nil {
		return got, nil
	}
	if limited.Err() == context.DeadlineExceeded {
		return nil, &Failure{Reason: Timeout,
			Text: fmt.Sprintf("no whole answer within %v", f.settings.Timeout)}
	}
	return nil, failureOf(err)
}

// ask sends the request, and reads the answer.
func (f *Fetcher) ask(ctx context.Context, anew bool) (*list, error) {
	request, err := http.NewRequestWithContext(ctx, http.MethodGet, f.url.String(), nil)
	if err != nil {
		return nil, err
	}
	request.Header.Set("User-Agent", "fishreef/"+words.Version)
	// With this the body isn't decompressed by net/http, which hides its length then.
	request.Header.Set("Accept-Encoding", "gzip")
	conditional := !anew && f.known.tag+f.known.modified != ""
	if conditional && f.known.tag != "" {
		request.Header.Set("If-None-Match", f.known.tag)
	}
	if conditional && f.known.modified != "" {
		request.Header.Set("If-Modified-Since", f.known.modified)
	}
	answer, err := f.do(request)
	if err != nil {
		return nil, err
	}
	defer answer.Body.Close()
	if answer.StatusCode == http.StatusNotModified && conditional {
		known := f.known
		if modified := answer.Header.Get("Last-Modified"); modified != "" {
			known.modified = modified // RFC 9111 section 4.3.4
		}
		return &list{condition: known, written: f.written(known.modified)}, nil
	}
	if err := f.check(answer); err != nil {
		return nil, err
	}
	return f.read(answer)
}

// do sends a request. A failure of TLS has no type of its own in net/http.
func (f *Fetcher) do(request *http.Request) (*http.Response, error) {
	var hasTLSFailed atomic.Bool
	traced := httptrace.WithClientTrace(request.Context(), &httptrace.ClientTrace{
		TLSHandshakeDone: func(_ tls.ConnectionState, err error) { hasTLSFailed.Store(err != nil) },
	})
	answer, err := f.client.Load().Do(request.WithContext(traced))
	if err != nil && hasTLSFailed.Load() {
		return nil, &Failure{Reason: Certificate, Text: failureOf(err).Text}
	}
	return answer, err
}

// check returns an error if the body of an answer can't be read.
func (f *Fetcher) check(answer *http.Response) error {
	encoding, length := answer.Header.Get("Content-Encoding"), answer.ContentLength
	switch {
	case answer.StatusCode != http.StatusOK:
		text := fmt.Sprintf("the server answered %d %s", answer.StatusCode,
			http.StatusText(answer.StatusCode))
		return &Failure{Reason: Status, Text: strings.TrimSpace(text), After: after(answer)}
	case encoding != "" && encoding != "identity" && !isGzip(answer):
		return &Failure{Reason: Encoding, Text: fmt.Sprintf("the unknown encoding %q", encoding)}
	case length > f.settings.Bytes && !isGzip(answer):
		return f.tooLong()
	case length < 0 && len(answer.TransferEncoding) == 0:
		return &Failure{Reason: Cut,
			Text: "the answer has no length, so a truncated one could go unnoticed"}
	}
	return nil
}

// isGzip reports whether the body is compressed by gzip (RFC 9110 section 8.4.1.3).
func isGzip(answer *http.Response) bool {
	encoding := strings.ToLower(answer.Header.Get("Content-Encoding"))
	return encoding == "gzip" || encoding == "x-gzip"
}

// tooLong returns the failure for a list above the limit.
func (f *Fetcher) tooLong() *Failure {
	return &Failure{Reason: Size, Text: fmt.Sprintf("larger than %d bytes", f.settings.Bytes)}
}

// after returns the Retry-After of a busy server, at most an hour; 0 if it sent none.
func after(answer *http.Response) time.Duration {
	text := answer.Header.Get("Retry-After")
	wait := time.Duration(0)
	if seconds, err := strconv.ParseUint(text, 10, 31); err == nil {
		wait = time.Duration(seconds) * time.Second
	} else if at, err := http.ParseTime(text); err == nil {
		wait = time.Until(at)
	}
	switch {
	case wait < 0:
		return 0
	case wait > mostAfter:
		return mostAfter
	}
	return wait
}

// written returns the time of a Last-Modified, or now if there is none.
func (f *Fetcher) written(modified string) time.Time {
	if at, err := http.ParseTime(modified); err == nil {
		return at
	}
	return time.Now()
}

// read reads the body of an answer into a file without a name.
func (f *Fetcher) read(answer *http.Response) (*list, error) {
	got := &list{condition: condition{
		tag: answer.Header.Get("ETag"), modified: answer.Header.Get("Last-Modified"),
	}}
	got.written = f.written(got.modified)
	file, err := f.unnamed()
	if err != nil {
		return nil, &Failure{Reason: Disk, Text: "it can't be stored: " + err.Error()}
	}
	size, err := f.copy(file, &got.condition, bodyOf(answer))
	if err != nil || got.sum == f.known.sum {
		file.Close()
		return got, err
	}
	f.bodies++
	got.body = &payloads.Body{File: file, State: payloads.Stamp{
		Inode: f.bodies, Size: size, Modified: syscall.NsecToTimespec(got.written.UnixNano()),
	}}
	return got, nil
}

// bodyOf returns the decompressed body of an answer.
func bodyOf(answer *http.Response) io.Reader {
	if isGzip(answer) {
		return &unzipped{body: answer.Body}
	}
	return answer.Body
}

// unzipped is a body that is decompressed.
type unzipped struct {
	body   io.Reader
	reader *gzip.Reader // nil before its header was read
}

// Read reads decompressed bytes. A body without a header of gzip was cut off.
func (u *unzipped) Read(buffer []byte) (n int, err error) {
	if u.reader == nil {
		u.reader, err = gzip.NewReader(u.body)
	}
	switch {
	case err == io.EOF:
		return 0, io.ErrUnexpectedEOF
	case err != nil:
		return 0, err
	}
	return u.reader.Read(buffer)
}

// unnamed creates a file without a name, which is removed when it is closed.
func (f *Fetcher) unnamed() (*os.File, error) {
	file, err := os.CreateTemp(f.settings.Folder, "list.")
	if err != nil {
		return nil, err
	}
	if err := os.Remove(file.Name()); err != nil {
		file.Close()
		return nil, err
	}
	return file, nil
}

// copy copies a body, up to the limit, and computes its checksum.
func (f *Fetcher) copy(file *os.File, to *condition, body io.Reader) (size int64, err error) {
	sum, from := sha256.New(), &reader{Reader: body}
	size, err = io.Copy(io.MultiWriter(file, sum), io.LimitReader(from, f.settings.Bytes+1))
	switch {
	case from.err != nil:
		failure := failureOf(from.err)
		if failure.Reason == Cut {
			failure.Text = "the body was cut off"
		}
		return size, failure
	case err != nil:
		return size, &Failure{Reason: Disk, Text: "it can't be stored: " + err.Error()}
	case size > f.settings.Bytes:
		return size, f.tooLong()
	}
	sum.Sum(to.sum[:0])
	return size, nil
}

// reader records the error of a body, so that it can be told from one of the file.
type reader struct {
	io.Reader
	err error
}

// Read reads, and records an error.
func (r *reader) Read(buffer []byte) (int, error) {
	n, err := r.Reader.Read(buffer)
	if err != nil && err != io.EOF {
		r.err = err
	}
	return n, err
}
