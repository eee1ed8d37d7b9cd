package main

import (
	"bytes"
	"compress/gzip"
	"crypto/tls"
	"fmt"
	"io"
	"log"
	"net"
	"net/http"
	"net/http/httptest"
	"os"
	"os/exec"
	"strconv"
	"strings"
	"sync"
	"testing"
	"time"

	"fishreef/programs/internal/trial"
	"fishreef/programs/internal/words"
)

// web is a web server whose answer a test sets, and that records its requests.
type web struct {
	*httptest.Server
	lock   sync.Mutex
	answer http.HandlerFunc
	asked  []*http.Request
}

// newWeb starts a server with this answer.
func newWeb(t *testing.T, answer http.HandlerFunc) *web {
	w := &web{answer: answer}
	w.Server = httptest.NewServer(w)
	t.Cleanup(w.Close)
	return w
}

// ServeHTTP records the request, and sends the present answer.
func (w *web) ServeHTTP(answer http.ResponseWriter, ask *http.Request) {
	w.lock.Lock()
	w.asked = append(w.asked, ask)
	handler := w.answer
	w.lock.Unlock()
	handler(answer, ask)
}

// answers sets the answer for further requests.
func (w *web) answers(answer http.HandlerFunc) {
	w.lock.Lock()
	defer w.lock.Unlock()
	w.answer = answer
}

// count returns the number of requests so far, and the last one.
func (w *web) count() (count int, last *http.Request) {
	w.lock.Lock()
	defer w.lock.Unlock()
	if len(w.asked) > 0 {
		last = w.asked[len(w.asked)-1]
	}
	return len(w.asked), last
}

// text returns an answer with this text.
func text(body string) http.HandlerFunc {
	return func(answer http.ResponseWriter, _ *http.Request) { io.WriteString(answer, body) }
}

// status returns an answer with this status.
func status(code int) http.HandlerFunc {
	return func(answer http.ResponseWriter, _ *http.Request) { answer.WriteHeader(code) }
}

// hijacked returns an answer of these bytes, after which the connection is closed.
func hijacked(bytes string) http.HandlerFunc {
	return func(answer http.ResponseWriter, _ *http.Request) {
		connection, _, err := answer.(http.Hijacker).Hijack()
		if err == nil {
			io.WriteString(connection, bytes)
			connection.Close()
		}
	}
}

// trickles returns an endless answer: pieces with a pause between them.
func trickles(piece string, pause time.Duration) http.HandlerFunc {
	return func(answer http.ResponseWriter, ask *http.Request) {
		for ask.Context().Err() == nil {
			if _, err := io.WriteString(answer, piece); err != nil {
				return
			}
			answer.(http.Flusher).Flush()
			time.Sleep(pause)
		}
	}
}

// gzipped compresses a text.
func gzipped(t *testing.T, text string) string {
	t.Helper()
	var output bytes.Buffer
	writer := gzip.NewWriter(&output)
	if _, err := io.WriteString(writer, text); err != nil {
		t.Fatal(err)
	}
	if err := writer.Close(); err != nil {
		t.Fatal(err)
	}
	return output.String()
}

// encoded returns an answer with a content encoding.
func encoded(encoding, body string) http.HandlerFunc {
	return func(answer http.ResponseWriter, _ *http.Request) {
		answer.Header().Set("Content-Encoding", encoding)
		io.WriteString(answer, body)
	}
}

// conditional returns an answer with an ETag and Last-Modified, or 304 if the request has both.
func conditional(tag, modified, body string) http.HandlerFunc {
	return func(answer http.ResponseWriter, ask *http.Request) {
		answer.Header().Set("ETag", tag)
		answer.Header().Set("Last-Modified", modified)
		if ask.Header.Get("If-None-Match") == tag && ask.Header.Get("If-Modified-Since") == modified {
			answer.WriteHeader(http.StatusNotModified)
			return
		}
		io.WriteString(answer, body)
	}
}

// fetching starts a cache of these lists that fetches each second, and returns it, its address, and
// the URL of its metrics.
func fetching(t *testing.T, line ...string) (process *trial.Process, address, metrics string) {
	t.Helper()
	process, address = started(t, t.TempDir(), append(line, "--fetch", "1s",
		"--metrics", "127.0.0.1:0")...)
	return process, address, strings.TrimSuffix(process.After("metrics are at "), "/metrics")
}

// Requests are conditional, and a changed list gets the next serial number.
func TestFetches(t *testing.T) {
	t.Parallel()
	old := time.Now().Add(-time.Minute).UTC().Format(http.TimeFormat)
	new := time.Now().UTC().Format(http.TimeFormat)
	server := newWeb(t, conditional(`"one"`, old, rows(2)))
	process, address, metrics := fetching(t, "--csv", server.URL+"/vrps.csv")
	process.Says("serial 1: 2 payloads", 1)
	process.Await("conditions", func() bool {
		_, last := server.count()
		return last.Header.Get("If-None-Match") == `"one"` && last.Header.Get("If-Modified-Since") == old
	})
	if data := fetched(t, address, 2); data.Len() != 2 || data.Serial() != 1 {
		t.Error(lines(data))
	}
	server.answers(conditional(`"two"`, new, rows(3)))
	process.Says("serial 2: 3 payloads, 1 announced (1 IPv4 prefix), 0 withdrawn", 1)
	before, _ := server.count()
	process.Await("three more", func() bool { count, _ := server.count(); return count >= before+3 })
	if process.Lines("announced") != 2 || process.Lines("level=warning") != 0 {
		t.Error(process.Stderr())
	}
	process.Await("metrics", func() bool {
		_, says := trial.Get(t, metrics+"/metrics")
		label := `{file="` + server.URL + `/vrps.csv",result=`
		return strings.Contains(says, "rtr_cache_fetches_total"+label+`"new"} 2`) &&
			!strings.Contains(says, "rtr_cache_fetches_total"+label+`"same"} 0`) &&
			strings.Contains(says, `rtr_cache_file_fetched_timestamp_seconds{file=`)
	})
	if status, says := trial.Get(t, metrics+"/health"); status != http.StatusOK {
		t.Error(status, says)
	}
	process.Signal(hangup)
	process.Await("a fetch anyway", func() bool {
		server.lock.Lock()
		defer server.lock.Unlock()
		for _, ask := range server.asked[before:] {
			if ask.Header.Get("If-None-Match") == "" {
				return true
			}
		}
		return false
	})
	if status := process.End(); status != words.Well {
		t.Error(status)
	}
}

// The age of a list is that of the server's last Last-Modified, also of one without a new body (RFC
// 9111 section 4.3.4); a metric has that of the accepted list.
func TestLastModified(t *testing.T) {
	t.Parallel()
	format := func(at time.Time) string { return at.UTC().Format(http.TimeFormat) }
	metric := func(at time.Time) string {
		return `/f"} ` + strconv.FormatFloat(float64(at.Unix()), 'g', -1, 64) + "\n"
	}
	now, old := time.Now(), time.Now().Add(-3*time.Hour)
	server := newWeb(t, conditional(`"one"`, format(old), rows(2)))
	process, _, metrics := fetching(t, "--csv", server.URL+"/f")
	process.Says("serial 1: 2 payloads", 1)
	process.Await("stale", func() bool {
		_, says := trial.Get(t, metrics+"/health")
		return strings.Contains(says, "/f: it was written 3h")
	})
	server.answers(func(answer http.ResponseWriter, ask *http.Request) {
		answer.Header().Set("Last-Modified", format(now))
		answer.WriteHeader(http.StatusNotModified)
	})
	process.Await("good", func() bool { status, _ := trial.Get(t, metrics+"/health"); return status == 200 })
	_, says := trial.Get(t, metrics+"/metrics")
	if !strings.Contains(says, "rtr_cache_file_modified_timestamp_seconds{file=") || !strings.Contains(says, metric(now)) {
		t.Error(says)
	}
	server.answers(conditional(`"two"`, format(now.Add(time.Minute)), "AS64496,10.0.0.0/33,33\n"))
	process.Says("f: line 1: prefix", 1)
	if _, says := trial.Get(t, metrics+"/metrics"); !strings.Contains(says, metric(now)) {
		t.Error(says)
	}
}

// A failed fetch is logged by one line and counted by its reason; the served data stay, and /health
// has the reason until a fetch succeeds again. It also has the fault of an invalid list.
func TestFailedFetches(t *testing.T) {
	t.Parallel()
	other := newWeb(t, text(rows(1)))
	server := newWeb(t, text(rows(2)))
	url := server.URL + "/f"
	process, address, metrics := fetching(t, "--csv", url, "--fetch-limit", "1", "--fetch-timeout", "3s")
	process.Says("serial 1: 2 payloads", 1)
	served := fetched(t, address, 2)
	whole := rows(2)
	for _, row := range []struct {
		name, reason, says string
		answer             http.HandlerFunc
	}{
		{"404", "status", "the server answered 404 Not Found", status(404)},
		{"500", "status", "the server answered 500 Internal Server Error", status(500)},
		{"304 without a condition", "status", "the server answered 304 Not Modified", status(304)},
		{"a part", "status", "the server answered 206 Partial Content", status(206)},
		{"a short body", "cut", "the body was cut off",
			hijacked(fmt.Sprintf("HTTP/1.1 200 OK\r\nContent-Length: %d\r\n\r\n%s", len(whole)+1, whole))},
		{"chunks without the last", "cut", "the body was cut off", hijacked(fmt.Sprintf(
			"HTTP/1.1 200 OK\r\nTransfer-Encoding: chunked\r\n\r\n%x\r\n%s\r\n", len(whole), whole))},
		{"no length", "cut", "the answer has no length", hijacked("HTTP/1.1 200 OK\r\n\r\n" + whole)},
		{"gzip without a length", "cut", "the answer has no length",
			hijacked("HTTP/1.1 200 OK\r\nContent-Encoding: gzip\r\n\r\n" + gzipped(t, whole))},
		{"gzip without a byte", "cut", "the body was cut off", encoded("gzip", "")},
		{"nothing", "cut", "EOF", hijacked("")},
		{"a long body", "size", "larger than 1000000 bytes",
			hijacked("HTTP/1.1 200 OK\r\nContent-Length: 1000001\r\n\r\n")},
		{"an endless body", "size", "larger than 1000000 bytes", trickles(rows(1000), 0)},
		{"a bomb", "size", "larger than 1000000 bytes",
			encoded("gzip", gzipped(t, strings.Repeat(" ", 1000001)))},
		{"a slow body", "timeout", "no whole answer within 3s", trickles("A", 100*time.Millisecond)},
		{"cut gzip", "cut", "the body was cut off",
			encoded("gzip", gzipped(t, whole)[:len(gzipped(t, whole))-9])},
		{"wrong gzip", "encoding", "gzip", encoded("gzip", "no gzip at all, by far")},
		{"another encoding", "encoding", `the unknown encoding \"br\"`, encoded("br", whole)},
		{"a redirect for ever", "redirect", "more than 5 redirects",
			http.RedirectHandler("/f", http.StatusFound).ServeHTTP},
		{"a redirect elsewhere", "redirect", "a redirect to ftp",
			http.RedirectHandler("ftp://127.0.0.1/f", http.StatusFound).ServeHTTP},
	} {
		before := process.Lines("level=warning")
		server.answers(row.answer)
		process.Says("level=warning", before+1)
		if process.Lines("it can't be fetched: ") != before+1 || process.Lines("reason="+row.reason) == 0 ||
			!strings.Contains(process.Stderr(), url+": it can't be fetched: "+row.says) {
			t.Errorf("%s: %s", row.name, process.Stderr())
		}
		status, says := trial.Get(t, metrics+"/health")
		if status != 503 || !strings.HasPrefix(says, url+": it can't be fetched: ") {
			t.Errorf("%s: %d %s", row.name, status, says)
		}
		_, says = trial.Get(t, metrics+"/metrics")
		if strings.Contains(says, `result="`+row.reason+`"} 0`) ||
			!strings.Contains(says, `rtr_cache_unhealthy{reason="fetch"} 1`) {
			t.Errorf("%s: %s", row.name, says)
		}
		if !fetched(t, address, 2).Equal(served) {
			t.Errorf("%s changed the served data", row.name)
		}
		server.answers(text(rows(2)))
		process.Says("it can be fetched again", before+1)
	}
	server.answers(http.RedirectHandler(other.URL, http.StatusFound).ServeHTTP)
	process.Says("serial 2: 1 payload, 0 announced, 1 withdrawn", 1)
	server.answers(encoded("gzip", gzipped(t, rows(4))))
	process.Says("serial 3: 4 payloads", 1)
	server.answers(encoded("X-GZIP", gzipped(t, rows(3))+gzipped(t, rows(5))))
	process.Says("serial 4: 5 payloads", 1)
	server.answers(text("AS64496,10.0.0.0/33,33\n"))
	process.Says(url+": line 1: prefix", 1)
	if status, says := trial.Get(t, metrics+"/health"); status != 503 ||
		!strings.HasPrefix(says, url+": line 1: prefix") {
		t.Error(status, says)
	}
}

// Two lists by URL are merged, once both have been fetched. A server that can't be connected is
// logged by one line, and its list is fetched once it is back.
func TestTwoLists(t *testing.T) {
	t.Parallel()
	first, at := newWeb(t, text(rows(2))), trial.Reserved(t)
	process, address, metrics := fetching(t, "--csv", first.URL+"/a", "--json", "http://"+at+"/b")
	process.Says("2 payloads, waiting for http://"+at+"/b", 1)
	process.Says("http://"+at+"/b: it can't be fetched: dial tcp "+at+": connect: connection refused", 1)
	if status, says := trial.Get(t, metrics+"/health"); status != 503 || !strings.Contains(says, "there are no data") ||
		!strings.Contains(says, "/b: it can't be fetched") {
		t.Error(status, says)
	}
	listener, err := net.Listen("tcp", at)
	if err != nil {
		t.Fatal(err)
	}
	second := &http.Server{Handler: text(validators)}
	go second.Serve(listener)
	t.Cleanup(func() { second.Close() })
	process.Says("serial 1: 5 payloads", 1)
	if data := fetched(t, address, 2); data.Len() != 5 {
		t.Error(lines(data))
	}
	first.answers(text(rows(3)))
	process.Says("serial 2: 6 payloads", 1)
	if process.Lines("level=warning") != 1 {
		t.Error(process.Stderr())
	}
}

// A fetched list that would withdraw too much is held like that of a file, also while the server
// fails.
func TestHoldsFetched(t *testing.T) {
	t.Parallel()
	server := newWeb(t, text(rows(10)))
	process, _, _ := fetching(t, "--csv", server.URL, "--guard-time", "6s")
	process.Says("serial 1: 10 payloads", 1)
	began := time.Now()
	server.answers(text(rows(1)))
	process.Says("it would withdraw 9 of 10 payloads", 1)
	server.answers(status(500))
	process.Says("the server answered 500", 1)
	process.Says("serial 2: 1 payload", 1)
	if took := time.Since(began); took < 6*time.Second || process.Lines("it would withdraw") != 1 {
		t.Errorf("after %v: %s", took, process.Stderr())
	}
}

// --force is about the first list of each file, which comes later from a server than from a folder.
func TestForcesFetched(t *testing.T) {
	t.Parallel()
	folder, server, other := t.TempDir(), newWeb(t, text(rows(10))), newWeb(t, status(500))
	line := []string{"--state", "state", "--fetch", "1s", "--guard-time", "1h", "--csv", server.URL}
	process, _ := started(t, folder, line...)
	process.Says("serial 1: 10 payloads", 1)
	process.End()
	server.answers(text(rows(1)))
	process, _ = started(t, folder, line...)
	process.Says("it would withdraw 9 of 10 payloads", 1)
	process.End()
	process, _ = started(t, folder, append(line, "--force")...)
	process.Says("serial 2: 1 payload, 0 announced, 9 withdrawn", 1)
	server.answers(text(rows(10)))
	process.Says("serial 3: 10 payloads", 1)
	server.answers(text(rows(1)))
	process.Says("it would withdraw 9 of 10 payloads", 1)
	process.End()
	process, _ = started(t, folder, append(line, "--csv", other.URL, "--force")...)
	process.Says("1 payload, waiting for "+other.URL, 1)
	process.Says("the server answered 500", 1)
	other.answers(text(rows(2)))
	process.Says("serial 4: 2 payloads, 0 announced, 8 withdrawn", 1)
}

// Certificates are checked, by the authorities of --fetch-ca or those of the system.
func TestFetchesByHTTPS(t *testing.T) {
	t.Parallel()
	ours, others, folder := trial.NewAuthority(t), trial.NewAuthority(t), t.TempDir()
	ours.Save(folder + "/ca")
	others.Save(folder + "/others")
	for _, row := range []struct {
		name, certificate string
		line, environment []string
		says              string
	}{
		{"named", "127.0.0.1", []string{"--fetch-ca", folder + "/ca"}, nil, "serial 1: 2 payloads"},
		{"of the system", "127.0.0.1", nil, []string{"SSL_CERT_FILE=" + folder + "/ca"}, "serial 1: 2 payloads"},
		{"unknown", "127.0.0.1", nil, nil, "certificate signed by unknown authority"},
		{"of others", "127.0.0.1", []string{"--fetch-ca", folder + "/others"}, nil,
			"certificate signed by unknown authority"},
		{"another name", "192.0.2.1", []string{"--fetch-ca", folder + "/ca"}, nil,
			"certificate is valid for 192.0.2.1, not 127.0.0.1"},
	} {
		server := overHTTPS(t, ours, row.certificate, text(rows(2)))
		run := exec.Command(os.Args[0], append([]string{"--csv", server.URL, "--listen", "127.0.0.1:0"},
			row.line...)...)
		process := trial.StartBy(t, folder, row.environment, run)
		process.Says(row.says, 1)
		if refused := process.Lines("reason=certificate"); refused != 1-process.Lines("serial 1") {
			t.Errorf("%s: %s", row.name, process.Stderr())
		}
		process.End()
	}
	plain := newWeb(t, text(rows(3)))
	away := overHTTPS(t, ours, "127.0.0.1", http.RedirectHandler(plain.URL, http.StatusFound).ServeHTTP)
	process, _, _ := fetching(t, "--csv", away.URL, "--fetch-ca", folder+"/ca")
	process.Says("it can't be fetched: a redirect from https to http", 1)
	spoken := strings.Replace(plain.URL, "http:", "https:", 1)
	process, _, _ = fetching(t, "--csv", spoken, "--fetch-ca", folder+"/ca")
	process.Says("server gave HTTP response to HTTPS client", 1)
	process.Says("reason=certificate", 1)
}

// A handshake of TLS that fails isn't a body that was cut off: of a server that requires a
// certificate, or speaks only a version without security.
func TestFailedTLS(t *testing.T) {
	t.Parallel()
	folder, authority := t.TempDir(), trial.NewAuthority(t)
	authority.Save(folder + "/ca")
	for name, change := range map[string]func(*tls.Config){
		"a certificate": func(c *tls.Config) { c.ClientAuth, c.MaxVersion = tls.RequireAnyClientCert, tls.VersionTLS12 },
		"TLS 1.0":       func(c *tls.Config) { c.MinVersion, c.MaxVersion = tls.VersionTLS10, tls.VersionTLS10 },
	} {
		server := httptest.NewUnstartedServer(text(rows(2)))
		server.Config.ErrorLog = log.New(io.Discard, "", 0)
		server.TLS = authority.ServerConfig("127.0.0.1")
		change(server.TLS)
		server.StartTLS()
		process, _, _ := fetching(t, "--csv", server.URL, "--fetch-ca", folder+"/ca")
		process.Says("it can't be fetched: ", 1)
		if process.Lines("reason=certificate") != process.Lines("it can't be fetched: ") {
			t.Errorf("%s: %s", name, process.Stderr())
		}
		process.End()
		server.Close()
	}
}

// overHTTPS starts a server with a certificate for this address or name.
func overHTTPS(
	t *testing.T, authority *trial.Authority, name string, answer http.HandlerFunc,
) *httptest.Server {
	t.Helper()
	server := httptest.NewUnstartedServer(answer)
	server.Config.ErrorLog = log.New(io.Discard, "", 0)
	server.TLS = authority.ServerConfig(name)
	server.StartTLS()
	t.Cleanup(server.Close)
	return server
}

// The proxy of the environment is used, for https by a tunnel, but not for hosts of no_proxy.
func TestProxy(t *testing.T) {
	t.Parallel()
	folder, authority := t.TempDir(), trial.NewAuthority(t)
	authority.Save(folder + "/ca")
	secured := overHTTPS(t, authority, "lists.example", text(rows(3)))
	proxy := newWeb(t, func(answer http.ResponseWriter, ask *http.Request) {
		if ask.Method == http.MethodConnect {
			tunnel(answer, secured.Listener.Addr().String())
			return
		}
		io.WriteString(answer, rows(2))
	})
	for _, row := range []struct{ url, asked, says string }{
		{"http://lists.example/f", "GET http://lists.example/f", "serial 1: 2 payloads"},
		{"https://lists.example/f", "CONNECT //lists.example:443", "serial 1: 3 payloads"},
		{"http://direct.invalid/f", "", "reason=name"},
	} {
		run := exec.Command(os.Args[0], "--csv", row.url, "--fetch-ca", "ca", "--listen", "127.0.0.1:0")
		process := trial.StartBy(t, folder, []string{
			"http_proxy=" + proxy.URL, "https_proxy=" + proxy.URL, "no_proxy=direct.invalid",
		}, run)
		process.Says(row.says, 1)
		if _, last := proxy.count(); row.asked != "" && last.Method+" "+last.URL.String() != row.asked {
			t.Errorf("%s: the proxy was asked %s %s", row.url, last.Method, last.URL)
		}
		process.End()
	}
}

// tunnel passes bytes between a client of a proxy and an address.
func tunnel(answer http.ResponseWriter, address string) {
	far, err := net.Dial("tcp", address)
	if err != nil {
		answer.WriteHeader(http.StatusBadGateway)
		return
	}
	near, _, err := answer.(http.Hijacker).Hijack()
	if err != nil {
		far.Close()
		return
	}
	io.WriteString(near, "HTTP/1.1 200 OK\r\n\r\n")
	go func() {
		io.Copy(far, near)
		far.Close()
	}()
	io.Copy(near, far)
	near.Close()
}

// An argument that begins like a URL isn't a file name, and an invalid URL ends the program with
// status 2. Passwords aren't printed.
func TestWrongURLs(t *testing.T) {
	t.Parallel()
	folder := t.TempDir()
	for _, row := range []struct{ words, says string }{
		{"--csv http:/f", `--csv: "http:/f" has no host`},
		{"--csv https:", `--csv: "https:" has no host`},
		{"--csv ftp://127.0.0.1/f", `--csv: "ftp://127.0.0.1/f" isn't an http:// or https:// URL`},
		{"--csv http://127.0.0.1/f#x", "has a fragment"},
		{"--csv http://127.0.0.1:x/", "--csv: not a URL: invalid port"},
		{"--csv http://a:b@h/ --csv http://a:b@h/", "--csv: http://a:xxxxx@h/ is given twice"},
		{"--csv http://h/ --fetch 10", `--fetch: "10" isn't a time`},
		{"--csv http://h/ --fetch-timeout 0s", `--fetch-timeout: "0s" isn't a time`},
		{"--csv http://h/ --fetch-limit 0", `--fetch-limit: "0" isn't a number`},
		{"--csv http://h/ --fetch-limit 269", `--fetch-limit: 269 is more than 268`},
	} {
		process := trial.Start(t, folder, strings.Fields(row.words)...)
		process.Refuses(words.Usage, "rtr-cache: ", row.says)
	}
	process := trial.Start(t, folder, "--csv", "http://127.0.0.1/", "--fetch-ca", "none", "--listen", "127.0.0.1:0")
	if status := process.Status(); status != words.Failed || process.Lines("none: no such file") != 1 {
		t.Error(status, process.Stderr())
	}
	secret := newWeb(t, func(answer http.ResponseWriter, ask *http.Request) {
		if name, password, ok := ask.BasicAuth(); !ok || name != "name" || password != "word" {
			answer.WriteHeader(http.StatusUnauthorized)
			return
		}
		io.WriteString(answer, rows(2))
	})
	process, _, metrics := fetching(t, "--csv", strings.Replace(secret.URL, "://", "://name:word@", 1))
	process.Says("serial 1: 2 payloads", 1)
	_, says := trial.Get(t, metrics+"/metrics")
	if strings.Contains(process.Stderr()+says, "word@") || !strings.Contains(process.Stderr(), "name:xxxxx@") {
		t.Error(process.Stderr())
	}
}

// Fetches leave no files behind, and leak no descriptors.
func TestLeavesNothing(t *testing.T) {
	t.Parallel()
	server, folder, temporary := newWeb(t, text(rows(1))), t.TempDir(), t.TempDir()
	run := exec.Command(os.Args[0], "--csv", server.URL, "--fetch", "1s", "--listen", "127.0.0.1:0")
	process := trial.StartBy(t, folder, []string{"TMPDIR=" + temporary}, run)
	process.Says("serial 1", 1)
	before := process.Descriptors()
	for count := 2; count < 6; count++ {
		server.answers(text(rows(count)))
		process.Says(fmt.Sprintf("serial %d: %d payloads", count, count), 1)
	}
	process.Await("as few descriptors", func() bool { return process.Descriptors() <= before })
	if left, err := os.ReadDir(temporary); err != nil || len(left) != 0 {
		t.Error(left, err)
	}
	if status := process.End(); status != words.Well {
		t.Error(status)
	}
}

// After a restart the saved data are served while the server is down; once it is back, a changed
// list gets the next serial number.
func TestRestartsWithoutServer(t *testing.T) {
	t.Parallel()
	folder, at := t.TempDir(), trial.Reserved(t)
	serves := func(body string) *http.Server {
		listener, err := net.Listen("tcp", at)
		if err != nil {
			t.Fatal(err)
		}
		server := &http.Server{Handler: text(body)}
		go server.Serve(listener)
		t.Cleanup(func() { server.Close() })
		return server
	}
	line := []string{"--csv", "http://" + at + "/", "--state", "state", "--fetch", "1s", "--metrics", "127.0.0.1:0"}
	server := serves(rows(2))
	process, _ := started(t, folder, line...)
	process.Says("serial 1: 2 payloads", 1)
	process.End()
	server.Close()
	process, address := started(t, folder, line...)
	process.Says("it can't be fetched: dial tcp", 1)
	if data := fetched(t, address, 2); data.Len() != 2 || data.Serial() != 1 {
		t.Error(lines(data))
	}
	metrics := strings.TrimSuffix(process.After("metrics are at "), "/metrics")
	if status, says := trial.Get(t, metrics+"/health"); status != 503 || strings.Count(says, "\n") != 1 {
		t.Error(status, says)
	}
	serves(rows(3))
	process.Says("serial 2: 3 payloads, 1 announced", 1)
}

// A list that can't be stored is a failure with a reason of its own, and the cache keeps running.
func TestNoRoomForList(t *testing.T) {
	t.Parallel()
	folder, server := t.TempDir(), newWeb(t, text(rows(2)))
	run := exec.Command(os.Args[0], "--csv", server.URL, "--listen", "127.0.0.1:0")
	process := trial.StartBy(t, folder, []string{"TMPDIR=" + folder + "/none"}, run)
	process.Says(server.URL+": it can't be fetched: it can't be stored: ", 1)
	process.Says("reason=disk", 1)
	if status := process.End(); status != words.Well {
		t.Error(status)
	}
}
