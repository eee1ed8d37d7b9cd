//go:build cgo && linux

package rtr_test

import (
	"bytes"
	"context"
	"crypto/tls"
	"crypto/x509"
	"encoding/pem"
	"errors"
	"net"
	"os"
	"os/exec"
	"strings"
	"sync"
	"testing"
	"time"

	"fishreef/rtr"
)

// fetchedTLS returns the data of a router with these certificates from a cache over TLS.
func fetchedTLS(
	t *testing.T, address string, trusted *authority, router ...tls.Certificate,
) (rtr.Data, error) {
	t.Helper()
	ctx, cancel := context.WithTimeout(context.Background(), tlsWait)
	defer cancel()
	return overTLS(address, cacheName, trusted.pool(), router...).Fetch(ctx)
}

// A cache whose certificate has another name, even with the right common name (RFC 8210 section
// 9.2), is self-signed, or expired: the client gets no data, and reports the reason.
func TestStrangeCachesOverTLS(t *testing.T) {
	trusted, nobody := newAuthority(t), newAuthority(t)
	for name, row := range map[string]struct {
		cache tls.Certificate
		says  string
	}{
		"another name": {trusted.issue("other.example", time.Hour), "not " + cacheName},
		"an address":   {trusted.issue(here, time.Hour), cacheName},
		"common name":  {trusted.issueWithCommonName(cacheName, "other.example", time.Hour), "not " + cacheName},
		"nobody":       {nobody.issue(cacheName, time.Hour), "unknown authority"},
		"itself":       {selfSigned(t, cacheName), "unknown authority"},
		"ended":        {trusted.issue(cacheName, -time.Minute), "expired"},
	} {
		t.Run(name, func(t *testing.T) {
			address := startedTLS(t, row.cache, trusted.pool())
			data, err := fetchedTLS(t, address, trusted, trusted.issue(here, time.Hour))
			if err == nil || !strings.Contains(err.Error(), row.says) || !data.IsZero() {
				t.Errorf("%d payloads, %v", data.Len(), err)
			}
		})
	}
}

// endings collects the reasons for which a server ended connections.
func endings(server *rtr.Server) <-chan error {
	ended := make(chan error, 1000)
	server.Ended = func(_ net.Addr, err error) { ended <- err }
	return ended
}

// awaitEnding waits until a connection is ended, whose reason has to have this text.
func awaitEnding(t *testing.T, ended <-chan error, says string) {
	t.Helper()
	select {
	case err := <-ended:
		if !strings.Contains(err.Error(), says) {
			t.Errorf("ended by %q, not by %q", err, says)
		}
	case <-time.After(tlsWait):
		t.Fatalf("no connection was ended by %q", says)
	}
}

// insistent is a router over TLS that presents its certificate to every cache. By default
// crypto/tls presents none that isn't by an authority that the cache names. It counts its
// connections.
func insistent(
	address string, trusted *authority, router []tls.Certificate,
) (client *rtr.Client, connections *int) {
	config := &tls.Config{ServerName: cacheName, RootCAs: trusted.pool()}
	if len(router) > 0 {
		config.GetClientCertificate = func(*tls.CertificateRequestInfo) (*tls.Certificate, error) {
			return &router[0], nil
		}
	}
	client, connections = rtr.NewClient(address), new(int)
	client.Dial = func(ctx context.Context, network, address string) (net.Conn, error) {
		connection, err := new(net.Dialer).DialContext(ctx, network, address)
		if err != nil {
			return nil, err
		}
		*connections++
		return tls.Client(connection, config), nil
	}
	return client, connections
}

// A router without a certificate, or with a certificate of another address, a self-signed or an
// expired one: it gets no data, and the cache reports why it ended each connection, and still
// serves others.
func TestStrangeRoutersOverTLS(t *testing.T) {
	trusted, nobody := newAuthority(t), newAuthority(t)
	for name, row := range map[string]struct {
		router []tls.Certificate
		says   string
	}{
		"none":            {nil, "client didn't provide a certificate"},
		"another address": {[]tls.Certificate{trusted.issue("192.0.2.1", time.Hour)}, "not " + here},
		"a name": {[]tls.Certificate{trusted.issue("router.example", time.Hour)},
			"doesn't contain any IP SANs"},
		"nobody": {[]tls.Certificate{nobody.issue(here, time.Hour)}, "unknown authority"},
		"itself": {[]tls.Certificate{selfSigned(t, here)}, "unknown authority"},
		"ended":  {[]tls.Certificate{trusted.issue(here, -time.Minute)}, "expired"},
	} {
		t.Run(name, func(t *testing.T) {
			server := rtr.NewServer()
			ended := endings(server)
			address := servedTLS(t, server, trusted.issue(cacheName, time.Hour), trusted.pool())
			client, connections := insistent(address, trusted, row.router)
			ctx, cancel := context.WithTimeout(context.Background(), tlsWait)
			defer cancel()
			if data, err := client.Fetch(ctx); err == nil || !data.IsZero() || *connections == 0 {
				t.Errorf("%d payloads by %d connections, %v", data.Len(), *connections, err)
			}
			for i := 0; i < *connections; i++ {
				awaitEnding(t, ended, row.says)
			}
			data, err := fetchedTLS(t, address, trusted, trusted.issue(here, time.Hour))
			if err != nil || data.Len() != 2 {
				t.Errorf("then one that is known: %v", err)
			}
		})
	}
}

// A cache that accepts the connection and never completes the handshake is abandoned after the time
// limit for connecting.
func TestStalledHandshake(t *testing.T) {
	listener, err := net.Listen("tcp", here+":0")
	if err != nil {
		t.Fatal(err)
	}
	defer listener.Close()
	client := overTLS(listener.Addr().String(), cacheName, newAuthority(t).pool())
	client.Limits.Dial = 50 * time.Millisecond
	ctx, cancel := context.WithTimeout(context.Background(), tlsWait)
	defer cancel()
	if _, err := client.Fetch(ctx); !errors.Is(err, rtr.ErrTooSlow) {
		t.Error(err)
	}
}

// Routers that send nothing, or the start of a handshake, are closed after the time limit of a
// first query; another one is served meanwhile.
func TestStalledRouters(t *testing.T) {
	trusted := newAuthority(t)
	server := rtr.NewServer()
	server.Limits.First = 5 * time.Second
	ended := endings(server)
	address := servedTLS(t, server, trusted.issue(cacheName, time.Hour), trusted.pool())
	for _, front := range [][]byte{nil, {22, 3, 1, 2, 0, 1, 0}} {
		connection, err := net.Dial("tcp", address)
		if err != nil {
			t.Fatal(err)
		}
		defer connection.Close()
		connection.Write(front)
	}
	data, err := fetchedTLS(t, address, trusted, trusted.issue(here, time.Hour))
	if err != nil || data.Len() != 2 {
		t.Error(err)
	}
	awaitEnding(t, ended, "the router is too slow")
	awaitEnding(t, ended, "the router is too slow")
}

// connectedLog is a log that sends a value for each connection.
func connectedLog() (rtr.Log, <-chan bool) {
	connected := make(chan bool, 100)
	return func(_ rtr.Level, message string, _ ...any) {
		if message == "connected" {
			connected <- true
		}
	}, connected
}

// New data don't disturb a handshake: the router gets them after it.
func TestUpdateInAHandshake(t *testing.T) {
	trusted := newAuthority(t)
	server := rtr.NewServer()
	log, connected := connectedLog()
	server.Log = log
	address := servedTLS(t, server, trusted.issue(cacheName, time.Hour), trusted.pool())
	client := rtr.NewClient(address)
	newer, err := rtr.NewData(1, 7, 10, rtr.RecommendedTiming)
	if err != nil {
		t.Fatal(err)
	}
	client.Dial = func(ctx context.Context, network, address string) (net.Conn, error) {
		connection, err := new(net.Dialer).DialContext(ctx, network, address)
		if err != nil {
			return nil, err
		}
		<-connected
		if err := server.Update(newer); err != nil {
			return nil, err
		}
		return tls.Client(connection, &tls.Config{
			ServerName: cacheName, RootCAs: trusted.pool(),
			Certificates: []tls.Certificate{trusted.issue(here, time.Hour)},
		}), nil
	}
	ctx, cancel := context.WithTimeout(context.Background(), tlsWait)
	defer cancel()
	if data, err := client.Fetch(ctx); err != nil || !data.Equal(newer) {
		t.Error(data.Serial(), err)
	}
}

// Closing a server interrupts a handshake.
func TestShutdownInAHandshake(t *testing.T) {
	trusted := newAuthority(t)
	server := rtr.NewServer()
	log, connected := connectedLog()
	server.Log = log
	ended := endings(server)
	address := servedTLS(t, server, trusted.issue(cacheName, time.Hour), trusted.pool())
	connection, err := net.Dial("tcp", address)
	if err != nil {
		t.Fatal(err)
	}
	defer connection.Close()
	<-connected
	ctx, cancel := context.WithTimeout(context.Background(), tlsWait)
	defer cancel()
	if err := server.Shutdown(ctx); err != nil {
		t.Error(err)
	}
	awaitEnding(t, ended, rtr.ErrServerClosed.Error())
}

// openssl is a running openssl program, as one end of TLS.
type openssl struct {
	t       *testing.T
	command *exec.Cmd
	input   interface{ Write([]byte) (int, error) }
	lock    sync.Mutex
	output  []byte
}

func (o *openssl) Write(bytes []byte) (int, error) {
	o.lock.Lock()
	defer o.lock.Unlock()
	o.output = append(o.output, bytes...)
	return len(bytes), nil
}

// startedOpenSSL starts OpenSSL's client or server with TLS 1.2, which can renegotiate.
func startedOpenSSL(
	t *testing.T, own tls.Certificate, trusted *authority, words ...string,
) *openssl {
	t.Helper()
	path, err := exec.LookPath("openssl")
	if err != nil {
		t.Skip("no openssl here")
	}
	folder := t.TempDir()
	key, err := x509.MarshalPKCS8PrivateKey(own.PrivateKey)
	if err != nil {
		t.Fatal(err)
	}
	for name, block := range map[string]*pem.Block{
		"own": {Type: "CERTIFICATE", Bytes: own.Certificate[0]}, "key": {Type: "PRIVATE KEY", Bytes: key},
		"authority": {Type: "CERTIFICATE", Bytes: trusted.self.Raw},
	} {
		if err := os.WriteFile(folder+"/"+name, pem.EncodeToMemory(block), 0o600); err != nil {
			t.Fatal(err)
		}
	}
	words = append(words, "-tls1_2", "-cert", folder+"/own", "-key", folder+"/key",
		"-CAfile", folder+"/authority")
	o := &openssl{t: t, command: exec.Command(path, words...)}
	o.command.Stdout, o.command.Stderr = o, o
	if o.input, err = o.command.StdinPipe(); err != nil {
		t.Fatal(err)
	}
	if err := o.command.Start(); err != nil {
		t.Fatal(err)
	}
	t.Cleanup(func() {
		o.command.Process.Kill()
		o.command.Wait()
	})
	return o
}

// await waits until the output has these bytes, and returns what follows them.
func (o *openssl) await(text string) string {
	o.t.Helper()
	for until := time.Now().Add(tlsWait); ; time.Sleep(5 * time.Millisecond) {
		o.lock.Lock()
		_, rest, found := bytes.Cut(o.output, []byte(text))
		text := string(rest)
		o.lock.Unlock()
		if found {
			return text
		}
		if time.Now().After(until) {
			o.t.Fatalf("%q never came", text)
		}
	}
}

// A client closes a connection whose cache renegotiates, and doesn't show the answer.
func TestRenegotiatingCache(t *testing.T) {
	trusted := newAuthority(t)
	cache := startedOpenSSL(t, trusted.issue(cacheName, time.Hour), trusted, "s_server",
		"-accept", here+":0")
	rest := cache.await("ACCEPT ")
	for !strings.Contains(rest, "\n") {
		rest = cache.await("ACCEPT ")
	}
	address := strings.TrimSpace(strings.SplitN(rest, "\n", 2)[0])
	client := overTLS(address, cacheName, trusted.pool(), trusted.issue(here, time.Hour))
	client.AskIn(0) // it can't fall back to a lower one
	ctx, cancel := context.WithTimeout(context.Background(), tlsWait)
	defer cancel()
	failed := make(chan error, 1)
	go func() {
		data, err := client.Fetch(ctx)
		if !data.IsZero() {
			t.Errorf("%d payloads", data.Len())
		}
		failed <- err
	}()
	cache.await("\x00\x02\x00\x00\x00\x00\x00\x08")
	cache.input.Write([]byte("r\n"))
	cache.await("SSL_do_handshake")
	answer, err := twoPayloads(t).For(0)
	if err != nil {
		t.Fatal(err)
	}
	cache.input.Write(append([]byte{0, 3, 0, 7, 0, 0, 0, 8}, answer.Bytes()...))
	if err := <-failed; err == nil || !strings.Contains(err.Error(), "renegotiation") {
		t.Error(err)
	}
}

// A router that renegotiates is closed, and others are still served.
func TestRenegotiatingRouter(t *testing.T) {
	trusted := newAuthority(t)
	server := rtr.NewServer()
	ended := endings(server)
	address := servedTLS(t, server, trusted.issue(cacheName, time.Hour), trusted.pool())
	router := startedOpenSSL(t, trusted.issue(here, time.Hour), trusted, "s_client",
		"-connect", address)
	router.await("Verify return code: 0")
	router.input.Write([]byte{1, 2, 0, 0, 0, 0, 0, 8})
	router.await(string(twoPayloads(t).Bytes()))
	router.input.Write([]byte("R\n"))
	awaitEnding(t, ended, "unexpected handshake message")
	if err := router.command.Wait(); err == nil {
		t.Error("the router goes on")
	}
	data, err := fetchedTLS(t, address, trusted, trusted.issue(here, time.Hour))
	if err != nil || data.Len() != 2 {
		t.Error(err)
	}
}
