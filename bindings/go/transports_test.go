//go:build cgo && linux

package rtr_test

import (
	"context"
	"crypto/ecdsa"
	"crypto/elliptic"
	"crypto/rand"
	"crypto/tls"
	"crypto/x509"
	"crypto/x509/pkix"
	"errors"
	"io"
	"math/big"
	"net"
	"net/netip"
	"os"
	"testing"
	"time"

	"fishreef/rtr"
)

// overTLS returns a client of a cache at an address, which has to prove that it has this name, and
// which gets the router's certificate (RFC 8210 section 9.2).
func overTLS(address, name string, trusted *x509.CertPool, router ...tls.Certificate) *rtr.Client {
	dialer := &tls.Dialer{Config: &tls.Config{
		ServerName: name, RootCAs: trusted, Certificates: router,
	}}
	client := rtr.NewClient(address)
	client.Dial = dialer.DialContext
	return client
}

// cacheOverTLS serves routers whose certificates are by a trusted authority, and name the router's
// address.
func cacheOverTLS(
	server *rtr.Server, listener net.Listener, cache tls.Certificate, trusted *x509.CertPool,
) error {
	config := &tls.Config{
		Certificates: []tls.Certificate{cache},
		ClientAuth:   tls.RequireAndVerifyClientCert, ClientCAs: trusted,
	}
	config.GetConfigForClient = func(hello *tls.ClientHelloInfo) (*tls.Config, error) {
		address, _, err := net.SplitHostPort(hello.Conn.RemoteAddr().String())
		own := config.Clone()
		own.VerifyConnection = func(state tls.ConnectionState) error {
			return state.PeerCertificates[0].VerifyHostname(address)
		}
		return own, err
	}
	return server.Serve(tls.NewListener(listener, config))
}

// The name of the cache, and the longest time that a test waits.
const (
	cacheName = "cache.example"
	tlsWait   = 120 * time.Second
)

// here is the address of this machine, which the certificates of routers name.
const here = "127.0.0.1"

// authority issues certificates.
type authority struct {
	t    *testing.T
	self *x509.Certificate
	key  *ecdsa.PrivateKey
}

func newAuthority(t *testing.T) *authority {
	t.Helper()
	key, err := ecdsa.GenerateKey(elliptic.P256(), rand.Reader)
	if err != nil {
		t.Fatal(err)
	}
	template := &x509.Certificate{
		SerialNumber: big.NewInt(1), Subject: pkix.Name{CommonName: "authority"},
		NotBefore: time.Now().Add(-time.Hour), NotAfter: time.Now().Add(time.Hour),
		IsCA: true, BasicConstraintsValid: true, KeyUsage: x509.KeyUsageCertSign,
	}
	self, err := x509.CreateCertificate(rand.Reader, template, template, &key.PublicKey, key)
	if err != nil {
		t.Fatal(err)
	}
	parsed, err := x509.ParseCertificate(self)
	if err != nil {
		t.Fatal(err)
	}
	return &authority{t, parsed, key}
}

// pool returns a pool with only this authority.
func (a *authority) pool() *x509.CertPool {
	pool := x509.NewCertPool()
	pool.AddCert(a.self)
	return pool
}

// issue returns a certificate for a name or an address, which expires after this time.
func (a *authority) issue(name string, lasts time.Duration) tls.Certificate {
	a.t.Helper()
	return a.issueWithCommonName(name, name, lasts)
}

// issueWithCommonName returns a certificate whose common name may differ from its name or address.
func (a *authority) issueWithCommonName(common, name string, lasts time.Duration) tls.Certificate {
	a.t.Helper()
	key, err := ecdsa.GenerateKey(elliptic.P256(), rand.Reader)
	if err != nil {
		a.t.Fatal(err)
	}
	template := &x509.Certificate{
		SerialNumber: big.NewInt(2), Subject: pkix.Name{CommonName: common},
		NotBefore: time.Now().Add(-time.Hour), NotAfter: time.Now().Add(lasts),
		KeyUsage: x509.KeyUsageDigitalSignature,
		ExtKeyUsage: []x509.ExtKeyUsage{
			x509.ExtKeyUsageServerAuth, x509.ExtKeyUsageClientAuth,
		},
	}
	if address := net.ParseIP(name); address != nil {
		template.IPAddresses = []net.IP{address}
	} else {
		template.DNSNames = []string{name}
	}
	der, err := x509.CreateCertificate(rand.Reader, template, a.self, &key.PublicKey, a.key)
	if err != nil {
		a.t.Fatal(err)
	}
	return tls.Certificate{Certificate: [][]byte{der}, PrivateKey: key}
}

// selfSigned returns a self-signed certificate for a name or an address.
func selfSigned(t *testing.T, name string) tls.Certificate {
	t.Helper()
	nobody := newAuthority(t)
	own := nobody.issue(name, time.Hour)
	template, err := x509.ParseCertificate(own.Certificate[0])
	if err != nil {
		t.Fatal(err)
	}
	template.Issuer = template.Subject
	public := own.PrivateKey.(*ecdsa.PrivateKey).Public()
	der, err := x509.CreateCertificate(rand.Reader, template, template, public, own.PrivateKey)
	if err != nil {
		t.Fatal(err)
	}
	return tls.Certificate{Certificate: [][]byte{der}, PrivateKey: own.PrivateKey}
}

// twoPayloads returns data of version 1: 192.0.2.0/24 and 198.51.100.0/24 of AS 64496.
func twoPayloads(t *testing.T) rtr.Data {
	t.Helper()
	data, err := rtr.ParseData([]byte{
		1, 4, 0, 0, 0, 0, 0, 20, 1, 24, 24, 0, 192, 0, 2, 0, 0, 0, 0xfb, 0xf0,
		1, 4, 0, 0, 0, 0, 0, 20, 1, 24, 24, 0, 198, 51, 100, 0, 0, 0, 0xfb, 0xf0,
		1, 7, 0, 7, 0, 0, 0, 24, 0, 0, 0, 9, 0, 0, 14, 16, 0, 0, 2, 88, 0, 0, 28, 32,
	})
	if err != nil {
		t.Fatal(err)
	}
	return data
}

// startedTLS serves data over TLS with this certificate until the test ends, and returns the
// address.
func startedTLS(t *testing.T, cache tls.Certificate, trusted *x509.CertPool) string {
	t.Helper()
	return servedTLS(t, rtr.NewServer(), cache, trusted)
}

// servedTLS serves the data of a server over TLS, as startedTLS does.
func servedTLS(
	t *testing.T, server *rtr.Server, cache tls.Certificate, trusted *x509.CertPool,
) string {
	t.Helper()
	listener, err := net.Listen("tcp", here+":0")
	if err != nil {
		t.Fatal(err)
	}
	if err := server.Update(twoPayloads(t)); err != nil {
		t.Fatal(err)
	}
	served := make(chan error)
	go func() { served <- cacheOverTLS(server, listener, cache, trusted) }()
	t.Cleanup(func() {
		server.Close()
		<-served
	})
	return listener.Addr().String()
}

// Both ends have certificates by an authority that the other trusts.
func TestOverTLS(t *testing.T) {
	trusted := newAuthority(t)
	address := startedTLS(t, trusted.issue(cacheName, time.Hour), trusted.pool())
	ctx, cancel := context.WithTimeout(context.Background(), tlsWait)
	defer cancel()
	router := trusted.issue(here, time.Hour)
	data, err := overTLS(address, cacheName, trusted.pool(), router).Fetch(ctx)
	if err != nil || data.Len() != 2 {
		t.Errorf("%d payloads, %v", data.Len(), err)
	}
}

// A router that waits over TLS is notified of new data, as over TCP.
func TestNotifyOverTLS(t *testing.T) {
	trusted := newAuthority(t)
	server := rtr.NewServer()
	server.Limits.Notify = 0
	address := servedTLS(t, server, trusted.issue(cacheName, time.Hour), trusted.pool())
	newer, err := rtr.NewData(1, 7, 10, rtr.RecommendedTiming)
	if err != nil {
		t.Fatal(err)
	}
	ctx, cancel := context.WithTimeout(context.Background(), tlsWait)
	defer cancel()
	enough := errors.New("enough")
	client := overTLS(address, cacheName, trusted.pool(), trusted.issue(here, time.Hour))
	client.Limits.Pause = time.Millisecond
	err = client.Run(ctx, func(update rtr.Update) error {
		if update.Data.Equal(newer) {
			return enough
		}
		return server.Update(newer)
	})
	if err != enough {
		t.Error(err)
	}
}

// manyPayloads returns data of at least this many bytes.
func manyPayloads(t *testing.T, size int) rtr.Data {
	t.Helper()
	var vrps []rtr.VRP
	for i := 0; i < size/20; i++ {
		address := netip.AddrFrom4([4]byte{10, byte(i >> 16), byte(i >> 8), byte(i)})
		vrps = append(vrps, rtr.VRP{Prefix: netip.PrefixFrom(address, 32), ASN: 64496})
	}
	data, err := rtr.NewDataOf(vrps, 1, 7, 1, rtr.RecommendedTiming)
	if err != nil {
		t.Fatal(err)
	}
	return data
}

// smallBuffers is a listener whose connections buffer little of what is written.
type smallBuffers struct{ net.Listener }

func (l smallBuffers) Accept() (net.Conn, error) {
	connection, err := l.Listener.Accept()
	if err == nil {
		connection.(*net.TCPConn).SetWriteBuffer(1 << 16)
	}
	return connection, err
}

// slowWrite is the time limit of a write to a slowConn.
const slowWrite = 2 * time.Second

// slowConn pauses ten times in an answer of 4 MiB, which takes longer then. A pause before each read
// could end a write on a busy machine, which makes all of them longer: a write waits until much of
// the buffers was read.
type slowConn struct {
	net.Conn
	unread int // bytes until the next pause
}

func (c *slowConn) Read(buffer []byte) (int, error) {
	if c.unread <= 0 {
		time.Sleep(slowWrite / 8)
		c.unread = 1 << 22 / 10
	}
	count, err := c.Conn.Read(buffer)
	c.unread -= count
	return count, err
}

// A router that reads slowly gets all of an answer over TLS too, in more time than the limit of a
// write.
func TestSlowRouterOverTLS(t *testing.T) {
	trusted := newAuthority(t)
	listener, err := net.Listen("tcp", "127.0.0.1:0")
	if err != nil {
		t.Fatal(err)
	}
	data := manyPayloads(t, 1<<22)
	server := rtr.NewServer()
	server.Limits.Write = slowWrite
	if err := server.Update(data); err != nil {
		t.Fatal(err)
	}
	served := make(chan error)
	go func() {
		cache := trusted.issue(cacheName, time.Hour)
		served <- cacheOverTLS(server, smallBuffers{listener}, cache, trusted.pool())
	}()
	defer func() {
		server.Close()
		<-served
	}()
	router := trusted.issue(here, time.Hour)
	client := rtr.NewClient(listener.Addr().String())
	client.Dial = func(ctx context.Context, network, address string) (net.Conn, error) {
		connection, err := new(net.Dialer).DialContext(ctx, network, address)
		if err != nil {
			return nil, err
		}
		connection.(*net.TCPConn).SetReadBuffer(1 << 16)
		return tls.Client(&slowConn{connection, 1 << 17}, &tls.Config{
			ServerName: cacheName, RootCAs: trusted.pool(), Certificates: []tls.Certificate{router},
		}), nil
	}
	ctx, cancel := context.WithTimeout(context.Background(), tlsWait)
	defer cancel()
	from := time.Now()
	fetched, err := client.Fetch(ctx)
	if err != nil || !fetched.Equal(data) || time.Since(from) < server.Limits.Write {
		t.Errorf("%d payloads in %v, %v", fetched.Len(), time.Since(from), err)
	}
}

// A client of NewClientConn has only that connection: Run ends with it.
func TestClientOfAConnection(t *testing.T) {
	listener, err := net.Listen("tcp", "127.0.0.1:0")
	if err != nil {
		t.Fatal(err)
	}
	defer listener.Close()
	go func() {
		cache, err := listener.Accept()
		if err != nil {
			return
		}
		defer cache.Close()
		if _, err := cache.Read(make([]byte, 8)); err == nil {
			cache.Write(append([]byte{1, 3, 0, 7, 0, 0, 0, 8}, twoPayloads(t).Bytes()...))
		}
	}()
	connection, err := net.Dial("tcp", listener.Addr().String())
	if err != nil {
		t.Fatal(err)
	}
	shown := 0
	err = rtr.NewClientConn(connection).Run(context.Background(), func(update rtr.Update) error {
		shown = update.Data.Len()
		return nil
	})
	if shown != 2 || !errors.Is(err, rtr.ErrClosed) {
		t.Errorf("%d payloads, %v", shown, err)
	}
}

// A client of NewClientConn can't fall to a lower version: that needs another connection.
func TestFallOfAConnection(t *testing.T) {
	near, far := net.Pipe()
	go func() {
		defer far.Close()
		if _, err := io.ReadFull(far, make([]byte, 8)); err == nil {
			far.Write([]byte{0, 10, 0, 4, 0, 0, 0, 16, 0, 0, 0, 0, 0, 0, 0, 0})
		}
	}()
	ctx, cancel := context.WithTimeout(context.Background(), tlsWait)
	defer cancel()
	_, err := rtr.NewClientConn(near).Fetch(ctx)
	if err == nil || err.Error() != "rtr: there is no other connection" {
		t.Error(err)
	}
}

// An error of Dial is reported as it is, and the client retries.
func TestDialFails(t *testing.T) {
	refused := errors.New("refused")
	ctx, cancel := context.WithCancel(context.Background())
	defer cancel()
	dials := 0
	client := rtr.NewClient("nowhere")
	client.Limits.Pause = time.Millisecond
	client.Dial = func(_ context.Context, network, address string) (net.Conn, error) {
		if network != "tcp" || address != "nowhere" {
			t.Errorf("%s %s", network, address)
		}
		if dials++; dials == 2 {
			cancel()
		}
		return nil, refused
	}
	client.Failed = func(err error) {
		if !errors.Is(err, refused) && !errors.Is(err, os.ErrDeadlineExceeded) {
			t.Error(err)
		}
	}
	err := client.Run(ctx, func(rtr.Update) error { return nil })
	if dials != 2 || !errors.Is(err, context.Canceled) {
		t.Errorf("%d times, %v", dials, err)
	}
}
