package transport

import (
	"crypto/tls"
	"crypto/x509"
	"errors"
	"fmt"
	"net"
	"os"
	"sync/atomic"
)

// TLSFiles are the files of a cache that serves TLS.
type TLSFiles struct {
	Certificate string // with the chain up to its authority
	Key         string
	ClientCA    string // the authorities of routers; "" if routers need no certificate
	// Whether a router's certificate may name another address than the router's (RFC 8210 section
	// 9.2 makes the cache compare them).
	AnyAddress bool
}

// Check returns an error if something is missing.
func (f TLSFiles) Check() error {
	switch {
	case f.ClientCA != "" && f.Certificate == "" && f.Key == "":
		return errors.New("--tls-client-ca needs --tls-cert and --tls-key")
	case f.AnyAddress && f.ClientCA == "":
		return errors.New("--tls-any-address needs --tls-client-ca")
	}
	return checkPair(f.Certificate, f.Key)
}

// checkPair returns an error if one of a certificate and its key is missing.
func checkPair(certificate, key string) error {
	if (certificate == "") != (key == "") {
		return errors.New("--tls-cert and --tls-key need each other")
	}
	return nil
}

// Authorities loads a file with authorities (PEM).
func Authorities(path string) (*x509.CertPool, error) {
	text, err := os.ReadFile(path)
	if err != nil {
		return nil, err
	}
	pool := x509.NewCertPool()
	if !pool.AppendCertsFromPEM(text) {
		return nil, fmt.Errorf("%s: there is no certificate in it", path)
	}
	return pool, nil
}

// loadPair loads a certificate and its key.
func loadPair(certificate, key string) ([]tls.Certificate, error) {
	pair, err := tls.LoadX509KeyPair(certificate, key)
	if err != nil {
		return nil, fmt.Errorf("%s with %s: %w", certificate, key, err)
	}
	return []tls.Certificate{pair}, nil
}

// Identity is a cache's certificate for TLS, and the authorities that it trusts. Load reloads them.
type Identity struct {
	files   TLSFiles
	present atomic.Pointer[tls.Config]
}

// NewIdentity loads the files.
func NewIdentity(files TLSFiles) (*Identity, error) {
	i := &Identity{files: files}
	return i, i.Load()
}

// Load reloads the files, for new connections. After an error the former ones stay in use.
func (i *Identity) Load() (err error) {
	config := &tls.Config{MinVersion: tls.VersionTLS12}
	config.Certificates, err = loadPair(i.files.Certificate, i.files.Key)
	if err != nil {
		return err
	}
	if i.files.ClientCA != "" {
		if config.ClientCAs, err = Authorities(i.files.ClientCA); err != nil {
			return err
		}
		config.ClientAuth = tls.RequireAndVerifyClientCert
	}
	i.present.Store(config)
	return nil
}

// Secure wraps a connection in TLS. The first read runs the handshake.
func (i *Identity) Secure(connection net.Conn) net.Conn {
	config := i.present.Load()
	if config.ClientCAs != nil && !i.files.AnyAddress {
		config = config.Clone()
		address := addressOf(connection).String()
		config.VerifyConnection = func(state tls.ConnectionState) error {
			if len(state.PeerCertificates) == 0 {
				return errors.New("the router has no certificate")
			}
			return state.PeerCertificates[0].VerifyHostname(address)
		}
	}
	return tls.Server(connection, config)
}
