package main

import (
	"crypto/tls"
	"crypto/x509"
	"net"
	"os"
)

// secured is the configuration of TLS, by which both ends are known; nil without TLS.
type secured struct{ config *tls.Config }

// newSecured takes a file with a certificate for localhost and its key.
func newSecured(path string) (secured, error) {
	identity, err := tls.LoadX509KeyPair(path, path)
	if err != nil {
		return secured{}, err
	}
	signed, err := os.ReadFile(path)
	if err != nil {
		return secured{}, err
	}
	trusted := x509.NewCertPool()
	trusted.AppendCertsFromPEM(signed)
	return secured{&tls.Config{
		Certificates: []tls.Certificate{identity}, ServerName: "localhost", RootCAs: trusted,
		ClientAuth: tls.RequireAndVerifyClientCert, ClientCAs: trusted,
	}}, nil
}

// client returns the client's end of a connection. TLS gets whole writes, as from net.
func (s secured) client(connection conn) net.Conn {
	if s.config == nil {
		return connection
	}
	return tls.Client(socket{connection}, s.config)
}

// listener returns a listener for caches' ends.
func (s secured) listener(inner net.Listener) net.Listener {
	if s.config == nil {
		return inner
	}
	return tls.NewListener(inner, s.config)
}
