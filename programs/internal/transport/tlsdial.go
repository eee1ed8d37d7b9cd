package transport

import (
	"crypto/tls"

	"fishreef/programs/internal/words"
)

// TLSRouter is a router's certificate for TLS, and the authorities that it trusts.
type TLSRouter struct {
	Authority   string // a file with authorities; "" for those of the system
	Certificate string // a file with its certificate; "" for none
	Key         string // a file with its key; "" for none
	Name        string // the name in the cache's certificate; "" for the host of the address
}

// Options returns the options for certificates.
func (r *TLSRouter) Options() []words.Option {
	return []words.Option{
		{
			Name: "tls-ca", Argument: "FILE",
			Help: "Trust these authorities (PEM; default those of the system)",
			Set:  words.Text(&r.Authority),
		},
		{
			Name: "tls-cert", Argument: "FILE",
			Help: "Use this client certificate (PEM)",
			Set:  words.Text(&r.Certificate),
		},
		{
			Name: "tls-key", Argument: "FILE",
			Help: "Use this private key (PEM)",
			Set:  words.Text(&r.Key),
		},
	}
}

// Check returns an error if something is missing.
func (r TLSRouter) Check() error {
	return checkPair(r.Certificate, r.Key)
}

// Dialer returns a dial function over TLS.
//
// Errors: those of the files.
func (r TLSRouter) Dialer() (dial Dial, err error) {
	config := &tls.Config{ServerName: r.Name, MinVersion: tls.VersionTLS12}
	if r.Authority != "" {
		if config.RootCAs, err = Authorities(r.Authority); err != nil {
			return nil, err
		}
	}
	if r.Certificate != "" {
		if config.Certificates, err = loadPair(r.Certificate, r.Key); err != nil {
			return nil, err
		}
	}
	return (&tls.Dialer{Config: config}).DialContext, nil
}
