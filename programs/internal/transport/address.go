// Package transport has the transports between routers and a cache: TCP, TLS and SSH (RFC 8210
// section 9), with limits by address, and counts of their traffic.
package transport

import (
	"fmt"
	"net"
	"strings"

	"github.com/coreos/go-systemd/v22/activation"

	"fishreef/programs/internal/words"
)

// Kind is a transport.
type Kind string

// The transports.
const (
	TCP Kind = "tcp"
	TLS Kind = "tls"
	SSH Kind = "ssh"
)

// Kinds are all transports.
var Kinds = []Kind{TCP, TLS, SSH}

// Address is an address at which a cache listens, and its transport.
type Address struct {
	Kind    Kind
	Address string // as net.Listen takes it
}

// ParseAddress parses ADDRESS:PORT, with the transport before it, such as tls:ADDRESS:PORT, unless
// it is TCP.
func ParseAddress(word string) (Address, error) {
	address := Address{TCP, word}
	for _, kind := range Kinds {
		if rest := strings.TrimPrefix(word, string(kind)+":"); rest != word {
			address = Address{kind, rest}
		}
	}
	if !words.IsAddress(address.Address) {
		return Address{}, fmt.Errorf(
			"%q isn't ADDRESS:PORT, tls:ADDRESS:PORT or ssh:ADDRESS:PORT", word)
	}
	return address, nil
}

// Bound is a listener for a transport.
type Bound struct {
	Kind     Kind
	Listener net.Listener
}

// Listen listens at an address.
func (a Address) Listen() (Bound, error) {
	listener, err := net.Listen("tcp", a.Address)
	return Bound{a.Kind, listener}, err
}

// Activated returns the listeners of systemd's socket activation. The name of a socket is that of
// its transport; other names stand for TCP.
func Activated() ([]Bound, error) {
	var all []Bound
	for _, file := range activation.Files(true) {
		listener, err := net.FileListener(file)
		if err != nil {
			return nil, fmt.Errorf("socket %s of systemd: %w", file.Name(), err)
		}
		kind := Kind(file.Name())
		if kind != TLS && kind != SSH {
			kind = TCP
		}
		file.Close()
		all = append(all, Bound{kind, listener})
	}
	return all, nil
}
