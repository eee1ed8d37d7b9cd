package transport

import (
	"context"
	"fmt"
	"io"
	"net"
	"sync"
	"time"

	"golang.org/x/crypto/ssh"
	"golang.org/x/crypto/ssh/knownhosts"

	"fishreef/programs/internal/words"
)

// SSHRouter is a router's key for SSH, and the keys that it trusts.
type SSHRouter struct {
	User       string
	Key        string // a file with its private key
	KnownHosts string // a file with the keys of caches, as known_hosts
}

// Options returns the options for keys.
func (r *SSHRouter) Options() []words.Option {
	return []words.Option{
		{
			Name: "ssh-key", Argument: "FILE",
			Help: "Use this private key",
			Set:  words.Text(&r.Key),
		},
		{
			Name: "ssh-known-hosts", Argument: "FILE",
			Help: "Trust these keys of caches, as in known_hosts",
			Set:  words.Text(&r.KnownHosts),
		},
	}
}

// Partial reports whether some of the fields are set, and others missing.
func (r SSHRouter) Partial() bool {
	return r != (SSHRouter{}) && (r.User == "" || r.Key == "" || r.KnownHosts == "")
}

// Dial makes a connection, as net.Dialer.DialContext does.
type Dial func(ctx context.Context, network, address string) (net.Conn, error)

// Dialer returns a dial function over SSH.
//
// Errors: those of the files.
func (r SSHRouter) Dialer() (Dial, error) {
	key, err := privateKey(r.Key)
	if err != nil {
		return nil, err
	}
	trusted, err := knownhosts.New(r.KnownHosts)
	if err != nil {
		return nil, err
	}
	config := &ssh.ClientConfig{
		User: r.User, Auth: []ssh.AuthMethod{ssh.PublicKeys(key)}, HostKeyCallback: trusted,
	}
	return func(ctx context.Context, network, address string) (net.Conn, error) {
		connection, err := new(net.Dialer).DialContext(ctx, network, address)
		if err != nil {
			return nil, err
		}
		near, err := overSSH(ctx, connection, address, config)
		if err != nil {
			connection.Close()
			return nil, err
		}
		return near, nil
	}, nil
}

// overSSH runs the handshake over a connection, until the context ends.
func overSSH(
	ctx context.Context, connection net.Conn, address string, config *ssh.ClientConfig,
) (net.Conn, error) {
	release := endWith(ctx, connection)
	defer release()
	conn, channels, requests, err := ssh.NewClientConn(connection, address, config)
	if err != nil {
		return nil, err
	}
	session, err := ssh.NewClient(conn, channels, requests).NewSession()
	if err != nil {
		return nil, err
	}
	input, err := session.StdinPipe()
	if err != nil {
		return nil, err
	}
	output, err := session.StdoutPipe()
	if err != nil {
		return nil, err
	}
	if err := session.RequestSubsystem(Subsystem); err != nil {
		return nil, fmt.Errorf("the subsystem %s: %w", Subsystem, err)
	}
	release()
	if err := ctx.Err(); err != nil {
		return nil, err
	}
	near, far := newPiped(connection)
	go far.pass(both{output, input, session}, connection)
	return near, connection.SetDeadline(time.Time{})
}

// endWith sets a past deadline on the connection when the context ends; call the returned function
// to stop that.
func endWith(ctx context.Context, connection net.Conn) (release func()) {
	done, ended := make(chan struct{}), make(chan struct{})
	go func() {
		defer close(ended)
		select {
		case <-ctx.Done():
			connection.SetDeadline(time.Unix(1, 0))
		case <-done:
		}
	}()
	var once sync.Once
	return func() {
		once.Do(func() { close(done) })
		<-ended
	}
}

// both joins the two halves of an SSH session.
type both struct {
	io.Reader
	io.Writer
	io.Closer
}
