package cache

import (
	"context"
	"errors"
	"net"
	"os"
	"time"

	"github.com/coreos/go-systemd/v22/daemon"

	"fishreef/programs/internal/transport"
	"fishreef/programs/internal/words"
	"fishreef/rtr"
)

// The time limit for completing answers when the cache stops.
const lastAnswers = 10 * time.Second

// Signals are the commands of a person to a running cache.
type Signals struct {
	Reload  <-chan os.Signal // to reload everything: files and certificates
	Confirm <-chan os.Signal // to accept the held lists
}

// Run serves until the context ends, and then closes the cache.
//
// Errors: of an address, a socket or a certificate at the start; of a failing listener.
func (c *Cache) Run(ctx context.Context, signals Signals) error {
	inner, stop := context.WithCancel(ctx)
	defer stop()
	s, err := c.open()
	if err != nil {
		c.Close(ctx)
		return err
	}
	seen := observer{c.metrics, c.clients, c.lines}
	for _, bound := range s.bound {
		bound := bound
		c.log.Infof("listening at %v for %s", bound.Listener.Addr(), bound.Kind)
		listener := transport.Guarded(bound, s.secured[bound.Kind], s.gate, seen)
		go func() { s.failed <- c.server.Serve(listener) }()
	}
	if s.metrics != nil {
		c.log.Infof("metrics are at http://%v/metrics", s.metrics.Addr())
		go func() { s.failed <- c.metrics.Serve(inner, s.metrics, c.clients) }()
	}
	ended := c.fetch(inner)
	err = c.follow(inner, signals, s)
	c.notify(daemon.SdNotifyStopping)
	stop()
	ended()
	last, end := context.WithTimeout(context.Background(), lastAnswers)
	defer end()
	s.gate.Close()
	c.Close(last)
	if errors.Is(err, rtr.ErrServerClosed) {
		return nil
	}
	return err
}

// sockets are the listeners of a cache.
type sockets struct {
	bound   []transport.Bound
	metrics net.Listener
	secured map[transport.Kind]transport.Secured
	reload  []func() error // the functions that reload certificates and keys
	gate    *transport.Gate
	failed  chan error
}

// open opens all sockets and certificates, or none.
func (c *Cache) open() (s *sockets, err error) {
	s = &sockets{secured: map[transport.Kind]transport.Secured{transport.TCP: transport.Plain}}
	defer func() {
		if err != nil {
			s.close()
		}
	}()
	if s.bound, err = transport.Activated(); err != nil {
		return s, err
	}
	for _, address := range c.settings.Listen {
		bound, err := address.Listen()
		if err != nil {
			return s, err
		}
		s.bound = append(s.bound, bound)
	}
	if len(s.bound) == 0 {
		bound, err := transport.Address{Kind: transport.TCP, Address: anywhere}.Listen()
		if err != nil {
			return s, err
		}
		s.bound = append(s.bound, bound)
	}
	if c.settings.Metrics != "" {
		if s.metrics, err = net.Listen("tcp", c.settings.Metrics); err != nil {
			return s, err
		}
	}
	s.failed = make(chan error, len(s.bound)+1)
	s.gate = transport.NewGate(c.settings.PerAddress, c.logClient)
	return s, c.secure(s)
}

// anywhere is the default address of a cache: a port that needs no privileges.
const anywhere = ":3323"

// secure reads the certificates and keys of the transports in use.
func (c *Cache) secure(s *sockets) error {
	for _, bound := range s.bound {
		if s.secured[bound.Kind] != nil {
			continue
		}
		switch bound.Kind {
		case transport.TLS:
			if c.settings.TLS.Certificate == "" || c.settings.TLS.Key == "" {
				return words.Misuse("TLS needs --tls-cert and --tls-key")
			}
			identity, err := transport.NewIdentity(c.settings.TLS)
			if err != nil {
				return err
			}
			s.secured[transport.TLS] = identity.Secure
			s.reload = append(s.reload, identity.Load)
		case transport.SSH:
			if c.settings.SSH.HostKey == "" || c.settings.SSH.Routers == "" {
				return words.Misuse("SSH needs --ssh-host-key and --ssh-routers")
			}
			host, err := transport.NewHost(c.settings.SSH)
			if err != nil {
				return err
			}
			s.secured[transport.SSH] = host.Secure
			s.reload = append(s.reload, host.Load)
		}
	}
	return c.unused(s)
}

// unused returns an error if certificates or keys were given and no listener uses them: without it
// routers would be served only over TCP, although TLS or SSH was meant.
func (c *Cache) unused(s *sockets) error {
	if c.settings.TLS.Certificate != "" && s.secured[transport.TLS] == nil {
		return words.Misuse(
			"--tls-cert needs --listen tls:ADDRESS:PORT, or a socket of systemd named tls")
	}
	if c.settings.SSH.HostKey != "" && s.secured[transport.SSH] == nil {
		return words.Misuse(
			"--ssh-host-key needs --listen ssh:ADDRESS:PORT, or a socket of systemd named ssh")
	}
	return nil
}

// close closes the sockets.
func (s *sockets) close() {
	for _, bound := range s.bound {
		bound.Listener.Close()
	}
	if s.metrics != nil {
		s.metrics.Close()
	}
	if s.gate != nil {
		s.gate.Close()
	}
}

// notify sends the state of the cache to systemd, if it listens.
func (c *Cache) notify(state string) {
	if _, err := daemon.SdNotify(false, state); err != nil {
		c.log.Warnf("notifying systemd failed: %v", err)
	}
}
