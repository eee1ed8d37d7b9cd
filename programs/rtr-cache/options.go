package main

import (
	"errors"
	"fmt"
	"time"

	"fishreef/programs/internal/fetch"
	"fishreef/programs/internal/payloads"
	"fishreef/programs/internal/transport"
	"fishreef/programs/internal/trust"
	"fishreef/programs/internal/words"
	"fishreef/rtr"
)

// ofFiles returns the options for files.
func (o *options) ofFiles() []words.Option {
	return []words.Option{
		{
			Name: "json", Argument: "FILE|URL", Repeats: true,
			Help: "Serve this JSON file, or the one at this http or https URL, as " +
				"validators print it; several are merged",
			Set: o.file(payloads.JSON),
		},
		{
			Name: "csv", Argument: "FILE|URL", Repeats: true,
			Help: "Serve this CSV file: an AS number, a prefix and a max length",
			Set:  o.file(payloads.CSV),
		},
		{
			Name: "sequence", Argument: "FILE|URL", Repeats: true,
			Help: "Serve this recording, or list of units (PDUs) as rtr_make " +
				"writes it",
			Set: o.file(payloads.Sequence),
		},
	}
}

// ofData returns the options for the state, and for checks of files.
func (o *options) ofData() []words.Option {
	s := &o.settings
	return []words.Option{
		{
			Name: "state", Argument: "FOLDER",
			Help: "Save session, serial number and changes in this folder for a " +
				"restart",
			Set: words.Text(&s.State),
		},
		{
			Name: "look", Argument: "TIME",
			Help: "Check the files at least this often (default 10s)",
			Set:  words.Wait(&s.Look, time.Second),
		},
		{
			Name: "stale", Argument: "TIME",
			Help: "Report a file that is older than this in /health (default 2h)",
			Set:  words.Wait(&s.Rules.Stale, time.Second),
		},
	}
}

// ofGuard returns the options for lists that aren't accepted at once.
func (o *options) ofGuard() []words.Option {
	s := &o.settings
	return []words.Option{
		{
			Name: "guard", Argument: "SHARE",
			Help: "Hold a file that withdraws more than this share of the " +
				"payloads, of a kind, or of a trust anchor (default 50%)",
			Set: func(share string) (err error) {
				s.Rules.Guard, err = trust.ParseShare(share)
				return err
			},
		},
		{
			Name: "guard-time", Argument: "TIME",
			Help: "Accept a held file, or a clock that was set, once it has stayed " +
				"the same for this time (default 5m)",
			Set: words.Wait(&s.Rules.Quiet, time.Second),
		},
		{
			Name: "hold",
			Help: "Accept a held file or clock only at SIGUSR1 or by --force",
			Set:  words.Yes(&s.Rules.Hold),
		},
		{
			Name: "force",
			Help: "Accept the first list of each file after the start, however " +
				"much it withdraws",
			Set: words.Yes(&s.Force),
		},
	}
}

// ofTimings returns the options for the times of data.
func (o *options) ofTimings() []words.Option {
	s, usual := &o.settings, rtr.RecommendedTiming
	seconds := func(what string, usual uint32) string {
		return fmt.Sprintf("Send this %s interval, in seconds (default %d)", what, usual)
	}
	return []words.Option{
		{
			Name: "refresh", Argument: "N",
			Help: seconds("refresh", usual.Refresh),
			Set:  words.Seconds(&s.Timing.Refresh),
		},
		{
			Name: "retry", Argument: "N",
			Help: seconds("retry", usual.Retry),
			Set:  words.Seconds(&s.Timing.Retry),
		},
		{
			Name: "expire", Argument: "N",
			Help: seconds("expire", usual.Expire),
			Set:  words.Seconds(&s.Timing.Expire),
		},
	}
}

// ofSockets returns the options for listening.
func (o *options) ofSockets() []words.Option {
	s := &o.settings
	return []words.Option{
		{
			Name: "listen", Argument: "ADDRESS", Repeats: true,
			Help: "Listen at this ADDRESS:PORT for TCP, or for TLS or SSH with " +
				"tls: or ssh: before it; may be repeated (default :3323)",
			Set: func(address string) error {
				parsed, err := transport.ParseAddress(address)
				s.Listen = append(s.Listen, parsed)
				return err
			},
		},
	}
}

// ofTLS returns the options for TLS.
func (o *options) ofTLS() []words.Option {
	s := &o.settings
	return []words.Option{
		{
			Name: "tls-cert", Argument: "FILE",
			Help: "Use this certificate for TLS, followed by its chain (PEM)",
			Set:  words.Text(&s.TLS.Certificate),
		},
		{
			Name: "tls-key", Argument: "FILE",
			Help: "Use this private key for TLS (PEM)",
			Set:  words.Text(&s.TLS.Key),
		},
		{
			Name: "tls-client-ca", Argument: "FILE",
			Help: "Require from routers a certificate that one of these authorities " +
				"issued, and that names their address",
			Set: words.Text(&s.TLS.ClientCA),
		},
		{
			Name: "tls-any-address",
			Help: "Accept a router's certificate that names another address",
			Set:  words.Yes(&s.TLS.AnyAddress),
		},
	}
}

// ofSSH returns the options for SSH.
func (o *options) ofSSH() []words.Option {
	s := &o.settings
	return []words.Option{
		{
			Name: "ssh-host-key", Argument: "FILE",
			Help: "Use this private key for SSH",
			Set:  words.Text(&s.SSH.HostKey),
		},
		{
			Name: "ssh-routers", Argument: "FILE",
			Help: "Accept routers with these public keys, as in authorized_keys",
			Set:  words.Text(&s.SSH.Routers),
		},
	}
}

// ofLimits returns the options for the number of routers.
func (o *options) ofLimits() []words.Option {
	s := &o.settings
	return []words.Option{
		{
			Name: "max-clients", Argument: "N",
			Help: "Serve at most N routers at once (default 1024)",
			Set:  words.Count(&s.Clients, 1),
		},
		{
			Name: "max-per-address", Argument: "N",
			Help: "Serve at most N routers of one address at once (default 100)",
			Set:  words.Count(&s.PerAddress, 1),
		},
		{
			Name: "refuse",
			Help: "Send an error report instead of a cache reset to a router with " +
				"unknown data",
			Set: words.Yes(&s.Refuse),
		},
	}
}

// ofReports returns the options for metrics.
func (o *options) ofReports() []words.Option {
	s := &o.settings
	return []words.Option{
		{
			Name: "metrics", Argument: "ADDRESS",
			Help: "Serve /metrics for Prometheus, /health and /clients at this " +
				"ADDRESS:PORT by HTTP",
			Set: words.Address(&s.Metrics),
		},
	}
}

// file returns an option that names a file of a format.
func (o *options) file(format payloads.Format) func(string) error {
	return func(path string) error {
		if path == "" {
			return errors.New("it is empty")
		}
		file, err := fetch.FileOf(format, path)
		if err != nil {
			return err
		}
		o.settings.Files, err = words.Appended(o.settings.Files, file,
			func(file payloads.File) string { return file.Path })
		return err
	}
}
