package main

import (
	"fmt"
	"time"

	"fishreef/programs/internal/payloads"
	"fishreef/programs/internal/words"
)

// ofComparison returns the options for queries and comparisons.
func (o *options) ofComparison() []words.Option {
	s := &o.settings
	return []words.Option{
		{
			Name: "grace", Argument: "TIME",
			Help: "Report a difference that lasts longer than this (default 30m)",
			Set:  words.Wait(&s.Grace, time.Second),
		},
		{
			Name: "version", Argument: payloads.Versions(),
			Help: fmt.Sprintf("Ask caches in this protocol version at most, and compare what "+
				"it has: 0 only prefixes, 1 also router keys, 2 also ASPAs "+
				"(default %d)", payloads.Version),
			Set: payloads.Protocol(&s.Version),
		},
		{
			Name: "refresh", Argument: "TIME",
			Help: "Ask caches at least this often, whatever refresh interval they " +
				"send",
			Set: words.Wait(&s.Refresh, time.Second),
		},
		{
			Name: "look", Argument: "TIME",
			Help: "Check files this often (default 10s)",
			Set:  words.Wait(&s.Look, time.Second),
		},
	}
}

// ofSSH returns the option for the SSH user, which rtr-client has in another form.
func (o *options) ofSSH() []words.Option {
	return []words.Option{
		{
			Name: "ssh-user", Argument: "NAME",
			Help: "Connect to ssh:HOST:PORT as this user",
			Set:  words.Text(&o.settings.SSH.User),
		},
	}
}

// ofPage returns the options for the page.
func (o *options) ofPage() []words.Option {
	return []words.Option{
		{
			Name: "http", Argument: "ADDRESS",
			Help: "Serve the page, /diff.json, /metrics and /health at this " +
				"ADDRESS:PORT (default 127.0.0.1:9324)",
			Set: words.Address(&o.settings.HTTP),
		},
	}
}
