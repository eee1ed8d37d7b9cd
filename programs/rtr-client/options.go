package main

import (
	"fmt"

	"fishreef/programs/internal/payloads"
	"fishreef/programs/internal/words"
)

// ofChanges returns the options for queries and output.
func (o *options) ofChanges() []words.Option {
	return []words.Option{
		{
			Name: "json",
			Help: "Print changes as JSON objects instead of lines",
			Set:  words.Yes(&o.json),
		},
		{
			Name: "times",
			Help: "Begin lines with the time, the cache, the session and the serial " +
				"number, which JSON objects always have",
			Set: words.Yes(&o.times),
		},
		{
			Name: "once",
			Help: "Exit after the first data, or once all caches have failed",
			Set:  words.Yes(&o.once),
		},
		{
			Name: "version", Argument: payloads.Versions(),
			Help: fmt.Sprintf("Ask in this protocol version at most (default %d)", payloads.Version),
			Set:  payloads.Protocol(&o.version),
		},
	}
}

// ofFiles returns the options for files and routes.
func (o *options) ofFiles() []words.Option {
	return []words.Option{
		{
			Name: "out", Argument: "FILE",
			Help: "Write the newest data to this file, as CSV if its name ends " +
				"with .csv, else as JSON, instead of printing changes",
			Set: words.Text(&o.outPath),
		},
		{
			Name: "record", Argument: "FILE",
			Help: "Record both directions of the connection in this file, and " +
				"the time of each piece in FILE.times",
			Set: words.Text(&o.record),
		},
		{
			Name: "validate", Argument: "PREFIX ASN", Repeats: true,
			Help: "Print the validity of this route instead of changes, and " +
				"again when it changes; may be repeated",
			Set: o.route,
		},
	}
}

// ofTLS returns the options for TLS.
func (o *options) ofTLS() []words.Option {
	return words.Join([]words.Option{
		{
			Name: "tls",
			Help: "Connect over TLS",
			Set:  words.Yes(&o.useTLS),
		},
	}, o.tls.Options(), []words.Option{
		{
			Name: "tls-name", Argument: "NAME",
			Help: "Expect this name in the cache's certificate (default HOST)",
			Set:  words.Text(&o.tls.Name),
		},
	})
}

// ofSSH returns the options for SSH.
func (o *options) ofSSH() []words.Option {
	return words.Join([]words.Option{
		{
			Name: "ssh", Argument: "USER",
			Help: "Connect over SSH as this user",
			Set:  words.Text(&o.ssh.User),
		},
	}, o.ssh.Options())
}
