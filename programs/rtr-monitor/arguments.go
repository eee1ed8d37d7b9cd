package main

import (
	"errors"
	"fmt"
	"os"
	"time"

	"fishreef/programs/internal/fetch"
	"fishreef/programs/internal/logs"
	"fishreef/programs/internal/monitor"
	"fishreef/programs/internal/payloads"
	"fishreef/programs/internal/transport"
	"fishreef/programs/internal/words"
)

// options is the content of the command line.
type options struct {
	settings monitor.Settings
	log      logs.Logging
}

// usual returns the defaults of the command line.
func usual() *options {
	return &options{
		settings: monitor.Settings{
			Fetch: fetch.Usual(), Version: payloads.Version, Look: 10 * time.Second, Grace: 30 * time.Minute,
		},
		log: logs.Usual(),
	}
}

// usualHTTP is the default address of the page: only for this machine.
const usualHTTP = "127.0.0.1:9324"

// arguments parses a command line.
func arguments(line []string) (*options, error) {
	o := usual()
	program := words.Program{
		Name:     "rtr-monitor",
		Sentence: "compare RTR caches and validators",
		Calls:    []string{"SOURCE SOURCE.. [OPTION]..", "--help | --version"},
		Help: `Compares the payloads of two or more sources, and reports which payload is
missing in which of them, and since when. A SOURCE is one of these:

  HOST:PORT                  a cache, over TCP
  tls:HOST:PORT              a cache, over TLS
  ssh:HOST:PORT              a cache, over SSH
  json:FILE, csv:FILE        the list of a validator
  json:URL, csv:URL          the same by http or https
  sequence:FILE              a recording, or a list of units (PDUs)`,
		Options: words.Join(o.ofComparison(), o.settings.Reader.Options(),
			o.settings.Fetch.Options(), o.settings.TLS.Options(), o.ofSSH(),
			o.settings.SSH.Options(), o.ofPage(), o.log.Options()),
		Operand: o.source,
	}
	if err := program.Parse(line, os.Stdout); err != nil {
		return nil, err
	}
	return o, o.check(program.Given)
}

// source parses the next source.
func (o *options) source(word string) error {
	source, err := monitor.ParseSource(word)
	if err != nil {
		return err
	}
	o.settings.Sources, err = words.Appended(o.settings.Sources, source,
		func(source monitor.Source) string { return source.Name })
	return err
}

// check returns an error if the options don't fit together, and finds the programs that read lists.
func (o *options) check(given words.Given) error {
	s := &o.settings
	if s.HTTP == "" {
		s.HTTP = usualHTTP
	}
	switch {
	case len(s.Sources) < 2:
		return errors.New("at least two sources are needed")
	case len(s.Sources) > monitor.MostSources:
		return fmt.Errorf("more than %d sources given", monitor.MostSources)
	}
	if err := s.TLS.Check(); err != nil {
		return err
	}
	if s.SSH.Partial() {
		return errors.New("--ssh-user, --ssh-key and --ssh-known-hosts need each other")
	}
	var lists []payloads.File
	used := map[transport.Kind]bool{}
	for _, source := range s.Sources {
		used[source.Transport] = true
		switch {
		case source.Transport == transport.SSH && s.SSH.User == "":
			return fmt.Errorf("%s needs --ssh-user, --ssh-key and --ssh-known-hosts", source.Name)
		case source.Transport == "":
			lists = append(lists, source.List)
		}
	}
	return words.FirstOf(unused(given, used), s.Fetch.Check(given, lists...),
		s.Reader.Check(given, lists...))
}

// unused returns an error if an option has no effect on any source, whose transports are used (""
// is that of lists). Without it caches would be asked over TCP, although TLS or SSH was meant.
func unused(given words.Given, used map[transport.Kind]bool) error {
	for _, row := range []struct {
		used  bool
		need  string
		names []string
	}{
		{used[transport.TLS], "a source tls:HOST:PORT", []string{"tls-ca", "tls-cert", "tls-key"}},
		{used[transport.SSH], "a source ssh:HOST:PORT",
			[]string{"ssh-user", "ssh-key", "ssh-known-hosts"}},
		{used[transport.TCP] || used[transport.TLS] || used[transport.SSH], "a cache as a source",
			[]string{"refresh"}},
		{used[""], "a list as a source", []string{"look"}},
	} {
		if err := given.Without(row.need, row.names...); !row.used && err != nil {
			return err
		}
	}
	return nil
}
