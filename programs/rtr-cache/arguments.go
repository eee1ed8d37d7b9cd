package main

import (
	"errors"
	"fmt"
	"os"
	"time"

	"fishreef/programs/internal/cache"
	"fishreef/programs/internal/fetch"
	"fishreef/programs/internal/logs"
	"fishreef/programs/internal/trust"
	"fishreef/programs/internal/words"
	"fishreef/rtr"
)

// options is the content of the command line.
type options struct {
	settings cache.Settings
	log      logs.Logging
}

// usual returns the defaults of the command line.
func usual() *options {
	return &options{
		settings: cache.Settings{
			Timing: rtr.RecommendedTiming, Look: 10 * time.Second,
			Clients: rtr.NewServer().Limits.Connections, PerAddress: 100,
			Fetch: fetch.Usual(),
			Rules: trust.Rules{Guard: 50, Quiet: 5 * time.Minute, Stale: 2 * time.Hour},
		},
		log: logs.Usual(),
	}
}

// arguments parses a command line.
func arguments(line []string) (*options, error) {
	o := usual()
	program := words.Program{
		Name:     "rtr-cache",
		Sentence: "serve validated payloads to routers",
		Calls:    []string{"(--json | --csv | --sequence) FILE|URL.. [OPTION]..", "--help | --version"},
		Help: `Follows files that validators write, or lists on web servers, and serves their
payloads, merged, over the RPKI to Router protocol (RFC 6810, RFC 8210).`,
		Options: words.Join(o.ofFiles(), o.settings.Reader.Options(), o.ofData(),
			o.settings.Fetch.Options(), o.ofGuard(), o.ofTimings(), o.ofSockets(), o.ofTLS(), o.ofSSH(),
			o.ofLimits(), o.ofReports(), o.log.Options()),
	}
	if err := program.Parse(line, os.Stdout); err != nil {
		return nil, err
	}
	return o, o.check(program.Given)
}

// check returns an error if the options don't fit together, and finds the programs that read lists.
func (o *options) check(given words.Given) error {
	s := &o.settings
	if len(s.Files) == 0 {
		return errors.New("no list given: use --json, --csv or --sequence")
	}
	if err := s.Timing.Check(); err != nil {
		return fmt.Errorf("--refresh %d --retry %d --expire %d: %w", s.Timing.Refresh, s.Timing.Retry,
			s.Timing.Expire, err)
	}
	var unreported error
	if s.Metrics == "" {
		unreported = given.Without("--metrics, since only /health and /metrics report it", "stale")
	}
	return words.FirstOf(s.TLS.Check(), s.SSH.Check(), s.Fetch.Check(given, s.Files...), unreported,
		s.Reader.Check(given, s.Files...))
}
