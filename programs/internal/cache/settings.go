// Package cache is a cache that serves the payloads that validators write into files: it follows
// the files, and manages session and serial number itself.
package cache

import (
	"time"

	"fishreef/programs/internal/fetch"
	"fishreef/programs/internal/payloads"
	"fishreef/programs/internal/transport"
	"fishreef/programs/internal/trust"
	"fishreef/rtr"
)

// Settings are the settings of a cache's command line.
type Settings struct {
	Files  []payloads.File
	Reader payloads.Reader
	Fetch  fetch.Settings // except for the folder
	State  string         // a folder; "" for none
	Timing rtr.Timing

	Rules trust.Rules
	Force bool          // the first lists after the start may withdraw more than Guard allows
	Look  time.Duration // the longest time between two checks of the files

	Listen     []transport.Address
	TLS        transport.TLSFiles
	SSH        transport.SSHFiles
	Clients    int // the most clients at once
	PerAddress int // the most clients of one address at once
	Refuse     bool
	Metrics    string // an address; "" for none
}
