// Package monitor compares the payloads of several caches and validators continuously: which
// payload is missing where, and since when. The library's changes of data decide what differs.
package monitor

import (
	"time"

	"fishreef/programs/internal/fetch"
	"fishreef/programs/internal/payloads"
	"fishreef/programs/internal/transport"
)

// MostSources is the most sources that may be compared.
const MostSources = 16

// Settings are the settings of the command line.
type Settings struct {
	Sources []Source
	Reader  payloads.Reader
	Fetch   fetch.Settings
	Version uint8         // the highest version to ask caches in
	Refresh time.Duration // the time between two queries; 0 for the cache's refresh time
	Look    time.Duration // the time between two checks of a file
	Grace   time.Duration // a difference that lasts longer is logged
	TLS     transport.TLSRouter
	SSH     transport.SSHRouter
	HTTP    string // the address of the page
}
