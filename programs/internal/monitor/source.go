package monitor

import (
	"errors"
	"fmt"
	"net"
	"strings"
	"time"

	"fishreef/programs/internal/fetch"
	"fishreef/programs/internal/payloads"
	"fishreef/programs/internal/transport"
	"fishreef/programs/internal/trust"
	"fishreef/programs/internal/words"
	"fishreef/rtr"
)

// Source is a source of payloads: a cache, or the list of a validator.
type Source struct {
	Name      string         // the argument of the command line, without a password
	Transport transport.Kind // of a cache; "" for a list
	Address   string         // of a cache
	List      payloads.File
}

// forms are the prefixes of an argument for a source.
var forms = map[string]payloads.Format{
	"json": payloads.JSON, "csv": payloads.CSV, "sequence": payloads.Sequence,
}

// ParseSource parses an argument for a source: HOST:PORT, tls:HOST:PORT or ssh:HOST:PORT for a
// cache, or json:, csv: or sequence: and the path or the URL of a list.
func ParseSource(word string) (Source, error) {
	begins, rest, _ := strings.Cut(word, ":")
	if format, ok := forms[begins]; ok {
		return parseList(begins, format, rest)
	}
	source := Source{Name: word, Transport: transport.TCP, Address: word}
	switch kind := transport.Kind(begins); kind {
	case transport.TCP, transport.TLS, transport.SSH:
		source.Transport, source.Address = kind, rest
	}
	host, port, err := net.SplitHostPort(source.Address)
	if err != nil || host == "" || port == "" || fetch.IsURL(word) ||
		!words.IsAddress(source.Address) {
		return Source{}, fmt.Errorf("%q isn't a source: HOST:PORT, tls:HOST:PORT, "+
			"ssh:HOST:PORT, json:FILE, csv:FILE or sequence:FILE, where a URL may stand for FILE", word)
	}
	return source, nil
}

// parseList parses the path or the URL of a list.
func parseList(begins string, format payloads.Format, path string) (Source, error) {
	if path == "" {
		return Source{}, errors.New(begins + ": needs a file")
	}
	list, err := fetch.FileOf(format, path)
	if err != nil {
		return Source{}, err
	}
	return Source{Name: begins + ":" + list.Path, List: list}, nil
}

// version returns the highest version whose kinds a format has: CSV has neither router keys nor
// ASPAs.
func version(format payloads.Format, most uint8) uint8 {
	if format == payloads.CSV {
		return 0
	}
	return most
}

// Failing is the failure of a source: its start, and the last reason.
type Failing struct {
	Since  time.Time
	Reason string
}

// state is the state of a source.
type state struct {
	Source
	side
	kinds    trust.Counts // of its payloads
	session  *uint16      // of a cache's data
	serial   *uint32
	heard    time.Time // when it last had complete data
	changed  time.Time // when its payloads last changed
	failing  *Failing  // nil if it doesn't fail
	failures int
}

// event is an event of a source: data, the loss of all data, or a failure.
type event struct {
	source  int
	failure string   // "" for none
	alive   bool     // its data are unchanged, and the other fields are unset
	lost    bool     // the data were dropped
	same    bool     // the payloads are unchanged
	data    rtr.Data // of a cache as they came, or of a list
	version uint8
	cache   bool
}
