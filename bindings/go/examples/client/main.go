// Client follows the data of an RTR cache, and prints announcements and withdrawals. With --prefer
// it follows the first of several caches that answers.
package main

import (
	"bufio"
	"context"
	"errors"
	"fmt"
	"io"
	"net"
	"os"
	"os/signal"
	"strconv"
	"syscall"

	"fishreef/rtr"
)

const usage = "usage: client (HOST:PORT | (--prefer HOST:PORT)..) " +
	"[--version 0|1|2] [--once] [--json]"

// options is the content of the command line.
type options struct {
	addresses  []string // by preference
	version    uint8
	once, json bool
}

func main() {
	opts, ok := arguments(os.Args[1:])
	if !ok {
		fmt.Fprintln(os.Stderr, usage)
		os.Exit(2)
	}
	ctx, stop := signal.NotifyContext(context.Background(), syscall.SIGINT, syscall.SIGTERM)
	defer stop()
	err := run(ctx, opts, os.Stdout)
	if err != nil && (opts.once || !errors.Is(err, context.Canceled)) {
		fmt.Fprintln(os.Stderr, err)
		os.Exit(1)
	}
}

// arguments parses a command line.
func arguments(words []string) (opts options, ok bool) {
	opts.version = rtr.UsualVersion
	for alone := false; len(words) > 0; words = words[1:] {
		switch word := words[0]; {
		case word == "--once":
			opts.once = true
		case word == "--json":
			opts.json = true
		case word == "--version" && len(words) > 1:
			version, err := strconv.ParseUint(words[1], 10, 8)
			if err != nil || version > uint64(rtr.HighestVersion) {
				return options{}, false
			}
			opts.version = uint8(version)
			words = words[1:]
		case word == "--prefer" && len(words) > 1 && !alone && isAddress(words[1]):
			opts.addresses = append(opts.addresses, words[1])
			words = words[1:]
		case len(opts.addresses) == 0 && isAddress(word):
			opts.addresses = append(opts.addresses, word)
			alone = true
		default:
			return options{}, false
		}
	}
	return opts, len(opts.addresses) > 0 && len(opts.addresses) <= rtr.MostMembers
}

// isAddress reports whether an argument is a host and a port.
func isAddress(word string) bool {
	_, _, err := net.SplitHostPort(word)
	return err == nil && word[0] != '-'
}

// errEnough ends the client after the first data.
var errEnough = errors.New("enough")

// run prints changes until the context ends or the output fails, or after the first data.
func run(ctx context.Context, opts options, output io.Writer) error {
	shown := &show{
		once: opts.once, line: (*rtr.Units).AppendLine, output: bufio.NewWriter(output),
		failed: make(map[*rtr.Client]bool),
	}
	if opts.json {
		shown.line = (*rtr.Units).AppendJSON
	}
	var sources []rtr.Source
	for _, address := range opts.addresses {
		client := rtr.NewClient(address)
		client.AskIn(opts.version)
		sources = append(sources, rtr.Source{Name: address, Client: client})
	}
	shown.left = len(sources)
	if err := rtr.Follow(ctx, sources, shown); err != errEnough {
		return err
	}
	return nil
}

// show prints the changes and the failures of the caches.
type show struct {
	once   bool
	line   func(*rtr.Units, []byte) []byte
	output *bufio.Writer
	left   int                  // the number of caches that haven't failed
	failed map[*rtr.Client]bool // the others
}

// payloads returns a number of payloads as text.
func payloads(count int) string {
	if count == 1 {
		return "1 payload"
	}
	return fmt.Sprintf("%d payloads", count)
}

// Data prints the changes from the data before.
func (s *show) Data(_ rtr.Source, update rtr.Update) error {
	if data := update.Data; !data.IsZero() {
		fmt.Fprintf(os.Stderr, "session %d serial %d version %d: %s\n",
			data.Session(), data.Serial(), data.Version(), payloads(data.Len()))
	}
	var line []byte
	for changes := update.Changes(); changes.Scan(); {
		line = append(s.line(changes, line[:0]), '\n')
		s.output.Write(line)
	}
	if err := s.output.Flush(); err != nil || !s.once {
		return err
	}
	return errEnough
}

// Failed prints why a connection ended. With --once it ends the client once all caches have failed.
func (s *show) Failed(source rtr.Source, err error) error {
	err = fmt.Errorf("%s: %w", source.Name, err)
	if !s.failed[source.Client] {
		s.failed[source.Client] = true
		s.left--
	}
	if s.once && s.left == 0 {
		return err
	}
	fmt.Fprintln(os.Stderr, err)
	return nil
}
