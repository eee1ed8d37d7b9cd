// Cache serves the data of a file to RTR clients of versions 0 to 2, and reloads it when it
// changes. What it needs after a restart is saved beside the file, with ".kept" after its name.
// SIGINT and SIGTERM end it.
package main

import (
	"context"
	"errors"
	"fmt"
	"net"
	"os"
	"os/signal"
	"strconv"
	"strings"
	"syscall"
	"time"

	"fishreef/rtr"
)

const usage = "usage: cache FILE [--listen ADDRESS:PORT].. [--max-clients N] [--refuse]"

// anywhere is the default address: all interfaces, at a port that needs no privileges.
const anywhere = ":3323"

// interval is the time between two checks of the file.
const interval = time.Second / 4

// options is the content of the command line.
type options struct {
	path      string
	addresses []string
	clients   int // the most at once; 0 for the default
	refuse    bool
}

func main() {
	opts, ok := arguments(os.Args[1:])
	if !ok {
		fmt.Fprintln(os.Stderr, usage)
		os.Exit(2)
	}
	ctx, stop := signal.NotifyContext(context.Background(), syscall.SIGINT, syscall.SIGTERM)
	defer stop()
	if err := run(ctx, opts); err != nil {
		say(err)
		os.Exit(1)
	}
}

// arguments parses a command line.
func arguments(words []string) (opts options, ok bool) {
	for ; len(words) > 0; words = words[1:] {
		switch {
		case words[0] == "--listen" && len(words) > 1:
			opts.addresses = append(opts.addresses, words[1])
			words = words[1:]
		case words[0] == "--max-clients" && len(words) > 1:
			var err error
			if opts.clients, err = strconv.Atoi(words[1]); err != nil || opts.clients < 1 {
				return options{}, false
			}
			words = words[1:]
		case words[0] == "--refuse":
			opts.refuse = true
		case opts.path == "" && words[0] != "" && words[0][0] != '-':
			opts.path = words[0]
		default:
			return options{}, false
		}
	}
	if len(opts.addresses) == 0 {
		opts.addresses = []string{anywhere}
	}
	return opts, opts.path != ""
}

// run serves until the context ends, or a listener fails. It fails at once if the saved file is
// damaged or can't be read.
func run(ctx context.Context, opts options) error {
	server := rtr.NewServer()
	server.Limits.Refuse = opts.refuse
	if opts.clients > 0 {
		server.Limits.Connections = opts.clients
	}
	defer server.Close()
	server.Ended = func(client net.Addr, err error) { say(client, ": ", err) }
	saved := opts.path + rtr.KeptSuffix
	if data, err := server.Restore(saved); err == nil {
		sayServed(saved, data)
	} else if !errors.Is(err, os.ErrNotExist) {
		// Without the file its serial numbers could be used for other data.
		return err
	}
	failed, err := serve(server, opts.addresses)
	if err != nil {
		return err
	}
	ctx, stop := context.WithCancel(ctx)
	watched := make(chan struct{})
	go func() {
		defer close(watched)
		watch(ctx, server, opts.path)
	}()
	select {
	case <-ctx.Done():
	case err = <-failed:
	}
	stop()
	<-watched
	if errors.Is(err, rtr.ErrServerClosed) {
		err = nil
	}
	return err
}

// serve listens at the addresses, and serves until the server is closed or a listener fails; the
// channel gets its error.
func serve(server *rtr.Server, addresses []string) (<-chan error, error) {
	failed := make(chan error, len(addresses))
	for _, address := range addresses {
		listener, err := net.Listen("tcp", address)
		if err != nil {
			return nil, err
		}
		say("listening on ", listener.Addr())
		go func() { failed <- server.Serve(listener) }()
	}
	return failed, nil
}

// watch serves what the file has, until the context ends.
func watch(ctx context.Context, server *rtr.Server, path string) {
	server.Watch(ctx, path, interval, func(data rtr.Data, err error) {
		if err != nil {
			say(err)
			return
		}
		sayServed(path, data)
	})
}

// sayServed prints which data of a file the server has now, and warns of serial number 0.
func sayServed(path string, data rtr.Data) {
	say(fmt.Sprintf("%s: session %d serial %d: %s",
		path, data.Session(), data.Serial(), payloads(data.Len())))
	if data.Serial() == 0 {
		say(path, ": "+rtr.SerialZeroText)
	}
}

// payloads returns a number of payloads as text.
func payloads(count int) string {
	if count == 1 {
		return "1 payload"
	}
	return fmt.Sprintf("%d payloads", count)
}

// say prints a line with the time on standard error.
func say(words ...any) {
	line := strings.ReplaceAll(fmt.Sprint(words...), "rtr: ", "")
	fmt.Fprintln(os.Stderr, time.Now().UTC().Format(time.RFC3339), line)
}
