// Rtr-pcap extracts the sessions of the RPKI to Router protocol from a packet capture: tshark reads
// the packets, and rtr_list lists the units.
package main

import (
	"bytes"
	"context"
	"errors"
	"fmt"
	"io"
	"os"
	"os/exec"
	"os/signal"
	"syscall"

	"fishreef/programs/internal/words"
)

func main() { os.Exit(int(run(os.Args[1:]))) }

// run runs the program, and returns its exit status.
func run(line []string) words.Status {
	opts, err := arguments(line)
	if errors.Is(err, words.ErrHelp) {
		return words.Well
	}
	if err != nil {
		say(err)
		return words.StatusOfLine(err)
	}
	ctx, stop := signal.NotifyContext(context.Background(), syscall.SIGINT, syscall.SIGTERM)
	defer stop()
	if err := opts.list(ctx, os.Stdout); err != nil {
		if !errors.Is(err, errPrinted) {
			say(err)
		}
		return words.StatusOf(err)
	}
	return words.Well
}

// errPrinted is the error of a run whose failures were already printed.
var errPrinted = errors.New("some connections failed")

// list lists the connections of the capture, or writes their units.
func (o *options) list(ctx context.Context, output io.Writer) error {
	connections, err := o.connections(ctx)
	if err != nil {
		return err
	}
	var all error
	for _, c := range connections {
		for _, err := range o.listOne(ctx, c, output) {
			err = fmt.Errorf("connection %s: %w", c.number, err)
			if words.StatusOf(err) == words.Failed {
				return err
			}
			say(err)
			all = errPrinted
		}
	}
	return all
}

// connections returns the connections with data, in the order in which they begin.
func (o *options) connections(ctx context.Context) (all []*connection, err error) {
	known := map[string]*connection{}
	var seen []*connection
	err = o.read(ctx, func(p packet) {
		c := known[p.stream]
		if c == nil {
			c = &connection{number: p.stream}
			known[p.stream], seen = c, append(seen, c)
		}
		c.take(p)
	})
	for _, c := range seen {
		if len(c.packets) > 0 {
			all = append(all, c)
		}
	}
	if err == nil && len(all) == 0 {
		err = fmt.Errorf("%s: no connection of port %s has data", o.capture, o.port)
	}
	return all, err
}

// listOne lists a connection, or writes its units, and returns its problems.
func (o *options) listOne(ctx context.Context, c *connection, output io.Writer) (faults []error) {
	units := c.units()
	say(fmt.Sprintf("connection %s: %s: %s", c.number, c.nodes(),
		words.Number(len(units), "byte")))
	for _, side := range c.sides {
		if !side.opened && side.begun {
			say(fmt.Sprintf("connection %s: %s: the capture begins after the connection did",
				c.number, side.node))
		}
		for _, line := range side.lacks() {
			faults = append(faults, errors.New(line))
		}
	}
	var err error
	if o.raw {
		_, err = output.Write(units)
	} else {
		err = o.show(ctx, units, output)
	}
	if err != nil {
		faults = append(faults, err)
	}
	return faults
}

// nodes returns the addresses of both sides.
func (c *connection) nodes() string {
	if len(c.sides) == 1 {
		return c.sides[0].node + " alone"
	}
	return c.sides[0].node + " with " + c.sides[1].node
}

// show lists the units of a connection.
func (o *options) show(ctx context.Context, units []byte, output io.Writer) error {
	run := exec.CommandContext(ctx, string(o.lister), o.form...)
	run.Stdin, run.Stdout, run.Stderr = bytes.NewReader(units), output, os.Stderr
	if err := run.Run(); err != nil {
		return fmt.Errorf("rtr_list: %w", err)
	}
	return nil
}

// say prints a line on standard error.
func say(what ...any) {
	fmt.Fprintln(os.Stderr, append([]any{"rtr-pcap:"}, what...)...)
}
