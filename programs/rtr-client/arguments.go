package main

import (
	"errors"
	"fmt"
	"net/netip"
	"os"
	"strconv"
	"strings"

	"fishreef/programs/internal/beside"
	"fishreef/programs/internal/payloads"
	"fishreef/programs/internal/transport"
	"fishreef/programs/internal/words"
	"fishreef/rtr"
)

// route is a route to validate.
type route struct{ prefix, asn string }

// options is the content of the command line.
type options struct {
	addresses  []string
	version    uint8
	json, once bool
	times      bool     // lines have their time and cache
	outPath    string   // a file; "" for none
	out        *outFile // that file; nil for none
	record     string   // a file; "" for none
	routes     []route
	useTLS     bool
	tls        transport.TLSRouter
	ssh        transport.SSHRouter

	validator beside.Program
}

// arguments parses a command line.
func arguments(line []string) (*options, error) {
	o := &options{version: payloads.Version}
	program := words.Program{
		Name:     "rtr-client",
		Sentence: "follow the data of RTR caches",
		Calls:    []string{"HOST:PORT.. [OPTION]..", "--help | --version"},
		Help: `Asks the first cache, and while that fails the others, over the RPKI to Router
protocol (RFC 6810, RFC 8210), and prints what is announced and withdrawn.`,
		Options: words.Join(o.ofChanges(), o.ofFiles(), o.ofTLS(), o.ofSSH()),
		Operand: o.address,
	}
	if err := program.Parse(line, os.Stdout); err != nil {
		return nil, err
	}
	return o, o.check(program.Given)
}

// address parses the address of the next cache.
func (o *options) address(word string) (err error) {
	if !words.IsAddress(word) {
		return fmt.Errorf("%q isn't HOST:PORT", word)
	}
	o.addresses, err = words.Appended(o.addresses, word, func(word string) string { return word })
	return err
}

// route parses the next route to validate.
func (o *options) route(text string) error {
	parts := strings.Fields(text)
	if len(parts) != 2 {
		return fmt.Errorf("%q isn't a prefix and an AS number", text)
	}
	prefix, err := netip.ParsePrefix(parts[0])
	if err != nil {
		return fmt.Errorf("%q isn't a prefix", parts[0])
	}
	if prefix != prefix.Masked() {
		return fmt.Errorf("%q has host bits", parts[0])
	}
	if _, err := strconv.ParseUint(strings.TrimPrefix(parts[1], "AS"), 10, 32); err != nil {
		return fmt.Errorf("%q isn't an AS number", parts[1])
	}
	o.routes = append(o.routes, route{parts[0], parts[1]})
	return nil
}

// check returns an error if the options don't fit together, and finds the programs that they need.
func (o *options) check(given words.Given) (err error) {
	var withoutTLS error
	if !o.useTLS {
		withoutTLS = given.Without("--tls", "tls-ca", "tls-cert", "tls-key", "tls-name")
	}
	switch {
	case len(o.addresses) == 0:
		return errors.New("no cache given: HOST:PORT")
	case len(o.addresses) > rtr.MostMembers:
		return fmt.Errorf("more than %d caches given", rtr.MostMembers)
	}
	if err := words.FirstOf(o.tls.Check(), withoutTLS); err != nil {
		return err
	}
	switch {
	case o.useTLS && o.ssh.User != "":
		return errors.New("--tls and --ssh exclude each other")
	case o.ssh.Partial():
		return errors.New("--ssh, --ssh-key and --ssh-known-hosts need each other")
	case o.json && o.outPath != "" && len(o.routes) == 0:
		return errors.New("--json with --out needs --validate, since no changes are printed")
	}
	if o.outPath != "" {
		o.out, err = newOutFile(o.outPath)
	}
	if len(o.routes) > 0 && err == nil {
		o.validator, err = beside.Find("rtr_validate")
	}
	return err
}
