package main

import (
	"errors"
	"fmt"
	"os"
	"strconv"

	"fishreef/programs/internal/beside"
	"fishreef/programs/internal/words"
)

// options is the content of the command line.
type options struct {
	capture string
	port    string
	only    string   // the number of a connection; "" for all
	form    []string // the option of rtr_list
	raw     bool

	lister, tshark beside.Program
}

// arguments parses a command line.
func arguments(line []string) (*options, error) {
	o := &options{port: "323"}
	program := words.Program{
		Name:     "rtr-pcap",
		Sentence: "list the RTR sessions of a packet capture",
		Calls:    []string{"FILE [OPTION]..", "--help | --version"},
		Help: `Lists the units (PDUs) of each connection of a pcap or pcapng file, of both
sides in the order in which they came, and says which bytes are missing. tshark
reads the packets, and rtr_list lists the units.`,
		Options: words.Join(o.ofConnections(), o.ofForms()),
		Operand: o.file,
	}
	if err := program.Parse(line, os.Stdout); err != nil {
		return nil, err
	}
	return o, o.check()
}

// ofConnections returns the options for connections.
func (o *options) ofConnections() []words.Option {
	return []words.Option{
		{
			Name: "port", Argument: "PORT",
			Help: "Read connections of this port of the cache (default 323)",
			Set:  number("port", &o.port, 1, 65535),
		},
		{
			Name: "connection", Argument: "N",
			Help: "Read only the connection with this number of tshark",
			Set:  number("connection", &o.only, 0, 1<<31-1),
		},
	}
}

// ofForms returns the options for output formats.
func (o *options) ofForms() []words.Option {
	optionList := []words.Option{{
		Name: "raw",
		Help: "Write the raw units, for the other programs",
		Set:  words.Yes(&o.raw),
	}}
	for _, name := range []string{"json", "check", "csv", "vrps"} {
		word := "--" + name
		optionList = append(optionList, words.Option{
			Name: name,
			Help: "List as rtr_list " + word,
			Set: func(string) error {
				o.form = append(o.form, word)
				return nil
			},
		})
	}
	return optionList
}

// number returns an option whose argument is a number in this range.
func number(name string, to *string, least, most int) func(string) error {
	return func(argument string) error {
		value, err := strconv.Atoi(argument)
		if err != nil || value < least || value > most {
			return fmt.Errorf("%q isn't a %s", argument, name)
		}
		*to = strconv.Itoa(value)
		return nil
	}
}

// file sets the capture.
func (o *options) file(word string) error {
	if o.capture != "" {
		return errors.New("more than one FILE given")
	}
	o.capture = word
	return nil
}

// check returns an error if the options don't fit together, and finds the programs that they need.
func (o *options) check() (err error) {
	switch {
	case o.capture == "":
		return errors.New("no FILE given")
	case len(o.form) > 1, o.raw && len(o.form) > 0:
		return errors.New("more than one output format given")
	}
	if !o.raw {
		o.lister, err = beside.Find("rtr_list")
	}
	if err == nil {
		o.tshark, err = beside.Find("tshark")
	}
	return err
}
