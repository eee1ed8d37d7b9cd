package payloads

import (
	"errors"
	"fmt"
	"strconv"
	"strings"

	"fishreef/programs/internal/beside"
	"fishreef/programs/internal/words"
)

// Check returns an error if an option has no effect on any of the files, or there are SLURM files
// and a file that they can't filter. It finds rtr_make, if a file needs it.
func (r *Reader) Check(given words.Given, files ...File) (err error) {
	has := map[Format]bool{}
	for _, file := range files {
		has[file.Format] = true
		switch {
		case file.Format == Sequence && len(r.Slurm) != 0:
			return errors.New("--slurm filters the lists of validators, and no units (sequence)")
		case file.Format == Sequence || r.Maker != "":
		default:
			if r.Maker, err = beside.Find("rtr_make"); err != nil {
				return err
			}
		}
	}
	switch {
	case len(files) == 0:
		return given.Without("a list", "ignore", "slurm", "empty")
	case !has[JSON]:
		return given.Without("a list of JSON", "ignore")
	}
	return nil
}

// Versions returns the versions of the protocol as the argument of an option: 0|1|2.
func Versions() string {
	var all []string
	for version := uint8(0); version <= Version; version++ {
		all = append(all, strconv.Itoa(int(version)))
	}
	return strings.Join(all, "|")
}

// Protocol is an option whose argument is a version of the protocol, at most Version.
func Protocol(to *uint8) func(string) error {
	return func(argument string) error {
		version, err := strconv.ParseUint(argument, 10, 8)
		if err != nil || version > uint64(Version) {
			return fmt.Errorf("%q isn't a version: %s", argument, Versions())
		}
		*to = uint8(version)
		return nil
	}
}

// Options returns the options for the content of files.
func (r *Reader) Options() []words.Option {
	return []words.Option{
		{
			Name: "ignore", Argument: "NAME", Repeats: true,
			Help: "Ignore what the JSON has under this name",
			Set: func(name string) error {
				r.Ignored = append(r.Ignored, name)
				return nil
			},
		},
		{
			Name: "slurm", Argument: "FILE", Repeats: true,
			Help: "Filter payloads, and add others, by this SLURM file (RFC 8416); " +
				"several must not overlap",
			Set: func(path string) error {
				if path == "" {
					return errors.New("it is empty")
				}
				r.Slurm = append(r.Slurm, path)
				return nil
			},
		},
		{
			Name: "empty",
			Help: "Accept a file without payloads",
			Set:  words.Yes(&r.Empty),
		},
	}
}
