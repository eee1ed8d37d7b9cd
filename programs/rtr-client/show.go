package main

import (
	"bufio"
	"bytes"
	"context"
	"errors"
	"fmt"
	"io"
	"strings"

	"fishreef/programs/internal/words"
	"fishreef/rtr"
)

// errEnough ends the program successfully.
var errEnough = errors.New("enough")

// show handles the data and the failures of the caches, by the options.
type show struct {
	options  *options
	ctx      context.Context
	counts   *counts
	output   io.Writer
	colours  colours
	progress *progress
	printed  map[route]string // the last printed validity of each route
	failed   map[*rtr.Client]bool
}

// Failed prints why a connection ended. With --once it ends the program once all caches have
// failed.
func (s *show) Failed(source rtr.Source, err error) error {
	s.progress.clear()
	s.counts.failed(source.Name)
	s.say(source.Name+":", strings.ReplaceAll(err.Error(), "rtr: ", ""))
	if s.failed == nil {
		s.failed = make(map[*rtr.Client]bool)
	}
	s.failed[source.Client] = true
	if s.options.once && len(s.failed) == len(s.options.addresses) {
		return errors.New("there are no data")
	}
	return nil
}

// Data shows new data.
func (s *show) Data(source rtr.Source, update rtr.Update) error {
	s.progress.clear()
	s.counts.changed(update)
	data := update.Data
	stamp := stampOf(source.Name, data)
	if data.IsZero() {
		s.say(source.Name + ": there are no data any more")
	} else {
		s.say(fmt.Sprintf("%s: session %d serial %d version %d: %s", source.Name,
			data.Session(), data.Serial(), data.Version(), words.Number(data.Len(), "payload")))
	}
	var err error
	switch {
	case len(s.options.routes) > 0:
		err = s.validate(data, stamp)
	case s.options.out == nil:
		err = s.print(update.Changes(), stamp)
	}
	if err == nil && s.options.out != nil {
		err = s.keep(source, data)
	}
	if err == nil && s.options.once {
		err = errEnough
	}
	return err
}

// say prints a line on standard error, with the time if asked for.
func (s *show) say(what ...any) {
	if s.options.times {
		what = append([]any{now()}, what...)
	}
	say(what...)
}

// print prints changes.
func (s *show) print(changes *rtr.Units, stamp stamp) error {
	output := bufio.NewWriter(s.output)
	var text []byte
	for changes.Scan() {
		var line string
		if s.options.json {
			text = changes.AppendJSON(text[:0])
			line = string(text)
		} else {
			text = changes.AppendLine(text[:0])
			line = s.colours.of(string(text))
		}
		output.WriteString(s.stamped(line, stamp))
		output.WriteByte('\n')
	}
	return output.Flush()
}

// stamped returns a line or an object of the output, with its stamp if asked for.
func (s *show) stamped(line string, stamp stamp) string {
	switch {
	case s.options.json:
		return stamp.json() + strings.TrimPrefix(line, "{")
	case s.options.times:
		return stamp.text() + line
	}
	return line
}

// keep writes data into the file, or removes it if there are none any more (RFC 8210 section 6).
func (s *show) keep(source rtr.Source, data rtr.Data) error {
	out := s.options.out
	if data.IsZero() {
		removed, err := out.drop()
		if removed && err == nil {
			s.say(source.Name + ": " + out.path + " is removed")
		}
		return err
	}
	lacking, err := out.keep(s.ctx, data)
	if err == nil && lacking != "" {
		s.say(out.path + ": " + lacking)
	}
	return err
}

// validate prints the validity of each route whose validity changed.
func (s *show) validate(data rtr.Data, stamp stamp) error {
	if s.printed == nil {
		s.printed = map[route]string{}
	}
	if data.IsZero() {
		return nil
	}
	for _, route := range s.options.routes {
		line := []string{"-", route.prefix, route.asn}
		if s.options.json {
			line = append([]string{"--json"}, line...)
		}
		text, _, err := s.options.validator.Run(s.ctx, bytes.NewReader(data.Bytes()), line...)
		if err != nil {
			return err
		}
		if s.printed[route] == string(text) {
			continue
		}
		s.printed[route] = string(text)
		for _, line := range strings.SplitAfter(strings.TrimSuffix(string(text), "\n"), "\n") {
			if _, err := io.WriteString(s.output, s.stamped(line, stamp)); err != nil {
				return err
			}
		}
		if _, err := io.WriteString(s.output, "\n"); err != nil {
			return err
		}
	}
	return nil
}
