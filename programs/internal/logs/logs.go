// Package logs writes the log lines of programs on standard error, and has their options.
package logs

import (
	"fmt"

	"github.com/sirupsen/logrus"

	"fishreef/programs/internal/words"
)

// Logging is the level and format of a program's log.
type Logging struct {
	JSON  bool
	Level logrus.Level
}

// Usual logs at info and above, as text.
func Usual() Logging { return Logging{Level: logrus.InfoLevel} }

// Options returns the options for the log.
func (l *Logging) Options() []words.Option {
	return []words.Option{
		{
			Name: "log-json",
			Help: "Write log lines as JSON",
			Set:  words.Yes(&l.JSON),
		},
		{
			Name: "log-level", Argument: "LEVEL",
			Help: "Log lines of this level and above: debug, info, warning or " +
				"error (default info)",
			Set: l.setLevel,
		},
	}
}

// setLevel sets the level by its name. The levels above error would hide why a program ends.
func (l *Logging) setLevel(name string) error {
	switch name {
	case "debug", "info", "warning", "error":
		level, err := logrus.ParseLevel(name)
		l.Level = level
		return err
	}
	return fmt.Errorf("%q is none of debug, info, warning and error", name)
}

// Logger writes lines on standard error.
func (l Logging) Logger() *logrus.Logger {
	log := logrus.New()
	log.SetLevel(l.Level)
	log.SetFormatter(&logrus.TextFormatter{DisableColors: true, FullTimestamp: true})
	if l.JSON {
		log.SetFormatter(&logrus.JSONFormatter{})
	}
	return log
}
