package main

import (
	"io"
	"os"
	"strings"
)

// colours are the colours of lines, by their first sign.
type colours map[string]string

// The escape sequences for announcements and withdrawals, and the one that resets the colour
// (ECMA-48, SGR).
const (
	green = "\x1b[32m"
	red   = "\x1b[31m"
	plain = "\x1b[0m"
)

// coloursOf returns the colours of an output: none unless it is a terminal, and none if the
// environment has NO_COLOR (no-color.org) or a terminal without colours.
func coloursOf(output io.Writer) colours {
	file, ok := output.(*os.File)
	if !ok || !isTerminal(file) || os.Getenv("NO_COLOR") != "" || os.Getenv("TERM") == "dumb" {
		return nil
	}
	return colours{"+": green, "-": red}
}

// of returns a line in its colour.
func (c colours) of(line string) string {
	for sign, colour := range c {
		if strings.HasPrefix(line, sign) {
			return colour + line + plain
		}
	}
	return line
}

// isTerminal reports whether a file is a terminal.
func isTerminal(file *os.File) bool {
	info, err := file.Stat()
	return err == nil && info.Mode()&os.ModeCharDevice != 0
}
