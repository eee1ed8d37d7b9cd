// Package words parses the command line of a program, and writes its help, from one table of
// options.
package words

import (
	"errors"
	"fmt"
	"io"
	"strings"
)

// Version is the version of the programs.
const Version = "0.3.0"

// Option is a word that begins with two dashes.
type Option struct {
	Name     string // without the dashes
	Argument string // the names of its arguments; "" for none
	Repeats  bool   // whether it may be given more than once, with other arguments
	Help     string // its text, in one line
	Set      func(argument string) error
}

// Join returns the options of several lists.
func Join(lists ...[]Option) []Option {
	var all []Option
	for _, list := range lists {
		all = append(all, list...)
	}
	return all
}

// Program is a program and its help.
type Program struct {
	Name     string
	Sentence string   // what it does
	Calls    []string // its usage lines
	Help     string   // a longer description, with line breaks
	Options  []Option
	// Operand takes an argument that isn't an option. It is nil if there may be none.
	Operand func(word string) error

	Given Given // set by Parse
}

// Given are the names of the options that a command line has, without the dashes.
type Given map[string]bool

// Without returns an error that names the first of these options that is given: all of them have no
// effect without what they need, which is missing.
func (g Given) Without(need string, names ...string) error {
	for _, name := range names {
		if g[name] {
			return fmt.Errorf("--%s needs %s", name, need)
		}
	}
	return nil
}

// FirstOf returns the first of these errors that isn't nil, or nil.
func FirstOf(errs ...error) error {
	for _, err := range errs {
		if err != nil {
			return err
		}
	}
	return nil
}

// Appended returns the list with another item, or an error if an item there has its name: it is
// given twice.
func Appended[Item any](list []Item, item Item, name func(Item) string) ([]Item, error) {
	for _, other := range list {
		if name(other) == name(item) {
			return list, fmt.Errorf("%s is given twice", name(item))
		}
	}
	return append(list, item), nil
}

// ErrHelp is returned for a command line that only asks for the help or the version.
var ErrHelp = errors.New("the help or the version was asked for")

// Unwritten is returned if the help or the version can't be written.
type Unwritten struct{ error }

// Parse calls each option of a command line with its argument, and sets Given. If only the help or
// the version is asked for, it writes that.
//
// Errors: ErrHelp; Unwritten; or an error that names the wrong argument.
func (p *Program) Parse(line []string, output io.Writer) error {
	if len(line) == 1 && isAlone(line[0]) {
		text := p.Name + " " + Version + "\n"
		if line[0] != "--version" {
			text = p.help()
		}
		if _, err := io.WriteString(output, text); err != nil {
			return Unwritten{err}
		}
		return ErrHelp
	}
	p.Given = Given{}
	for len(line) > 0 {
		taken, err := p.take(line)
		if err != nil {
			return err
		}
		line = line[taken:]
	}
	return nil
}

// take calls the option at the start of the arguments, and returns how many arguments it used.
func (p *Program) take(line []string) (int, error) {
	word := line[0]
	if !strings.HasPrefix(word, "-") || word == "-" {
		if p.Operand == nil {
			return 0, fmt.Errorf("%q isn't an option", word)
		}
		return 1, p.Operand(word)
	}
	name, argument, joined := strings.Cut(strings.TrimPrefix(word, "--"), "=")
	option := p.option(name)
	switch {
	case option == nil && isAlone(word):
		return 0, fmt.Errorf("%s has to stand alone", word)
	case option == nil || !strings.HasPrefix(word, "--"):
		return 0, fmt.Errorf("unknown option %q", word)
	case option.Argument == "" && joined:
		return 0, fmt.Errorf("--%s takes no argument", name)
	case joined && option.count() == 1:
		return 1, option.call(argument, p.Given)
	case joined || len(line) <= option.count():
		return 0, fmt.Errorf("--%s needs %s", name, option.Argument)
	}
	taken := 1 + option.count()
	return taken, option.call(strings.Join(line[1:taken], " "), p.Given)
}

// count returns how many arguments the option takes.
func (o *Option) count() int { return len(strings.Fields(o.Argument)) }

// option returns the option of a name.
func (p *Program) option(name string) *Option {
	for i := range p.Options {
		if p.Options[i].Name == name {
			return &p.Options[i]
		}
	}
	return nil
}

// call calls the option with its argument, unless it was given before and may not be repeated: only
// one of its arguments would count.
func (o *Option) call(argument string, given Given) error {
	err := errors.New("it is given twice")
	if o.Argument == "" || o.Repeats || !given[o.Name] {
		err = o.Set(argument)
	}
	given[o.Name] = true
	if err != nil {
		return fmt.Errorf("--%s: %w", o.Name, err)
	}
	return nil
}

// help returns the text of --help.
func (p *Program) help() string {
	var text strings.Builder
	fmt.Fprintf(&text, "%s - %s\n\nUsage:\n", p.Name, p.Sentence)
	for _, call := range p.Calls {
		fmt.Fprintf(&text, "  %s %s\n", p.Name, call)
	}
	fmt.Fprintf(&text, "\n%s\n\nOptions:\n", p.Help)
	width, all := 0, append(p.Options[:len(p.Options):len(p.Options)], alone...)
	for _, option := range all {
		if size := len(option.words()); size > width {
			width = size
		}
	}
	for _, option := range all {
		word := option.words()
		for _, line := range wrapped(option.Help, columns-width-4) {
			fmt.Fprintf(&text, "  %-*s  %s\n", width, word, line)
			word = ""
		}
	}
	return text.String() + "\nExamples are in the man page: man " + p.Name + "\n"
}

// columns is the width of a terminal, which no line of the help exceeds.
const columns = 80

// wrapped breaks a text into lines of at most this width.
func wrapped(text string, width int) []string {
	var lines []string
	for _, word := range strings.Fields(text) {
		last := len(lines) - 1
		if last >= 0 && len(lines[last])+1+len(word) <= width {
			lines[last] += " " + word
		} else {
			lines = append(lines, word)
		}
	}
	return lines
}

// alone returns the options that are used alone.
var alone = []Option{
	{Name: "help", Help: "Print this help and exit; also -h"},
	{Name: "version", Help: "Print the version and exit, if it stands alone"},
}

// isAlone reports whether a word asks for the help or the version if it stands alone.
func isAlone(word string) bool {
	return word == "--help" || word == "-h" || word == "--version"
}

// words returns the option and its arguments.
func (o *Option) words() string {
	return strings.TrimRight("--"+o.Name+" "+o.Argument, " ")
}
