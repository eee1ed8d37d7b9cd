package words

import (
	"errors"
	"net"
	"os"
	"os/exec"
	"syscall"
)

// Status is the exit status of a program.
type Status int

// The exit statuses of all programs, as on their man pages.
const (
	Well    Status = 0
	Refused Status = 1 // the input is at fault, or the data didn't come
	Usage   Status = 2 // the arguments are wrong
	Failed  Status = 3 // a file, an address or another resource of the system isn't available
)

// Misuse is the error of arguments that don't fit what the program finds when it starts.
type Misuse string

// Error returns the text.
func (m Misuse) Error() string { return string(m) }

// StatusOfLine returns the exit status for an error of a command line.
func StatusOfLine(err error) Status {
	if errors.As(err, new(Unwritten)) {
		return Failed
	}
	return Usage
}

// StatusOf returns the exit status for an error. The status of a program that it ran is passed on.
func StatusOf(err error) Status {
	var other *exec.ExitError
	switch {
	case errors.As(err, new(Misuse)):
		return Usage
	case errors.As(err, &other) && Status(other.ExitCode()) == Failed:
		return Failed
	case errors.As(err, new(syscall.Errno)), errors.As(err, new(*net.DNSError)),
		errors.As(err, new(*net.AddrError)), errors.As(err, new(*os.PathError)):
		return Failed
	}
	return Refused
}
