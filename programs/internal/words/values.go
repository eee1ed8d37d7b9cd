package words

import (
	"errors"
	"fmt"
	"math"
	"net"
	"regexp"
	"strconv"
	"time"
)

// Number returns a number with a noun, in the plural unless it is 1.
func Number(count int, name string) string {
	if count != 1 {
		name += "s"
	}
	return fmt.Sprintf("%d %s", count, name)
}

// Are returns the verb for this many things.
func Are(count int) string {
	if count == 1 {
		return "is"
	}
	return "are"
}

// Text is an option whose argument is any text but the empty one.
func Text(to *string) func(string) error {
	return func(argument string) error {
		if argument == "" {
			return errors.New("it is empty")
		}
		*to = argument
		return nil
	}
}

// Yes is an option without an argument.
func Yes(to *bool) func(string) error {
	return func(string) error {
		*to = true
		return nil
	}
}

// Address is an option whose argument is ADDRESS:PORT.
func Address(to *string) func(string) error {
	return func(argument string) error {
		if !IsAddress(argument) {
			return fmt.Errorf("%q isn't ADDRESS:PORT", argument)
		}
		return Text(to)(argument)
	}
}

// The name of a service (RFC 6335 section 5.1), which has a letter.
var service = regexp.MustCompile(`^[A-Za-z0-9-]*[A-Za-z][A-Za-z0-9-]*$`)

// IsAddress reports whether a text is a host or an address, a colon, and the number of a port or
// the name of a service, which the system may not know.
func IsAddress(text string) bool {
	_, port, err := net.SplitHostPort(text)
	if err != nil {
		return false
	}
	_, err = strconv.ParseUint(port, 10, 16)
	return err == nil || service.MatchString(port)
}

// Seconds is an option whose argument is a number of seconds of a unit of the protocol.
func Seconds(to *uint32) func(string) error {
	return func(argument string) error {
		number, err := strconv.ParseUint(argument, 10, 32)
		if err != nil {
			return fmt.Errorf("%q isn't a number of seconds up to %d", argument, math.MaxUint32)
		}
		*to = uint32(number)
		return nil
	}
}

// Count is an option whose argument is a number, at least the given one.
func Count(to *int, least int) func(string) error {
	return func(argument string) error {
		number, err := strconv.ParseInt(argument, 10, 32)
		if err != nil || int(number) < least {
			return fmt.Errorf("%q isn't a number from %d to %d", argument, least, math.MaxInt32)
		}
		*to = int(number)
		return nil
	}
}

// Wait is an option whose argument is a duration such as 10s or 5m, at least the given one.
func Wait(to *time.Duration, least time.Duration) func(string) error {
	return func(argument string) error {
		wait, err := time.ParseDuration(argument)
		if err != nil || wait < least {
			return fmt.Errorf("%q isn't a time of at least %v with a unit, such as 30s or 5m",
				argument, least)
		}
		*to = wait
		return nil
	}
}
