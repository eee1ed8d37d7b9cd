package cache

import (
	"errors"
	"strings"

	"fishreef/rtr"
)

// lost is the reason of connections that the network or the client ended.
const lost = "lost"

// reasonOf returns the reason why a connection ended in one word, as in metrics.
func reasonOf(err error) string {
	switch {
	case errors.As(err, new(*rtr.Fault)):
		return "unit"
	case errors.As(err, new(*rtr.Breach)):
		return "rule"
	case errors.As(err, new(*rtr.Reported)):
		return "reported"
	case errors.Is(err, rtr.ErrTooSlow):
		return "slow"
	case errors.Is(err, rtr.ErrManyClients):
		return "full"
	case errors.Is(err, rtr.ErrSessionEnded):
		return "session"
	case errors.Is(err, rtr.ErrUnknownData):
		return "unknown"
	case errors.Is(err, rtr.ErrBehind):
		return "behind"
	}
	return lost
}

// plainText returns the text of an error in one line, without the library's name.
func plainText(err error) string {
	text := strings.ReplaceAll(err.Error(), "rtr: ", "")
	return strings.ReplaceAll(text, "\n", "; ")
}
