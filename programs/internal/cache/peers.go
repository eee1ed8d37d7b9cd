package cache

import (
	"bytes"
	"errors"
	"time"

	"github.com/sirupsen/logrus"

	"fishreef/programs/internal/clients"
	"fishreef/programs/internal/logs"
	"fishreef/programs/internal/metrics"
	"fishreef/programs/internal/transport"
	"fishreef/rtr"
)

// observer observes the connections of routers.
type observer struct {
	*metrics.Metrics
	clients *clients.Clients
	lines   *logs.Lines
}

// Came logs the queries of a router: the first at info, later ones at debug.
func (o observer) Came(peer *transport.Peer, unit *rtr.Unit) {
	first, query := o.clients.Came(peer, unit)
	if !query {
		return
	}
	level := logrus.DebugLevel
	if first {
		level = logrus.InfoLevel
	}
	if unit.Kind == rtr.ResetQuery {
		lineOf(o.lines, level, "reset query", peer).
			Text("transport", string(peer.Kind)).Number("version", int64(unit.Version)).Write()
		return
	}
	lineOf(o.lines, level, "serial query", peer).
		Number("serial", int64(unit.Serial)).Number("session", int64(unit.Session)).
		Text("transport", string(peer.Kind)).Number("version", int64(unit.Version)).Write()
}

// lineOf begins a line about a router.
func lineOf(
	lines *logs.Lines, level logrus.Level, message string, peer *transport.Peer,
) *logs.Line {
	return lines.Begin(level, message).Text("client", peer.String())
}

// fieldOf returns the value of a field of a message of the server.
func fieldOf[T any](fields []any, name string) (value T) {
	for i := 0; i+1 < len(fields); i += 2 {
		if fields[i] == name {
			value, _ = fields[i+1].(T)
		}
	}
	return value
}

// logClient logs the server's messages about its clients. Lines that the level leaves out aren't
// made, and the others aren't made by logrus: with ten thousand routers that took a quarter of the
// processor time. A router that connects is logged at info once it asks.
func (c *Cache) logClient(_ rtr.Level, message string, fields ...any) {
	peer := fieldOf[*transport.Peer](fields, "client")
	if peer == nil {
		return
	}
	switch message {
	case "connected":
		c.clients.Connected(peer)
		lineOf(c.lines, logrus.DebugLevel, message, peer).
			Text("transport", string(peer.Kind)).Write()
	case "answers":
		if line := lineOf(c.lines, logrus.DebugLevel, message, peer); line != nil {
			line.Text("transport", string(peer.Kind)).
				Text("unit", fieldOf[rtr.Kind](fields, "unit").String()).
				Number("version", int64(fieldOf[uint8](fields, "version"))).Write()
		}
	case "answered":
		has := clients.Serial{
			Session: fieldOf[uint16](fields, "session"), Serial: fieldOf[uint32](fields, "serial"),
		}
		c.clients.Answered(peer, has)
		lineOf(c.lines, logrus.DebugLevel, message, peer).
			Number("serial", int64(has.Serial)).Number("session", int64(has.Session)).
			Text("transport", string(peer.Kind)).Write()
	case "ended":
		c.ended(peer, fieldOf[error](fields, "error"))
	}
}

// ended logs that a router left, with the reason.
func (c *Cache) ended(peer *transport.Peer, err error) {
	client := c.clients.Left(peer)
	reason := ""
	level, text := logrus.InfoLevel, "left"
	switch {
	case err == nil:
	case errors.Is(err, rtr.ErrServerClosed):
		level, text = logrus.DebugLevel, "left: the cache ends"
	default:
		reason = reasonOf(err)
		c.metrics.Ended(reason)
		text += ": " + plainText(err) + looksLike(err)
		if !c.isUsual(reason, err, &client) {
			level = logrus.WarnLevel
		}
	}
	line := lineOf(c.lines, level, text, peer)
	if line == nil {
		return
	}
	line.Text("lasted", time.Since(client.Since).Round(time.Millisecond).String())
	if reason != "" {
		line.Text("reason", reason)
	}
	line.Number("received", client.Received).Number("sent", client.Sent)
	if client.Has != nil {
		line.Number("serial", int64(client.Has.Serial))
		line.Number("session", int64(client.Has.Session))
	}
	line.Text("transport", string(peer.Kind))
	if client.Version != nil {
		line.Number("version", int64(*client.Version))
	}
	line.Write()
}

// isUsual reports whether the end of a connection is normal: the network or the router ended it, or
// the router has data of another session and reports corrupt data (RFC 8210 section 5.1), as after
// a restart without the state.
func (c *Cache) isUsual(reason string, err error, client *clients.Client) bool {
	var report *rtr.Reported
	if errors.As(err, &report) && report.Code == rtr.CorruptData {
		return client.Queries == 0 || client.Has != nil && client.Behind == nil
	}
	return reason == lost || reason == "session" || reason == "unknown"
}

// strangers are the first bytes of other protocols, with an advice for each.
var strangers = []struct{ begins, advice string }{
	{"GET ", http}, {"HEAD ", http}, {"POST ", http}, {"PUT ", http}, {"DELETE ", http},
	{"OPTIONS ", http}, {"CONNECT ", http}, {"PRI * HT", http}, // the last one is HTTP/2
	{"SSH-", "; it speaks SSH: --listen ssh: is for that"},
	{"\x16\x03", "; it speaks TLS: --listen tls: is for that"},
}

// http is the advice for a client that speaks HTTP.
const http = "; it speaks HTTP: --metrics is for that"

// looksLike returns the advice for a client that speaks another protocol, if that can be
// recognised.
func looksLike(err error) string {
	var fault *rtr.Fault
	var breach *rtr.Breach
	var unit []byte
	switch {
	case errors.As(err, &fault) && fault.Offset == 0:
		unit = fault.Unit
	case errors.As(err, &breach):
		unit = breach.Unit
	}
	for _, stranger := range strangers {
		if bytes.HasPrefix(unit, []byte(stranger.begins)) {
			return stranger.advice
		}
	}
	return ""
}
