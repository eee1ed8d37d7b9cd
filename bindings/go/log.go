//go:build cgo && linux

package rtr

// Level is the level of a log line. The numbers are those of slog.Level.
type Level int

// The levels.
const (
	LevelDebug Level = -4
	LevelInfo  Level = 0
	LevelWarn  Level = 4
)

// Log writes a log line: a message, and alternating names and values, as log/slog has them in newer
// versions of Go:
//
//	client.Log = func(level rtr.Level, message string, fields ...any) {
//		slog.Log(ctx, slog.Level(level), message, fields...)
//	}
type Log func(level Level, message string, fields ...any)

// write logs a line, if there is a log.
func (l Log) write(level Level, message string, fields ...any) {
	if l != nil {
		l(level, message, fields...)
	}
}

// logs logs a line about the cache.
func (f *follower) logs(level Level, message string, fields ...any) {
	f.log.write(level, message, append([]any{"cache", f.cache}, fields...)...)
}

// logs logs a line about the client.
func (c *served) logs(level Level, message string, fields ...any) {
	if c.server.Log != nil {
		c.server.Log(level, message, append([]any{"client", c.connection.RemoteAddr()}, fields...)...)
	}
}

// fields returns the fields of a line about the data.
func (d Data) fields() []any {
	return []any{
		"session", d.Session(), "serial", d.Serial(), "version", d.Version(), "payloads", d.Len(),
	}
}
