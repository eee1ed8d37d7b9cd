package logs

import (
	"io"
	"strconv"
	"sync"
	"sync/atomic"
	"time"

	"github.com/sirupsen/logrus"
)

// Lines writes the same lines as the logger; as text in a tenth of the time, since a cache with
// many routers logs many: it needs no map, keeps its memory, and formats the time once a second.
// Safe for concurrent use.
type Lines struct {
	log    *logrus.Logger
	isText bool
	stamp  atomic.Pointer[stamp]
	unused sync.Pool

	lock sync.Mutex
	out  io.Writer // of the logger
}

// stamp is the text of the time in a second.
type stamp struct {
	second int64
	text   string
}

// Line is a line that isn't written yet. A nil one has a level that isn't written.
type Line struct {
	lines   *Lines
	level   logrus.Level
	message string
	text    []byte
	fields  logrus.Fields // if the line isn't text
}

// NewLines returns the lines of a logger, which then writes its other lines through them.
func NewLines(log *logrus.Logger) *Lines {
	_, isText := log.Formatter.(*logrus.TextFormatter)
	l := &Lines{log: log, isText: isText, out: log.Out}
	l.unused.New = func() any { return &Line{lines: l} }
	log.SetOutput(l)
	return l
}

// Write writes a whole line of the logger.
func (l *Lines) Write(line []byte) (int, error) {
	l.lock.Lock()
	defer l.lock.Unlock()
	return l.out.Write(line)
}

// Begin begins a line; it returns nil if the level isn't written. The fields follow in the order of
// their names.
func (l *Lines) Begin(level logrus.Level, message string) *Line {
	if !l.log.IsLevelEnabled(level) {
		return nil
	}
	line := l.unused.Get().(*Line)
	line.level, line.message = level, message
	if !l.isText {
		line.fields = logrus.Fields{}
		return line
	}
	line.text = append(append(line.text[:0], "time="...), l.time(time.Now())...)
	line.Text("level", level.String())
	line.Text("msg", message)
	return line
}

// time returns a time as logrus formats it.
func (l *Lines) time(now time.Time) string {
	second := now.Unix()
	last := l.stamp.Load()
	if last == nil || last.second != second {
		last = &stamp{second, strconv.Quote(now.Format(time.RFC3339))}
		l.stamp.Store(last)
	}
	return last.text
}

// Text adds the field of a text.
func (line *Line) Text(name, text string) *Line {
	switch {
	case line == nil:
	case line.fields != nil:
		line.fields[name] = text
	default:
		line.text = appendText(line.named(name), text)
	}
	return line
}

// Number adds the field of a number.
func (line *Line) Number(name string, number int64) *Line {
	switch {
	case line == nil:
	case line.fields != nil:
		line.fields[name] = number
	default:
		line.text = strconv.AppendInt(line.named(name), number, 10)
	}
	return line
}

// named returns the text with the name of the next field.
func (line *Line) named(name string) []byte {
	return append(append(append(line.text, ' '), name...), '=')
}

// Write writes the line; it must not be used again.
func (line *Line) Write() {
	if line == nil {
		return
	}
	if line.fields != nil {
		line.lines.log.WithFields(line.fields).Log(line.level, line.message)
		line.fields = nil
	} else {
		line.text = append(line.text, '\n')
		line.lines.Write(line.text)
	}
	line.lines.unused.Put(line)
}

// appendText appends a text as logrus does: in quotes if it has other characters than those of a
// word.
func appendText(line []byte, text string) []byte {
	for i := 0; i < len(text); i++ {
		if !isPlain(text[i]) {
			return strconv.AppendQuote(line, text)
		}
	}
	return append(line, text...)
}

// isPlain reports whether logrus writes a byte without quotes.
func isPlain(b byte) bool {
	switch {
	case 'a' <= b && b <= 'z', 'A' <= b && b <= 'Z', '0' <= b && b <= '9':
		return true
	}
	switch b {
	case '-', '.', '_', '/', '@', '^', '+':
		return true
	}
	return false
}
