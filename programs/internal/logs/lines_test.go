package logs_test

import (
	"bytes"
	"regexp"
	"strconv"
	"sync"
	"testing"

	"github.com/sirupsen/logrus"

	"fishreef/programs/internal/logs"
)

// clock matches the time in a line of text or JSON.
var clock = regexp.MustCompile(`"[0-9]{4}-[0-9]{2}-[0-9]{2}T[0-9:]{8}(Z|[-+][0-9:]{5})"`)

// written returns what a logger at level info writes, with another text in place of each time.
func written(json bool, write func(log *logrus.Logger)) string {
	var out bytes.Buffer
	log := logs.Logging{JSON: json, Level: logrus.InfoLevel}.Logger()
	log.SetOutput(&out)
	write(log)
	return clock.ReplaceAllString(out.String(), "TIME")
}

// A line is the same as logrus writes it, as text and as JSON, also if its level isn't written.
func TestLinesAsLogrus(t *testing.T) {
	for _, text := range []string{
		"left", "reset query", "192.0.2.1:323", "[2001:db8::1%eth0]:323", "", "a=b", `"`, "\n\x00", "é",
		"\xff",
		"-._/@^+", "left: a@b/c", "0", "\u2028",
	} {
		for _, level := range []logrus.Level{logrus.DebugLevel, logrus.InfoLevel, logrus.WarnLevel} {
			for _, json := range []bool{false, true} {
				want := written(json, func(log *logrus.Logger) {
					log.WithFields(logrus.Fields{"client": text, "sent": 0, "since": -7}).Log(level, "m "+text)
				})
				got := written(json, func(log *logrus.Logger) {
					line := logs.NewLines(log).Begin(level, "m "+text)
					line.Text("client", text).Number("sent", 0).Number("since", -7).Write()
				})
				if got != want {
					t.Errorf("%q at %v: %q, want %q", text, level, got, want)
				}
			}
		}
	}
}

// Lines of several goroutines, and other lines of the logger, stay whole.
func TestLinesStayWhole(t *testing.T) {
	const writers, each = 8, 200
	all := written(false, func(log *logrus.Logger) {
		lines := logs.NewLines(log)
		var running sync.WaitGroup
		for i := 0; i < writers; i++ {
			running.Add(1)
			go func(i int) {
				defer running.Done()
				for j := 0; j < each; j++ {
					lines.Begin(logrus.InfoLevel, "line").Number("writer", int64(i)).Write()
					log.Info("other")
				}
			}(i)
		}
		running.Wait()
	})
	for i := 0; i < writers; i++ {
		line := "time=TIME level=info msg=line writer=" + strconv.Itoa(i) + "\n"
		if count := bytes.Count([]byte(all), []byte(line)); count != each {
			t.Errorf("%d of %q", count, line)
		}
	}
	line := []byte("time=TIME level=info msg=other\n")
	if count := bytes.Count([]byte(all), line); count != writers*each {
		t.Errorf("%d other lines", count)
	}
}
