//go:build cgo && linux

package rtr

import (
	"fmt"
	"net"
	"strings"
	"sync"
	"testing"
	"time"
)

// lines collects the lines of a log.
type lines struct {
	lock sync.Mutex
	all  []string
}

// log is a Log that collects lines, without addresses.
func (l *lines) log(level Level, message string, fields ...any) {
	line := fmt.Sprintf("%d %s", level, message)
	for i := 0; i+1 < len(fields); i += 2 {
		if _, isAddress := fields[i+1].(net.Addr); !isAddress && fields[i] != "cache" {
			line += fmt.Sprintf(" %v=%v", fields[i], fields[i+1])
		}
	}
	l.lock.Lock()
	defer l.lock.Unlock()
	l.all = append(l.all, line)
}

// text returns the collected lines.
func (l *lines) text() string {
	l.lock.Lock()
	defer l.lock.Unlock()
	return strings.Join(l.all, "\n")
}

// has waits until these lines were collected, and no others.
func (l *lines) has(t *testing.T, all ...string) {
	t.Helper()
	expected := strings.Join(all, "\n")
	for end := time.Now().Add(patience); l.text() != expected; time.Sleep(time.Millisecond) {
		if time.Now().After(end) {
			t.Fatalf("%s\n\nbut expected are\n\n%s", l.text(), expected)
		}
	}
}

// Both ends log what they do, each line with its fields.
func TestLog(t *testing.T) {
	noLeaks(t)
	var ours, theirs lines
	server := NewServer()
	server.Log = theirs.log
	for serial := uint32(1); serial < 3; serial++ {
		if err := server.Update(parsed(t, join(ipv4, ending(1, 7, serial)))); err != nil {
			t.Fatal(err)
		}
	}
	listener := listen(t, "127.0.0.1:0")
	done := make(chan error, 1)
	go func() { done <- server.Serve(listener) }()
	client := quick(listener.Addr().String())
	client.Version, client.Log = 1, ours.log
	follow(t, client, func(Update) bool { return true })
	ours.has(t, "-4 connected", "-4 asks query=reset query version=1",
		"0 data session=7 serial=2 version=1 payloads=1")
	theirs.has(t, "0 data session=7 serial=1 version=1 payloads=1",
		"0 data session=7 serial=2 version=1 payloads=1", "0 listening", "-4 connected",
		"-4 answers unit=cache response version=1", "-4 answered session=7 serial=2",
		"0 ended error=<nil>")
	server.Close()
	<-done
}

// Failures and dropped data are logged.
func TestLogOfFailures(t *testing.T) {
	noLeaks(t)
	var ours lines
	client := quick(fakeCache(t,
		play(t, nil, scene{reset1, join(full(7, 1, ipv4), numbered(1, 0, 8, 1))}),
		play(t, nil, scene{reset1, full(8, 3)})))
	client.Version, client.Log = 1, ours.log
	follow(t, client, func(update Update) bool { return update.Data.Serial() == 3 })
	ours.has(t, "-4 connected", "-4 asks query=reset query version=1",
		"0 data session=7 serial=1 version=1 payloads=1",
		"4 data dropped session=7 serial=1 version=1 payloads=1",
		"4 failed error=rtr: unit of another session",
		"-4 connected", "-4 asks query=reset query version=1",
		"0 data session=8 serial=3 version=1 payloads=0")
}
