//go:build cgo && linux

package rtr

import (
	"bytes"
	"context"
	"errors"
	"fmt"
	"io"
	"math/rand"
	"net"
	"runtime"
	"sync"
	"syscall"
	"testing"
	"time"
)

// The ways in which a peer stops.
var stops = map[string]func(*net.TCPConn){
	"closes": func(connection *net.TCPConn) { connection.Close() },
	"resets": func(connection *net.TCPConn) {
		connection.SetLinger(0)
		connection.Close()
	},
	"stalls": func(connection *net.TCPConn) { io.Copy(io.Discard, connection) },
}

// isNamed reports whether an error is one of the documented reasons for ending a connection.
func isNamed(err error) bool {
	var fault *Fault
	var breach *Breach
	return errors.As(err, &fault) || errors.As(err, &breach) || errors.Is(err, ErrClosed) ||
		errors.Is(err, ErrTooSlow) || errors.Is(err, syscall.ECONNRESET) ||
		errors.Is(err, syscall.EPIPE) || errors.Is(err, net.ErrClosed)
}

// eachAtOnce calls a function with all numbers below n, some concurrently.
func eachAtOnce(n int, call func(int)) {
	var running sync.WaitGroup
	numbers := make(chan int)
	for i := 0; i < 32; i++ {
		running.Add(1)
		go func() {
			defer running.Done()
			for number := range numbers {
				call(number)
			}
		}()
	}
	for i := 0; i < n; i++ {
		numbers <- i
	}
	close(numbers)
	running.Wait()
}

// A cache stops at each byte of a session in turn: the client reports why it ended the connection,
// and its data are always those of the cache at one serial number.
func TestCacheStopsAtEachByte(t *testing.T) {
	noLeaks(t)
	random := rand.New(rand.NewSource(9))
	old, new := someRecords(random, 8), someRecords(random, 8)
	first := join(response(2, 0x1234), old.canonical(2, 1), numbered(2, 0, 0x1234, 2))
	changes := append(old.leadingTo(new, 2), ending(2, 0x1234, 2))
	second := append(response(2, 0x1234), join(changes...)...)
	sets := map[uint32][]byte{1: old.canonical(2, 1), 2: new.canonical(2, 2)}
	total := len(first) + len(second)
	for how := range stops {
		stop := stops[how]
		eachAtOnce(total, func(cut int) {
			address := fakeCache(t, func(connection *net.TCPConn) {
				reader := NewReader(connection)
				for _, part := range [][]byte{first, second} {
					left := cut
					if &part[0] == &second[0] {
						left -= len(first)
					}
					if left < 0 || readUnit(reader) == nil {
						break
					}
					if left > len(part) {
						left = len(part)
					}
					connection.Write(part[:left])
				}
				stop(connection)
			})
			if err := cutOff(address, sets, cut, len(first)-12); err != nil {
				t.Errorf("it %s after %d bytes: %v", how, cut, err)
			}
		})
	}
	address := fakeCache(t, play(t, nil, scene{asked(2, 0), first},
		scene{asked(2, 0x1234, 1), second}))
	updates, failures := follow(t, quick(address), func(update Update) bool {
		return update.Data.Serial() == 2
	})
	if len(updates) != 2 || len(failures) > 0 {
		t.Fatal(len(updates), failures)
	}
}

// cutOff runs a client until it fails, and returns what is wrong with its data or its failure. The
// first response is complete after this number of bytes.
func cutOff(address string, sets map[uint32][]byte, cut, whole int) error {
	ctx, cancel := context.WithTimeout(context.Background(), patience)
	defer cancel()
	client := quick(address)
	client.Limits.Response, client.Limits.Report = 50*time.Millisecond, 50*time.Millisecond
	client.Refresh = 10 * time.Millisecond
	var failure, wrong error
	client.Failed = func(err error) {
		failure = err
		cancel()
	}
	err := client.Run(ctx, func(update Update) error {
		if !bytes.Equal(update.Data.Bytes(), sets[update.Data.Serial()]) {
			wrong = fmt.Errorf("the cache never had %x", update.Data.Bytes())
		}
		if cut < whole {
			wrong = fmt.Errorf("%x is only a part", update.Data.Bytes())
		}
		return nil
	})
	switch {
	case wrong != nil:
		return wrong
	case !errors.Is(err, context.Canceled):
		return fmt.Errorf("it ended by %v", err)
	case !isNamed(failure):
		return fmt.Errorf("it failed by %v", failure)
	}
	return nil
}

// A client that stops at each byte of a session in turn is closed in time, for a documented reason.
func TestClientStopsAtEachByte(t *testing.T) {
	noLeaks(t)
	server, address := started(t, func(limits *ServerLimits) {
		limits.First, limits.Unit = 20*time.Millisecond, 20*time.Millisecond
		limits.Idle, limits.Write = 20*time.Millisecond, 20*time.Millisecond
	})
	errs := why(server)
	if err := server.Update(parsed(t, join(ipv4, end))); err != nil {
		t.Fatal(err)
	}
	session := join(asked(1, 0), asked(1, 0x1234, 0xdeadbeef), asked(1, 7, 8), key)
	for _, stop := range stops {
		eachAtOnce(len(session)+1, func(cut int) {
			connection := dial(t, address)
			connection.Write(session[:cut])
			stop(connection)
		})
	}
	for end := time.Now().Add(patience); ; time.Sleep(time.Millisecond) {
		server.lock.Lock()
		left := len(server.clients)
		server.lock.Unlock()
		if left == 0 {
			break
		}
		if time.Now().After(end) {
			t.Fatalf("%d clients are left", left)
		}
	}
	server.Close()
	for len(errs) > 0 {
		if err := <-errs; !isNamed(err) {
			t.Fatal(err)
		}
	}
}

// clientRefusals returns responses to a reset query with units that aren't allowed there, with the
// reason, and the report that the cache gets.
func clientRefusals() map[string]refusedResponse {
	const session = 0x1234
	header := func(version, kind byte, length uint32) []byte {
		return []byte{
			version, kind, 0, 0, byte(length >> 24), byte(length >> 16), byte(length >> 8), byte(length),
		}
	}
	all := map[string]refusedResponse{
		// The rows of docs/PROTOCOL.md.
		"1: no header": {1, join(ipv4, end[:7]), Short, 0, end[:7], "unexpected end of input"},
		"1: nothing":   {1, ipv4, ErrClosed, noReport, nil, ""},
		"3: version 3": {1, header(3, 7, 24), ErrOtherVersion, 8, header(3, 7, 24),
			"unit of another version than the session"},
		"6: no providers": {2, changed(withdrawn, 2, 1), EmptyProviders, 9,
			changed(withdrawn, 2, 1)[:8], "ASPA unit has no providers"},
		"7: a cut unit":  {1, join(ipv4, ipv4[:19]), Short, 0, ipv4[:19], "unexpected end of input"},
		"8: length over": {1, longPrefix, PrefixRule, 0, longPrefix, "prefix length too large"},
		"8: max length over": {1, changed(ipv4, 10, 33), PrefixRule, 0, changed(ipv4, 10, 33),
			"max-length too large"},
		"8: max length under": {1, changed(announced6, 10, 31), PrefixRule, 0,
			changed(announced6, 10, 31), "max-length smaller than prefix length"},
		// The rules of a session and of data.
		"a duplicate": {1, join(ipv4, announced6, ipv4, end), Duplicate, 7, ipv4,
			"duplicate announcement"},
		"an unknown record": {1, join(withdrawn4, end), Unknown, 6, withdrawn4,
			"withdrawal of an unknown record"},
		"an unknown record that is announced then": {1, join(withdrawn4, ipv4, end), Unknown, 6,
			withdrawn4, "withdrawal of an unknown record"},
		"another version": {1, changed(ipv4, 0, 2), ErrOtherVersion, 8, changed(ipv4, 0, 2),
			"unit of another version than the session"},
		"another version at the end": {1, ending(0, session, 1), ErrOtherVersion, 8,
			ending(0, session, 1), "unit of another version than the session"},
		"a key in version 0": {0, changed(key, 0, 0), ErrNoPayload, 5, changed(key, 0, 0),
			"version does not have such payloads"},
		"an ASPA in version 1": {1, aspa1, ErrNoPayload, 5, aspa1,
			"version does not have such payloads"},
		"another session": {1, ending(1, 7, 1), ErrOtherSession, 0, ending(1, 7, 1),
			"unit of another session"},
		"many units": {1, bytes.Repeat(ipv4, 101), ErrTooLong, noReport, nil, ""},
		"many bytes": {1, bytes.Repeat(changed(longKey(), 0, 1), 2), ErrTooLong, noReport, nil, ""},
	}
	for kind := 0; kind < 256; kind++ {
		if kind == 5 || kind > int(ASPA) {
			unit := header(1, byte(kind), 12)
			all[fmt.Sprintf("2: type %d", kind)] = refusedResponse{1, unit, UnitType, 5, unit,
				fmt.Sprintf("unit type %d is not allowed here", kind)}
		}
	}
	for _, kind := range []byte{9, 11} {
		for _, length := range []uint32{65536, 1 << 31, 1<<32 - 1} {
			unit := header(2, kind, length)
			all[fmt.Sprintf("4: type %d of %d bytes", kind, length)] = refusedResponse{
				2, unit, TooLong, 0, unit, "unit is longer than 65535 bytes"}
		}
	}
	for kind, lengths := range map[byte][]uint32{
		4: {0, 19, 21, 1<<32 - 1}, 6: {0, 20, 33, 1<<32 - 1}, 7: {0, 12, 23, 1<<32 - 1},
		9: {0, 8, 31}, 11: {0, 8, 14},
	} {
		for _, length := range lengths {
			unit := header(2, kind, length)
			all[fmt.Sprintf("5: type %d of %d bytes", kind, length)] = refusedResponse{
				2, unit, UnitLength, 0, unit, "invalid unit length"}
		}
	}
	return all
}

// refusedResponse is a response that is refused in a session of a version.
type refusedResponse struct {
	version byte
	units   []byte
	reason  error
	code    byte   // of the report; or none is owed
	about   []byte // which unit
	text    string
}

const noReport = 255

// longKey returns a router key of 40000 bytes.
func longKey() []byte {
	return append([]byte{1, 9, 1, 0, 0, 0, 0x9c, 0x40}, make([]byte, 39992)...)
}

func TestClientRefusals(t *testing.T) {
	noLeaks(t)
	for name, row := range clientRefusals() {
		got := make(chan []byte, 1)
		address := fakeCache(t, func(connection *net.TCPConn) {
			readUnit(NewReader(connection))
			connection.Write(join(response(row.version, 0x1234), row.units))
			connection.CloseWrite()
			rest, _ := io.ReadAll(connection)
			got <- rest
		})
		client := quick(address)
		client.AskIn(row.version)
		client.Limits.Units, client.Limits.Bytes = 100, 65536
		ctx, cancel := limited(t)
		data, err := client.Fetch(ctx)
		cancel()
		if !errors.Is(err, row.reason) || !data.IsZero() {
			t.Fatalf("%s: %v", name, err)
		}
		var report []byte
		if row.code != noReport {
			report = reportBytes(row.version, row.code, row.about, row.text)
		}
		if rest := <-got; !bytes.Equal(rest, report) {
			t.Fatalf("%s: the cache got %x, not %x", name, rest, report)
		}
	}
}

// forever writes the same bytes until the peer closes the connection.
func forever(connection net.Conn, input []byte) {
	for {
		if _, err := connection.Write(input); err != nil {
			return
		}
	}
}

// Caches flood, trickle or stay silent: the client ends the connection in time, with little memory.
func TestHostileCaches(t *testing.T) {
	noLeaks(t)
	flood := func(first, again []byte) func(*net.TCPConn) {
		return func(connection *net.TCPConn) {
			readUnit(NewReader(connection))
			connection.Write(first)
			forever(connection, again)
		}
	}
	trickle := func(connection *net.TCPConn) {
		readUnit(NewReader(connection))
		for _, octet := range join(response(1, 7), bytes.Repeat(ipv4, 100)) {
			if _, err := connection.Write([]byte{octet}); err != nil {
				return
			}
			time.Sleep(time.Millisecond)
		}
	}
	for name, row := range map[string]struct {
		cache  func(*net.TCPConn)
		reason error
	}{
		"notifies":       {flood(nil, bytes.Repeat(serialNotify, 1000)), ErrTooSlow},
		"units":          {flood(response(1, 7), bytes.Repeat(ipv4, 1000)), ErrTooLong},
		"long units":     {flood(response(1, 7), longKey()), ErrTooLong},
		"noise":          {flood(nil, bytes.Repeat([]byte{255}, 1000)), ErrHigherVersion},
		"zeros":          {flood(nil, make([]byte, 1000)), UnitLength},
		"four gigabytes": {flood([]byte{1, 10, 0, 0, 255, 255, 255, 255}, make([]byte, 1000)), TooLong},
		"trickle":        {trickle, ErrTooSlow},
		"nothing":        {func(connection *net.TCPConn) { stops["stalls"](connection) }, ErrTooSlow},
	} {
		client := quick(fakeCache(t, row.cache))
		client.Version = 1
		client.Limits.Report = 50 * time.Millisecond
		if row.reason == ErrTooSlow {
			client.Limits.Response = 200 * time.Millisecond
		}
		client.Limits.Units, client.Limits.Bytes = 10000, 1<<20
		ctx, cancel := limited(t)
		var before, after runtime.MemStats
		runtime.ReadMemStats(&before)
		_, err := client.Fetch(ctx)
		runtime.ReadMemStats(&after)
		cancel()
		if !errors.Is(err, row.reason) {
			t.Fatalf("%s: %v", name, err)
		}
		if taken := after.TotalAlloc - before.TotalAlloc; taken > 16<<20 {
			t.Fatalf("%s: %d bytes were allocated", name, taken)
		}
	}
}

// hostileClients are clients that mustn't disturb a server.
var hostileClients = []func(*net.TCPConn){
	stops["closes"],
	stops["resets"],
	stops["stalls"],
	func(c *net.TCPConn) { c.Write([]byte{1, 2, 0}); stops["stalls"](c) },
	func(c *net.TCPConn) { c.Write([]byte{1, 9, 0, 0, 255, 255, 255, 255}); stops["stalls"](c) },
	func(c *net.TCPConn) { forever(c, bytes.Repeat([]byte{255}, 1000)) },
	func(c *net.TCPConn) { forever(c, bytes.Repeat(asked(1, 0), 100)) },
	func(c *net.TCPConn) { forever(c, bytes.Repeat(asked(2, 0x1234, 1), 100)) },
	func(c *net.TCPConn) { forever(c, bytes.Repeat(errorReport, 100)) },
	func(c *net.TCPConn) { c.Write(asked(0, 0)); stops["resets"](c) },
}

// A hundred clients at once, half of them hostile: the others get all data in time, and only data
// that the cache had.
func TestCrowd(t *testing.T) {
	noLeaks(t)
	random := rand.New(rand.NewSource(10))
	const last = 30
	sets := make([][versions][]byte, last+1)
	data := make([]Data, last+1)
	for serial := uint32(1); serial <= last; serial++ {
		all := someRecords(random, 60)
		for version := byte(0); version < versions; version++ {
			sets[serial][version] = all.versionOf(version).canonical(version, serial)
		}
		data[serial] = parsed(t, sets[serial][2])
	}
	server, address := started(t, func(limits *ServerLimits) {
		// No good client comes to these, however busy the machine is.
		limits.First, limits.Unit = 20*time.Second, 20*time.Second
		limits.Write, limits.KeepBytes = 20*time.Second, 10000
	}, data[1])
	ctx, cancel := limited(t)
	defer cancel()
	var good, bad sync.WaitGroup
	for i := 0; i < 50; i++ {
		good.Add(1)
		bad.Add(1)
		connection := dial(t, address)
		go func(client func(*net.TCPConn)) {
			defer bad.Done()
			client(connection)
		}(hostileClients[i%len(hostileClients)])
		go func(version uint8) {
			defer good.Done()
			client := quick(address)
			client.AskIn(version)
			client.Failed = func(err error) { t.Errorf("version %d: %v", version, err) }
			err := client.Run(ctx, func(update Update) error {
				serial := update.Data.Serial()
				if !bytes.Equal(update.Data.Bytes(), sets[serial][version]) {
					return fmt.Errorf("the cache never had %x", update.Data.Bytes())
				}
				if serial == last {
					return errEnough
				}
				return nil
			})
			if err != errEnough {
				t.Errorf("version %d: %v", version, err)
			}
		}(uint8(i % versions))
	}
	for serial := 2; serial <= last; serial++ {
		time.Sleep(5 * time.Millisecond)
		if err := server.Update(data[serial]); err != nil {
			t.Fatal(err)
		}
	}
	good.Wait()
	server.Close()
	bad.Wait()
}
