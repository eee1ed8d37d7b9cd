//go:build cgo && linux

package rtr

import (
	"bytes"
	"context"
	"errors"
	"fmt"
	"math/rand"
	"net"
	"strings"
	"sync"
	"testing"
	"time"
)

// fakeCache serves each connection in turn by a function of its own, the last one repeatedly, and
// stops with the test. It returns its address.
func fakeCache(t testing.TB, serve ...func(*net.TCPConn)) string {
	t.Helper()
	listener := listen(t, "127.0.0.1:0")
	var running sync.WaitGroup
	var lock sync.Mutex
	open := map[net.Conn]bool{}
	running.Add(1)
	go func() {
		defer running.Done()
		for i := 0; ; i++ {
			connection, err := listener.Accept()
			if err != nil {
				return
			}
			lock.Lock()
			open[connection] = true
			lock.Unlock()
			handler := serve[len(serve)-1]
			if i < len(serve) {
				handler = serve[i]
			}
			running.Add(1)
			go func() {
				defer running.Done()
				defer connection.Close()
				connection.SetDeadline(time.Now().Add(patience))
				handler(connection.(*net.TCPConn))
			}()
		}
	}()
	t.Cleanup(func() {
		listener.Close()
		lock.Lock()
		for connection := range open {
			connection.Close()
		}
		lock.Unlock()
		running.Wait()
	})
	return listener.Addr().String()
}

// quick returns a client with short pauses.
func quick(address string) *Client {
	client := NewClient(address)
	client.Version = 2
	client.Limits.Response = patience
	client.Limits.Pause = time.Millisecond
	client.Limits.Report = patience
	client.Retry = time.Millisecond
	return client
}

// A client without limits has those of NewClient, and asks in its version.
func TestClientWithoutLimits(t *testing.T) {
	noLeaks(t)
	data := parsed(t, join(ipv4, ending(1, 7, 9)))
	_, address := started(t, nil, data)
	ctx, cancel := limited(t)
	defer cancel()
	client := &Client{Address: address}
	got, err := client.Fetch(ctx)
	if err != nil || got.Version() != 1 || got.Len() != 1 || got.Serial() != 9 {
		t.Fatal(got, err)
	}
	updates, _ := follow(t, client, func(Update) bool { return true })
	if len(updates) != 1 || !updates[0].Data.Equal(got) {
		t.Fatal(updates)
	}
	if client.Limits != (ClientLimits{}) {
		t.Fatal(client.Limits)
	}
	own := ClientLimits{time.Second, time.Minute, 1, 2, 3 * time.Second, time.Hour}
	if NewClient("").Limits != (ClientLimits{}).orUsual() || own.orUsual() != own {
		t.Fatal(own.orUsual())
	}
}

// An answer with as many payload units, or bytes of these, as allowed is accepted, and with one more
// isn't.
func TestClientLimitsMet(t *testing.T) {
	noLeaks(t)
	data := parsed(t, join(ipv4, announced6, ending(1, 7, 9)))
	_, address := started(t, nil, data)
	ctx, cancel := limited(t)
	defer cancel()
	for _, row := range []struct {
		bytes  int
		units  uint64
		reason error
	}{
		{len(ipv4) + len(announced6), 2, nil},
		{len(ipv4) + len(announced6) - 1, 2, ErrTooLong},
		{len(ipv4) + len(announced6), 1, ErrTooLong},
	} {
		client := quick(address)
		client.Version, client.Limits.Bytes, client.Limits.Units = 1, row.bytes, row.units
		got, err := client.Fetch(ctx)
		if !errors.Is(err, row.reason) || (err == nil) != got.Equal(data) {
			t.Fatal(row, got, err)
		}
	}
}

// limited returns a context that ends with a test's patience.
func limited(t testing.TB) (context.Context, context.CancelFunc) {
	t.Helper()
	return context.WithTimeout(context.Background(), patience)
}

// readUnit reads a unit, and returns its bytes, or none at an error.
func readUnit(reader *Reader) []byte {
	if _, err := reader.Next(); err != nil {
		return nil
	}
	return append([]byte{}, reader.Bytes()...)
}

// errEnough ends a client successfully.
var errEnough = errors.New("enough")

// follow runs a client until enough returns true for an update, and returns all updates and
// failures.
func follow(t testing.TB, client *Client, enough func(Update) bool) ([]Update, []error) {
	t.Helper()
	ctx, cancel := limited(t)
	defer cancel()
	var updates []Update
	var failures []error
	client.Failed = func(err error) { failures = append(failures, err) }
	err := client.Run(ctx, func(update Update) error {
		updates = append(updates, update)
		if enough(update) {
			return errEnough
		}
		return nil
	})
	if err != errEnough {
		t.Fatalf("%v after %d updates and %v", err, len(updates), failures)
	}
	return updates, failures
}

// changesOf returns the units of an update.
func changesOf(update Update) []byte {
	var all []byte
	for units := update.Changes(); units.Scan(); {
		all, _ = units.Unit().AppendBinary(all)
	}
	return all
}

// All data are loaded in each version, over IPv4 and IPv6.
func TestFetch(t *testing.T) {
	noLeaks(t)
	random := rand.New(rand.NewSource(7))
	all := someRecords(random, 30)
	server, address := started(t, nil, parsed(t, all.canonical(2, 5)))
	addresses := []string{address}
	if listener, err := net.Listen("tcp", "[::1]:0"); err == nil {
		go server.Serve(listener)
		addresses = append(addresses, listener.Addr().String())
	} else {
		t.Log("no IPv6 here: ", err)
	}
	ctx, cancel := limited(t)
	defer cancel()
	for version := uint8(0); version < 5; version++ {
		for _, address := range addresses {
			client := quick(address)
			client.AskIn(version)
			data, err := client.Fetch(ctx)
			asked := version
			if asked > 2 {
				asked = 2
			}
			if err != nil || !bytes.Equal(data.Bytes(), all.versionOf(asked).canonical(asked, 5)) {
				t.Fatalf("version %d: %x %v", version, data.Bytes(), err)
			}
		}
	}
}

// A client follows a server: each of its updates is a set that the server had, and the changes are
// those from one to the next, as maps have them.
func TestFollow(t *testing.T) {
	noLeaks(t)
	random := rand.New(rand.NewSource(8))
	sets := []records{{}}
	server, address := started(t, func(limits *ServerLimits) { limits.KeepBytes = 1500 })
	next := func() {
		serial := uint32(len(sets))
		sets = append(sets, someRecords(random, 20))
		if err := server.Update(parsed(t, sets[serial].canonical(2, serial))); err != nil {
			t.Error(err)
		}
	}
	next()
	last := uint32(0)
	updates, failures := follow(t, quick(address), func(update Update) bool {
		for i := random.Intn(4); i >= 0 && last == 0; i-- {
			next()
		}
		if len(sets) > 60 {
			last = uint32(len(sets) - 1)
		}
		return last > 0 && update.Data.Serial() == last
	})
	if len(failures) > 0 {
		t.Fatal(failures)
	}
	before := uint32(0)
	for _, update := range updates {
		serial := update.Data.Serial()
		if !bytes.Equal(update.Data.Bytes(), sets[serial].canonical(2, serial)) {
			t.Fatalf("%x isn't what the cache had at %d", update.Data.Bytes(), serial)
		}
		if expected := join(sets[before].leadingTo(sets[serial], 2)...); !bytes.Equal(
			changesOf(update), expected) {
			t.Fatalf("%x led from %d to %d, not %x", changesOf(update), before, serial, expected)
		}
		before = serial
	}
}

// scene is a script for a cache: the expected unit, and the answer. A nil answer closes the
// connection.
type scene struct{ query, answer []byte }

// play plays scenes, and then waits until the client closes the connection. It passes what came
// after them to last, if that isn't nil.
func play(t testing.TB, last chan<- []byte, scenes ...scene) func(*net.TCPConn) {
	return func(connection *net.TCPConn) {
		reader := NewReader(connection)
		for _, s := range scenes {
			if got := readUnit(reader); !bytes.Equal(got, s.query) {
				t.Errorf("%x was asked, not %x", got, s.query)
				return
			}
			if s.answer == nil {
				return
			}
			connection.Write(s.answer)
		}
		unit := readUnit(reader)
		if last != nil {
			last <- unit
		}
		for unit != nil {
			unit = readUnit(reader)
		}
	}
}

// full returns an answer with all data in version 1: prefixes, and an end of data.
func full(session uint16, serial uint32, prefixes ...[]byte) []byte {
	return join(response(1, session), join(prefixes...), ending(1, session, serial))
}

// texts returns the errors as texts.
func texts(errs []error) string {
	var all []string
	for _, err := range errs {
		all = append(all, err.Error())
	}
	return strings.Join(all, "\n")
}

// Queries and answers of the states below.
var (
	reset1 = asked(1, 0)
	reset0 = asked(0, 0)
	all0   = join(response(0, 7), changed(ipv4, 0, 0), ending(0, 7, 3))
)

// report returns a report of a version with this code.
func report(version, code byte) []byte {
	return reportBytes(version, code, nil, "no")
}

// The failures that a client reports for the end of a connection: its connections, with the queries
// in each, its serial numbers, and the failures. tests/transcripts has what it does without a
// failure.
var clientFailures = map[string]struct {
	connections [][]scene
	serials     []uint32 // of the updates; 0 if the data were dropped
	failures    []error
}{
	"no data yet, and a notify": {
		[][]scene{{
			{reset1, join(report(1, 2), numbered(1, 0, 7, 3))},
			{reset1, full(7, 3)},
		}}, []uint32{3}, []error{ErrNoData},
	},
	"no data yet, and asked again": {
		[][]scene{{{reset1, report(1, 2)}, {reset1, report(1, 2)}, {reset1, full(7, 3)}}},
		[]uint32{3},
		[]error{ErrNoData, ErrNoData},
	},
	"an answer of version 0 to a serial query": {
		[][]scene{
			{{reset1, join(full(7, 1), report(1, 1))}}, {{asked(1, 7, 1), all0}},
			{{reset0, all0}},
		}, []uint32{1, 3}, []error{&Reported{Code: InternalError}},
	},
	"a report on a serial query": {
		[][]scene{{
			{reset1, join(full(7, 1, ipv4), numbered(1, 0, 7, 2))},
			{asked(1, 7, 1), report(1, 0)},
		}, {{reset1, full(8, 3)}}}, []uint32{1, 3}, []error{&Reported{Code: CorruptData}},
	},
	"a close on a serial query": {
		[][]scene{
			{{reset1, join(full(7, 1), report(1, 1))}}, {{asked(1, 7, 1), nil}},
			{{reset1, full(8, 3)}},
		}, []uint32{1, 3}, []error{&Reported{Code: InternalError}, ErrClosed},
	},
	"another session in a response": {
		[][]scene{{
			{reset1, join(full(7, 1, ipv4), numbered(1, 0, 7, 2))}, {asked(1, 7, 1), full(8, 2)},
		}, {{reset1, full(8, 3)}}}, []uint32{1, 0, 3}, []error{ErrOtherSession},
	},
	"another session in a notify": {
		[][]scene{
			{{reset1, join(full(7, 1, ipv4), numbered(1, 0, 8, 1))}}, {{reset1, full(8, 3)}},
		}, []uint32{1, 0, 3}, []error{ErrOtherSession},
	},
	"another session in an end of data": {
		[][]scene{
			{{reset1, join(response(1, 7), ending(1, 8, 1))}}, {{reset1, full(8, 3)}},
		}, []uint32{3}, []error{ErrOtherSession},
	},
	"a serial number that goes back": {
		[][]scene{{
			{reset1, join(full(7, 1, ipv4), numbered(1, 0, 7, 0))},
			{asked(1, 7, 1), full(7, 0xffffffff)},
		}, {{reset1, full(7, 3)}}}, []uint32{1, 3}, []error{ErrSerialBack},
	},
	"changes at the serial number that it has": {
		[][]scene{{
			{reset1, join(full(7, 1, ipv4), numbered(1, 0, 7, 2))},
			{asked(1, 7, 1), full(7, 1, otherIPv4)},
		}, {{reset1, full(7, 3)}}}, []uint32{1, 3}, []error{ErrOtherData},
	},
	"a delta that doesn't fit": {
		[][]scene{{
			{reset1, join(full(7, 1, ipv4), numbered(1, 0, 7, 2))},
			{asked(1, 7, 1), full(7, 2, otherIPv4, ipv4)},
		}, {{reset1, full(7, 3, otherIPv4, ipv4)}}}, []uint32{1, 3}, []error{Duplicate},
	},
	"an announcement of what is there before its withdrawal": {
		[][]scene{{
			{reset1, join(full(7, 1, ipv4), numbered(1, 0, 7, 2))},
			{asked(1, 7, 1), full(7, 2, ipv4, withdrawn4)},
		}, {{reset1, full(7, 3, otherIPv4, ipv4)}}}, []uint32{1, 3}, []error{Duplicate},
	},
	"a withdrawal of what isn't there before its announcement": {
		[][]scene{{
			{reset1, join(full(7, 1), numbered(1, 0, 7, 2))},
			{asked(1, 7, 1), full(7, 2, withdrawn4, ipv4)},
		}, {{reset1, full(7, 3, otherIPv4, ipv4)}}}, []uint32{1, 3}, []error{Unknown},
	},
	"a report in a response": {
		[][]scene{{{reset1, join(response(1, 7), ipv4, report(1, 1))}}, {{reset1, full(7, 3)}}},
		[]uint32{3}, []error{&Reported{Code: InternalError}},
	},
	"a report while it waits": {
		[][]scene{{{reset1, join(full(7, 1), report(1, 1))}}, {{asked(1, 7, 1), full(7, 3)}}},
		[]uint32{1, 3}, []error{&Reported{Code: InternalError}},
	},
	"a response that it didn't ask for": {
		[][]scene{{{reset1, join(full(7, 1), full(7, 2))}}, {{asked(1, 7, 1), full(7, 3)}}},
		[]uint32{1, 3}, []error{ErrMisplaced},
	},
	"a cache reset for a reset query": {
		[][]scene{{{reset1, []byte{1, 8, 0, 0, 0, 0, 0, 8}}}, {{reset1, full(7, 3)}}},
		[]uint32{3}, []error{ErrMisplaced},
	},
	"a higher version": {
		[][]scene{{{reset1, changed(full(7, 1), 0, 2)}}, {{reset1, full(7, 3)}}},
		[]uint32{3}, []error{ErrHigherVersion},
	},
	"another version later": {
		[][]scene{
			{{reset1, join(full(7, 1), numbered(0, 0, 7, 2))}}, {{asked(1, 7, 1), full(7, 3)}},
		}, []uint32{1, 3}, []error{ErrOtherVersion},
	},
}

func TestClientFailures(t *testing.T) {
	for name, test := range clientFailures {
		t.Run(name, func(t *testing.T) {
			noLeaks(t)
			var connections []func(*net.TCPConn)
			for _, scenes := range test.connections {
				connections = append(connections, play(t, nil, scenes...))
			}
			client := quick(fakeCache(t, connections...))
			client.Version = 1
			updates, failures := follow(t, client, func(update Update) bool {
				return update.Data.Serial() == 3
			})
			var serials []uint32
			for _, update := range updates {
				serials = append(serials, update.Data.Serial())
			}
			if fmt.Sprint(serials) != fmt.Sprint(test.serials) || len(failures) != len(test.failures) {
				t.Fatalf("%v\n%s", serials, texts(failures))
			}
			for i, err := range failures {
				if !sameReason(err, test.failures[i]) {
					t.Fatalf("%v, but expected is %v", err, test.failures[i])
				}
			}
		})
	}
}

// From version 1 to version 0 a router key is withdrawn, and announced again.
func TestChangesBetweenVersions(t *testing.T) {
	noLeaks(t)
	address := fakeCache(t, play(t, nil, scene{reset1, join(full(7, 1, key), report(1, 1))}),
		play(t, nil, scene{asked(1, 7, 1), all0}), play(t, nil, scene{reset0, join(all0, report(0, 1))}),
		play(t, nil, scene{reset1, []byte{}}), play(t, nil, scene{reset1, full(7, 4, key)}))
	client := quick(address)
	client.Version, client.Expire = 1, 3*time.Second
	updates, failures := follow(t, client, func(update Update) bool {
		return update.Data.Serial() == 4
	})
	withdrawnKey := changed(key, 2, 0)
	expected := [][]byte{key, join(ipv4, withdrawnKey), changed(withdrawn4, 0, 0), key}
	if len(updates) != len(expected) {
		t.Fatal(len(updates), texts(failures))
	}
	for i, update := range updates {
		if !bytes.Equal(changesOf(update), expected[i]) {
			t.Fatalf("%d: %x, not %x", i, changesOf(update), expected[i])
		}
	}
}

// sameReason reports whether an error is the other one, or a report with its code.
func sameReason(err, other error) bool {
	var report, code *Reported
	if errors.As(other, &code) {
		return errors.As(err, &report) && report.Code == code.Code
	}
	return errors.Is(err, other)
}

// Data that aren't refreshed in time are dropped, on a silent connection.
func TestExpire(t *testing.T) {
	noLeaks(t)
	client := quick(fakeCache(t, play(t, nil, scene{reset1, full(7, 1, ipv4)}),
		play(t, nil, scene{reset1, full(7, 3)})))
	client.Version, client.Expire = 1, 50*time.Millisecond
	updates, failures := follow(t, client, func(update Update) bool {
		return update.Data.Serial() == 3
	})
	if len(updates) != 3 || !updates[1].Data.IsZero() ||
		!bytes.Equal(changesOf(updates[1]), withdrawn4) {
		t.Fatalf("%d updates, %v", len(updates), failures)
	}
	if !errors.Is(failures[len(failures)-1], ErrExpired) {
		t.Fatal(failures)
	}
}

// The context ends a client in each of its states.
func TestClientContext(t *testing.T) {
	noLeaks(t)
	ended := func(ctx context.Context, name, address string, reason error) {
		client := quick(address)
		client.Retry = patience
		if err := client.Run(ctx, func(Update) error { return nil }); err != reason {
			t.Fatalf("%s: %v", name, err)
		}
		if _, err := client.Fetch(ctx); !errors.Is(err, reason) {
			t.Fatalf("%s: %v", name, err)
		}
	}
	for name, answer := range map[string][]byte{
		"no answer":   nil,
		"half of one": response(2, 7),
		"it waits":    join(response(2, 7), ending(2, 7, 1)),
	} {
		ctx, cancel := limited(t)
		ended(ctx, name, fakeCache(t, func(connection *net.TCPConn) {
			reader := NewReader(connection)
			if got := readUnit(reader); !bytes.Equal(got, asked(2, 0)) {
				t.Errorf("%s: %x was asked", name, got)
			}
			connection.Write(answer)
			time.AfterFunc(20*time.Millisecond, cancel)
			for readUnit(reader) != nil {
			}
		}), context.Canceled)
	}
	ctx, cancel := context.WithTimeout(context.Background(), 20*time.Millisecond)
	defer cancel()
	ended(ctx, "nobody there", reserved(t), context.DeadlineExceeded)
}

// The report of a cache that has no data yet is ErrNoData. One of the same code that ends a session
// isn't, nor is a router's.
func TestNoData(t *testing.T) {
	noLeaks(t)
	address := fakeCache(t,
		play(t, nil, scene{reset1, report(1, 2)}),
		play(t, nil, scene{reset1, report(1, 2)}, scene{reset1, join(full(7, 1), report(1, 2))}),
		play(t, nil, scene{asked(1, 7, 1), full(7, 3)}))
	client := quick(address)
	client.Version = 1
	ctx, cancel := limited(t)
	defer cancel()
	_, fetched := client.Fetch(ctx)
	_, failures := follow(t, client, func(update Update) bool { return update.Data.Serial() == 3 })
	if len(failures) != 2 {
		t.Fatal(texts(failures))
	}
	for i, err := range append(failures, fetched) {
		var reported *Reported
		if errors.Is(err, ErrNoData) != (i != 1) || errors.Is(err, ErrEmpty) ||
			!errors.As(err, &reported) || reported.Code != NoDataAvailable ||
			err.Error() != `rtr: the cache reports an error: No Data Available, "no"` {
			t.Errorf("failure %d: %v", i, err)
		}
	}
	if errors.Is(&Reported{Code: NoDataAvailable, router: true}, ErrNoData) {
		t.Error("a router has no data")
	}
}

// As in all languages, texts of reports are shown in part, and in ASCII.
func TestReportedTexts(t *testing.T) {
	for _, row := range []struct {
		code        ErrorCode
		text, shown string
	}{
		{NoDataAvailable, "", "No Data Available"}, {InternalError, "no ~", `Internal Error, "no ~"`},
		{12, "a\"\n\u00e4", `error code 12, "a"???"`},
		{InternalError, strings.Repeat("a", 99) + "bc",
			`Internal Error, "` + strings.Repeat("a", 99) + `b"`},
	} {
		for router, front := range map[bool]string{
			false: "rtr: the cache reports an error: ", true: "rtr: the router reports an error: ",
		} {
			reported := &Reported{Code: row.code, Text: row.text, router: router}
			if reported.Error() != front+row.shown {
				t.Errorf("%s, not %s%s", reported, front, row.shown)
			}
		}
	}
}
