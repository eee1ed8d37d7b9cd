//go:build cgo && linux

package rtr

import (
	"context"
	"errors"
	"net"
	"os"
	"runtime/debug"
	"testing"
	"time"
)

// descriptors returns the open descriptors of the process, and what each of them is.
func descriptors(t *testing.T) map[string]string {
	t.Helper()
	const folder = "/proc/self/fd/"
	entries, err := os.ReadDir(folder)
	if err != nil {
		t.Fatal(err)
	}
	all := map[string]string{}
	for _, entry := range entries {
		if what, err := os.Readlink(folder + entry.Name()); err == nil {
			all[entry.Name()] = what
		}
	}
	return all
}

// noDescriptors checks at the end of a test that it left no descriptor open. Until then no garbage
// is collected, which would also close what the package forgot to close.
func noDescriptors(t *testing.T) {
	t.Helper()
	listen(t, "127.0.0.1:0").Close() // the first one opens what the runtime keeps
	percent := debug.SetGCPercent(-1)
	before := descriptors(t)
	t.Cleanup(func() {
		defer debug.SetGCPercent(percent)
		var left []string
		until(t, "a descriptor is left", func() bool {
			left = nil
			for number, what := range descriptors(t) {
				if before[number] != what {
					left = append(left, what)
				}
			}
			return len(left) == 0
		})
	})
}

// accepted returns both ends of a new connection: a client's, and that which a listener accepted.
func accepted(t *testing.T) (client, taken net.Conn) {
	t.Helper()
	listener := listen(t, "127.0.0.1:0")
	defer listener.Close()
	client = dial(t, listener.Addr().String())
	taken, err := listener.Accept()
	if err != nil {
		t.Fatal(err)
	}
	return client, taken
}

// A server closes the connection of each client, whatever ended it, also of one that it refuses and
// of one that comes too late; and it closes its listeners.
func TestServerDescriptors(t *testing.T) {
	data := parsed(t, ending(1, 7, 1))
	report := reportBytes(2, 1, nil, "too many connections")
	for name, play := range map[string]func(t *testing.T){
		"it closes": func(t *testing.T) {
			server, address := started(t, nil, data)
			client := dial(t, address)
			send(t, client, asked(1, 7, 1))
			expect(t, client, join(response(1, 7), ending(1, 7, 1)))
			client.Close()
			awaitLeft(t, server)
		},
		"it breaks a rule": func(t *testing.T) {
			server, address := started(t, nil, data)
			client := dial(t, address)
			send(t, client, ipv4)
			expectEnd(t, client, reportBytes(1, 3, ipv4, "unit is not a query"))
			client.Close()
			awaitLeft(t, server)
		},
		"it is too slow": func(t *testing.T) {
			server, address := started(t, func(limits *ServerLimits) { limits.First = 1 }, data)
			expectEnd(t, dial(t, address), nil)
			awaitLeft(t, server)
		},
		"it leaves in an answer": func(t *testing.T) {
			server, address := started(t, nil, megabytes(t))
			client := dial(t, address)
			send(t, client, asked(1, 0))
			expect(t, client, response(1, 7))
			client.Close()
			awaitLeft(t, server)
		},
		"it is one too many": func(t *testing.T) {
			server, address := started(t, func(limits *ServerLimits) {
				limits.Connections = 0
			}, data)
			client := dial(t, address)
			expectEnd(t, client, report)
			client.Close()
			awaitLeft(t, server)
		},
		"the server closes": func(t *testing.T) {
			server, address := started(t, nil, data)
			client := dial(t, address)
			send(t, client, asked(1, 7, 1))
			expect(t, client, join(response(1, 7), ending(1, 7, 1)))
			server.Close()
			expectEnd(t, client, nil)
		},
		"the server was closed before": func(t *testing.T) {
			server := NewServer()
			server.Close()
			client, taken := accepted(t)
			server.take(taken)
			expectEnd(t, client, nil)
			if err := server.Serve(listen(t, "127.0.0.1:0")); err != ErrServerClosed {
				t.Error(err)
			}
		},
		"the door closed meanwhile": func(t *testing.T) {
			server, address := started(t, func(limits *ServerLimits) {
				limits.Connections, limits.Refused, limits.Report = 0, 1, time.Hour
			}, data)
			expectEnd(t, dial(t, address), report) // it stays until the test ends
			client, taken := accepted(t)
			server.take(taken)
			expectEnd(t, client, nil)
		},
		"its listener is broken": func(t *testing.T) {
			server := NewServer()
			defer server.Close()
			inner := listen(t, "127.0.0.1:0")
			broken := &failingListener{Listener: inner, err: errFailed, times: 10}
			if err := server.Serve(broken); err != errFailed {
				t.Error(err)
			}
		},
	} {
		t.Run(name, func(t *testing.T) {
			noDescriptors(t)
			play(t)
		})
	}
}

// A client closes its connections, whatever ends them.
func TestClientDescriptors(t *testing.T) {
	waits := func(cache *net.TCPConn) { stops["stalls"](cache) }
	for name, row := range map[string]struct {
		cache  func(*net.TCPConn)
		reason error
	}{
		"it has data":           {play(t, nil, scene{reset1, full(7, 1)}), nil},
		"the cache closes":      {func(cache *net.TCPConn) { readUnit(NewReader(cache)) }, ErrClosed},
		"the cache is slow":     {waits, ErrTooSlow},
		"it refuses a unit":     {play(t, nil, scene{reset1, full(7, 1, ipv4, ipv4)}), Duplicate},
		"the cache has no data": {play(t, nil, scene{reset1, report(1, 2)}), ErrNoData},
	} {
		t.Run(name, func(t *testing.T) {
			noDescriptors(t)
			client := quick(fakeCache(t, row.cache))
			client.Version = 1
			if row.reason == ErrTooSlow {
				client.Limits.Response = 50 * time.Millisecond
			}
			ctx, cancel := limited(t)
			defer cancel()
			if _, err := client.Fetch(ctx); !sameReason(err, row.reason) {
				t.Error(err)
			}
		})
	}
	t.Run("its context ends", func(t *testing.T) {
		noDescriptors(t)
		ctx, cancel := limited(t)
		client := quick(fakeCache(t, func(cache *net.TCPConn) {
			readUnit(NewReader(cache))
			cancel()
			waits(cache)
		}))
		if err := client.Run(ctx, nil); !errors.Is(err, context.Canceled) {
			t.Error(err)
		}
	})
}

// Watching a file closes it, and the descriptor that it keeps free.
func TestWatchDescriptors(t *testing.T) {
	noDescriptors(t)
	path := t.TempDir() + "/data"
	if err := os.WriteFile(path, sequences(1)[0], 0o600); err != nil {
		t.Fatal(err)
	}
	ctx, stop := limited(t)
	NewServer().Watch(ctx, path, time.Hour, func(_ Data, err error) {
		if err != nil {
			t.Error(err)
		}
		stop()
	})
}

// Saving, and restoring, closes its files and folders, also if it fails.
func TestSavedDescriptors(t *testing.T) {
	noDescriptors(t)
	all, folder := sequences(1, 1, 1), t.TempDir()
	path := folder + "/kept"
	server := NewServer()
	for _, sequence := range all[:2] {
		if err := server.UpdateSaved(parsed(t, sequence), path); err != nil {
			t.Fatal(err)
		}
	}
	if _, err := NewServer().Restore(path); err != nil {
		t.Fatal(err)
	}
	if err := server.Save(folder); !errors.As(err, new(*os.LinkError)) {
		t.Error(err)
	}
	for _, sequence := range [][]byte{all[0], all[0][:9]} {
		if err := os.WriteFile(path, sequence, 0o600); err != nil {
			t.Fatal(err)
		}
		_, err := LoadData(path)
		if (err == nil) != (len(sequence) > 9) {
			t.Error(err)
		}
	}
}
