// Runs a client or a cache of the package for Go, with the faults of FAULTS (../faults.c): Go makes
// its system calls itself, so a preloaded library doesn't see them.
//
// usage:
//
//	faulty [--tls IDENTITY] ADDRESS --version N     prints the lines of rtr_diff
//	faulty [--tls IDENTITY] FILE --listen ADDRESS
//
// IDENTITY is a file with a certificate for localhost, by which both ends are known, and its key.
// If FAULTS_PAUSE has milliseconds, the client reconnects after these. If FAULTS_MEMORY names a
// file, that gets a line at each hundredth end of a connection: how many objects and bytes are
// allocated, after garbage collections.
// At SIGUSR1 it writes the number of goroutines and the bytes of its heap to the file that
// FAULTS_STATE names, at SIGUSR2 after a garbage collection: that also closes what the package
// forgot to close. Stacks aren't counted, whose sizes vary: each goroutine is.
package main

import (
	"context"
	"errors"
	"fmt"
	"net"
	"os"
	"os/signal"
	"runtime"
	"runtime/debug"
	"strconv"
	"syscall"
	"time"

	"fishreef/rtr"
)

const interval = time.Second / 20 // between two checks of the file

func main() {
	ctx, stop := signal.NotifyContext(context.Background(), syscall.SIGTERM)
	defer stop()
	if path := os.Getenv("FAULTS_STATE"); path != "" {
		writeStates(path)
	}
	if err := run(ctx, os.Args[1:]); err != nil && !errors.Is(err, context.Canceled) {
		fmt.Fprintln(os.Stderr, err)
		os.Exit(1)
	}
}

// run runs the program of these words.
func run(ctx context.Context, words []string) (err error) {
	injected := newFaults(os.Getenv("FAULTS"), os.Getenv("FAULTS_SEEN"))
	if words[0] == "--tls" {
		if injected.secured, err = newSecured(words[1]); err != nil {
			return err
		}
		words = words[2:]
	}
	if words[1] == "--listen" {
		return serve(ctx, injected, words)
	}
	return follow(ctx, injected, words)
}

// writeStates starts to write the state at signals.
func writeStates(path string) {
	file, err := os.Create(path)
	if err != nil {
		panic(err)
	}
	signals := make(chan os.Signal, 1)
	signal.Notify(signals, syscall.SIGUSR1, syscall.SIGUSR2)
	go func() {
		for received := range signals {
			var memory runtime.MemStats
			if received == syscall.SIGUSR2 {
				debug.FreeOSMemory()
				debug.FreeOSMemory() // memory that finalizers and pools released in the first collection
			}
			runtime.ReadMemStats(&memory)
			fmt.Fprintln(file, runtime.NumGoroutine(), memory.HeapAlloc)
		}
	}()
}

// memoryPath names the file for the numbers of allocated objects and bytes. If it is set, the
// profile has each allocation.
var memoryPath = os.Getenv("FAULTS_MEMORY")

func init() {
	if memoryPath != "" {
		runtime.MemProfileRate = 1
	}
}

// writeMemory appends a line to the file at each hundredth end of a connection.
func writeMemory(ends int) {
	if memoryPath == "" || ends%100 > 0 {
		return
	}
	for i := 0; i < 4; i++ {
		runtime.GC() // the profile is that of an earlier one, and a pool keeps objects for one more
	}
	var objects, bytes int64
	for _, record := range profile() {
		if !isKept(record.Stack()) {
			objects += record.InUseObjects()
			bytes += record.InUseBytes()
		}
	}
	file, err := os.OpenFile(memoryPath, os.O_CREATE|os.O_APPEND|os.O_WRONLY, 0o600)
	if err != nil {
		panic(err)
	}
	defer file.Close()
	fmt.Fprintln(file, objects, bytes)
}

// isKept reports whether the runtime reuses what is allocated here: for goroutines, which are
// counted, and for their waits.
func isKept(stack []uintptr) bool {
	first, _ := runtime.CallersFrames(stack).Next()
	return first.Function == "runtime.malg" || first.Function == "runtime.acquireSudog"
}

// profile returns the allocated memory by its call stacks.
func profile() []runtime.MemProfileRecord {
	for length := 1 << 12; ; length *= 2 {
		records := make([]runtime.MemProfileRecord, length)
		if count, isWhole := runtime.MemProfile(records, false); isWhole {
			return records[:count]
		}
	}
}

// follow prints the changes of a cache's data.
func follow(ctx context.Context, injected *faults, words []string) error {
	client := rtr.NewClient(words[0])
	version, err := strconv.ParseUint(words[2], 10, 8)
	if err != nil {
		return err
	}
	client.AskIn(uint8(version))
	pause, err := strconv.Atoi(os.Getenv("FAULTS_PAUSE"))
	isCounted, ends := err == nil, 0
	if isCounted {
		client.Limits.Pause = time.Duration(pause) * time.Millisecond
	}
	client.Failed = func(err error) {
		fmt.Fprintln(os.Stderr, err)
		if ends++; isCounted {
			writeMemory(ends)
			client.AskNow()
		}
	}
	client.Dial = func(ctx context.Context, network, address string) (net.Conn, error) {
		return injected.dial(func() (net.Conn, error) {
			return new(net.Dialer).DialContext(ctx, network, address)
		})
	}
	return client.Run(ctx, func(update rtr.Update) error {
		for changes := update.Changes(); changes.Scan(); {
			fmt.Println(rtr.ChangeLine(changes.Unit()))
		}
		return nil
	})
}

// serve serves the data of a file, and saves them beside it.
func serve(ctx context.Context, injected *faults, words []string) error {
	server := rtr.NewServer()
	defer server.Close()
	printLine := func(words ...any) { fmt.Fprintln(os.Stderr, words...) }
	printServed := func(data rtr.Data) {
		printLine(fmt.Sprintf("session %d serial %d: %d payloads", data.Session(), data.Serial(),
			data.Len()))
	}
	server.Ended = func(client net.Addr, err error) { printLine(client, err) }
	if data, err := server.Restore(words[0] + rtr.KeptSuffix); err == nil {
		printServed(data)
	} else if !errors.Is(err, os.ErrNotExist) {
		return err
	}
	inner, err := net.Listen("tcp", words[2])
	if err != nil {
		return err
	}
	printLine("listening on", inner.Addr())
	go func() { printLine(server.Serve(injected.listener(listener{inner, injected}))) }()
	server.Watch(ctx, words[0], interval, func(data rtr.Data, err error) {
		if err != nil {
			printLine(err)
			return
		}
		printServed(data)
	})
	return nil
}
