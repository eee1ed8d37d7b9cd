// Rtr-monitor compares the payloads of several caches and validators continuously: which payload is
// missing where, and since when.
package main

import (
	"context"
	"errors"
	"fmt"
	"os"
	"os/signal"
	"syscall"

	"fishreef/programs/internal/monitor"
	"fishreef/programs/internal/words"
)

func main() { os.Exit(int(run(os.Args[1:]))) }

// run runs the program, and returns its exit status.
func run(line []string) words.Status {
	opts, err := arguments(line)
	if errors.Is(err, words.ErrHelp) {
		return words.Well
	}
	if err != nil {
		fmt.Fprintln(os.Stderr, "rtr-monitor:", err)
		return words.StatusOfLine(err)
	}
	log := opts.log.Logger()
	ctx, stop := signal.NotifyContext(context.Background(), syscall.SIGINT, syscall.SIGTERM)
	defer stop()
	running, err := monitor.New(opts.settings, log)
	if err == nil {
		err = running.Run(ctx)
	}
	if err != nil {
		log.Error(err)
		return words.StatusOf(err)
	}
	return words.Well
}
