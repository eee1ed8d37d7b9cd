// Rtr-cache serves the payloads that validators write into files to routers, over the RPKI to
// Router protocol.
package main

import (
	"context"
	"errors"
	"fmt"
	"os"
	"os/signal"
	"syscall"

	"fishreef/programs/internal/cache"
	"fishreef/programs/internal/words"
)

func main() { os.Exit(int(run(os.Args[1:]))) }

// run runs the program, and returns its exit status.
func run(line []string) words.Status {
	opts, err := arguments(line)
	if errors.Is(err, words.ErrHelp) {
		return words.Well
	}
	if err != nil {
		fmt.Fprintln(os.Stderr, "rtr-cache:", err)
		return words.StatusOfLine(err)
	}
	log := opts.log.Logger()
	ctx, stop := signal.NotifyContext(context.Background(), syscall.SIGINT, syscall.SIGTERM)
	defer stop()
	reload, confirm := make(chan os.Signal, 1), make(chan os.Signal, 1)
	signal.Notify(reload, syscall.SIGHUP)
	signal.Notify(confirm, syscall.SIGUSR1)
	running, err := cache.New(opts.settings, log)
	if err == nil {
		err = running.Run(ctx, cache.Signals{Reload: reload, Confirm: confirm})
	}
	if err != nil {
		log.Error(err)
		return words.StatusOf(err)
	}
	return words.Well
}
