// Rtr-client follows the data of caches over the RPKI to Router protocol: it prints changes, writes
// the newest data to a file, records sessions, and validates routes.
package main

import (
	"context"
	"errors"
	"fmt"
	"io"
	"os"
	"os/signal"
	"syscall"

	"fishreef/programs/internal/words"
	"fishreef/rtr"
)

func main() { os.Exit(int(run(os.Args[1:]))) }

// run runs the program, and returns its exit status.
func run(line []string) words.Status {
	opts, err := arguments(line)
	if errors.Is(err, words.ErrHelp) {
		return words.Well
	}
	if err != nil {
		say(err)
		return words.StatusOfLine(err)
	}
	ctx, stop := signal.NotifyContext(context.Background(), syscall.SIGINT, syscall.SIGTERM)
	defer stop()
	asked := make(chan os.Signal, 1)
	signal.Notify(asked, syscall.SIGUSR1)
	if err := follows(ctx, opts, os.Stdout, asked); err != nil {
		say(err)
		return words.StatusOf(err)
	}
	return words.Well
}

// follows follows the caches until the context ends, or with --once until there are data.
func follows(ctx context.Context, o *options, output io.Writer, asked <-chan os.Signal) error {
	counts := newCounts()
	sources, err := o.sources(counts)
	if err != nil {
		return err
	}
	ended := make(chan struct{})
	defer close(ended)
	go func() {
		for {
			select {
			case <-asked:
				counts.say(os.Stderr)
			case <-ended:
				return
			}
		}
	}()
	shown := &show{
		options: o, ctx: ctx, counts: counts, output: output, colours: coloursOf(output),
		progress: newProgress(os.Stderr, counts),
	}
	defer counts.say(os.Stderr)
	defer shown.progress.end()
	err = rtr.Follow(ctx, sources, shown)
	if errors.Is(err, errEnough) || errors.Is(err, context.Canceled) && !o.once {
		return nil
	}
	return err
}

// say prints a line on standard error.
func say(what ...any) {
	fmt.Fprintln(os.Stderr, append([]any{"rtr-client:"}, what...)...)
}
