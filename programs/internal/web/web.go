// Package web serves the state of programs by HTTP.
package web

import (
	"context"
	"errors"
	"fmt"
	"net"
	"net/http"
	"time"

	"fishreef/programs/internal/trust"
)

// The time limits for a client's request, and for reading the answer.
const (
	askTime    = 10 * time.Second
	answerTime = 30 * time.Second
)

// Serve serves requests until the context ends.
func Serve(ctx context.Context, listener net.Listener, paths http.Handler) error {
	server := &http.Server{Handler: paths, ReadTimeout: askTime, WriteTimeout: answerTime}
	ended := make(chan struct{})
	go func() {
		defer close(ended)
		<-ctx.Done()
		server.Close()
	}()
	err := server.Serve(listener)
	if errors.Is(err, http.ErrServerClosed) {
		<-ended
		return nil
	}
	return err
}

// Health answers "good", or with status 503 and a line for each fault.
func Health(answer http.ResponseWriter, faults []trust.Fault) {
	answer.Header().Set("Content-Type", "text/plain; charset=utf-8")
	if len(faults) > 0 {
		answer.WriteHeader(http.StatusServiceUnavailable)
	}
	for _, fault := range faults {
		fmt.Fprintln(answer, fault.Text)
	}
	if len(faults) == 0 {
		fmt.Fprintln(answer, "good")
	}
}
