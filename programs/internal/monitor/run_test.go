package monitor

import (
	"context"
	"io"
	"net"
	"net/http"
	"net/http/httptest"
	"os"
	"path/filepath"
	"runtime"
	"testing"
	"time"

	"github.com/sirupsen/logrus"

	"fishreef/programs/internal/beside"
	"fishreef/programs/internal/fetch"
	"fishreef/programs/internal/payloads"
	"fishreef/programs/internal/trial"
	"fishreef/rtr"
)

// serving returns a listening cache of these data.
func serving(t *testing.T, data rtr.Data) (server *rtr.Server, address string) {
	t.Helper()
	listener, err := net.Listen("tcp", "127.0.0.1:0")
	if err != nil {
		t.Fatal(err)
	}
	server = rtr.NewServer()
	go server.Serve(listener)
	if err := server.Update(data); err != nil {
		t.Fatal(err)
	}
	return server, listener.Addr().String()
}

// descriptors returns how many files and sockets are open here.
func descriptors(t *testing.T) int {
	t.Helper()
	open, err := os.ReadDir("/proc/self/fd")
	if err != nil {
		t.Fatal(err)
	}
	return len(open)
}

// settles waits until a number is as low as before.
func settles(t *testing.T, what string, before int, now func() int) {
	t.Helper()
	until := time.Now().Add(trial.Wait)
	for now() > before {
		if time.Now().After(until) {
			t.Fatalf("%d %s, and %d before", now(), what, before)
		}
		time.Sleep(5 * time.Millisecond)
	}
}

// A monitor that ran over sources of all kinds, some of which fail, leaves no goroutine, no
// descriptor and no file behind.
func TestLeavesNothing(t *testing.T) {
	maker, err := beside.Find("rtr_make")
	if err != nil {
		t.Fatal(err)
	}
	folder, temporary := t.TempDir(), t.TempDir()
	trial.Write(t, folder+"/f", "AS64496,10.0.0.0/8,8\n")
	has := sideOf(t, 2, "10.0.0.0/8 64496", "10.0.0.0/9 64496").data
	server, address := serving(t, has)
	defer server.Close()
	web := httptest.NewServer(http.FileServer(http.Dir(folder)))
	defer web.Close()
	var sources []Source
	for _, word := range []string{
		address, trial.Reserved(t), "csv:" + folder + "/f", "csv:" + folder + "/none",
		"csv:" + web.URL + "/f", "csv:" + web.URL + "/none",
	} {
		source, err := ParseSource(word)
		if err != nil {
			t.Fatal(err)
		}
		sources = append(sources, source)
	}
	usual := fetch.Usual()
	usual.Every, usual.Folder = time.Second, temporary
	settings := Settings{
		Sources: sources, Reader: payloads.Reader{Maker: maker}, Fetch: usual, Version: 2,
		Look: 100 * time.Millisecond, Grace: time.Second, HTTP: "127.0.0.1:0",
	}
	log := logrus.New()
	log.SetOutput(io.Discard)
	goroutines, open := runtime.NumGoroutine(), descriptors(t)
	for times := 0; times < 3; times++ {
		m, err := New(settings, log)
		if err != nil {
			t.Fatal(err)
		}
		ctx, cancel := context.WithCancel(context.Background())
		ended := make(chan error)
		go func() { ended <- m.Run(ctx) }()
		until := time.Now().Add(trial.Wait)
		listing, _, _ := m.listing(time.Now())
		for listing.OldOnes < 2 && time.Now().Before(until) {
			time.Sleep(10 * time.Millisecond)
			listing, _, _ = m.listing(time.Now())
		}
		if listing.OldOnes != 2 || listing.Sources[4].Missing != 1 || listing.Sources[2].Missing != 1 {
			t.Errorf("%+v", listing)
		}
		cancel()
		if err := <-ended; err != nil {
			t.Error(err)
		}
	}
	settles(t, "goroutines", goroutines+2, runtime.NumGoroutine) // of the web server's and the cache's
	settles(t, "descriptors", open+2, func() int { return descriptors(t) })
	if left, err := filepath.Glob(temporary + "/*"); err != nil || len(left) != 0 {
		t.Error(left, err)
	}
}
