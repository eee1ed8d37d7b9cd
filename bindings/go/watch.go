//go:build cgo && linux

package rtr

import (
	"bytes"
	"context"
	"errors"
	"fmt"
	"io"
	"os"
	"runtime/debug"
	"syscall"
	"time"
)

// KeptSuffix is the suffix that Watch appends to the name of a file of data for its saved editions.
const KeptSuffix = ".kept"

// MostDataBytes is the maximal size of a file of data.
const MostDataBytes = 1 << 28

// LoadData loads the data of a file: a recording or a list, as Load takes it. It leaves out an
// answer that the next one interrupts.
//
// Errors: those of the file; those of Load, and a Fault with NoRoom for a file of more than
// MostDataBytes.
func LoadData(path string) (Data, error) {
	file, err := os.Open(path)
	if err != nil {
		return Data{}, err
	}
	defer file.Close()
	info, err := file.Stat()
	if err != nil {
		return Data{}, err
	}
	return loadFile(file, info)
}

// loadFile loads the data of an open file, as LoadData does.
func loadFile(file *os.File, info os.FileInfo) (Data, error) {
	var read bytes.Buffer
	if info.Size() <= MostDataBytes {
		read.Grow(int(info.Size()) + bytes.MinRead)
		if _, err := read.ReadFrom(io.LimitReader(file, MostDataBytes+1)); err != nil {
			return Data{}, err
		}
	}
	input := read.Bytes()
	if info.Size() > MostDataBytes || len(input) > MostDataBytes {
		fault := &Fault{Status: NoRoom, Offset: MostDataBytes}
		return Data{}, fmt.Errorf("%s: %w", file.Name(), fault)
	}
	data, _, err := Load(input)
	if err != nil {
		return Data{}, fmt.Errorf("%s: %w", file.Name(), err)
	}
	return data, nil
}

// Watch checks a file of data at this interval, until the context ends. It loads the file into the
// server at the start, and whenever the file changed. It calls report with new data, or with the
// error if data couldn't be loaded; the server then keeps its data. After an error of the system it
// retries at each interval, and reports the same error only once.
//
// Before new data are served it saves what a restart needs beside the file, with KeptSuffix after
// its name, as UpdateSaved does. If that fails, the server keeps its data. When the server starts
// again, Restore that file first.
func (s *Server) Watch(
	ctx context.Context, path string, interval time.Duration, report func(Data, error),
) {
	s.ready()
	ticks := time.NewTicker(interval)
	defer ticks.Stop()
	w := newWatcher(s, path, report)
	defer func() { w.spare.Close() }()
	for {
		w.check()
		select {
		case <-ctx.Done():
			return
		case <-ticks.C:
		}
	}
}

// watcher watches a file of data for a Server.
type watcher struct {
	server *Server
	path   string
	report func(Data, error)
	seen   stamp
	failed string   // the last error of the system, as reported; "" if there was none
	spare  *os.File // keeps a descriptor free for the file
}

func newWatcher(server *Server, path string, report func(Data, error)) *watcher {
	return &watcher{server: server, path: path, report: report, seen: stamp{size: -1}}
}

// check loads the file if it is due.
func (w *watcher) check() {
	info, _ := os.Stat(w.path)
	if !w.isDue(stampOf(info)) {
		return
	}
	w.spare.Close()
	old := w.server.present.Load()
	failed := w.load()
	if present := w.server.present.Load(); present != old {
		w.report(present.data, nil)
		debug.FreeOSMemory() // of slow clients that are closed now
	}
	w.spare, _ = os.Open(os.DevNull)
	before := w.failed
	w.failed = ""
	if failed == nil {
		return
	}
	if errors.As(failed, new(syscall.Errno)) {
		w.failed = failed.Error()
	}
	if w.failed == "" || w.failed != before {
		w.report(Data{}, failed)
	}
}

// isDue reports whether a file of this stamp has to be loaded: the system had an error at the last
// check, or the file changed since. While another file is renamed to the path, the path may still
// lead to the old file, which has lost its last link: that alone is no change.
func (w *watcher) isDue(now stamp) bool {
	replaced := w.seen
	replaced.links, replaced.changed = 0, now.changed
	return w.failed != "" || now != w.seen && now != replaced
}

// load loads the data of the file into the server, if they are due.
func (w *watcher) load() error {
	data, due, err := w.read()
	var system *os.PathError
	switch {
	case errors.As(err, &system):
		return fmt.Errorf("%s: %w", w.path, system.Err)
	case err != nil || !due:
		return err
	}
	debug.FreeOSMemory() // of the file's bytes
	if err := w.server.update(data, saverTo(w.path+KeptSuffix), debug.FreeOSMemory); err != nil {
		return fmt.Errorf("%s: %w", w.path, err)
	}
	return nil
}

// read returns the data of the file; false if they aren't due. Another file may have come to the
// path since check: the stamp is that of the file that is read, from before it is read.
func (w *watcher) read() (data Data, due bool, err error) {
	file, err := os.Open(w.path)
	if err != nil {
		return Data{}, false, err
	}
	defer file.Close()
	info, err := file.Stat()
	if err != nil || !w.isDue(stampOf(info)) {
		return Data{}, false, err
	}
	w.seen = stampOf(info)
	data, err = loadFile(file, info)
	return data, true, err
}

// stamp identifies the state of a file.
type stamp struct {
	device, inode, links uint64
	size                 int64
	written, changed     syscall.Timespec
}

// stampOf returns the stamp of a file; the zero stamp for nil.
func stampOf(info os.FileInfo) stamp {
	if info == nil {
		return stamp{}
	}
	now := info.Sys().(*syscall.Stat_t)
	return stamp{now.Dev, now.Ino, uint64(now.Nlink), now.Size, now.Mtim, now.Ctim}
}
