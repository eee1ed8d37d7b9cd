//go:build cgo && linux

package rtr

// #include "rtr.h"
import "C"

import (
	"errors"
	"fmt"
	"os"
	"path/filepath"
	"syscall"
	"time"
)

// besideSuffix is the suffix of the file that is written before it replaces the old one.
const besideSuffix = ".new"

// ErrTorn: a file isn't as Save wrote it.
var ErrTorn = errors.New("rtr: " + failureDamaged)

// ErrUnsynced: a file has the new store, but its folder couldn't be synced: after a power cut the
// file may have the former one.
var ErrUnsynced = errors.New("rtr: " + failureUnsynced)

// ErrNotRestored: a file exists that the server neither restored nor wrote, so it isn't replaced:
// a restart would lack the sessions that the file names. It is os.ErrExist, too.
var ErrNotRestored = errors.New("rtr: " + failureNotRestored)

// ErrOtherFile: the server saves its data in another file than this path names. Paths are compared
// as absolute paths without . and .., and links as what they are called.
var ErrOtherFile = errors.New("rtr: " + failureOtherFile)

// notRestored is the error of the system that a file exists, and ErrNotRestored.
type notRestored struct{ path string }

// Error returns the path with the text.
func (n notRestored) Error() string { return n.path + ": " + failureNotRestored }

// Is reports whether this is that error.
func (n notRestored) Is(other error) bool { return other == ErrNotRestored }

// Unwrap returns the error of the system.
func (n notRestored) Unwrap() error { return syscall.EEXIST }

// unsynced is an error of the system that is ErrUnsynced too.
type unsynced struct{ error }

// Is reports whether this is that error.
func (u unsynced) Is(other error) bool { return other == ErrUnsynced }

// Unwrap returns the error of the system.
func (u unsynced) Unwrap() error { return u.error }

// Save writes what a restart needs to a file: the sessions that the server left, the present data,
// and the changes from earlier data. It writes and syncs a file beside it, renames that, and syncs
// the folder. Without data it writes nothing. Servers of each language of this library read the
// file.
//
// Errors: those of the file; then no new file is left, and the old one is unchanged, unless the
// error is ErrUnsynced too; ErrUnsaved if the server doesn't save its data before it serves them,
// since a restart from the file wouldn't know all of them.
func (s *Server) Save(path string) error {
	s.ready()
	s.updating.Lock()
	defer s.updating.Unlock()
	if err := s.checkSaved(); err != nil {
		return err
	}
	store, _ := s.store.served()
	if store == nil {
		return nil
	}
	return saveStore(store, path)
}

// UnservedText is what a program logs about new data that can't be saved, while it retries that.
const UnservedText = failureUnserved

// RetryAfter returns how long a program waits before it calls Update again with data that couldn't
// be saved, where it waited so long before the last time, or 0 at the first: a second, and twice as
// long each time, up to a minute.
func RetryAfter(previous time.Duration) time.Duration {
	return span(C.rtr_retry_after(milliseconds(previous)))
}

// saver saves the stores of a server to a file.
type saver struct {
	path string // as the caller named the file
	full string // the absolute path that this was when the file was named, without . and ..
	save func(store []byte) error
	owns bool // the server restored the file, or wrote it
}

// saverTo returns the saver to a file.
func saverTo(path string) *saver {
	return &saver{path: path, save: func(store []byte) error { return saveStore(store, path) }}
}

// begin records which file the path names.
func (s *saver) begin() (err error) {
	s.full, err = filepath.Abs(s.path)
	return err
}

// is returns an error unless this path names the file now: links count as what they are called.
func (s *saver) is(path string) error {
	full, err := filepath.Abs(path)
	if err == nil && full != s.full {
		return fmt.Errorf("%s: %w: %s", path, ErrOtherFile, s.full)
	}
	return err
}

// check returns an error if there is a file that the server neither restored nor wrote. It is
// called just before a save, which would replace a file that is written in between: no other
// process may write it.
func (s *saver) check() error {
	if s.owns {
		return nil
	}
	_, err := os.Lstat(s.path)
	switch {
	case err == nil:
		return notRestored{s.path}
	case errors.Is(err, os.ErrNotExist):
		return nil
	}
	return err
}

// write saves a store. The file is the server's from then on, unless it wasn't replaced.
func (s *saver) write(store []byte) error {
	err := s.save(store)
	s.owns = s.owns || err == nil || errors.Is(err, ErrUnsynced)
	return err
}

// saveStore saves a store to a file, as Save does.
func saveStore(store []byte, path string) error {
	beside := path + besideSuffix
	file, err := os.Create(beside)
	if err != nil {
		return err
	}
	err = writeStore(file, store)
	if closed := file.Close(); err == nil {
		err = closed
	}
	if err == nil {
		err = os.Rename(beside, path)
	}
	if err != nil {
		os.Remove(beside)
		return err
	}
	if err := syncFolder(filepath.Dir(path)); err != nil {
		return unsynced{err}
	}
	return nil
}

// writeStore writes a store behind its head, and syncs the file.
func writeStore(file *os.File, store []byte) error {
	for _, part := range [][]byte{sealed(store), store} {
		if _, err := file.Write(part); err != nil {
			return err
		}
	}
	return file.Sync()
}

// syncFolder fsyncs a directory, if its file system can do that.
func syncFolder(path string) error {
	folder, err := os.Open(path)
	if err != nil {
		return err
	}
	defer folder.Close()
	if err := folder.Sync(); !errors.Is(err, syscall.EINVAL) {
		return err
	}
	return nil
}

// Restore loads what Save wrote, if the server has no data yet, and returns the data. With the
// saved session and serial number, clients get deltas after a restart; later data are saved to this
// file before they are served. Call it before Serve. It syncs the folder, and removes the file that
// saving writes at first, since the process that saved may have ended before it did.
//
// Errors: those of the file; ErrTorn; ErrTiming for times that RFC 8210 section 6 doesn't allow;
// ErrServerClosed after Close or Shutdown.
func (s *Server) Restore(path string) (Data, error) {
	file, err := os.ReadFile(path)
	if err != nil {
		return Data{}, err
	}
	var restored store
	if !restored.start(unsealed(file)) {
		return Data{}, fmt.Errorf("%s: %w", path, ErrTorn)
	}
	_, history := restored.served()
	present, _ := firstPart(history)
	data := checkedData(present)
	if err := data.servable(); err != nil {
		return Data{}, fmt.Errorf("%s: %w", path, err)
	}
	if err := syncFolder(filepath.Dir(path)); err != nil {
		return Data{}, err
	}
	os.Remove(path + besideSuffix)
	saver := saverTo(path)
	saver.owns = true
	if err := saver.begin(); err != nil {
		return Data{}, err
	}
	s.ready()
	s.updating.Lock()
	defer s.updating.Unlock()
	if s.closed.Load() {
		return Data{}, ErrServerClosed
	}
	if s.Data().IsZero() {
		s.store, s.saver = restored, saver
		s.present.Store(s.edition(0))
		s.wake()
	}
	return data, nil
}
