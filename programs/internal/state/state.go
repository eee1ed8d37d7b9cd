// Package state saves in a folder what a cache needs after a restart: its session, its serial
// number, and the changes from earlier data. All of it is in one file.
package state

import (
	"errors"
	"fmt"
	"os"
	"path/filepath"
	"syscall"

	"fishreef/rtr"
)

// The names of the files in the folder.
const (
	editionsName = "editions"
	refusedName  = "editions.refused"
	lockName     = "lock"
)

// Folder is the folder of one cache.
type Folder struct {
	path string
	lock *os.File
}

// Open locks the folder for this process, and creates it if it is missing: then it syncs the folder
// above, so that a power cut doesn't take it away with what is saved in it. The lock is a record
// lock of fcntl(2), which ends with the process: one of flock(2) would stay with a child that a
// killed cache has forked and that hasn't executed its program yet.
//
// Errors: those of the system; one if another process has locked the folder.
func Open(path string) (*Folder, error) {
	if err := create(path); err != nil {
		return nil, err
	}
	lock, err := os.OpenFile(filepath.Join(path, lockName), os.O_RDWR|os.O_CREATE, 0o600)
	if err != nil {
		return nil, err
	}
	err = syscall.FcntlFlock(lock.Fd(), syscall.F_SETLK, &syscall.Flock_t{Type: syscall.F_WRLCK})
	if err == nil {
		return &Folder{path, lock}, nil
	}
	lock.Close()
	if errors.Is(err, syscall.EAGAIN) {
		return nil, fmt.Errorf("%s: another cache uses this folder", path)
	}
	return nil, fmt.Errorf("%s: %w", lock.Name(), err)
}

// create creates a folder, if it is missing, and syncs the one above. It does so also if the folder
// is there but without data, since the process that created it may have ended before that.
func create(path string) error {
	created := os.Mkdir(path, 0o700)
	if created != nil && !errors.Is(created, os.ErrExist) {
		return created
	}
	if _, missing := os.Stat(filepath.Join(path, editionsName)); missing == nil {
		return nil
	}
	above, err := os.Open(filepath.Dir(filepath.Clean(path)))
	if errors.Is(err, os.ErrPermission) && created != nil {
		return nil // another program created it
	}
	if err != nil {
		return err
	}
	defer above.Close()
	if err := above.Sync(); !errors.Is(err, syscall.EINVAL) && !errors.Is(err, syscall.EROFS) {
		return err
	}
	return nil
}

// Close unlocks the folder.
func (f *Folder) Close() error {
	return f.lock.Close()
}

// editions returns the path of the file.
func (f *Folder) editions() string {
	return filepath.Join(f.path, editionsName)
}

// Restore loads the folder's data into a server. A damaged file, or one with times that a cache may
// not send, is renamed, and kept for examination: the server wouldn't replace it. It removes a file
// that a cache left that was killed while it saved.
//
// Errors: os.ErrNotExist if the folder has no data; those of the system; rtr.ErrTorn and
// rtr.ErrTiming.
func (f *Folder) Restore(server *rtr.Server) (rtr.Data, error) {
	os.Remove(f.editions() + ".new")
	data, err := server.Restore(f.editions())
	if errors.Is(err, rtr.ErrTorn) || errors.Is(err, rtr.ErrTiming) {
		refused := filepath.Join(f.path, refusedName)
		if failed := os.Rename(f.editions(), refused); failed != nil {
			return rtr.Data{}, failed
		}
		err = fmt.Errorf("%w; it is now %s", err, refused)
	}
	return data, err
}

// Unsaved is the error of data that can't be saved, and so aren't served.
type Unsaved struct{ Reason error }

// Error returns the reason as text.
func (u *Unsaved) Error() string { return u.Reason.Error() }

// Unwrap returns the reason.
func (u *Unsaved) Unwrap() error { return u.Reason }

// Update saves new data, and then passes them to the server: so whenever the process ends, the
// folder has every serial number that a router may have data of.
//
// Errors: an Unsaved, also for rtr.ErrNotRestored, if a file came into the folder after the start;
// those of rtr.Server.Update. The server has the former data then.
func (f *Folder) Update(server *rtr.Server, data rtr.Data) error {
	err := server.UpdateSaved(data, f.editions())
	if errors.As(err, new(syscall.Errno)) {
		return &Unsaved{err}
	}
	return err
}
