//go:build cgo && linux

package rtr

import (
	"bytes"
	"context"
	"errors"
	"os"
	"syscall"
	"testing"
	"time"
)

// inHighest returns the data of a sequence in the version in which a server keeps them.
func inHighest(t *testing.T, sequence []byte) Data {
	t.Helper()
	data, err := parsed(t, sequence).For(highestVersion)
	if err != nil {
		t.Fatal(err)
	}
	return data
}

// restarted returns a server restored from what a server of these data saved, and its address.
func restarted(t *testing.T, path string, all ...[]byte) (*Server, string) {
	t.Helper()
	first := NewServer()
	for _, sequence := range all {
		if err := first.UpdateSaved(parsed(t, sequence), path); err != nil {
			t.Fatal(err)
		}
	}
	server, address := started(t, nil)
	data, err := server.Restore(path)
	if err != nil || !data.Equal(first.Data()) {
		t.Fatal(data, err)
	}
	return server, address
}

// A restarted server has the session, the serial number, and the changes from earlier data; even if
// its data are newer by then.
func TestServerRestart(t *testing.T) {
	noLeaks(t)
	path := t.TempDir() + "/kept"
	all := sequences(1, 1, 2, 1, 1)
	server, address := restarted(t, path, all[:4]...)
	connection := dial(t, address)
	send(t, connection, asked(1, 0))
	expect(t, connection, join(response(1, 7), all[3]))
	if got := stepsBack(t, connection, 4); got != 3 {
		t.Fatal(got)
	}
	if err := server.Update(parsed(t, all[4])); err != nil {
		t.Fatal(err)
	}
	expect(t, connection, numbered(1, 0, 7, 5))
	if got := stepsBack(t, dial(t, address), 5); got != 4 {
		t.Fatal(got)
	}
	// It has data now, and doesn't restore others; but it removes what a killed server left.
	if err := os.WriteFile(path+besideSuffix, []byte("rtrkept"), 0o600); err != nil {
		t.Fatal(err)
	}
	if _, err := server.Restore(path); err != nil {
		t.Fatal(err)
	}
	if _, err := os.Stat(path + besideSuffix); !errors.Is(err, os.ErrNotExist) {
		t.Fatal("a new file is left:", err)
	}
	send(t, connection, asked(1, 7, 4))
	expect(t, connection, join(response(1, 7), changed(changed(ipv4, 0, 1), 13, 4),
		changed(changed(changed(ipv4, 0, 1), 13, 3), 8, 0), ending(1, 7, 5)))
}

// A server without data saves nothing, and a missing or incomplete file is refused.
func TestServerTorn(t *testing.T) {
	noLeaks(t)
	path := t.TempDir() + "/kept"
	server := NewServer()
	if err := server.Save(path); err != nil {
		t.Fatal(err)
	}
	if _, err := server.Restore(path); !errors.Is(err, os.ErrNotExist) {
		t.Fatal(err)
	}
	restarted(t, path, sequences(1, 1, 1)...)
	whole, err := os.ReadFile(path)
	if err != nil {
		t.Fatal(err)
	}
	// One byte too many; and no store, with the hash of nothing, in both forms.
	hash := []byte{0xcb, 0xf2, 0x9c, 0xe4, 0x84, 0x22, 0x23, 0x25}
	torn := [][]byte{
		append(append([]byte{}, whole...), 0), join([]byte("rtrkept1"), hash),
		join([]byte("rtrkept2"), make([]byte, 8), hash),
	}
	for i := range whole {
		torn = append(torn, whole[:i], changed(whole, i, whole[i]^1))
	}
	for _, input := range torn {
		if err := os.WriteFile(path, input, 0o600); err != nil {
			t.Fatal(err)
		}
		if _, err := server.Restore(path); !errors.Is(err, ErrTorn) {
			t.Fatalf("%x: %v", input, err)
		}
	}
	if !server.Data().IsZero() {
		t.Fatal("data of a torn file")
	}
}

// Data are saved before they are served. If they can't be saved, or are the same, nothing changes.
func TestUpdateSaved(t *testing.T) {
	noLeaks(t)
	folder := t.TempDir()
	path := folder + "/there/kept"
	if err := os.Mkdir(folder+"/there", 0o700); err != nil {
		t.Fatal(err)
	}
	all := sequences(1, 1, 1)
	server := NewServer()
	for _, sequence := range all[:2] {
		if err := server.UpdateSaved(parsed(t, sequence), path); err != nil {
			t.Fatal(err)
		}
		again := NewServer()
		if data, err := again.Restore(path); err != nil || !data.Equal(inHighest(t, sequence)) {
			t.Fatal(data, err)
		}
	}
	if err := os.Rename(folder+"/there", folder+"/away"); err != nil {
		t.Fatal(err)
	}
	err := server.UpdateSaved(parsed(t, all[2]), path)
	if !errors.Is(err, os.ErrNotExist) || server.Data().Serial() != 2 {
		t.Fatal(err)
	}
	if err := server.UpdateSaved(parsed(t, all[1]), path); err != nil {
		t.Fatal(err)
	}
}

// holds checks that a file still has this content, with no other file beside it.
func holds(t *testing.T, path string, content []byte) {
	t.Helper()
	if got, err := os.ReadFile(path); err != nil || !bytes.Equal(got, content) {
		t.Errorf("%x, %v", got, err)
	}
	if _, err := os.Stat(path + besideSuffix); !errors.Is(err, os.ErrNotExist) {
		t.Error("a new file is left:", err)
	}
}

// A file that a server neither restored nor wrote isn't replaced, be it whole or damaged, until it
// is restored or removed. A refusal changes nothing.
func TestUpdateSavedNotRestored(t *testing.T) {
	noLeaks(t)
	path, all := t.TempDir()+"/kept", sequences(1, 1)
	restarted(t, path, all[0])
	whole, err := os.ReadFile(path)
	if err != nil {
		t.Fatal(err)
	}
	for name, content := range map[string][]byte{"whole": whole, "damaged": whole[1:], "empty": {}} {
		if err := os.WriteFile(path, content, 0o600); err != nil {
			t.Fatal(err)
		}
		server, other := NewServer(), t.TempDir()+"/kept"
		_, restored := server.Restore(path)
		if name == "whole" {
			server = NewServer()
		} else if !errors.Is(restored, ErrTorn) {
			t.Fatal(name, restored)
		}
		for i := 0; i < 2; i++ {
			err := server.UpdateSaved(parsed(t, all[1]), path)
			if !errors.Is(err, ErrNotRestored) || !errors.Is(err, os.ErrExist) ||
				err.Error() != path+": the file exists, and wasn't restored" {
				t.Error(name, err)
			}
			holds(t, path, content)
		}
		if err := server.UpdateSaved(parsed(t, all[1]), other); err != nil {
			t.Error(name, err) // the first file wasn't named
		}
	}
}

// After a refusal the server saves to the file, once it has restored it, or it is removed.
func TestUpdateSavedAfterRefusal(t *testing.T) {
	noLeaks(t)
	path, all := t.TempDir()+"/kept", sequences(1, 1)
	for name, takes := range map[string]func(*Server) error{
		"restored": func(s *Server) error { _, err := s.Restore(path); return err },
		"removed":  func(*Server) error { return os.Remove(path) },
	} {
		if err := NewServer().UpdateSaved(parsed(t, all[0]), path); err != nil {
			t.Fatal(name, err)
		}
		server := NewServer()
		if err := server.UpdateSaved(parsed(t, all[1]), path); !errors.Is(err, ErrNotRestored) {
			t.Error(name, err)
		}
		if err := takes(server); err != nil {
			t.Fatal(name, err)
		}
		if err := server.UpdateSaved(parsed(t, all[1]), path); err != nil {
			t.Error(name, err)
		}
		if data, err := NewServer().Restore(path); err != nil || !data.Equal(server.Data()) {
			t.Error(name, data, err)
		}
		if err := os.Remove(path); err != nil {
			t.Fatal(name, err)
		}
	}
}

// A file that appears after a first save failed isn't replaced either; nor is a link to no file.
func TestFileBeforeFirstSave(t *testing.T) {
	path, all := t.TempDir()+"/kept", sequences(1)
	server := NewServer()
	if err := os.Mkdir(path+besideSuffix, 0o700); err != nil {
		t.Fatal(err)
	}
	if err := server.UpdateSaved(parsed(t, all[0]), path); !errors.Is(err, syscall.EISDIR) {
		t.Fatal(err)
	}
	if err := os.Remove(path + besideSuffix); err != nil {
		t.Fatal(err)
	}
	if err := os.Symlink("nowhere", path); err != nil {
		t.Fatal(err)
	}
	for name, update := range map[string]func() error{
		"Update":      func() error { return server.Update(parsed(t, all[0])) },
		"UpdateSaved": func() error { return server.UpdateSaved(parsed(t, all[0]), path) },
	} {
		if err := update(); !errors.Is(err, ErrNotRestored) || !server.Data().IsZero() {
			t.Error(name, err)
		}
	}
	if err := os.Remove(path); err != nil {
		t.Fatal(err)
	}
	if err := server.Update(parsed(t, all[0])); err != nil {
		t.Error(err)
	}
}

// inFolder makes a folder the current one, until the test ends.
func inFolder(t *testing.T, folder string) {
	t.Helper()
	before, err := os.Getwd()
	if err != nil {
		t.Fatal(err)
	}
	if err := os.Chdir(folder); err != nil {
		t.Fatal(err)
	}
	t.Cleanup(func() { os.Chdir(before) })
}

// A file may be named by any path to it, but not by another link; and a relative path names it only
// in the folder in which it did at first.
func TestSpellingsOfOneFile(t *testing.T) {
	noLeaks(t)
	folder, all := t.TempDir(), sequences(1, 1, 1, 1)
	if err := os.Mkdir(folder+"/a", 0o700); err != nil {
		t.Fatal(err)
	}
	if err := os.Symlink("a", folder+"/link"); err != nil {
		t.Fatal(err)
	}
	inFolder(t, folder)
	saved, _ := restarted(t, "a/kept", all[0])
	named := NewServer()
	if err := named.UpdateSaved(parsed(t, all[0]), "./a/named"); err != nil {
		t.Fatal(err)
	}
	for name, server := range map[string]*Server{"kept": saved, "named": named} {
		same := []string{"a/" + name, "./a//" + name, "a/../a/./" + name, folder + "/a/" + name}
		for _, path := range same {
			if err := server.UpdateSaved(parsed(t, all[1]), path); err != nil {
				t.Errorf("%s: %v", path, err)
			}
		}
		if err := server.UpdateSaved(parsed(t, all[2]), "link/"+name); !errors.Is(err, ErrOtherFile) {
			t.Error(err)
		}
	}
	inFolder(t, folder+"/a")
	for name, server := range map[string]*Server{"kept": saved, "named": named} {
		for _, update := range []func() error{
			func() error { return server.Update(parsed(t, all[2])) },
			func() error { return server.UpdateSaved(parsed(t, all[2]), "a/"+name) },
		} {
			if err := update(); !errors.Is(err, ErrOtherFile) || server.Data().Serial() != 2 {
				t.Error(name, err)
			}
		}
		if data, err := NewServer().Restore(name); err != nil || data.Serial() != 2 {
			t.Error(name, err)
		}
	}
}

// A server saves all its data to one file, which UpdateSaved or Restore named. A refusal changes
// nothing.
func TestUpdateSavedOtherFile(t *testing.T) {
	noLeaks(t)
	folder, all := t.TempDir(), sequences(1, 1, 1)
	path, other := folder+"/kept", folder+"/other"
	restored, _ := restarted(t, path, all[0])
	named := NewServer()
	if err := named.UpdateSaved(parsed(t, all[0]), folder+"/named"); err != nil {
		t.Fatal(err)
	}
	for file, server := range map[string]*Server{path: restored, folder + "/named": named} {
		err := server.UpdateSaved(parsed(t, all[1]), other)
		if !errors.Is(err, ErrOtherFile) || server.Data().Serial() != 1 ||
			err.Error() != other+": rtr: the data are saved in another file: "+file {
			t.Error(err, server.Data())
		}
		if _, err := os.Lstat(other); !errors.Is(err, os.ErrNotExist) {
			t.Error(err)
		}
		if err := server.Update(parsed(t, all[1])); err != nil {
			t.Error(err)
		}
		if data, err := NewServer().Restore(file); err != nil || data.Serial() != 2 {
			t.Error(data, err)
		}
	}
}

// replaceByFolder puts a folder in the place of a file, and makes one in it, unless that is "".
func replaceByFolder(t *testing.T, path, inside string) {
	t.Helper()
	if err := os.Remove(path); err != nil {
		t.Fatal(err)
	}
	if err := os.MkdirAll(path+inside, 0o700); err != nil {
		t.Fatal(err)
	}
}

// A failed rename is an error: the old file stays, and nothing new is served.
func TestRenameFails(t *testing.T) {
	noLeaks(t)
	all := sequences(1, 1, 1)
	for name, taken := range map[string]string{"a folder": "", "a folder with files": "/a"} {
		path := t.TempDir() + "/kept"
		server := NewServer()
		if err := server.UpdateSaved(parsed(t, all[0]), path); err != nil {
			t.Fatal(err)
		}
		replaceByFolder(t, path, taken)
		if err := server.Save(path); !errors.As(err, new(*os.LinkError)) {
			t.Errorf("%s: %v", name, err)
		}
		err := server.UpdateSaved(parsed(t, all[1]), path)
		if !errors.As(err, new(*os.LinkError)) || server.Data().Serial() != 1 {
			t.Errorf("%s: %v, serial %d", name, err, server.Data().Serial())
		}
		if info, err := os.Stat(path); err != nil || !info.IsDir() {
			t.Errorf("%s: %v", name, err)
		}
		if _, err := os.Stat(path + besideSuffix); !errors.Is(err, os.ErrNotExist) {
			t.Errorf("%s: a new file is left: %v", name, err)
		}
	}
}

// watched is a watcher of a missing file, and its last message.
func watched(t *testing.T) (w *watcher, last *error) {
	last = new(error)
	w = newWatcher(NewServer(), t.TempDir()+"/data", func(_ Data, err error) { *last = err })
	t.Cleanup(func() { w.spare.Close() })
	return w, last
}

// overwrite replaces the content of a file, and keeps its time.
func overwrite(t *testing.T, path string, input []byte) {
	t.Helper()
	if err := os.WriteFile(path, input, 0o600); err != nil {
		t.Fatal(err)
	}
	if err := os.Chtimes(path, time.Unix(1, 0), time.Unix(1, 0)); err != nil {
		t.Fatal(err)
	}
}

// A file with other bytes, of the same length and the same time, is taken; an unchanged one isn't
// read again.
func TestWatchSameTime(t *testing.T) {
	w, last := watched(t)
	for _, input := range sequences(1, 1, 1, 1) {
		overwrite(t, w.path, input)
		w.check()
		if *last != nil || !w.server.Data().Equal(inHighest(t, input)) {
			t.Fatal(*last)
		}
		*last = errFailed
		w.check()
		if *last != errFailed {
			t.Fatal(*last)
		}
	}
}

// withoutDescriptors uses up all descriptors of the process; call the returned function to release
// them.
func withoutDescriptors(t *testing.T) (release func()) {
	t.Helper()
	var usual syscall.Rlimit
	if err := syscall.Getrlimit(syscall.RLIMIT_NOFILE, &usual); err != nil {
		t.Fatal(err)
	}
	few := usual
	few.Cur = 64
	if err := syscall.Setrlimit(syscall.RLIMIT_NOFILE, &few); err != nil {
		t.Fatal(err)
	}
	var taken []*os.File
	for {
		file, err := os.Open(os.DevNull)
		if err != nil {
			break
		}
		taken = append(taken, file)
	}
	return func() {
		for _, file := range taken {
			file.Close()
		}
		if err := syscall.Setrlimit(syscall.RLIMIT_NOFILE, &usual); err != nil {
			t.Fatal(err)
		}
	}
}

// A watcher doesn't replace a saved file that wasn't restored. It says so once, and continues
// when that is removed.
func TestWatchNotRestored(t *testing.T) {
	w, last := watched(t)
	overwrite(t, w.path, sequences(1)[0])
	kept := w.path + KeptSuffix
	if err := os.WriteFile(kept, []byte("rtrkept2"), 0o600); err != nil {
		t.Fatal(err)
	}
	w.check()
	if !errors.Is(*last, ErrNotRestored) || !w.server.Data().IsZero() {
		t.Fatal(*last)
	}
	*last = errFailed
	w.check()
	if *last != errFailed {
		t.Fatal(*last)
	}
	holds(t, kept, []byte("rtrkept2"))
	if err := os.Remove(kept); err != nil {
		t.Fatal(err)
	}
	w.check()
	if *last != nil || w.server.Data().Serial() != 1 {
		t.Fatal(*last)
	}
}

// Without free descriptors a file is read with the reserved one. Without that, an error is reported
// once, and reading is retried.
func TestWatchFull(t *testing.T) {
	w, last := watched(t)
	all := sequences(1, 1)
	overwrite(t, w.path, all[0])
	release := withoutDescriptors(t)
	w.check()
	w.check()
	err := *last
	*last = nil
	w.check()
	again := *last
	release()
	if !errors.Is(err, syscall.EMFILE) || again != nil {
		t.Fatal(err, again)
	}
	w.check()
	if *last != nil || w.server.Data().Serial() != 1 {
		t.Fatal(*last)
	}
	if err := w.server.Update(parsed(t, all[1])); err != nil {
		t.Fatal(err)
	}
	release = withoutDescriptors(t)
	os.Chtimes(w.path, time.Unix(2, 0), time.Unix(2, 0))
	w.check()
	release()
	if !errors.Is(*last, ErrSameSerial) {
		t.Fatal(*last)
	}
}

// A server that watches a file continues where the former one stopped.
func TestWatchRestart(t *testing.T) {
	noLeaks(t)
	path := t.TempDir() + "/data"
	all := sequences(1, 1, 1)
	for i, sequence := range all {
		if err := os.WriteFile(path, sequence, 0o600); err != nil {
			t.Fatal(err)
		}
		server, address := started(t, nil)
		data, err := server.Restore(path + KeptSuffix)
		if errors.Is(err, os.ErrNotExist) != (i == 0) || data.Serial() != uint32(i) {
			t.Fatal(i, data, err)
		}
		ctx, stop := context.WithCancel(context.Background())
		updates, ended := make(chan Data, 10), make(chan struct{})
		go func() {
			defer close(ended)
			server.Watch(ctx, path, time.Hour, func(data Data, err error) {
				if err != nil {
					t.Error(err)
				}
				updates <- data
			})
		}()
		if data := <-updates; data.Serial() != uint32(i+1) {
			t.Fatal(i, data)
		}
		if got := stepsBack(t, dial(t, address), uint32(i+1)); got != uint32(i) {
			t.Fatal(i, got)
		}
		stop()
		<-ended
	}
}
