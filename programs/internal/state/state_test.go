package state

import (
	"encoding/binary"
	"errors"
	"hash/fnv"
	"os"
	"os/exec"
	"testing"

	"fishreef/rtr"
)

// opened returns a locked folder, and data for its cache.
func opened(t *testing.T) (*Folder, rtr.Data) {
	t.Helper()
	folder, err := Open(t.TempDir())
	if err != nil {
		t.Fatal(err)
	}
	t.Cleanup(func() { folder.Close() })
	data, err := rtr.NewData(1, 7, 1, rtr.RecommendedTiming)
	if err != nil {
		t.Fatal(err)
	}
	return folder, data
}

// formerFile returns a file of a version before 0.3.0 with these data.
func formerFile(data []byte) []byte {
	part := binary.BigEndian.AppendUint64(make([]byte, 8), uint64(len(data)))
	part = append(part, data...)
	sum := fnv.New64a()
	sum.Write(part)
	return append(sum.Sum([]byte("rtrkept1")), part...)
}

// A file that is refused is renamed, also one with times that a cache may not send: then another
// one is saved in its place.
func TestRefusedFile(t *testing.T) {
	folder, data := opened(t)
	timeless := append([]byte{}, data.Bytes()...)
	copy(timeless[len(timeless)-12:], []byte{0, 0, 0, 0}) // the refresh time
	for name, row := range map[string]struct {
		file   []byte
		reason error
	}{"damaged": {[]byte("serial 7"), rtr.ErrTorn}, "timeless": {formerFile(timeless), rtr.ErrTiming}} {
		if err := os.WriteFile(folder.editions(), row.file, 0o600); err != nil {
			t.Fatal(err)
		}
		server := rtr.NewServer()
		if _, err := folder.Restore(server); !errors.Is(err, row.reason) {
			t.Error(name, err)
		}
		if err := folder.Update(server, data); err != nil || server.Data().Serial() != 1 {
			t.Error(name, err)
		}
		if got, err := os.ReadFile(folder.path + "/editions.refused"); string(got) != string(row.file) {
			t.Error(name, got, err)
		}
	}
}

// A file that came into the folder after the start isn't replaced: the data wait until it is
// removed.
func TestFileAfterStart(t *testing.T) {
	folder, data := opened(t)
	server := rtr.NewServer()
	if _, err := folder.Restore(server); !errors.Is(err, os.ErrNotExist) {
		t.Fatal(err)
	}
	if err := os.WriteFile(folder.editions(), []byte("of a backup"), 0o600); err != nil {
		t.Fatal(err)
	}
	var unsaved *Unsaved
	err := folder.Update(server, data)
	if !errors.As(err, &unsaved) || !errors.Is(err, rtr.ErrNotRestored) || !server.Data().IsZero() {
		t.Error(err)
	}
	if err := os.Remove(folder.editions()); err != nil {
		t.Fatal(err)
	}
	if err := folder.Update(server, data); err != nil || server.Data().Serial() != 1 {
		t.Error(err)
	}
}

// A child that has the lock's file, as one that is forked and hasn't executed its program yet,
// keeps no folder locked whose cache has ended.
func TestChildHasNoLock(t *testing.T) {
	path := t.TempDir()
	folder, err := Open(path)
	if err != nil {
		t.Fatal(err)
	}
	child := exec.Command("cat")
	child.ExtraFiles = []*os.File{folder.lock}
	input, err := child.StdinPipe()
	if err != nil {
		t.Fatal(err)
	}
	if err := child.Start(); err != nil {
		t.Fatal(err)
	}
	defer child.Wait()
	defer input.Close()
	if err := folder.Close(); err != nil {
		t.Fatal(err)
	}
	again, err := Open(path)
	if err != nil {
		t.Fatal(err)
	}
	again.Close()
}
