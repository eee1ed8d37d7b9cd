package main

import (
	"os"
	"os/exec"
	"testing"

	"fishreef/programs/internal/trial"
	"fishreef/programs/internal/words"
	"fishreef/rtr"
)

// saveCalls are the system calls of a save in their order, each with the path that it is about, in
// the state folder, and the serial number that the folder has before it. Those of the folder itself
// come at a start, too, before the saved data are served.
var saveCalls = []struct {
	name, path string
	serial     uint32
}{
	{"openat", "/editions.new", 1},
	{"write", "/editions.new", 1},
	{"fsync", "/editions.new", 1},
	{"close", "/editions.new", 1},
	{"renameat", "/editions.new", 1},
	{"openat", "", 1},
	{"fsync", "", 1},
}

// injected starts a cache by strace, which injects something into the calls about a path below the
// state folder. It knows them by the absolute path.
func injected(t *testing.T, folder, path, injection string) *trial.Process {
	t.Helper()
	return injectedAt(t, folder, folder+"/state"+path, injection)
}

// injectedAt is injected with any path.
func injectedAt(t *testing.T, folder, path, injection string) *trial.Process {
	t.Helper()
	// strace runs as a grandchild, so that the cache is the process that the test kills.
	run := exec.Command("strace", "-D", "-f", "-qq", "-o", folder+"/trace",
		"-P", path, "-e", "inject="+injection,
		os.Args[0], "--csv", "f", "--state", folder+"/state", "--listen", "127.0.0.1:0")
	return trial.StartBy(t, folder, nil, run)
}

// withState returns a folder with a list of 201 payloads and the state of a cache that served 200
// of them, and the data of that cache.
func withState(t *testing.T) (folder string, first rtr.Data) {
	t.Helper()
	folder = t.TempDir()
	trial.Write(t, folder+"/f", rows(200))
	process, address := started(t, folder, "--csv", "f", "--state", "state")
	process.Says("200 payloads", 1)
	first = fetched(t, address, 2)
	process.End()
	trial.Write(t, folder+"/f", rows(201))
	return folder, first
}

// continues starts a cache over the state, and checks that it continues from data of this serial
// number of the same session, and that a router with its first data gets the present ones.
func continues(t *testing.T, folder string, first rtr.Data, serial uint32) {
	t.Helper()
	trial.Write(t, folder+"/f", rows(202))
	process, address := started(t, folder, "--csv", "f", "--state", "state")
	process.Says("202 payloads", 1)
	last := fetched(t, address, 2)
	if last.Session() != first.Session() || last.Serial() != serial+1 || last.Len() != 202 {
		t.Errorf("session %d serial %d: %s", last.Session(), last.Serial(), process.Stderr())
	}
	leads(t, address, first, last)
	process.End()
}

// withStrace skips a test if strace isn't installed, or may not trace.
func withStrace(t *testing.T) {
	t.Helper()
	if err := exec.Command("strace", "-o", os.DevNull, "true").Run(); err != nil {
		t.Skip("no strace here: ", err)
	}
}

// A cache that is killed at any system call of saving hasn't served the data that it was saving,
// and continues from the older or the newer data after a restart.
func TestKilledInEachCall(t *testing.T) {
	withStrace(t)
	for _, call := range saveCalls {
		call := call
		t.Run(call.name+" of state"+call.path, func(t *testing.T) {
			folder, first := withState(t)
			process := injected(t, folder, call.path, call.name+":signal=SIGKILL")
			if process.Status() != -1 || process.Lines("201 payloads") > 0 {
				t.Fatal(process.Status(), process.Stderr())
			}
			if call.path == "" && process.Lines("payloads") > 0 {
				t.Fatal("it serves data that may not be on the disk:", process.Stderr())
			}
			continues(t, folder, first, call.serial)
		})
	}
}

// A cache that is killed before the folder is synced has served nothing, and its next run serves
// the data that it saved, or newer ones.
func TestKilledBeforeFolderIsSynced(t *testing.T) {
	withStrace(t)
	for _, call := range []string{"openat", "fsync"} {
		call := call
		t.Run(call, func(t *testing.T) {
			folder := t.TempDir()
			trial.Write(t, folder+"/f", rows(200))
			process := injected(t, folder, "", call+":signal=SIGKILL")
			if process.Status() != -1 || process.Lines("200 payloads") > 0 {
				t.Fatal(process.Status(), process.Stderr())
			}
			trial.Write(t, folder+"/f", rows(202))
			process, address := started(t, folder, "--csv", "f", "--state", "state")
			process.Says("serial 1: 200 payloads", 1)
			process.Says("serial 2: 202 payloads", 1)
			if last := fetched(t, address, 2); last.Serial() != 2 || last.Len() != 202 {
				t.Error(last.Serial(), last.Len())
			}
			process.End()
		})
	}
}

// A cache that can't sync the folder at a start serves none of the saved data, and says why.
func TestStartNeedsSync(t *testing.T) {
	withStrace(t)
	folder, _ := withState(t)
	process := injected(t, folder, "", "fsync:error=EIO")
	if status := process.Status(); status != words.Failed || process.Lines("payloads") > 0 ||
		process.Lines("input/output error") != 1 {
		t.Error(status, process.Stderr())
	}
}

// A cache that creates its state folder, but can't sync the folder above, serves nothing: a power
// cut could take the state away. It syncs that again at a start as long as nothing is saved.
func TestNewFolderIsSynced(t *testing.T) {
	withStrace(t)
	folder := t.TempDir()
	trial.Write(t, folder+"/f", rows(3))
	for i := 0; i < 2; i++ {
		process := injectedAt(t, folder, folder, "fsync:error=EIO")
		if status := process.Status(); status != words.Failed || process.Lines("payloads") > 0 ||
			process.Lines("input/output error") != 1 {
			t.Error(status, process.Stderr())
		}
	}
	process := injectedAt(t, folder, folder, "fsync:error=EINVAL") // it can't be synced
	process.Says("serial 1: 3 payloads", 1)
	process.End()
	process = injectedAt(t, folder, folder, "fsync:error=EIO") // it was synced before
	process.Says("serial 1: 3 payloads", 1)
}

// A cache saves in a folder of a file system that can't sync folders, and a restart has the data.
func TestFolderCannotBeSynced(t *testing.T) {
	withStrace(t)
	folder, first := withState(t)
	process := injected(t, folder, "", "fsync:error=EINVAL")
	process.Says("serial 1: 200 payloads", 1)
	process.Says("serial 2: 201 payloads", 1)
	if process.Lines("aren't served") > 0 {
		t.Error(process.Stderr())
	}
	process.Kill()
	continues(t, folder, first, 2)
}

// If a system call of saving fails in each thread once, the new data aren't served, and no new file
// is left beside the old one. Once a retry has saved them, they are served, and a restart has them.
func TestEachCallFails(t *testing.T) {
	withStrace(t)
	for _, call := range saveCalls {
		call := call
		if call.path == "" {
			continue // TestFileMayBeReplaced
		}
		t.Run(call.name+" of state"+call.path, func(t *testing.T) {
			t.Parallel()
			folder, first := withState(t)
			process := injected(t, folder, call.path, call.name+":error=EIO:when=1")
			process.Says(refusesUnsaved, 1)
			process.Says("/state: the data are saved again", 1)
			process.Says("serial 2: 201 payloads", 1)
			if _, err := os.Stat(folder + "/state/editions.new"); !os.IsNotExist(err) {
				t.Error("a file stays:", err)
			}
			process.Kill()
			continues(t, folder, first, 2)
		})
	}
}

// A cache whose folder can't be synced has replaced its file nevertheless, but doesn't serve the
// new data. The next start serves the data of the file, once the folder is synced, or newer data.
func TestFileMayBeReplaced(t *testing.T) {
	withStrace(t)
	folder := t.TempDir()
	trial.Write(t, folder+"/f", rows(200))
	process := injected(t, folder, "", "fsync:error=EIO")
	process.Says(refusesUnsaved, 2)
	if process.Lines("payloads") > 0 {
		t.Error(process.Stderr())
	}
	process.Kill()
	trial.Write(t, folder+"/f", rows(202))
	process, address := started(t, folder, "--csv", "f", "--state", "state")
	process.Says("serial 1: 200 payloads", 1)
	process.Says("serial 2: 202 payloads", 1)
	serves(t, address, 2, 202)
	process.End()
}
