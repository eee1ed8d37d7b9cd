package main

import (
	"context"
	"net"
	"os"
	"strings"
	"syscall"
	"testing"

	"fishreef/programs/internal/beside"
	"fishreef/programs/internal/trial"
	"fishreef/programs/internal/words"
	"fishreef/rtr"
)

// The first lines of both formats.
const (
	csvHead  = "ASN,IP Prefix,Max Length\n"
	jsonItem = `{"prefix":"192.0.2.0/24","maxLength":24,"asn":64496}`
)

// written returns what a client writes with --once into a file of this path, which is read
// afterwards.
func written(t *testing.T, address, folder, path string) string {
	t.Helper()
	process := trial.Start(t, folder, address, "--once", "--out", path)
	if status := process.Status(); status != words.Well {
		t.Fatal(status, process.Stderr())
	}
	text, err := os.ReadFile(folder + "/" + path)
	if err != nil {
		t.Fatal(err)
	}
	return string(text)
}

// The suffix of a name selects the format, in any case.
func TestOutFormats(t *testing.T) {
	_, address := cached(t, "127.0.0.1:0", data(t, 1, vrp("192.0.2.0/24", 24)))
	for path, csv := range map[string]bool{
		"a.csv": true, "b.CSV": true, "c.Csv": true, "d.json": false, "e.JSON": false, "csv": false,
	} {
		text := written(t, address, t.TempDir(), path)
		if strings.HasPrefix(text, csvHead) != csv || strings.Contains(text, jsonItem) == csv {
			t.Errorf("%s: %s", path, text)
		}
	}
}

// If CSV lacks payloads, a line says how many.
func TestOutCounts(t *testing.T) {
	units := []rtr.Unit{
		{Kind: rtr.IPv4Prefix, Version: 2, Announce: true, Prefix: vrp("192.0.2.0/24", 24).Prefix, MaxLength: 24, ASN: 64496},
		{Kind: rtr.ASPA, Version: 2, Announce: true, Customer: 64496, Providers: rtr.NewProviders(64510)},
		{Kind: rtr.ASPA, Version: 2, Announce: true, Customer: 64497, Providers: rtr.NewProviders(64510)},
		{Kind: rtr.EndOfData, Version: 2, Session: 7, Serial: 1, Refresh: 3600, Retry: 600, Expire: 7200},
	}
	var bytes []byte
	for i := range units {
		var err error
		if bytes, err = units[i].AppendBinary(bytes); err != nil {
			t.Fatal(err)
		}
	}
	parsed, err := rtr.ParseData(bytes)
	if err != nil {
		t.Fatal(err)
	}
	_, address := cached(t, "127.0.0.1:0", parsed)
	process := trial.Start(t, t.TempDir(), address, "--once", "--out", "vrps.csv")
	if status := process.Status(); status != words.Well || process.Lines("vrps.csv: left out") != 1 ||
		process.Lines("ASPA") != 1 || process.Lines("2") == 0 {
		t.Error(status, process.Stderr())
	}
}

// A link stays one, and its target is replaced, with its permissions. A pipe and a device are
// written to and stay; other kinds of files are refused with a message.
func TestOutPlaces(t *testing.T) {
	_, address := cached(t, "127.0.0.1:0", data(t, 1, vrp("192.0.2.0/24", 24)))
	folder := t.TempDir()
	trial.Write(t, folder+"/file", "before")
	for _, link := range [][2]string{{"file", "link"}, {"nothing", "dangling"}} {
		if err := os.Symlink(link[0], folder+"/"+link[1]); err != nil {
			t.Fatal(err)
		}
		if text := written(t, address, folder, link[1]); !strings.Contains(text, jsonItem) {
			t.Error(text)
		}
		if to, err := os.Readlink(folder + "/" + link[1]); err != nil || to != link[0] {
			t.Error(to, err)
		}
	}
	if info, err := os.Stat(folder + "/file"); err != nil || info.Mode().Perm() != 0o600 {
		t.Error(info, err)
	}

	pipe := folder + "/pipe"
	if err := syscall.Mkfifo(pipe, 0o600); err != nil {
		t.Fatal(err)
	}
	unread := trial.Start(t, folder, address, "--once", "--out", "pipe")
	if status := unread.Status(); status != words.Failed || unread.Lines("pipe: no such device or address") != 1 {
		t.Error(status, unread.Stderr())
	}
	reader, err := os.OpenFile(pipe, os.O_RDWR, 0)
	if err != nil {
		t.Fatal(err)
	}
	defer reader.Close()
	read := trial.Start(t, folder, address, "--once", "--out", "pipe")
	if status := read.Status(); status != words.Well {
		t.Error(status, read.Stderr())
	}
	text := make([]byte, 1000)
	if n, err := reader.Read(text); err != nil || !strings.Contains(string(text[:n]), jsonItem) {
		t.Errorf("%s, %v", text[:n], err)
	}

	full := trial.Start(t, folder, address, "--once", "--out", "/dev/full")
	if status := full.Status(); status != words.Failed || full.Lines("/dev/full: no space left on device") != 1 {
		t.Error(status, full.Stderr())
	}
	if info, err := os.Stat("/dev/full"); err != nil || info.Mode()&os.ModeCharDevice == 0 {
		t.Error(info, err)
	}
	socket, err := net.Listen("unix", folder+"/socket")
	if err != nil {
		t.Fatal(err)
	}
	defer socket.Close()
	for path, says := range map[string]string{".": "--out: . is a folder", "socket": "--out: socket is a socket"} {
		process := trial.Start(t, folder, address, "--once", "--out", path)
		if status := process.Status(); status != words.Usage || process.Lines(says) != 1 {
			t.Error(status, process.Stderr())
		}
	}
}

// Once there are no data any more the file is removed (RFC 8210 section 6): they mustn't be kept.
func TestOutExpires(t *testing.T) {
	if _, err := beside.Find("rtr_list"); err != nil {
		t.Fatal(err)
	}
	path := t.TempDir() + "/vrps.json"
	out, err := newOutFile(path)
	if err != nil {
		t.Fatal(err)
	}
	shown := &show{
		options: &options{out: out}, ctx: context.Background(), counts: newCounts(),
		progress: &progress{counts: newCounts()},
	}
	source := rtr.Source{Name: "cache"}
	for _, data := range []rtr.Data{data(t, 1, vrp("192.0.2.0/24", 24)), {}, data(t, 2), {}, {}} {
		if err := shown.Data(source, rtr.Update{Data: data}); err != nil {
			t.Fatal(err)
		}
		if _, err := os.Stat(path); os.IsNotExist(err) != data.IsZero() {
			t.Errorf("%d payloads: %v", data.Len(), err)
		}
	}
}
