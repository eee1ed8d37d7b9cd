//go:build cgo && linux

package rtr

import (
	"bytes"
	"encoding/binary"
	"errors"
	"hash/fnv"
	"net/netip"
	"os"
	"testing"
	"time"
)

// ofSession returns the data of a prefix, in version 1 of this session.
func ofSession(t *testing.T, session uint16, serial uint32) Data {
	t.Helper()
	return parsed(t, join(ipv4, ending(1, session, serial)))
}

// A server never returns to a session that it left, not even after a restart.
func TestSessionLeft(t *testing.T) {
	path := t.TempDir() + "/kept"
	server := NewServer()
	for _, session := range []uint16{7, 8} {
		if err := server.UpdateSaved(ofSession(t, session, 5), path); err != nil {
			t.Fatal(err)
		}
	}
	restored := NewServer()
	if _, err := restored.Restore(path); err != nil {
		t.Fatal(err)
	}
	for name, server := range map[string]*Server{"running": server, "restored": restored} {
		for _, serial := range []uint32{4, 5, 6} {
			if err := server.Update(ofSession(t, 7, serial)); err != ErrSessionLeft {
				t.Errorf("%s, serial %d: %v", name, serial, err)
			}
		}
		if server.Data().Session() != 8 {
			t.Errorf("%s: session %d", name, server.Data().Session())
		}
		if err := server.Update(ofSession(t, 9, 1)); err != nil {
			t.Errorf("%s: %v", name, err)
		}
	}
}

// A server without a file has one session, until the program says that another one is new. So a
// program that starts again with another session never takes up the former one.
func TestOneSession(t *testing.T) {
	server := NewServer()
	for _, serial := range []uint32{5, 6} {
		if err := server.Update(ofSession(t, 7, serial)); err != nil {
			t.Fatal(err)
		}
	}
	refuses := func(session uint16, serial uint32, reason error) {
		t.Helper()
		before := server.Data()
		if err := server.Update(ofSession(t, session, serial)); !errors.Is(err, reason) {
			t.Error(session, serial, err)
		}
		if !server.Data().Equal(before) {
			t.Error("the data changed:", session, serial)
		}
	}
	refuses(8, 9, ErrOneSession)
	if known := server.present.Load().known; len(known) != 1 || known[0] != 5 {
		t.Error(known)
	}
	server.ChangeSession()
	refuses(7, 6, nil) // the same data
	refuses(7, 4, ErrSameSerial)
	if err := server.Update(ofSession(t, 8, 1)); err != nil {
		t.Fatal(err)
	}
	refuses(7, 9, ErrOneSession)
	if e := server.present.Load(); e.number != 3 || len(e.known) != 0 || e.data.Session() != 8 {
		t.Error(e.number, e.known, e.data.Session())
	}
}

// A server that didn't save its data before it served them doesn't save: a restart from its file
// wouldn't know what it serves later.
func TestUnsaved(t *testing.T) {
	folder := t.TempDir()
	server := NewServer()
	if err := server.Update(ofSession(t, 7, 1)); err != nil {
		t.Fatal(err)
	}
	if err := server.Save(folder + "/kept"); err != ErrUnsaved {
		t.Error(err)
	}
	if err := server.UpdateSaved(ofSession(t, 7, 2), folder+"/kept"); err != ErrUnsaved {
		t.Error(err)
	}
	if err := server.Update(ofSession(t, 7, 2)); err != nil || server.Data().Serial() != 2 {
		t.Error(err, server.Data().Serial())
	}
	if names, err := os.ReadDir(folder); err != nil || len(names) != 0 {
		t.Error(names, err)
	}
}

// Update of a server with a file saves the data before it serves them.
func TestUpdateOfServerWithFile(t *testing.T) {
	path := t.TempDir() + "/kept"
	named, restored := NewServer(), NewServer()
	if err := named.UpdateSaved(ofSession(t, 7, 1), path); err != nil {
		t.Fatal(err)
	}
	if _, err := restored.Restore(path); err != nil {
		t.Fatal(err)
	}
	for _, server := range []*Server{named, restored} {
		if err := server.Update(ofSession(t, 7, 2)); err != nil {
			t.Fatal(err)
		}
		if data, err := NewServer().Restore(path); err != nil || !data.Equal(server.Data()) {
			t.Error(data, err)
		}
		if err := os.Mkdir(path+".new", 0o700); err != nil {
			t.Fatal(err)
		}
		err := server.Update(ofSession(t, 7, 3))
		if !errors.As(err, new(*os.PathError)) || server.Data().Serial() != 2 {
			t.Error(err, server.Data().Serial())
		}
		if err := os.Remove(path + ".new"); err != nil {
			t.Fatal(err)
		}
	}
}

// If the first data can't be saved, the file may have them nevertheless: nothing is served before
// it is saved to that file.
func TestFirstSaveFails(t *testing.T) {
	path := t.TempDir() + "/kept"
	server := NewServer()
	if err := os.Mkdir(path+".new", 0o700); err != nil {
		t.Fatal(err)
	}
	calls := []func() error{
		func() error { return server.UpdateSaved(ofSession(t, 7, 1), path) },
		func() error { return server.Update(ofSession(t, 7, 1)) },
	}
	for i, call := range calls {
		if err := call(); !errors.As(err, new(*os.PathError)) || !server.Data().IsZero() {
			t.Error(i, err, server.Data())
		}
	}
	if err := os.Remove(path + ".new"); err != nil {
		t.Fatal(err)
	}
	if err := calls[1](); err != nil {
		t.Fatal(err)
	}
	if data, err := NewServer().Restore(path); err != nil || !data.Equal(server.Data()) {
		t.Error(data, err)
	}
}

// oldPart is a part of a file of the form before: a sequence, after its time and its length.
func oldPart(at time.Time, sequence []byte) []byte {
	head := binary.BigEndian.AppendUint64(nil, uint64(at.UnixMilli()))
	return append(binary.BigEndian.AppendUint64(head, uint64(len(sequence))), sequence...)
}

// A file of the form before is read, with the changes from earlier data, and saved in the present
// form.
func TestOldFile(t *testing.T) {
	noLeaks(t)
	path := t.TempDir() + "/kept"
	second := join(changed(ipv4, 19, 9), ending(1, 7, 5))
	back := join(ipv4, changed(changed(ipv4, 19, 9), 8, 0), ending(1, 7, 4))
	parts := join(oldPart(time.Now(), second), oldPart(time.Now(), back))
	sum := fnv.New64a()
	sum.Write(parts)
	file := join(sum.Sum([]byte("rtrkept1")), parts)
	for name, input := range map[string][]byte{
		"flipped": changed(file, len(file)-1, 1), "short": file[:len(file)-1], "head": file[:16],
		"half a head": file[:15],
	} {
		if err := os.WriteFile(path, input, 0o600); err != nil {
			t.Fatal(err)
		}
		if _, err := NewServer().Restore(path); !errors.Is(err, ErrTorn) {
			t.Errorf("%s: %v", name, err)
		}
	}
	if err := os.WriteFile(path, file, 0o600); err != nil {
		t.Fatal(err)
	}
	server, address := started(t, nil)
	if data, err := server.Restore(path); err != nil || !bytes.Equal(data.Bytes(), second) {
		t.Fatal(data, err)
	}
	connection := dial(t, address)
	send(t, connection, asked(1, 7, 4))
	expect(t, connection, join(response(1, 7), changed(ipv4, 19, 9), changed(ipv4, 8, 0),
		ending(1, 7, 5)))
	next := parsed(t, join(ipv4, ending(1, 7, 6)))
	if err := server.UpdateSaved(next, path); err != nil {
		t.Fatal(err)
	}
	if input, err := os.ReadFile(path); err != nil || !bytes.HasPrefix(input, []byte("rtrkept2")) {
		t.Fatalf("%x, %v", input, err)
	}
	if data, err := NewServer().Restore(path); err != nil || !bytes.Equal(data.Bytes(), next.Bytes()) {
		t.Fatal(data, err)
	}
}

// Data of a version above that of a file are refused: it has no room for all of their payloads.
// Those of lower versions are taken.
func TestFileOfLowerVersion(t *testing.T) {
	path := t.TempDir() + "/kept"
	server := NewServer()
	server.store = newStore()
	form, err := (&edition{}).alike(ofSession(t, 7, 1))
	if err != nil || form.Version() != highestVersion {
		t.Fatal(form, err)
	}
	if answer := server.store.take(ofSession(t, 7, 1), server.Limits); answer.status != 0 {
		t.Fatal(answer)
	}
	if err := saveStore(server.store.toSave(), path); err != nil {
		t.Fatal(err)
	}
	restored := NewServer()
	if data, err := restored.Restore(path); err != nil || data.Version() != 1 {
		t.Fatal(data, err)
	}
	var fault *Fault
	err = restored.Update(inHighest(t, join(ipv4, ending(1, 7, 2))))
	if !errors.As(err, &fault) || fault.Status != UnitVersion || fault.Detail != 2 {
		t.Fatal(err)
	}
	for i, version := range []uint8{0, 1} {
		next := parsed(t, join(changed(ipv4, 0, version), ending(version, 7, uint32(i+3))))
		if err := restored.Update(next); err != nil || restored.Data().Version() != 1 {
			t.Fatal(version, err)
		}
	}
}

// manyOf returns data of this many VRPs of an AS.
func manyOf(t *testing.T, count int, asn, serial uint32) Data {
	t.Helper()
	vrps := make([]VRP, count)
	for i := range vrps {
		address := netip.AddrFrom4([4]byte{10, byte(i >> 16), byte(i >> 8), byte(i)})
		vrps[i] = VRP{netip.PrefixFrom(address, 32), 32, asn}
	}
	data, err := NewDataOf(vrps, highestVersion, 7, serial, RecommendedTiming)
	if err != nil {
		t.Fatal(err)
	}
	return data
}

// However much changes, a client gets from earlier data to the present ones; and what a client is
// being sent stays as it was while newer data come.
func TestAllChanges(t *testing.T) {
	server := NewServer()
	var all []Data
	var old *edition
	for serial := uint32(1); serial < 5; serial++ {
		all = append(all, manyOf(t, 5000, 64496+serial, serial))
		if err := server.Update(all[serial-1]); err != nil {
			t.Fatal(err)
		}
		if serial == 1 {
			old = server.present.Load()
		}
	}
	e := server.present.Load()
	for _, data := range all {
		changes, err := e.since(highestVersion, data.Serial())
		if err != nil {
			t.Fatal(err)
		}
		if got, err := Apply(data, changes); err != nil || !got.Equal(all[len(all)-1]) {
			t.Errorf("since %d: %d payloads, %v", data.Serial(), got.Len(), err)
		}
	}
	if form, err := old.form(highestVersion); err != nil || !bytes.Equal(form.bytes, all[0].Bytes()) {
		t.Error("data changed while they could be sent")
	}
}

// A failed save is an error after which nothing new is served and no file is beside the old one;
// the next save succeeds.
func TestFailedSave(t *testing.T) {
	folder := t.TempDir()
	path := folder + "/kept"
	server := NewServer()
	if err := server.UpdateSaved(ofSession(t, 7, 1), path); err != nil {
		t.Fatal(err)
	}
	replaceByFolder(t, path, "/full")
	for i := 0; i < 2; i++ {
		err := server.UpdateSaved(ofSession(t, 7, 2), path)
		if !errors.As(err, new(*os.LinkError)) || server.Data().Serial() != 1 {
			t.Fatal(err, server.Data().Serial())
		}
		if names, err := os.ReadDir(folder); err != nil || len(names) != 1 {
			t.Fatal(names, err)
		}
	}
	if err := os.RemoveAll(path); err != nil {
		t.Fatal(err)
	}
	if err := server.UpdateSaved(ofSession(t, 7, 3), path); err != nil || server.Data().Serial() != 3 {
		t.Fatal(err, server.Data().Serial())
	}
	if data, err := NewServer().Restore(path); err != nil || !data.Equal(server.Data()) {
		t.Fatal(data, err)
	}
}

// Data get another end without their payloads being parsed; those of version 0 have no timing.
func TestDataWith(t *testing.T) {
	timing := Timing{Refresh: 100, Retry: 90, Expire: 700}
	for version, expected := range [][]byte{
		ending(0, 9, 5),
		{1, 7, 0, 9, 0, 0, 0, 24, 0, 0, 0, 5, 0, 0, 0, 100, 0, 0, 0, 90, 0, 0, 2, 188},
	} {
		unit := changed(ipv4, 0, byte(version))
		before := join(unit, ending(uint8(version), 7, 4))
		data := parsed(t, before)
		with, err := data.With(9, 5, timing)
		if err != nil || !bytes.Equal(with.Bytes(), join(unit, expected)) {
			t.Errorf("version %d: %x, %v", version, with.Bytes(), err)
		}
		if with.Session() != 9 || with.Serial() != 5 || with.Len() != 1 || with.Count(IPv4Prefix) != 1 {
			t.Errorf("version %d: %+v", version, with)
		}
		if again := parsed(t, with.Bytes()); again.Timing() != with.Timing() {
			t.Errorf("version %d: %+v, not %+v", version, with.Timing(), again.Timing())
		}
		if !with.SamePayloads(data) || !bytes.Equal(data.Bytes(), before) {
			t.Errorf("version %d: other payloads", version)
		}
	}
	if _, err := (Data{}).With(9, 5, timing); !isShort(err) {
		t.Error(err)
	}
}

// Payloads are compared and counted by kind and version.
func TestPayloads(t *testing.T) {
	data := parsed(t, join(changed(ipv4, 0, 2), changed(changed(ipv4, 0, 2), 19, 200), aspaUnit(2),
		ending(2, 7, 4)))
	for kind, count := range map[Kind]int{IPv4Prefix: 2, IPv6Prefix: 0, ASPA: 1, EndOfData: 0, 99: 0} {
		if got := data.Count(kind); got != count {
			t.Errorf("%v: %d", kind, got)
		}
	}
	lower, err := data.For(1)
	if err != nil {
		t.Fatal(err)
	}
	empty, err := NewData(2, 7, 4, RecommendedTiming)
	if err != nil {
		t.Fatal(err)
	}
	for name, other := range map[string]Data{"none": {}, "version 1": lower, "empty": empty} {
		if data.SamePayloads(other) || other.SamePayloads(data) || !other.SamePayloads(other) {
			t.Error(name)
		}
	}
}

// aspaUnit announces an ASPA of AS 64496 with the provider AS 64497.
func aspaUnit(version uint8) []byte {
	return []byte{version, 11, 1, 0, 0, 0, 0, 16, 0, 0, 0xfb, 0xf0, 0, 0, 0xfb, 0xf1}
}

// If the data are served next, clients get the same changes as the program that asked for them;
// else they are computed.
func TestChangesAhead(t *testing.T) {
	server := NewServer()
	first, second := manyOf(t, 10, 64496, 1), manyOf(t, 9, 64496, 2)
	if _, err := server.Changes(first); !isShort(err) {
		t.Error(err)
	}
	if err := server.Update(first); err != nil {
		t.Fatal(err)
	}
	expected, err := Delta(first, second)
	if err != nil {
		t.Fatal(err)
	}
	if changes, err := server.Changes(second); err != nil || !bytes.Equal(changes, expected) {
		t.Errorf("%x, %v", changes, err)
	}
	third := manyOf(t, 8, 64496, 3)
	if _, err := server.Changes(third); err != nil {
		t.Error(err)
	}
	if err := server.Update(second); err != nil {
		t.Fatal(err)
	}
	lower, err := formFor(expected, 1)
	if err != nil {
		t.Fatal(err)
	}
	for version, expected := range map[uint8][]byte{highestVersion: expected, 1: lower} {
		changes, err := server.present.Load().since(version, 1)
		if err != nil || !bytes.Equal(changes, expected) {
			t.Errorf("version %d: %x, %v", version, changes, err)
		}
	}
	if _, ok := server.present.Load().deltas[question{highestVersion, 1}]; !ok {
		t.Error("the changes aren't kept")
	}
	// Computed from the first data, they don't lead from the second.
	if err := server.Update(third); err != nil {
		t.Fatal(err)
	}
	expected, err = Delta(second, third)
	if err != nil {
		t.Fatal(err)
	}
	changes, err := server.present.Load().since(highestVersion, 2)
	if err != nil || !bytes.Equal(changes, expected) {
		t.Errorf("%x, %v", changes, err)
	}
}

// Changes are kept up to the limit. Changes beyond it are computed for each client, and the kept
// ones stay.
func TestChangesUpToTheLimit(t *testing.T) {
	server := NewServer()
	for serial := uint32(1); serial <= 3; serial++ {
		if err := server.Update(manyOf(t, 8, 64496+serial, serial)); err != nil {
			t.Fatal(err)
		}
	}
	e := server.present.Load()
	kept, space := len(e.deltas), e.limits.keep_bytes
	for _, row := range []struct {
		space, kept int
	}{{0, kept}, {0, kept}, {1, kept + 1}, {0, kept + 1}} {
		if e.limits.keep_bytes = e.deltaBytes; row.space > 0 {
			e.limits.keep_bytes = space
		}
		changes, err := e.since(highestVersion, 1)
		if err != nil || len(changes) == 0 || len(e.deltas) != row.kept {
			t.Error(row, len(changes), err, len(e.deltas))
		}
	}
}

// Input without an end of data, or with lengths that end elsewhere, is refused as by the archive.
func TestParseLengths(t *testing.T) {
	whole := join(ipv4, ending(1, 7, 4))
	for name, input := range map[string][]byte{
		"nothing": nil, "a header": whole[:7], "no end": whole[:20], "a cut end": whole[:43],
		"length 0": changed(whole, 7, 0), "length 7": changed(whole, 7, 7),
		"a long unit": changed(whole, 4, 0xff), "a length inside": changed(whole, 7, 19),
	} {
		data, err := ParseData(input)
		var fault *Fault
		if !errors.As(err, &fault) || !data.IsZero() {
			t.Errorf("%s: %v, %v", name, data, err)
			continue
		}
		_, expected := delta(input, input, make([]byte, longestEnd))
		var other *Fault
		if !errors.As(expected, &other) || fault.Status != other.Status || fault.Offset != other.Offset {
			t.Errorf("%s: %v, not %v", name, err, expected)
		}
	}
	if data, err := ParseData(append(whole, 1, 2, 3)); err != nil ||
		!bytes.Equal(data.Bytes(), whole) {
		t.Error(data, err)
	}
}
