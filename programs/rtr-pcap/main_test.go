package main

import (
	"bytes"
	"encoding/binary"
	"os"
	"os/exec"
	"path/filepath"
	"strings"
	"testing"

	"fishreef/programs/internal/trial"
	"fishreef/programs/internal/words"
)

func TestMain(tests *testing.M) { trial.Main(tests, run) }

const (
	router = 40000
	cache  = 323
)

// sent is a packet of a side: from its port, at an offset in its stream.
type sent struct {
	from, to uint16
	offset   int
	bytes    string
	more     more
}

// more has fields that few packets need.
type more struct {
	flags byte   // instead of ACK and PSH
	ack   uint32 // one is added
	cut   int    // the number of bytes at the end that aren't in the capture
	base  uint32 // of the sequence numbers, instead of 1
}

// packet returns a packet of IPv4 and TCP, as captured: without the bytes that are cut.
func (s sent) packet() []byte {
	head := make([]byte, 40)
	head[0], head[8], head[9] = 0x45, 64, 6
	binary.BigEndian.PutUint16(head[2:], uint16(len(head)+len(s.bytes)))
	copy(head[12:], []byte{127, 0, 0, 1, 127, 0, 0, 1})
	binary.BigEndian.PutUint16(head[20:], s.from)
	binary.BigEndian.PutUint16(head[22:], s.to)
	base := s.more.base
	if base == 0 {
		base = 1
	}
	binary.BigEndian.PutUint32(head[24:], base+uint32(s.offset))
	binary.BigEndian.PutUint32(head[28:], s.more.ack+1)
	head[32], head[33] = 0x50, 0x18
	if s.more.flags != 0 {
		head[33] = s.more.flags
	}
	binary.BigEndian.PutUint16(head[34:], 65535)
	return append(head, s.bytes...)
}

// capture writes a pcap file of packets.
func capture(t *testing.T, name string, packets ...sent) string {
	t.Helper()
	var file bytes.Buffer
	for _, number := range []any{
		uint32(0xa1b2c3d4), uint16(2), uint16(4), uint64(0), uint32(1 << 18), uint32(101),
	} {
		binary.Write(&file, binary.LittleEndian, number)
	}
	for i, s := range packets {
		packet := s.packet()
		had := len(packet) - s.more.cut
		for _, number := range []uint32{1, uint32(i), uint32(had), uint32(len(packet))} {
			binary.Write(&file, binary.LittleEndian, number)
		}
		file.Write(packet[:had])
	}
	path := filepath.Join(t.TempDir(), name)
	trial.Write(t, path, file.String())
	return path
}

// header returns the header of a completely captured packet in a pcap file.
func header(size int) string {
	var file bytes.Buffer
	for _, number := range []uint32{1, 0, uint32(size), uint32(size)} {
		binary.Write(&file, binary.LittleEndian, number)
	}
	return file.String()
}

// readAll returns the text of a file.
func readAll(t *testing.T, path string) string {
	t.Helper()
	text, err := os.ReadFile(path)
	if err != nil {
		t.Fatal(err)
	}
	return string(text)
}

// The units of a session of version 1.
const (
	query    = "\x01\x02\x00\x00\x00\x00\x00\x08"
	response = "\x01\x03\x12\x34\x00\x00\x00\x08"
	prefix   = "\x01\x04\x00\x00\x00\x00\x00\x14\x01\x18\x18\x00\xc0\x00\x02\x00\x00\x00\xfb\xf0"
	end      = "\x01\x07\x12\x34\x00\x00\x00\x18\x00\x00\x00\x07" +
		"\x00\x00\x0e\x10\x00\x00\x02\x58\x00\x00\x1c\x20"
)

// session returns a session from a port of a router, whose answer comes in pieces: a unit is split
// in two, a piece comes twice, and two come in the other order.
func session(port, to uint16) []sent {
	return []sent{
		{port, to, 0, query, more{}},
		{to, port, 0, response + prefix[:5], more{}},
		{to, port, 0, response + prefix[:5], more{}},
		{to, port, 28, end, more{}},
		{to, port, 13, prefix[5:], more{}},
	}
}

// lines returns the lines of rtr_list for a session.
const lines = `0 v1 reset query
8 v1 cache response session 4660
16 v1 IPv4 prefix announce 192.0.2.0/24-24 AS64496
36 v1 end of data session 4660 serial 7 refresh 3600 retry 600 expire 7200
`

// wants skips a test if a program isn't installed.
func wants(t *testing.T, names ...string) {
	t.Helper()
	for _, name := range names {
		if _, err := exec.LookPath(name); err != nil {
			t.Skipf("no %s here", name)
		}
	}
}

// Each connection of the port is listed, both sides in the order in which they came, and the
// command that is run is printed.
func TestListsConnections(t *testing.T) {
	wants(t, "tshark", "rtr_list")
	path := capture(t, "it's.pcap", append(append(session(router, cache),
		sent{router, 80, 0, "GET / HTTP/1.0\r\n\r\n", more{}}), session(router+1, cache)...)...)
	process := trial.Start(t, t.TempDir(), path)
	if status := process.Status(); status != words.Well || process.Output() != lines+lines {
		t.Fatalf("status %d, %q, %q", status, process.Output(), process.Stderr())
	}
	process.Says("rtr-pcap: runs tshark -n -r '"+strings.ReplaceAll(path, "'", `'\''`)+"' ", 1)
	process.Says("-T fields", 1)
	process.Says("connection 0: 127.0.0.1:40000 with 127.0.0.1:323: 60 bytes", 1)
	process.Says(": 60 bytes", 2)
}

// The options choose a port, a connection and a form.
func TestOptions(t *testing.T) {
	wants(t, "tshark", "rtr_list")
	other := session(router, 3323)
	soiled := strings.Replace(prefix, "\xc0\x00\x02\x00", "\xc0\x00\x02\x01", 1)
	broken := []sent{
		{router + 2, 3324, 0, query, more{}},
		{3324, router + 2, 0, response + soiled + end, more{}},
	}
	path := capture(t, "file.pcap", append(append(other, session(router+1, cache)...), broken...)...)
	for _, c := range []struct {
		options, says string
		status        words.Status
	}{
		{"--port 3323", lines, words.Well},
		{"--connection 1", lines, words.Well},
		{"--raw", query + response + prefix + end, words.Well},
		{"--csv", "ASN,IP Prefix,Max Length\nAS64496,192.0.2.0/24,24\n", words.Well},
		{"--check", "", words.Well},
		{"--port 3324 --check", "offset 16: host bits of the prefix are not zero\n", words.Refused},
		{"--connection 0", "", words.Refused},
		{"--port 3325", "", words.Refused},
	} {
		process := trial.Start(t, t.TempDir(), append([]string{path}, strings.Fields(c.options)...)...)
		if status := process.Status(); status != c.status || process.Output() != c.says {
			t.Errorf("%s: status %d, %q, %q", c.options, status, process.Output(), process.Stderr())
		}
	}
}

// A wrong argument or file ends the program with one line that names it.
func TestRefuses(t *testing.T) {
	wants(t, "tshark", "rtr_list")
	folder, empty := t.TempDir(), capture(t, "empty.pcap")
	text := folder + "/text"
	trial.Write(t, text, "no capture")
	for _, c := range []struct {
		line   []string
		says   string
		status words.Status
	}{
		{nil, "no FILE given", words.Usage},
		{[]string{"a", "b"}, "more than one FILE given", words.Usage},
		{[]string{"a", "--json", "--csv"}, "more than one output format given", words.Usage},
		{[]string{"a", "--raw", "--csv"}, "more than one output format given", words.Usage},
		{[]string{"a", "--port", "0"}, `--port: "0" isn't a port`, words.Usage},
		{[]string{"a", "--connection", "-1"}, `--connection: "-1" isn't a connection`, words.Usage},
		{[]string{"a", "--port", "323", "--port", "3323"}, "--port: it is given twice", words.Usage},
		{[]string{"a", "--connection=0", "--connection=1"}, "--connection: it is given twice", words.Usage},
		{[]string{"a", "--pcap"}, `unknown option "--pcap"`, words.Usage},
		{[]string{"missing"}, "open missing: no such file or directory", words.Failed},
		{[]string{folder}, "read " + folder + ": is a directory", words.Failed},
		{[]string{text}, "rtr-pcap: tshark: exit status ", words.Refused},
		{[]string{empty}, empty + ": no connection of port 323 has data", words.Refused},
	} {
		process := trial.Start(t, t.TempDir(), c.line...)
		if status := process.Status(); status != c.status || process.Output() != "" {
			t.Errorf("%q: status %d, %q", c.line, status, process.Output())
		}
		process.Says(c.says, 1)
	}
}

// The help and the man page name the program's default port.
func TestDocumentedPort(t *testing.T) {
	page, err := os.ReadFile("../../docs/man/rtr-pcap.1")
	if err != nil {
		t.Fatal(err)
	}
	process := trial.Start(t, t.TempDir(), "--help")
	const port = "Read connections of this port of the cache (default 323)\n"
	if process.Status(); !strings.Contains(process.Output(), port) ||
		!strings.Contains(string(page), "\nThe port of the cache (default 323).\n") {
		t.Error(process.Output())
	}
	wants(t, "tshark", "rtr_list")
	asked := trial.Start(t, t.TempDir(), capture(t, "one.pcap", sent{router, cache, 0, query, more{}}))
	if asked.Status(); asked.Lines("tcp.port==323,data") != 1 {
		t.Error(asked.Stderr())
	}
}
