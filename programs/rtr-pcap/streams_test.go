package main

import (
	"strings"
	"testing"

	"fishreef/programs/internal/trial"
	"fishreef/programs/internal/words"
)

// key returns a router key of 131 bytes, whose identifier and key info repeat a string.
func key(fill string) string {
	return "\x01\x09\x01\x00\x00\x00\x00\x83" + strings.Repeat(fill, 20) + "\x00\x00\xfb\xf0" +
		strings.Repeat(fill, 99)
}

// synchronises returns a packet with a SYN, whose sequence number is before the first byte.
func synchronises(from, to uint16) sent {
	return sent{from, to, -1, "", more{flags: synFlag}}
}

// If bytes are missing a side ends there, with a message and status 1: no unit is listed that
// wasn't sent. The other side continues.
func TestMissingBytes(t *testing.T) {
	wants(t, "tshark", "rtr_list")
	begins := []sent{synchronises(router, cache), synchronises(cache, router),
		{router, cache, 0, query, more{}}}
	later := sent{router, cache, 8, query, more{}}
	all := response + prefix + prefix + end
	for _, c := range []struct {
		name    string
		packets []sent
		says    string
		units   string
	}{
		{"between packets", []sent{
			{cache, router, 0, all[:30], more{}}, {cache, router, 35, all[35:], more{}}, later,
		}, "127.0.0.1:323: 5 bytes are missing after byte 30", query + response + prefix + query},
		{"one byte", []sent{
			{cache, router, 0, all[:30], more{}}, {cache, router, 31, all[31:], more{}}, later,
		}, "127.0.0.1:323: 1 byte is missing after byte 30", query + response + prefix + query},
		{"of a packet that is cut", []sent{
			{cache, router, 0, all[:48], more{cut: 7}}, {cache, router, 48, end, more{}}, later,
		}, "127.0.0.1:323: 7 bytes are missing after byte 41", query + response + prefix + query},
		{"of the last packet", []sent{{cache, router, 0, all, more{cut: 24}}, later},
			"127.0.0.1:323: 24 bytes are missing after byte 48", query + all[:48] + query},
		{"inside a router key", []sent{
			{cache, router, 0, response + key("a")[:90], more{}},
			{cache, router, 133, key("a")[125:] + key("b") + end, more{}}, later,
		}, "127.0.0.1:323: 35 bytes are missing after byte 98", query + response + query},
		{"at the beginning", []sent{{cache, router, 8, prefix + end, more{}}, later},
			"127.0.0.1:323: 8 bytes are missing after byte 0", query + query},
		{"before a FIN", []sent{
			{cache, router, 0, all[:28], more{}}, {cache, router, 72, "", more{flags: ackFlag | finFlag}}, later,
		}, "127.0.0.1:323: 44 bytes are missing after byte 28", query + all[:28] + query},
		{"that the router acknowledged", []sent{
			{cache, router, 0, all[:28], more{}}, {router, cache, 8, query, more{ack: 72}},
		}, "127.0.0.1:323: 44 bytes are missing after byte 28", query + all[:28] + query},
	} {
		path := capture(t, "missing.pcap", append(append([]sent{}, begins...), c.packets...)...)
		process := trial.Start(t, t.TempDir(), path, "--raw")
		if status := process.Status(); status != words.Refused || process.Output() != c.units {
			t.Errorf("%s: status %d, %q", c.name, status, process.Output())
		}
		if process.Lines("connection 0: "+c.says+", what it sent after that is left out") != 1 {
			t.Errorf("%s: %s", c.name, process.Stderr())
		}
	}
}

// Packets that come twice, overlap, come late, or have a FIN, change nothing; nor does a sequence
// number that wraps around, or a probe for a peer that is idle.
func TestReassembles(t *testing.T) {
	wants(t, "tshark", "rtr_list")
	all := response + prefix + end
	const high = 1<<32 - 20
	for name, packets := range map[string][]sent{
		"overlaps": {
			synchronises(cache, router), {cache, router, 0, all[:20], more{}},
			{cache, router, 10, all[10:40], more{}}, {cache, router, 30, all[30:], more{}},
		},
		"late": {
			{cache, router, 40, all[40:], more{}}, {cache, router, 20, all[20:40], more{}},
			{cache, router, 0, all[:20], more{}}, {cache, router, 52, "", more{flags: ackFlag | finFlag}},
		},
		"wraps around": {
			{cache, router, 0, all[:30], more{base: high}}, {cache, router, 40, all[40:], more{base: high}},
			{cache, router, 30, all[30:40], more{base: high}},
		},
		"probe": {
			{cache, router, -1, "\x00", more{}}, {cache, router, 0, all, more{}},
			{cache, router, 51, "\x00", more{}}, {router, cache, 0, "", more{flags: ackFlag, ack: 53}},
		},
		"cut and sent again": {
			{cache, router, 0, all, more{cut: 20}}, {cache, router, 20, all[20:], more{}},
		},
	} {
		path := capture(t, "whole.pcap", packets...)
		process := trial.Start(t, t.TempDir(), path, "--raw")
		if status := process.Status(); status != words.Well || process.Output() != all {
			t.Errorf("%s: status %d, %q, %s", name, status, process.Output(), process.Stderr())
		}
	}
}

// A packet may be as long as IP allows.
func TestLongPacket(t *testing.T) {
	wants(t, "tshark", "rtr_list")
	all := response + strings.Repeat(prefix, 3200) + end
	path := capture(t, "long.pcap", sent{cache, router, 0, all, more{}})
	process := trial.Start(t, t.TempDir(), path, "--raw")
	if status := process.Status(); status != words.Well || process.Output() != all {
		t.Errorf("status %d, %d bytes, %s", status, len(process.Output()), process.Stderr())
	}
}

// A retransmission with different bytes is reported, and the first ones count.
func TestSentAgain(t *testing.T) {
	wants(t, "tshark", "rtr_list")
	all := response + prefix + end
	other := strings.Replace(all, "\xc0\x00\x02", "\xc0\x00\x03", 1)
	path := capture(t, "again.pcap", sent{cache, router, 0, all, more{}},
		sent{cache, router, 10, other[10:], more{}})
	process := trial.Start(t, t.TempDir(), path, "--raw")
	if status := process.Status(); status != words.Refused || process.Output() != all {
		t.Errorf("status %d, %q", status, process.Output())
	}
	process.Says("127.0.0.1:323: it sent other bytes again after byte 10, the first ones count", 1)
}

// An incomplete unit at the end of a side is reported and left out: followed by one of the other
// side it could look like a unit that wasn't sent. Bytes that aren't a unit stay, and rtr_list
// refuses them.
func TestCutSession(t *testing.T) {
	wants(t, "tshark", "rtr_list")
	cut := []sent{
		{router, cache, 0, query + query[:3], more{}},
		{cache, router, 0, response + prefix[:5], more{}},
	}
	process := trial.Start(t, t.TempDir(), capture(t, "cut.pcap", cut...), "--raw")
	if status := process.Status(); status != words.Refused || process.Output() != query+response {
		t.Errorf("status %d, %q", status, process.Output())
	}
	process.Says("127.0.0.1:40000: 3 bytes after byte 8 are no whole unit, and are left out", 1)
	process.Says("127.0.0.1:323: 5 bytes after byte 8 are no whole unit, and are left out", 1)

	short := []sent{{router, cache, 0, query + query[:1], more{}}, cut[1]}
	process = trial.Start(t, t.TempDir(), capture(t, "short.pcap", short...), "--raw")
	process.Says("127.0.0.1:40000: 1 byte after byte 8 is no whole unit, and is left out", 1)

	http := []sent{cut[0], {cache, router, 0, response + "HTTP/1.1 400 Bad Request\r\n", more{}}}
	listed := trial.Start(t, t.TempDir(), capture(t, "http.pcap", http...))
	if status := listed.Status(); status != words.Refused {
		t.Error(status)
	}
	listed.Says("rtr_list: offset 16: ", 1)
}

// A packet quoted in an ICMP message isn't part of the connection.
func TestQuoted(t *testing.T) {
	wants(t, "tshark", "rtr_list")
	quotes := sent{cache, router, 60, prefix, more{}}
	packets := append(session(router, cache), quotes)
	path := capture(t, "icmp.pcap", packets...)
	text := readAll(t, path)
	// The last packet becomes one that quotes itself: a port that nobody listens at.
	last := quotes.packet()
	icmp := append([]byte{}, last[:20]...)
	icmp[3], icmp[9] = byte(20+8+len(last)), 1
	icmp = append(append(icmp, 3, 3, 0, 0, 0, 0, 0, 0), last...)
	text = text[:len(text)-len(last)-16] + header(len(icmp)) + string(icmp)
	trial.Write(t, path, text)
	process := trial.Start(t, t.TempDir(), path)
	if status := process.Status(); status != words.Well || process.Output() != lines {
		t.Errorf("status %d, %q, %s", status, process.Output(), process.Stderr())
	}
}

// A line in another form than tshark's is refused with a message.
func TestStrangeLines(t *testing.T) {
	good := "0\t127.0.0.1\t\t323\t1\t1\t0x0018\t2\t0102"
	if p, err := parsePacket(good); err != nil || p.from != "127.0.0.1:323" || len(p.payload) != 2 {
		t.Error(p, err)
	}
	for line, says := range map[string]string{
		"[32768 bytes missing in capture file]":          "it has 1 fields, not 9",
		strings.Replace(good, "\t1\t1\t", "\tx\t1\t", 1): `parsing "x"`,
		strings.Replace(good, "0102", "01z2", 1):         "invalid byte",
		strings.Replace(good, "0102", "010203", 1):       "there are 3 bytes of a payload of 2",
		strings.Replace(good, "\t2\t", "\t-2\t", 1):      `parsing "-2"`,
	} {
		err := readLines(strings.NewReader(good+"\n"+line+"\n"), func(packet) {})
		if err == nil || !strings.Contains(err.Error(), says) {
			t.Errorf("%q: %v", line, err)
		}
	}
}
