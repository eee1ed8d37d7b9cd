package main

import (
	"bufio"
	"bytes"
	"context"
	"encoding/hex"
	"errors"
	"fmt"
	"io"
	"net"
	"os"
	"os/exec"
	"strconv"
	"strings"
)

// The fields that tshark prints for each packet, in this order. All are from the packet's headers
// but the last, its payload in hex: none is a text of tshark's own.
var fields = []string{
	"tcp.stream", "ip.src", "ipv6.src", "tcp.srcport", "tcp.seq_raw", "tcp.ack_raw",
	"tcp.flags", "tcp.len", "tcp.payload",
}

// The indexes of the fields in a line.
const (
	streamField = iota
	ipv4Field
	ipv6Field
	portField
	seqField
	ackField
	flagsField
	lengthField
	payloadField
)

// The flags of TCP (RFC 9293 section 3.1).
const (
	finFlag = 1 << 0
	synFlag = 1 << 1
	rstFlag = 1 << 2
	ackFlag = 1 << 4
)

// packet is a packet of a connection.
type packet struct {
	stream  string // tshark's number of the connection
	from    string // the address and port of its sender
	seq     uint32
	ack     uint32
	flags   uint64
	length  int    // of its payload, from its headers
	payload []byte // the captured part of it
}

// has reports whether the packet has one of these flags.
func (p *packet) has(flags uint64) bool { return p.flags&flags != 0 }

// read prints and runs the command of tshark for the capture, and calls a function with each packet
// of the port. Packets quoted in ICMP messages don't belong to the connection.
func (o *options) read(ctx context.Context, each func(packet)) error {
	if err := readable(o.capture); err != nil {
		return err
	}
	line := []string{
		"-n", "-r", o.capture, "-d", "tcp.port==" + o.port + ",data",
		"-o", "tcp.desegment_tcp_streams:FALSE", "-Y", o.filter(),
		"-T", "fields", "-E", "occurrence=l",
	}
	for _, field := range fields {
		line = append(line, "-e", field)
	}
	say("runs tshark", quoted(line))
	run := exec.CommandContext(ctx, string(o.tshark), line...)
	var stderr bytes.Buffer
	run.Stderr = &stderr
	output, err := run.StdoutPipe()
	if err == nil {
		err = run.Start()
	}
	if err != nil {
		return fmt.Errorf("tshark: %w", err)
	}
	failed := readLines(output, each)
	if failed != nil {
		run.Process.Kill()
	}
	if err := run.Wait(); err != nil && failed == nil {
		return fmt.Errorf("tshark: %w: %s", err, lastLine(stderr.String()))
	}
	return failed
}

// readable returns an error if a file can't be read.
func readable(path string) error {
	file, err := os.Open(path)
	if err != nil {
		return err
	}
	defer file.Close()
	if _, err = file.Read(make([]byte, 1)); errors.Is(err, io.EOF) {
		return nil
	}
	return err
}

// filter returns the display filter for the packets of the port.
func (o *options) filter() string {
	filter := "tcp.port == " + o.port + " && !icmp && !icmpv6"
	if o.only != "" {
		filter += " && tcp.stream == " + o.only
	}
	return filter
}

// readLines calls a function with the packet of each line.
func readLines(input io.Reader, each func(packet)) error {
	lines := bufio.NewReader(input)
	for {
		line, err := lines.ReadString('\n')
		if errors.Is(err, io.EOF) && line == "" {
			return nil
		}
		if err != nil && !errors.Is(err, io.EOF) {
			return fmt.Errorf("tshark: %w", err)
		}
		next, err := parsePacket(strings.TrimSuffix(line, "\n"))
		if err != nil {
			return fmt.Errorf("tshark printed %.80q: %w", line, err)
		}
		each(next)
	}
}

// parsePacket parses the packet of a line of fields.
func parsePacket(line string) (p packet, err error) {
	words := strings.Split(line, "\t")
	if len(words) != len(fields) {
		return p, fmt.Errorf("it has %d fields, not %d", len(words), len(fields))
	}
	address := words[ipv4Field]
	if address == "" {
		address = words[ipv6Field]
	}
	p.stream, p.from = words[streamField], net.JoinHostPort(address, words[portField])
	numbers := []struct {
		field, size int
		to          *uint64
	}{
		{seqField, 32, new(uint64)}, {ackField, 32, new(uint64)}, {flagsField, 16, &p.flags},
		{lengthField, 31, new(uint64)},
	}
	for _, number := range numbers {
		if *number.to, err = strconv.ParseUint(words[number.field], 0, number.size); err != nil {
			return p, err
		}
	}
	p.seq, p.ack = uint32(*numbers[0].to), uint32(*numbers[1].to)
	p.length = int(*numbers[3].to)
	p.payload, err = hex.DecodeString(strings.ReplaceAll(words[payloadField], ":", ""))
	if err == nil && len(p.payload) > p.length {
		err = fmt.Errorf("there are %d bytes of a payload of %d", len(p.payload), p.length)
	}
	return p, err
}

// quoted returns words quoted for a shell.
func quoted(line []string) string {
	var shown []string
	for _, word := range line {
		if word == "" || strings.ContainsAny(word, " \t\n'\"\\$`&|;<>()*?[]#~!{}") {
			word = "'" + strings.ReplaceAll(word, "'", `'\''`) + "'"
		}
		shown = append(shown, word)
	}
	return strings.Join(shown, " ")
}

// lastLine returns the last line of a text.
func lastLine(text string) string {
	lines := strings.Split(strings.TrimSpace(text), "\n")
	return lines[len(lines)-1]
}
