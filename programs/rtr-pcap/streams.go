package main

import (
	"bytes"
	"errors"
	"fmt"
	"sort"

	"fishreef/programs/internal/words"
	"fishreef/rtr"
)

// connection is a connection of a capture: its packets, in the order of the capture, and its sides.
type connection struct {
	number  string
	packets []placed
	sides   []*side // the sender of the first packet first; a capture may have only one
}

// placed is a packet of a side, with a sequence number of 64 bits, which never wraps around.
type placed struct {
	side    *side
	from    int64 // the sequence number of its payload
	payload []byte
}

// side reassembles the stream of one side of a connection.
type side struct {
	node  string
	known bool  // a sequence number was seen
	last  int64 // the last sequence number seen

	opened bool  // its SYN is in the capture
	begin  int64 // the sequence number of its first byte
	begun  bool  // begin is known
	over   int64 // the sequence number after the last byte sent, by its own packets
	acked  int64 // the highest sequence number that the other side acknowledged

	stream  []byte   // its bytes, up to the first missing one
	listed  int      // how many of them were returned as complete units
	pending []placed // the packets after a missing byte, in order
	differs int64    // the offset of a retransmission with different bytes; -1 for none
}

// next returns the sequence number of the next byte.
func (s *side) next() int64 { return s.begin + int64(len(s.stream)) }

// wide returns a sequence number of the side as 64 bits.
func (s *side) wide(seq uint32) int64 {
	if !s.known {
		s.known, s.last = true, int64(seq)+1<<32
	}
	s.last = s.near(seq)
	return s.last
}

// near returns the 64-bit number with these low 32 bits that is nearest to the last one.
func (s *side) near(seq uint32) int64 { return s.last + int64(int32(seq-uint32(s.last))) }

// side returns the side that sent a packet, and the other one, nil unless it was seen before.
func (c *connection) side(node string) (from, other *side) {
	for _, s := range c.sides {
		if s.node == node {
			from = s
		} else {
			other = s
		}
	}
	if from == nil {
		from = &side{node: node, differs: -1}
		c.sides = append(c.sides, from)
	}
	return from, other
}

// take adds a packet, and records what it shows of a side's first and last byte. A side whose SYN
// isn't in the capture begins with its first captured byte; a packet of one byte may be a probe
// (RFC 9293 section 3.8.4), which only counts if there is nothing else.
func (c *connection) take(p packet) {
	from, other := c.side(p.from)
	seq := from.wide(p.seq)
	if p.has(synFlag) {
		seq++
		from.opened, from.begun, from.begin = true, true, seq
	}
	if p.length > 1 && (!from.begun || !from.opened && seq < from.begin) {
		from.begun, from.begin = true, seq
	}
	if !p.has(rstFlag) {
		from.over = most(from.over, seq+int64(p.length))
	}
	if p.has(ackFlag) && !p.has(rstFlag) && other != nil && other.known {
		other.acked = most(other.acked, other.near(p.ack))
	}
	if len(p.payload) > 0 {
		c.packets = append(c.packets, placed{from, seq, p.payload})
	}
}

// most returns the larger of two numbers.
func most(left, right int64) int64 {
	if left > right {
		return left
	}
	return right
}

// units returns the complete units of both sides, in the order in which their last bytes came, and
// after them bytes that can't be a unit, which rtr_list refuses with their offset.
func (c *connection) units() []byte {
	var all []byte
	for i := range c.packets {
		p := c.packets[i]
		if !p.side.begun {
			p.side.begun, p.side.begin = true, p.from
		}
		p.side.put(p)
		all = append(all, p.side.whole()...)
	}
	for _, side := range c.sides {
		if !side.isCut() {
			all = append(all, side.stream[side.listed:]...)
		}
	}
	return all
}

// put adds the payload of a packet, and the packets that waited for it.
func (s *side) put(p placed) {
	after := func(i int) bool { return s.pending[i].from > p.from }
	index := sort.Search(len(s.pending), after)
	s.pending = append(s.pending, placed{})
	copy(s.pending[index+1:], s.pending[index:])
	s.pending[index] = p
	for len(s.pending) > 0 && s.pending[0].from <= s.next() {
		s.join(s.pending[0])
		s.pending = s.pending[1:]
	}
}

// join appends the new part of a payload that begins no later than the next byte. It ignores
// retransmitted bytes.
func (s *side) join(p placed) {
	if before := s.begin - p.from; before > 0 {
		if before >= int64(len(p.payload)) {
			return
		}
		p.from, p.payload = s.begin, p.payload[before:]
	}
	again := int(s.next() - p.from)
	if again > len(p.payload) {
		again = len(p.payload)
	}
	had := s.stream[p.from-s.begin:][:again]
	probe := len(p.payload) == 1
	if !bytes.Equal(had, p.payload[:again]) && !probe && s.differs < 0 {
		s.differs = p.from - s.begin
	}
	s.stream = append(s.stream, p.payload[again:]...)
}

// whole returns the units that are complete since the last call.
func (s *side) whole() []byte {
	begin := s.listed
	for {
		size, err := rtr.UnitSize(s.stream[s.listed:])
		if err != nil || size > len(s.stream)-s.listed {
			return s.stream[begin:s.listed]
		}
		s.listed += size
	}
}

// isCut reports whether the bytes after the complete units may be the start of a unit.
func (s *side) isCut() bool {
	_, err := rtr.UnitSize(s.stream[s.listed:])
	return err == nil || errors.Is(err, rtr.Short)
}

// lacks returns lines about bytes that aren't in the capture, or aren't listed.
func (s *side) lacks() (lines []string) {
	missing := s.over - s.next()
	switch {
	case len(s.pending) > 0:
		missing = s.pending[0].from - s.next()
	case s.acked > s.over+1: // the next number is that of a FIN that the capture lacks
		missing = s.acked - s.next()
	}
	if s.begun && missing > 0 {
		lines = append(lines,
			fmt.Sprintf("%s: %s %s missing after byte %d, what it sent after that is left out",
				s.node, words.Number(int(missing), "byte"), words.Are(int(missing)), len(s.stream)))
	}
	if rest := len(s.stream) - s.listed; rest > 0 && s.isCut() {
		lines = append(lines, fmt.Sprintf("%s: %s after byte %d %s no whole unit, and %[4]s left out",
			s.node, words.Number(rest, "byte"), s.listed, words.Are(rest)))
	}
	if s.differs >= 0 {
		lines = append(lines, fmt.Sprintf("%s: it sent other bytes again after byte %d, "+
			"the first ones count", s.node, s.differs))
	}
	return lines
}
