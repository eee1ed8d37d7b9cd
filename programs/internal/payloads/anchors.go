package payloads

import (
	"bufio"
	"bytes"
	"encoding/csv"
	"io"
	"strings"
)

// Anchors counts the items of a list by their trust anchor. The protocol's payloads don't have one:
// validators write it in JSON as "ta", and in a column of CSV.
type Anchors map[string]int

// mostAnchors is the maximal number of anchors that are counted: RIRs have six, and a list may have
// any number.
const mostAnchors = 64

// counter counts the items of anchors.
type counter struct {
	all  map[string]*int
	last string // the anchor of the last item, and its number
	item *int
}

// count counts an item. Most items have the same anchor as the one before.
func (c *counter) count(name []byte) {
	if c.item == nil || c.last != string(name) {
		found, known := c.all[string(name)]
		if !known {
			if len(c.all) == mostAnchors {
				return
			}
			found = new(int)
			c.all[string(name)] = found
		}
		c.last, c.item = string(name), found
	}
	*c.item++
}

// anchors returns the numbers.
func (c *counter) anchors() Anchors {
	all := Anchors{}
	for name, count := range c.all {
		all[name] = *count
	}
	return all
}

// anchorsOf counts the items of a file that rtr_make has accepted; nil if the format has no
// anchors.
//
// Errors: those of the input.
func anchorsOf(input io.Reader, format Format) (Anchors, error) {
	switch format {
	case JSON:
		return jsonAnchors(bufio.NewReaderSize(input, 1<<16))
	case CSV:
		return csvAnchors(input)
	}
	return nil, nil
}

// member is the name in JSON. Inside a string its quotes would have a backslash.
var member = []byte(`"ta"`)

// jsonAnchors counts the strings of members named "ta" in a text that is valid JSON.
func jsonAnchors(input *bufio.Reader) (Anchors, error) {
	for found := (counter{all: map[string]*int{}}); ; {
		if _, err := input.Peek(len(member)); err != nil {
			return found.anchors(), unlessEnd(err)
		}
		chunk, _ := input.Peek(input.Buffered())
		at := found.countWhole(chunk)
		if at == len(chunk) {
			input.Discard(len(chunk) - len(member) + 1)
			continue
		}
		input.Discard(at + len(member))
		name, ok, err := stringAfterColon(input)
		if err != nil {
			return found.anchors(), unlessEnd(err)
		}
		if ok {
			found.count(name)
		}
	}
}

// countWhole counts the members whose string is whole in a chunk. It returns the offset of the
// first other member, or the length of the chunk.
func (c *counter) countWhole(chunk []byte) int {
	for at := 0; ; {
		next := memberIn(chunk[at:])
		if next < 0 {
			return len(chunk)
		}
		at += next
		name, size := wholeString(chunk[at+len(member):])
		if size == 0 {
			return at
		}
		c.count(name)
		at += len(member) + size
	}
}

// memberIn returns the offset of the member's name; -1 if there is none. The letter t is rarer than
// a quote.
func memberIn(chunk []byte) int {
	for at := 1; at < len(chunk); at++ {
		next := bytes.IndexByte(chunk[at:], member[1])
		if next < 0 {
			break
		}
		if at += next; bytes.HasPrefix(chunk[at-1:], member) {
			return at - 1
		}
	}
	return -1
}

// wholeString returns the string behind a colon and at most a space, without escapes, and the size
// of all; size 0 if the bytes begin with something else, or end before.
func wholeString(rest []byte) (name []byte, size int) {
	begin := len(`:"`)
	if len(rest) > 1 && rest[1] == ' ' {
		begin = len(`: "`)
	}
	if len(rest) < begin || rest[0] != ':' || rest[begin-1] != '"' {
		return nil, 0
	}
	end := bytes.IndexByte(rest[begin:], '"')
	if end < 0 {
		return nil, 0
	}
	return rest[begin : begin+end], begin + end + 1
}

// unlessEnd returns the error of a reader, except for its end.
func unlessEnd(err error) error {
	if err == io.EOF {
		return nil
	}
	return err
}

// stringAfterColon returns the string after a colon, if there is one, without escapes.
func stringAfterColon(input *bufio.Reader) (name []byte, ok bool, err error) {
	colon := false
	for {
		next, err := input.ReadByte()
		switch {
		case err != nil:
			return nil, false, err
		case strings.IndexByte(" \t\r\n", next) >= 0:
		case next == ':' && !colon:
			colon = true
		case next == '"' && colon:
			name, err := input.ReadBytes('"')
			return bytes.TrimSuffix(name, []byte{'"'}), err == nil, err
		default:
			return nil, false, input.UnreadByte()
		}
	}
}

// column is the name of the trust anchor's column in the header of CSV.
const column = "trust anchor"

// csvAnchors counts the fields of the trust anchor's column, if there is one.
func csvAnchors(input io.Reader) (Anchors, error) {
	rows := csv.NewReader(input)
	rows.ReuseRecord, rows.FieldsPerRecord, rows.LazyQuotes = true, -1, true
	found, index := counter{all: map[string]*int{}}, -1
	for first := true; ; first = false {
		row, err := rows.Read()
		if err != nil {
			return found.anchors(), unlessEnd(err)
		}
		if first {
			index = columnIndex(row)
		}
		if index < 0 {
			return nil, nil
		}
		if !first && index < len(row) {
			found.count([]byte(row[index]))
		}
	}
}

// columnIndex returns the index of the column in a header; -1 for none.
func columnIndex(header []string) int {
	for index, name := range header {
		if strings.EqualFold(strings.TrimSpace(name), column) {
			return index
		}
	}
	return -1
}
