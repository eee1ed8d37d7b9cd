//go:build cgo && linux

package rtr

// Finding is a broken rule: by the unit at an offset or, at the end of the input, by all units
// together.
type Finding struct {
	Offset uint64
	// Line is the line that rtr_list --check prints for it, without the newline.
	Line string
}

// String returns the line.
func (f Finding) String() string { return f.Line }

// Checker makes the checks of rtr_list --check on the units of a recording, one after the other. It
// keeps the names of the announced payloads in memory. The zero value has seen no unit.
type Checker struct {
	state  sequenceState
	names  map[string]struct{}
	name   []byte
	offset uint64
}

// Unit checks input's first unit, and returns the rules that it breaks, and its size. The errors
// are those of UnitLine.
func (c *Checker) Unit(input []byte) ([]Finding, int, error) {
	if c.name == nil {
		c.name = make([]byte, nameRoom)
		c.names = make(map[string]struct{})
	}
	named := checkName(input, c.name)
	if named.status != OK {
		return nil, 0, refusal(named.status, named.detail, input, 0)
	}
	name := c.name[:named.length]
	_, wasThere := c.names[string(name)]
	var lines []string
	lines, c.state = checkUnit(nil, c.state, input, wasThere, c.offset)
	if named.begins {
		c.names = make(map[string]struct{})
	}
	if named.announces {
		c.names[string(name)] = struct{}{}
	} else {
		delete(c.names, string(name))
	}
	found := findings(lines, c.offset)
	c.offset += uint64(named.size)
	return found, named.size, nil
}

// Finish returns what is missing at the end of the input.
func (c *Checker) Finish() []Finding {
	return findings(checkEnd(nil, c.state, c.offset), c.offset)
}

func findings(lines []string, offset uint64) []Finding {
	var found []Finding
	for _, line := range lines {
		found = append(found, Finding{offset, line})
	}
	return found
}
