package monitor

import (
	"math/bits"

	"fishreef/programs/internal/payloads"
	"fishreef/rtr"
)

// side is the data of a source.
type side struct {
	data    rtr.Data // in the form of package payloads; the zero Data for none
	version uint8    // of the source's session: it can't have what that version lacks
}

// missing is a payload that one source lacks and another has.
type missing struct {
	payload string // the unit that announces it
	source  int
}

// comparison compares the payloads of sources: those of one, the pivot, with those of each other
// source, by the changes from one to the other.
type comparison struct {
	sides   []side
	pivot   int      // -1 for none
	changes [][]byte // from the pivot's payloads to those of each source; nil for the pivot itself
}

// newComparison returns a comparison of this many sources without payloads.
func newComparison(count int) *comparison {
	return &comparison{sides: make([]side, count), pivot: -1, changes: make([][]byte, count)}
}

// set sets or removes the payloads of a source.
//
// Errors: those of payloads of an unknown version.
func (c *comparison) set(source int, has side) error {
	c.sides[source] = has
	pivot := c.choose()
	if pivot != c.pivot || source == pivot {
		c.pivot = pivot
		return c.compareAll()
	}
	return c.compare(source)
}

// choose returns the first source with payloads among those of the highest version; -1 for none.
func (c *comparison) choose() int {
	best := -1
	for source, side := range c.sides {
		if !side.data.IsZero() && (best < 0 || side.version > c.sides[best].version) {
			best = source
		}
	}
	return best
}

// compareAll compares all sources with the pivot.
func (c *comparison) compareAll() error {
	for source := range c.sides {
		if err := c.compare(source); err != nil {
			return err
		}
	}
	return nil
}

// compare compares a source with the pivot, by the kinds that the versions of both have.
func (c *comparison) compare(source int) (err error) {
	c.changes[source] = nil
	side := c.sides[source]
	if source == c.pivot || c.pivot < 0 || side.data.IsZero() {
		return nil
	}
	from := c.sides[c.pivot]
	old := from.data
	if side.version < from.version {
		if old, err = payloads.In(old, side.version); err != nil {
			return err
		}
	}
	c.changes[source], err = rtr.Delta(old, side.data)
	return err
}

// sources is a set of sources.
type sources uint32

// only returns the set of one source.
func only(source int) sources { return 1 << source }

// known says which sources have a payload, as far as the changes show.
type known struct {
	announced sources // the sources that have it, if the pivot doesn't
	withdrawn sources // the sources that lack it, if the pivot has it
}

// missing returns all payloads that some of the sources have and others lack.
func (c *comparison) missing() []missing {
	all, aspas := map[string]known{}, c.aspas()
	for source, changes := range c.changes {
		payloads.Each(changes, func(unit *rtr.Unit, bytes []byte) {
			if unit.Kind == rtr.ASPA {
				// The pivot's ASPA of the customer, if there is one, is withdrawn or replaced.
				if old, has := aspas[unit.Customer]; has {
					note(all, old, known{withdrawn: only(source)})
				}
			} else if !unit.Announce {
				note(all, announcing(unit), known{withdrawn: only(source)})
			}
			if unit.Announce {
				note(all, string(bytes), known{announced: only(source)})
			}
		})
	}
	var found []missing
	for payload, has := range all {
		lacking := has.withdrawn
		if lacking == 0 {
			lacking = c.carriers(payload) &^ has.announced
		}
		for ; lacking != 0; lacking &= lacking - 1 {
			found = append(found, missing{payload, bits.TrailingZeros32(uint32(lacking))})
		}
	}
	return found
}

// note adds the sources of a change to those of a payload.
func note(all map[string]known, payload string, more known) {
	has := all[payload]
	has.announced |= more.announced
	has.withdrawn |= more.withdrawn
	all[payload] = has
}

// announcing returns the unit that announces what this one withdraws, which isn't an ASPA.
func announcing(unit *rtr.Unit) string {
	other := *unit
	other.Announce = true
	bytes, err := other.AppendBinary(nil)
	if err != nil {
		return ""
	}
	return string(bytes)
}

// aspas returns the pivot's ASPAs by customer, if changes have any ASPA.
func (c *comparison) aspas() map[uint32]string {
	found := false
	for _, changes := range c.changes {
		payloads.Each(changes, func(unit *rtr.Unit, _ []byte) {
			found = found || unit.Kind == rtr.ASPA
		})
	}
	if !found {
		return nil
	}
	all := map[uint32]string{}
	payloads.Each(c.sides[c.pivot].data.Bytes(), func(unit *rtr.Unit, bytes []byte) {
		if unit.Kind == rtr.ASPA {
			all[unit.Customer] = string(bytes)
		}
	})
	return all
}

// carriers returns the sources that have payloads, and whose version has this kind.
func (c *comparison) carriers(payload string) (all sources) {
	unit := unitOf(payload)
	for source, side := range c.sides {
		if !side.data.IsZero() && unit.Kind.In(side.version) {
			all |= only(source)
		}
	}
	return all
}

// unitOf returns the unit that announces a payload.
func unitOf(payload string) rtr.Unit {
	unit, _, err := rtr.Next([]byte(payload))
	if err != nil {
		return rtr.Unit{}
	}
	return unit
}
