//go:build cgo && linux

package rtr

import "sync"

// Update is the state of a Client after an answer, or after it dropped its data.
type Update struct {
	Data    Data // all present data; the zero Data if the client dropped them
	changes *changes
}

// updateOf returns an update from old data to new; the zero Data stands for none.
func updateOf(old, new Data) Update {
	return Update{new, &changes{old: old, new: new}}
}

// Changes returns a loop over the units that lead from the data before to these: announcements, and
// then withdrawals, each in the order of payloads. The first call computes them; until then the
// update keeps the data before in memory.
func (u Update) Changes() *Units {
	if u.changes == nil {
		return new(Units)
	}
	return &Units{rest: u.changes.units()}
}

// changes lead from old data to new ones.
type changes struct {
	lock     sync.Mutex
	computed []byte
	old, new Data // both zero once the changes are computed
}

// units returns the changes.
func (c *changes) units() []byte {
	c.lock.Lock()
	defer c.lock.Unlock()
	if !c.old.IsZero() || !c.new.IsZero() {
		computed, err := changesBetween(c.old, c.new)
		if err != nil {
			panic(err) // it fails for no two Data
		}
		c.computed, c.old, c.new = computed, Data{}, Data{}
	}
	return c.computed
}
