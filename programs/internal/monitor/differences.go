package monitor

import (
	"container/heap"
	"sort"
	"strings"
	"time"

	"fishreef/rtr"
)

// Difference is a payload that a source lacks since a time.
type Difference struct {
	missing
	Since time.Time
	old   bool // it lasted longer than the grace time, and was logged
}

// Line returns the payload, as rtr_diff prints it.
func (d *Difference) Line() string {
	unit := unitOf(d.payload)
	return strings.TrimPrefix(rtr.ChangeLine(&unit), "+ ")
}

// numbers are the numbers of payloads that a source lacks.
type numbers struct{ Young, Old int }

// All returns the number of all.
func (n numbers) All() int { return n.Young + n.Old }

// differences are the present differences.
type differences struct {
	grace time.Duration
	all   map[missing]*Difference

	counts      []numbers // of each source
	oldestYoung time.Time // of the young ones; zero for none
}

// newDifferences returns an empty set of differences for this many sources. Differences are young
// for the grace time.
func newDifferences(sources int, grace time.Duration) *differences {
	return &differences{
		grace: grace, all: map[missing]*Difference{}, counts: make([]numbers, sources),
	}
}

// replace records the missing payloads, and returns the old differences that have ended, the first
// ones up to a limit, and their number.
func (d *differences) replace(
	found []missing, now time.Time, most int,
) (over []Difference, count int) {
	next := make(map[missing]*Difference, len(found))
	for _, key := range found {
		known, has := d.all[key]
		if !has {
			known = &Difference{missing: key, Since: now}
		}
		next[key] = known
	}
	first := &earliest{most: most}
	for key, known := range d.all {
		if _, has := next[key]; !has && known.old {
			first.offer(known)
			count++
		}
	}
	d.all = next
	d.tally()
	return first.list(), count
}

// markOld marks differences as old that have lasted for the grace time, and returns the first of
// them, up to a limit, and their number.
func (d *differences) markOld(now time.Time, most int) (aged []Difference, count int) {
	first := &earliest{most: most}
	for _, known := range d.all {
		if !known.old && now.Sub(known.Since) >= d.grace {
			known.old = true
			first.offer(known)
			count++
		}
	}
	d.tally()
	return first.list(), count
}

// tally recounts the differences of each source.
func (d *differences) tally() {
	d.counts, d.oldestYoung = make([]numbers, len(d.counts)), time.Time{}
	for key, known := range d.all {
		if known.old {
			d.counts[key.source].Old++
			continue
		}
		d.counts[key.source].Young++
		if d.oldestYoung.IsZero() || known.Since.Before(d.oldestYoung) {
			d.oldestYoung = known.Since
		}
	}
}

// next returns the time when the next difference becomes old, and whether there is one.
func (d *differences) next() (at time.Time, ok bool) {
	return d.oldestYoung.Add(d.grace), !d.oldestYoung.IsZero()
}

// list returns the differences that have lasted longest, in order and up to a limit; only old ones,
// if asked for.
func (d *differences) list(most int, onlyOld bool) []Difference {
	first := &earliest{most: most}
	for _, known := range d.all {
		if known.old || !onlyOld {
			first.offer(known)
		}
	}
	return first.list()
}

// earliest keeps the first of many differences: a heap with the last of them on top.
type earliest struct {
	most int
	kept []*Difference
}

// before reports whether a difference comes before another one: by its time, its payload and its
// source.
func (d *Difference) before(other *Difference) bool {
	switch {
	case !d.Since.Equal(other.Since):
		return d.Since.Before(other.Since)
	case d.payload != other.payload:
		return d.payload < other.payload
	}
	return d.source < other.source
}

// offer keeps a difference, if it is among the first.
func (e *earliest) offer(d *Difference) {
	switch {
	case len(e.kept) < e.most:
		heap.Push(e, d)
	case e.most > 0 && d.before(e.kept[0]):
		e.kept[0] = d
		heap.Fix(e, 0)
	}
}

// list returns copies of the kept differences, in order.
func (e *earliest) list() []Difference {
	sort.Slice(e.kept, func(i, j int) bool { return e.kept[i].before(e.kept[j]) })
	copied := make([]Difference, 0, len(e.kept))
	for _, d := range e.kept {
		copied = append(copied, *d)
	}
	return copied
}

// Len, Less, Swap, Push and Pop implement heap.Interface.
func (e *earliest) Len() int           { return len(e.kept) }
func (e *earliest) Less(i, j int) bool { return e.kept[j].before(e.kept[i]) }
func (e *earliest) Swap(i, j int)      { e.kept[i], e.kept[j] = e.kept[j], e.kept[i] }
func (e *earliest) Push(d any)         { e.kept = append(e.kept, d.(*Difference)) }
func (e *earliest) Pop() any {
	last := e.kept[len(e.kept)-1]
	e.kept = e.kept[:len(e.kept)-1]
	return last
}
