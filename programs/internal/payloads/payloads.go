// Package payloads reads the payloads of files, merges those of several, and computes the changes
// between two. All rules are those of the library, and of the programs rtr_make and rtr_list.
package payloads

import (
	"fmt"
	"strings"

	"fishreef/programs/internal/trust"
	"fishreef/rtr"
)

// Version is the version of all data of this package. Caches convert them for clients of lower
// versions.
const Version = rtr.HighestVersion

// The fixed end of data that all data of this package have until they are served. It is that of
// rtr_make, so that its output is used as it is.
const fixedSession, fixedSerial = 0, 1

// plain returns the payloads of data, with the fixed end of data.
func plain(data rtr.Data) (rtr.Data, error) {
	data, err := data.For(Version)
	if err != nil {
		return rtr.Data{}, err
	}
	return data.With(fixedSession, fixedSerial, rtr.RecommendedTiming)
}

// In returns the payloads of data that a version has, with the fixed end of data.
//
// Errors: a Fault for an unknown version.
func In(data rtr.Data, version uint8) (rtr.Data, error) {
	data, err := data.For(version)
	if err != nil {
		return rtr.Data{}, err
	}
	return plain(data)
}

// units returns a copy of the payload units of data of version 2, with capacity for an end of data.
func units(data rtr.Data) []byte {
	end, err := rtr.NewData(data.Version(), 0, 0, rtr.Timing{})
	if err != nil || data.IsZero() {
		return nil
	}
	all := data.Bytes()
	return append(make([]byte, 0, len(all)), all[:len(all)-len(end.Bytes())]...)
}

// Same reports whether two data have the same payloads.
func Same(left, right rtr.Data) bool {
	return left.SamePayloads(right)
}

// Merged returns the payloads of all of these data, each once.
//
// Errors: a Contradiction.
func Merged(all ...rtr.Data) (rtr.Data, error) {
	merged := all[0]
	for _, next := range all[1:] {
		changes, err := rtr.Delta(merged, next)
		if err != nil {
			return rtr.Data{}, err
		}
		sum, known := units(merged), customers(merged)
		var other *rtr.Unit
		Each(changes, func(unit *rtr.Unit, bytes []byte) {
			if !unit.Announce {
				return
			}
			sum = append(sum, bytes...)
			if unit.Kind == rtr.ASPA && known[unit.Customer] {
				other = unit.Clone()
			}
		})
		if other != nil {
			return rtr.Data{}, &Contradiction{other}
		}
		if merged, err = inOrder(sum); err != nil {
			return rtr.Data{}, err
		}
	}
	return merged, nil
}

// inOrder returns the data of payload units in any order.
func inOrder(units []byte) (rtr.Data, error) {
	end, err := rtr.NewData(Version, fixedSession, fixedSerial, rtr.RecommendedTiming)
	if err != nil {
		return rtr.Data{}, err
	}
	ordered, err := rtr.Order(append(units, end.Bytes()...))
	if err != nil {
		return rtr.Data{}, err
	}
	return rtr.ParseData(ordered)
}

// customers returns the customers that have an ASPA.
func customers(data rtr.Data) map[uint32]bool {
	all := map[uint32]bool{}
	for units := data.Units(); units.Scan(); {
		if unit := units.Unit(); unit.Kind == rtr.ASPA {
			all[unit.Customer] = true
		}
	}
	return all
}

// Contradiction is the error of an ASPA whose customer has other providers in another file.
type Contradiction struct{ ASPA *rtr.Unit }

// Error returns a text with the ASPA.
func (c *Contradiction) Error() string {
	line := strings.TrimPrefix(rtr.ChangeLine(c.ASPA), "+ ")
	return line + ": another file has other providers of this customer"
}

// Size is the size of a change of the data.
type Size struct{ Had, Announced, Withdrawn trust.Counts }

// String returns the numbers of announced and withdrawn payloads, also by kind.
func (s Size) String() string {
	return fmt.Sprintf("%d announced%s, %d withdrawn%s", s.Announced.Total(), kinds(s.Announced),
		s.Withdrawn.Total(), kinds(s.Withdrawn))
}

// kinds returns the counts of each kind in brackets, if there are any.
func kinds(counts trust.Counts) string {
	var all []string
	for _, kind := range trust.Kinds {
		if count := counts[kind]; count > 0 {
			all = append(all, fmt.Sprintf("%d %s", count, trust.Plural(kind, count)))
		}
	}
	if len(all) == 0 {
		return ""
	}
	return " (" + strings.Join(all, ", ") + ")"
}

// SizeOf returns the size of a change of old data by the units of a delta.
func SizeOf(old rtr.Data, delta []byte) Size {
	size := Size{Kinds(old), trust.Counts{}, trust.Counts{}}
	Each(delta, func(unit *rtr.Unit, _ []byte) {
		if unit.Announce {
			size.Announced[unit.Kind]++
		} else {
			size.Withdrawn[unit.Kind]++
		}
	})
	return size
}

// Kinds returns the number of payloads of each kind.
func Kinds(data rtr.Data) trust.Counts {
	counts := trust.Counts{}
	for _, kind := range trust.Kinds {
		counts[kind] = data.Count(kind)
	}
	return counts
}

// Each iterates over the payload units of a checked sequence, with their bytes.
func Each(sequence []byte, do func(unit *rtr.Unit, bytes []byte)) {
	for len(sequence) > 0 {
		unit, rest, err := rtr.Next(sequence)
		if err != nil || unit.Kind == rtr.EndOfData {
			return
		}
		do(&unit, sequence[:len(sequence)-len(rest)])
		sequence = rest
	}
}
