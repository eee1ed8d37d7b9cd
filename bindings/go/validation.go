//go:build cgo && linux

package rtr

// #include "calls.h"
import "C"

import (
	"fmt"
	"net/netip"
	"sync"
)

// Validity is the result of origin validation of a route (RFC 6811 section 2).
type Validity uint8

var validityTexts = [...]string{
	NotFound: "not found",
	Valid:    "valid",
	Invalid:  "invalid",
	NoRoute:  "no route",
}

// String returns the name of the validity.
func (v Validity) String() string {
	if int(v) < len(validityTexts) {
		return validityTexts[v]
	}
	return fmt.Sprintf("validity %d", uint8(v))
}

// Mismatch is the reason why a VRP that covers a route doesn't match it: the first that applies.
type Mismatch uint8

var mismatchTexts = [...]string{
	Matches: "matches",
	ASZero:  "AS 0",
	OtherAS: "another AS",
	Longer:  "longer than the max length",
}

// String returns the name of the mismatch.
func (m Mismatch) String() string {
	if int(m) < len(mismatchTexts) {
		return mismatchTexts[m]
	}
	return fmt.Sprintf("mismatch %d", uint8(m))
}

// lookup is what copies of a Data share: an index of its prefixes, which the first use builds, and
// the changes from other data, if they were computed.
type lookup struct {
	once  sync.Once
	index C.struct_rtr_lookup

	lock    sync.Mutex
	before  *lookup // of other data
	changes []byte  // from these to the data of this lookup
}

// noteChanges notes the changes from other data, as Delta computed them.
func (l *lookup) noteChanges(before *lookup, changes []byte) {
	l.lock.Lock()
	defer l.lock.Unlock()
	l.before, l.changes = before, changes
}

// changesFrom returns the changes from other data; nil if they weren't noted.
func (l *lookup) changesFrom(before *lookup) []byte {
	l.lock.Lock()
	defer l.lock.Unlock()
	if before == nil || l.before != before {
		return nil
	}
	return l.changes
}

// prefixIndex returns the index of the data, which aren't the zero Data.
func (d Data) prefixIndex() *C.struct_rtr_lookup {
	d.lookup.once.Do(func() {
		first, n := cBytes(d.bytes)
		d.lookup.index = C.check_data(first, n).lookup
	})
	return &d.lookup.index
}

// routeOf returns the route of a prefix and an AS, and whether the prefix is valid.
func routeOf(prefix netip.Prefix, asn uint32) (C.struct_rtr_route, bool) {
	route := C.struct_rtr_route{asn: C.uint32_t(asn)}
	if !prefix.IsValid() {
		return route, false
	}
	route.prefix_length = C.uint8_t(prefix.Bits())
	if prefix.Addr().Is4() {
		route.family = 4
		for i, octet := range prefix.Addr().As4() {
			route.address[i] = C.uint8_t(octet)
		}
		return route, true
	}
	route.family = 6
	for i, octet := range prefix.Addr().As16() {
		route.address[i] = C.uint8_t(octet)
	}
	return route, true
}

// Validate returns the validity of the route of a prefix with an origin AS, by the VRPs of the data
// (RFC 6811 section 2): NotFound if no VRP covers it, Valid if one matches it, and else Invalid.
// Use AS 0 for a route without a single origin, whose path ends with an AS_SET: no VRP matches it.
// Host bits of the prefix are ignored.
//
// It returns NoRoute for a prefix that isn't valid. The zero Data has no VRPs.
func (d Data) Validate(prefix netip.Prefix, asn uint32) Validity {
	route, ok := routeOf(prefix, asn)
	if !ok {
		return NoRoute
	}
	if d.IsZero() {
		return NotFound
	}
	first, n := cBytes(d.bytes)
	return Validity(C.validate(first, n, d.prefixIndex(), route))
}

// Covering returns a loop over the VRPs of the data that cover the route of a prefix with an origin
// AS, in the order of payloads. There are none for a prefix that isn't valid.
//
//	for covering := data.Covering(prefix, asn); covering.Scan(); {
//		fmt.Println(covering.VRP(), covering.Mismatch())
//	}
func (d Data) Covering(prefix netip.Prefix, asn uint32) *Covering {
	route, ok := routeOf(prefix, asn)
	return &Covering{data: d, prefix: prefix, route: route, ended: !ok || d.IsZero()}
}

// Covering is a loop over the VRPs that cover a route.
type Covering struct {
	data     Data
	prefix   netip.Prefix
	route    C.struct_rtr_route
	from     C.size_t
	ended    bool
	vrp      VRP
	mismatch Mismatch
}

// Scan moves to the next VRP, for VRP and Mismatch. It returns false after the last one.
func (c *Covering) Scan() bool {
	if c.ended {
		return false
	}
	first, n := cBytes(c.data.bytes)
	covered := C.covering(first, n, c.data.prefixIndex(), c.route, c.from)
	if covered.result != C.RTR_COVERS_ONE {
		c.ended = true
		return false
	}
	c.from = covered.covering.place + 1
	length := int(covered.covering.prefix_length)
	c.vrp = VRP{
		Prefix:    netip.PrefixFrom(c.prefix.Addr().WithZone(""), length).Masked(),
		MaxLength: uint8(covered.covering.max_length),
		ASN:       uint32(covered.covering.asn),
	}
	c.mismatch = Mismatch(covered.covering.mismatch)
	return true
}

// VRP returns the current VRP, with its max length.
func (c *Covering) VRP() VRP {
	return c.vrp
}

// Mismatch returns the reason why the VRP doesn't match the route, or Matches.
func (c *Covering) Mismatch() Mismatch {
	return c.mismatch
}
