//go:build cgo && linux

package rtr

// #include "calls.h"
import "C"

import "net/netip"

// validateBatch is the number of routes that ValidateAll passes to C at once.
const validateBatch = 4096

// Route is a route: its prefix, whose host bits are ignored, and its origin AS. Use AS 0 for a
// route without a single origin, whose path ends with an AS_SET: no VRP matches it.
type Route struct {
	Prefix netip.Prefix
	ASN    uint32
}

// ValidateAll returns the validity of each route, as Validate does: the result has the length and
// the order of routes. The routes may come in any order; it is fastest if those of a family are in
// the order of their addresses, as in a routing table.
func (d Data) ValidateAll(routes []Route) []Validity {
	validities := make([]Validity, len(routes))
	if d.IsZero() {
		for i, route := range routes {
			validities[i] = d.Validate(route.Prefix, route.ASN)
		}
		return validities
	}
	size := len(routes)
	if size > validateBatch {
		size = validateBatch
	}
	batch := make([]C.struct_rtr_route, size)
	for rest := validities; len(rest) > 0; {
		n := copyRoutes(batch, routes)
		d.validateBatch(batch[:n], rest)
		routes, rest = routes[n:], rest[n:]
	}
	return validities
}

// copyRoutes converts routes to those of C, as many as fit, and returns their number. Those of
// prefixes that aren't valid have no family.
func copyRoutes(batch []C.struct_rtr_route, routes []Route) int {
	if len(routes) > len(batch) {
		routes = routes[:len(batch)]
	}
	for i, route := range routes {
		batch[i], _ = routeOf(route.Prefix, route.ASN)
	}
	return len(routes)
}

// validateBatch validates routes, which aren't none, by the data, which aren't the zero Data.
func (d Data) validateBatch(batch []C.struct_rtr_route, validities []Validity) {
	first, n := cBytes(d.bytes)
	C.rtr_validate_many_nonnull(first, n, d.prefixIndex(), &batch[0], C.size_t(len(batch)),
		(*C.uint8_t)(&validities[0]), C.size_t(len(batch)))
}
