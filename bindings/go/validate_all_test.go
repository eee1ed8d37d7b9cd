//go:build cgo && linux

package rtr

import (
	"net/netip"
	"sort"
	"testing"
)

// checkAll compares the results of ValidateAll with the validities of the rows.
func checkAll(t *testing.T, data Data, rows []validityRow) {
	t.Helper()
	routes := make([]Route, len(rows))
	for i, row := range rows {
		routes[i] = Route{Prefix: row.prefix, ASN: row.asn}
	}
	got := data.ValidateAll(routes)
	if len(got) != len(rows) {
		t.Fatalf("%d validities of %d routes", len(got), len(rows))
	}
	for i, row := range rows {
		if got[i] != row.validity {
			t.Fatalf("route %d, %v AS%d: %v, not %v", i, row.prefix, row.asn, got[i], row.validity)
		}
	}
}

// The validities of routes don't depend on their order, on how often each comes, nor on how many
// there are.
func TestValidateAll(t *testing.T) {
	tables := validityTables(t)
	for _, table := range tables {
		rows := append([]validityRow(nil), table.routes...)
		checkAll(t, table.data, rows)
		before := func(i, j int) bool { return rows[i].prefix.Addr().Less(rows[j].prefix.Addr()) }
		rows = append(rows, rows...)
		sort.Slice(rows, before)
		checkAll(t, table.data, rows)
		sort.Slice(rows, func(i, j int) bool { return before(j, i) })
		checkAll(t, table.data, rows)
	}
	last := tables[len(tables)-1]
	for _, count := range []int{0, 1, validateBatch - 1, validateBatch, validateBatch + 1,
		3 * validateBatch} {
		rows := make([]validityRow, count)
		for i := range rows {
			rows[i] = last.routes[i%len(last.routes)]
		}
		checkAll(t, last.data, rows)
	}
}

// Prefixes that aren't valid are no routes, and the zero Data have no VRPs.
func TestValidateAllOfNothing(t *testing.T) {
	data, err := NewData(1, 7, 1, RecommendedTiming)
	if err != nil {
		t.Fatal(err)
	}
	prefix := netip.MustParsePrefix("192.0.2.0/24")
	rows := []validityRow{
		{asn: 1, validity: NoRoute},
		{prefix: prefix, asn: 1, validity: NotFound},
		{prefix: netip.PrefixFrom(prefix.Addr(), 33), asn: 1, validity: NoRoute},
	}
	for _, each := range []Data{{}, data} {
		checkAll(t, each, rows)
		checkAll(t, each, nil)
	}
}
