//go:build cgo && linux

package rtr

import (
	"encoding/binary"
	"errors"
	"net/netip"
	"os"
	"os/exec"
	"sync"
	"testing"
)

// A VRP that covers a route, as tests/libraries/validity.py computed it.
type coveringVRP struct {
	index                       uint32
	asn                         uint32
	length, maxLength, mismatch uint8
}

// A route, with its validity and the VRPs that cover it.
type validityRow struct {
	prefix   netip.Prefix // whose host bits may be set
	asn      uint32
	validity Validity
	covering []coveringVRP
}

// A table of VRPs, as data, and routes.
type validityTable struct {
	data   Data
	routes []validityRow
}

// validityTables returns the tables in the file $RTR_VALIDITY, or of validity.py without that.
func validityTables(t *testing.T) (tables []validityTable) {
	var rest []byte
	var err error
	if path := os.Getenv("RTR_VALIDITY"); path != "" {
		rest, err = os.ReadFile(path)
	} else {
		rest, err = exec.Command("python3", "../../tests/libraries/validity.py").Output()
	}
	if errors.Is(err, exec.ErrNotFound) {
		t.Skip("there is no python3 to make tables, and RTR_VALIDITY names no file of them")
	}
	if err != nil {
		t.Fatal(err)
	}
	take := func(n uint32) []byte {
		taken := rest[:n]
		rest = rest[n:]
		return taken
	}
	number := func() uint32 { return binary.LittleEndian.Uint32(take(4)) }
	for len(rest) > 0 {
		length, count := number(), number()
		data, err := ParseData(take(length))
		if err != nil {
			t.Fatal(err)
		}
		table := validityTable{data: data, routes: make([]validityRow, count)}
		for i := range table.routes {
			route := &table.routes[i]
			head := take(4)
			route.asn = number()
			address := netip.AddrFrom16(*(*[16]byte)(take(16)))
			if head[0] == 4 {
				octets := address.As16()
				address = netip.AddrFrom4(*(*[4]byte)(octets[:4]))
			}
			route.prefix = netip.PrefixFrom(address, int(head[1]))
			route.validity = Validity(head[2])
			route.covering = make([]coveringVRP, head[3])
			for j := range route.covering {
				vrp := &route.covering[j]
				vrp.index, vrp.asn = number(), number()
				last := take(4)
				vrp.length, vrp.maxLength, vrp.mismatch = last[0], last[1], last[2]
			}
		}
		tables = append(tables, table)
	}
	return tables
}

func TestValidity(t *testing.T) {
	seen := map[Validity]int{}
	for _, table := range validityTables(t) {
		var vrps []Unit
		for units := table.data.Units(); units.Scan(); {
			vrps = append(vrps, *units.Unit())
		}
		for _, route := range table.routes {
			got := table.data.Validate(route.prefix, route.asn)
			if got != route.validity {
				t.Fatalf("%v AS%d: %v, not %v", route.prefix, route.asn, got, route.validity)
			}
			seen[got]++
			covering := table.data.Covering(route.prefix, route.asn)
			for _, want := range route.covering {
				unit := vrps[want.index]
				vrp := VRP{Prefix: unit.Prefix, MaxLength: want.maxLength, ASN: want.asn}
				if !covering.Scan() || covering.VRP() != vrp || unit.Prefix.Bits() != int(want.length) ||
					covering.Mismatch() != Mismatch(want.mismatch) {
					t.Fatalf("%v AS%d: %v %v, not %v %d", route.prefix, route.asn, covering.VRP(),
						covering.Mismatch(), vrp, want.mismatch)
				}
			}
			if len(route.covering) < 255 && covering.Scan() {
				t.Fatalf("%v AS%d: %v too", route.prefix, route.asn, covering.VRP())
			}
		}
	}
	if seen[Valid] < 100 || seen[Invalid] < 100 || seen[NotFound] < 100 {
		t.Errorf("%v", seen)
	}
}

func TestNoRoute(t *testing.T) {
	data, err := NewData(1, 7, 1, RecommendedTiming)
	if err != nil {
		t.Fatal(err)
	}
	for _, none := range []netip.Prefix{{}, netip.PrefixFrom(netip.MustParseAddr("192.0.2.0"), 33)} {
		if data.Validate(none, 1) != NoRoute || data.Covering(none, 1).Scan() {
			t.Error(none)
		}
	}
	prefix := netip.MustParsePrefix("192.0.2.0/24")
	for _, each := range []Data{{}, data} {
		if each.Validate(prefix, 1) != NotFound || each.Covering(prefix, 1).Scan() {
			t.Error(each)
		}
	}
}

// An IPv4-mapped IPv6 prefix is an IPv6 prefix, which no IPv4 VRP covers.
func TestMappedRoute(t *testing.T) {
	data, err := ParseData([]byte{
		1, 4, 0, 0, 0, 0, 0, 20, 1, 0, 32, 0, 0, 0, 0, 0, 0, 1, 0, 15,
		1, 7, 0, 7, 0, 0, 0, 24, 0, 0, 0, 1, 0, 0, 0x0e, 0x10, 0, 0, 2, 0x58, 0, 0, 0x1c, 0x20,
	})
	if err != nil {
		t.Fatal(err)
	}
	mapped := netip.PrefixFrom(netip.MustParseAddr("::ffff:192.0.2.0"), 120)
	if got := data.Validate(mapped, 65551); got != NotFound {
		t.Error(got)
	}
}

// Several goroutines may do the first lookup.
func TestValidityAtOnce(t *testing.T) {
	tables := validityTables(t)
	table := tables[len(tables)-1]
	var group sync.WaitGroup
	for i := 0; i < 8; i++ {
		group.Add(1)
		go func() {
			defer group.Done()
			for _, route := range table.routes {
				if table.data.Validate(route.prefix, route.asn) != route.validity {
					t.Error(route)
				}
			}
		}()
	}
	group.Wait()
}

func TestValidityTexts(t *testing.T) {
	for v, want := range map[Validity]string{
		NotFound: "not found", Valid: "valid", Invalid: "invalid", NoRoute: "no route", 9: "validity 9",
	} {
		if v.String() != want {
			t.Error(v)
		}
	}
	for m, want := range map[Mismatch]string{
		Matches: "matches", ASZero: "AS 0", OtherAS: "another AS",
		Longer: "longer than the max length", 9: "mismatch 9",
	} {
		if m.String() != want {
			t.Error(m)
		}
	}
}

func BenchmarkValidate(b *testing.B) {
	data, err := ParseData([]byte{
		1, 4, 0, 0, 0, 0, 0, 20, 1, 23, 26, 0, 192, 0, 2, 0, 0, 1, 0, 15,
		1, 7, 0, 7, 0, 0, 0, 24, 0, 0, 0, 1, 0, 0, 0x0e, 0x10, 0, 0, 2, 0x58, 0, 0, 0x1c, 0x20,
	})
	if err != nil {
		b.Fatal(err)
	}
	prefix := netip.MustParsePrefix("192.0.2.0/24")
	data.Validate(prefix, 1) // makes the index
	b.ReportAllocs()
	b.ResetTimer()
	for i := 0; i < b.N; i++ {
		if data.Validate(prefix, 65551) != Valid {
			b.Fatal("not valid")
		}
	}
}
