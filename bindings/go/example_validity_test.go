//go:build cgo && linux

package rtr_test

import (
	"bytes"
	"fmt"
	"net/netip"

	"fishreef/rtr"
)

// states prints whether three routes are valid by the data of a router, and if not, why.
func states(data rtr.Data) {
	for _, route := range []struct {
		prefix string
		asn    uint32
	}{{"192.0.2.0/24", 65551}, {"192.0.2.0/27", 65551}, {"203.0.113.0/24", 65551}} {
		prefix := netip.MustParsePrefix(route.prefix)
		validity := data.Validate(prefix, route.asn)
		fmt.Printf("%v AS%d %v\n", prefix, route.asn, validity)
		if validity != rtr.Invalid {
			continue
		}
		for covering := data.Covering(prefix, route.asn); covering.Scan(); {
			fmt.Printf("  %v: %v\n", covering.VRP(), covering.Mismatch())
		}
	}
}

// Routes are looked up in the data that a cache sent.
func ExampleData_Validate() {
	// 192.0.2.0/23-26 AS65551, and an end of data (RFC 8210 sections 5.6 and 5.8).
	reader := rtr.NewReader(bytes.NewReader([]byte{
		1, 4, 0, 0, 0, 0, 0, 20, 1, 23, 26, 0, 192, 0, 2, 0, 0, 1, 0, 15,
		1, 7, 0, 7, 0, 0, 0, 24, 0, 0, 0, 1, 0, 0, 0x0e, 0x10, 0, 0, 2, 0x58, 0, 0, 0x1c, 0x20,
	}))
	sequence, err := reader.Sequence(1000).Collect(1 << 20)
	if err != nil {
		fmt.Println(err)
		return
	}
	data, err := rtr.ParseData(sequence)
	if err != nil {
		fmt.Println(err)
		return
	}
	states(data)
	// Output:
	// 192.0.2.0/24 AS65551 valid
	// 192.0.2.0/27 AS65551 invalid
	//   192.0.2.0/23-26 AS65551: longer than the max length
	// 203.0.113.0/24 AS65551 not found
}
