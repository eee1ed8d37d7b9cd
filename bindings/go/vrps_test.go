//go:build cgo && linux

package rtr

import (
	"bytes"
	"errors"
	"net/netip"
	"strings"
	"testing"
)

// vrp is a VRP of AS65551.
func vrp(prefix string, most uint8) VRP {
	return VRP{netip.MustParsePrefix(prefix), most, 65551}
}

// Data of VRPs: RFC 8210 sections 5.6 to 5.8.
func TestNewDataOf(t *testing.T) {
	v6 := []byte{
		0: 1, 1: 6, 7: 32, 8: 1, 9: 32, 10: 48, 12: 0x20, 13: 1, 14: 0xd, 15: 0xb8, 29: 1, 31: 15,
	}
	whole := []byte{1, 4, 0, 0, 0, 0, 0, 20, 1, 0, 0, 0, 0, 0, 0, 0, 0, 1, 0, 15}
	exact := changed(changed(ipv4, 9, 23), 10, 23)
	end := ending(1, 7, 9)
	for name, row := range map[string]struct {
		vrps     []VRP
		expected []byte
	}{
		"none":         {nil, end},
		"one":          {[]VRP{vrp("192.0.2.0/23", 26)}, join(ipv4, end)},
		"in any order": {[]VRP{vrp("2001:db8::/32", 48), vrp("192.0.2.0/23", 26)}, join(ipv4, v6, end)},
		"twice":        {[]VRP{vrp("192.0.2.0/23", 26), vrp("192.0.2.0/23", 26)}, join(ipv4, end)},
		"host bits":    {[]VRP{vrp("192.0.3.7/23", 26), vrp("192.0.2.0/23", 26)}, join(ipv4, end)},
		"no max length, which is the prefix length": {
			[]VRP{vrp("192.0.2.0/23", 0), vrp("192.0.2.0/23", 23), vrp("0.0.0.0/0", 0)},
			join(whole, exact, end),
		},
	} {
		data, err := NewDataOf(row.vrps, 1, 7, 9, Timing{3600, 600, 7200})
		if err != nil || !bytes.Equal(data.Bytes(), row.expected) {
			t.Errorf("%s: %x %v", name, data.Bytes(), err)
		}
		again, err := NewDataOf(data.VRPs(), 1, 7, 9, Timing{3600, 600, 7200})
		if err != nil || !again.Equal(data) {
			t.Errorf("%s: %v, and then %x %v", name, data.VRPs(), again.Bytes(), err)
		}
	}
}

// VRPs returns only the VRPs of data with other payloads, in order.
func TestVRPs(t *testing.T) {
	vrps := parsed(t, join(ipv4, changed(announced6, 0, 1), key, ending(1, 7, 9))).VRPs()
	if len(vrps) != 2 || vrps[0] != vrp("192.0.2.0/23", 26) || vrps[1].Prefix.Addr().Is4() {
		t.Fatal(vrps)
	}
	if none := (Data{}).VRPs(); len(none) != 0 {
		t.Fatal(none)
	}
}

// VRPs that can't be encoded, each after a valid one.
func TestNewDataOfRefused(t *testing.T) {
	for text, row := range map[string]struct {
		vrp     VRP
		version uint8
		status  Status
	}{
		"version 3 is not supported":     {vrp("192.0.2.0/23", 26), 3, UnitVersion},
		"VRP 1, invalid Prefix-0 AS7: ":  {VRP{ASN: 7}, 1, NoForm},
		"VRP 1, 192.0.2.0/23-33 AS65551": {vrp("192.0.2.0/23", 33), 1, PrefixRule},
		"VRP 1, 192.0.2.0/23-22 AS65551": {vrp("192.0.2.0/23", 22), 1, PrefixRule},
	} {
		vrps := []VRP{vrp("192.0.2.0/24", 24), row.vrp}
		data, err := NewDataOf(vrps, row.version, 7, 9, Timing{})
		if !errors.Is(err, row.status) || !strings.Contains(err.Error(), text) || !data.IsZero() {
			t.Errorf("%s: %v", text, err)
		}
	}
}
