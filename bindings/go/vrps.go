//go:build cgo && linux

package rtr

import (
	"fmt"
	"net/netip"
)

// VRP is a validated ROA payload, as validators print it (RFC 6811 section 2).
type VRP struct {
	Prefix    netip.Prefix // bits after its length are ignored
	MaxLength uint8        // 0 stands for the length of the prefix, as in a ROA without max length
	ASN       uint32
}

// String returns the VRP as "192.0.2.0/24-26 AS64496".
func (v VRP) String() string {
	return fmt.Sprintf("%v-%d AS%d", v.Prefix, v.MaxLength, v.ASN)
}

// NewDataOf makes data of VRPs in any order. Duplicates are ignored, since validators print a VRP
// for each ROA.
//
// Errors: a Fault with UnitVersion for a version above 2; for the first VRP that can't be encoded a
// text with its index, and a Fault: NoForm for a prefix that isn't valid, PrefixRule for the max
// length.
func NewDataOf(
	vrps []VRP, version uint8, session uint16, serial uint32, timing Timing,
) (Data, error) {
	empty, err := NewData(version, session, serial, timing)
	if err != nil {
		return Data{}, err
	}
	var units []byte
	seen := make(map[VRP]bool, len(vrps))
	for i, vrp := range vrps {
		plain := vrp.plain()
		if seen[plain] {
			continue
		}
		seen[plain] = true
		unit := plain.unit(version)
		if units, err = unit.AppendBinary(units); err != nil {
			return Data{}, fmt.Errorf("VRP %d, %v: %w", i, vrp, err)
		}
	}
	ordered, err := Order(append(units, empty.Bytes()...))
	if err != nil {
		return Data{}, err
	}
	return checkedData(ordered), nil
}

// VRPs returns the VRPs of the data, in the order of payloads.
func (d Data) VRPs() []VRP {
	vrps := make([]VRP, 0, d.Len())
	for units := d.Units(); units.Scan(); {
		switch unit := units.Unit(); unit.Kind {
		case IPv4Prefix, IPv6Prefix:
			vrps = append(vrps, VRP{unit.Prefix, unit.MaxLength, unit.ASN})
		}
	}
	return vrps
}

// plain returns the VRP with zero host bits and an explicit max length.
func (v VRP) plain() VRP {
	v.Prefix = v.Prefix.Masked()
	if v.MaxLength == 0 && v.Prefix.IsValid() {
		v.MaxLength = uint8(v.Prefix.Bits())
	}
	return v
}

// unit returns the unit of this version that announces the VRP.
func (v VRP) unit(version uint8) Unit {
	kind := IPv6Prefix
	if v.Prefix.Addr().Is4() {
		kind = IPv4Prefix
	}
	return Unit{
		Kind: kind, Version: version, Announce: true,
		Prefix: v.Prefix, MaxLength: v.MaxLength, ASN: v.ASN,
	}
}
