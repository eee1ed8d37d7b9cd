//go:build cgo && linux

package rtr

import (
	"encoding/binary"
	"net/netip"
)

// Kind is the type of a unit.
type Kind uint8

// String returns the name of the kind.
func (k Kind) String() string {
	return name(namedKind, uint16(k))
}

// In reports whether a version of the protocol has units of this kind: version 0 doesn't have
// router keys, versions 0 and 1 don't have ASPAs, and there is no version above 2.
func (k Kind) In(version uint8) bool {
	return versionHas(version, k)
}

// inSequence reports whether a sequence may have such units.
func (k Kind) inSequence() bool {
	switch k {
	case IPv4Prefix, IPv6Prefix, EndOfData, RouterKey, ASPA:
		return true
	}
	return false
}

// Providers are the providers of an ASPA, encoded as in a unit: four bytes each in network order.
type Providers []byte

// NewProviders returns the providers with these AS numbers.
func NewProviders(asns ...uint32) Providers {
	p := make(Providers, 0, 4*len(asns))
	for _, asn := range asns {
		p = binary.BigEndian.AppendUint32(p, asn)
	}
	return p
}

// Len returns the number of providers.
func (p Providers) Len() int {
	return len(p) / 4
}

// At returns the provider at index i. It panics if the index is out of range.
func (p Providers) At(i int) uint32 {
	return binary.BigEndian.Uint32(p[4*i:])
}

// Unit is a unit of any kind. Fields that its kind doesn't have are zero.
type Unit struct {
	Kind     Kind
	Version  uint8  // of the protocol
	Announce bool   // of a prefix, a router key or an ASPA; false for a withdrawal
	Session  uint16 // of a serial notify, a serial query, a cache response or an end of data
	Serial   uint32 // of a serial notify, a serial query or an end of data
	// Of an end of data, in seconds; 0 in version 0.
	Refresh, Retry, Expire uint32
	// The prefix, with zero bits after its length, and the longest prefix that the AS may announce.
	Prefix        netip.Prefix
	MaxLength     uint8
	ASN           uint32    // of a prefix or a router key
	KeyIdentifier [20]byte  // of a router key, like KeyInfo
	KeyInfo       []byte    // the subject public key info
	Customer      uint32    // of an ASPA, like Providers
	Providers     Providers // of a withdrawal too, if it has any
	Code          ErrorCode // of an error report, like Enclosed and Text
	Enclosed      []byte    // the unit that the report is about, or its first bytes
	Text          []byte    // in UTF-8; nil, like Enclosed, if the report's inner lengths are wrong
}

// Clone returns a copy of the unit that shares no memory with it, and stays valid when the Reader
// continues.
func (unit *Unit) Clone() *Unit {
	copied := *unit
	copied.KeyInfo = clone(unit.KeyInfo)
	copied.Providers = clone(unit.Providers)
	copied.Enclosed = clone(unit.Enclosed)
	copied.Text = clone(unit.Text)
	return &copied
}

// clone copies bytes; nil stays nil.
func clone(b []byte) []byte {
	if b == nil {
		return nil
	}
	return append([]byte{}, b...)
}

// Next returns input's first unit, and the input after it. Key info, providers and the parts of a
// report share memory with input; appending to them copies them. It allocates nothing unless there
// is an error.
//
// Errors: a Fault with one of Short to PrefixRule; then it returns the whole input. UnitSize
// returns the number of bytes that are needed (Short) or to skip (PrefixRule).
func Next(input []byte) (Unit, []byte, error) {
	var unit Unit
	size, status, detail := unit.parse(input)
	if status != OK {
		return Unit{}, input, refusal(status, detail, input, 0)
	}
	return unit, input[size:], nil
}

// NextMany reads units from the start of input, each as Next does, until the slice is full or the
// input ends after a complete unit. It returns the number of units, and the input after them. Since
// one call of the library reads many, this takes a fraction of the time of Next.
//
//	for units := make([]rtr.Unit, 256); len(input) > 0; {
//		n, rest, err := rtr.NextMany(input, units)
//		for i := range units[:n] {
//			fmt.Println(units[i].Kind)
//		}
//		if err != nil {
//			return err
//		}
//		input = rest
//	}
//
// Errors: those of Next, about the unit after the returned ones.
func NextMany(input []byte, units []Unit) (int, []byte, error) {
	batch := decodedPool.Get().(*decoded)
	defer decodedPool.Put(batch)
	count := 0
	for count < len(units) && len(input) > 0 {
		status, detail := batch.fill(input, len(units)-count)
		for batch.next < batch.count {
			input = batch.take(&units[count], input)
			count++
		}
		if status != OK && len(input) > 0 {
			return count, input, refusal(status, detail, input, 0)
		}
	}
	return count, input, nil
}

// UnitSize returns the size of input's first unit, at most 65535 bytes, from its header only. What
// follows the header isn't read, and may be missing.
//
// Errors: a Fault with Short if there are fewer than the eight bytes of a header, and then the size
// is 8; UnitType to EmptyProviders, and then it is 0.
func UnitSize(input []byte) (int, error) {
	size, status, detail := unitSize(input)
	if status != OK {
		return size, refusal(status, detail, input, 0)
	}
	return size, nil
}

// MarshalBinary returns the encoded unit; the errors are those of AppendBinary.
func (unit *Unit) MarshalBinary() ([]byte, error) {
	return unit.AppendBinary(nil)
}

// AppendBinary appends the encoded unit to b, at most 65535 bytes. The bits of an address after the
// prefix length are cleared, a withdrawn ASPA is written without providers, and an end of data of
// version 0 without times. It allocates nothing if b has capacity for 32 more bytes and the key
// info, the providers or the parts of a report.
//
// Errors, in this order, each a Fault, and nothing is appended: UnitType; NoForm for Announce on a
// unit that isn't a payload unit, and for a prefix that isn't valid or isn't of the kind's family;
// PrefixRule for the max length; TooLong for more than 65503 bytes of key info, 65519 of the parts
// of a report, or 65520 of announced providers; UnitLength for announced providers that aren't 4
// bytes each; EmptyProviders if there are none; UnitVersion for an end of data of a version above
// 2.
func (unit *Unit) AppendBinary(b []byte) ([]byte, error) {
	part := unit.part()
	if unit.Kind == ErrorReport && !unit.Announce && len(part)+len(unit.Text) > mostReportParts {
		return b, unit.refused(TooLong)
	}
	capacity := keySize + len(part) // a router key has the longest fixed part
	if capacity > longestUnit {
		capacity = longestUnit
	}
	start := len(b)
	b = grown(b, capacity)
	size, status := unit.write(part, b[start:start+capacity])
	if status != OK {
		return b, unit.refused(status)
	}
	b = b[:start+size]
	if unit.Kind == ErrorReport {
		b = appendText(b, start, unit.Text)
	}
	return b, nil
}

// grown returns b with capacity for n more bytes.
func grown(b []byte, n int) []byte {
	if cap(b)-len(b) < n {
		return append(b, make([]byte, n)...)[:len(b)]
	}
	return b
}

// appendText appends the text to the report at start. The library can't: it takes unit and text
// only from one buffer.
func appendText(b []byte, start int, text []byte) []byte {
	binary.BigEndian.PutUint32(b[len(b)-4:], uint32(len(text)))
	b = append(b, text...)
	binary.BigEndian.PutUint32(b[start+4:], uint32(len(b)-start))
	return b
}

// refused returns the fault of a unit that can't be encoded.
func (unit *Unit) refused(status Status) error {
	fault := &Fault{Status: status, Offset: -1}
	switch status {
	case UnitType:
		fault.Detail = uint8(unit.Kind)
	case UnitVersion:
		fault.Detail = unit.Version
	case PrefixRule:
		// The length of a valid netip.Prefix isn't above that of its address.
		fault.Detail = 2
		if int(unit.MaxLength) < unit.Prefix.Bits() {
			fault.Detail = 3
		}
	}
	return fault
}

// part returns the key info of a router key, the providers of an ASPA, or the unit that a report
// encloses.
func (unit *Unit) part() []byte {
	switch unit.Kind {
	case RouterKey:
		return unit.KeyInfo
	case ASPA:
		return unit.Providers
	case ErrorReport:
		return unit.Enclosed
	}
	return nil
}

// CompareSerials compares serial numbers (RFC 1982): the order is below 0 if left comes before
// right, 0 if they are equal, and above 0 if it comes after. If they differ by 2^31, they have no
// order, and ok is false.
func CompareSerials(left, right uint32) (order int, ok bool) {
	switch serialOrder(left, right) {
	case 0:
		return 0, true
	case 1:
		return -1, true
	case 2:
		return 1, true
	}
	return 0, false
}
