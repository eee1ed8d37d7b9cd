//go:build cgo && linux

package rtr

import (
	"bytes"
	"encoding/binary"
	"encoding/hex"
	"errors"
	"fmt"
	"io"
	"net/netip"
	"os"
	"reflect"
	"runtime"
	"strconv"
	"strings"
	"testing"
)

// Samples of each kind.
var (
	serialNotify  = sampleOf("serial notify")
	serialQuery   = sampleOf("serial query")
	resetQuery    = sampleOf("reset query")
	cacheResponse = sampleOf("cache response")
	ipv4          = sampleOf("IPv4 prefix")
	ipv6          = sampleOf("IPv6 prefix")
	end           = sampleOf("end of data")
	end0          = sampleOf("end of data of version 0")
	cacheReset    = sampleOf("cache reset")
	key           = sampleOf("router key")
	errorReport   = sampleOf("error report")
	emptyReport   = sampleOf("empty report")
	textReport    = sampleOf("report without a unit")
	aspa          = sampleOf("ASPA")
	withdrawn     = sampleOf("withdrawn ASPA")
)

// The fields of each sample.
var shownUnits = []struct {
	bytes []byte
	unit  Unit
}{
	{serialNotify, Unit{Kind: SerialNotify, Version: 1, Session: 0x1234, Serial: 0xdeadbeef}},
	{serialQuery, Unit{Kind: SerialQuery, Session: 0x1234, Serial: 0xdeadbeef}},
	{resetQuery, Unit{Kind: ResetQuery, Version: 2}},
	{cacheResponse, Unit{Kind: CacheResponse, Version: 1, Session: 0x1234}},
	{ipv4, Unit{
		Kind: IPv4Prefix, Version: 1, Announce: true, ASN: 65551,
		Prefix: netip.MustParsePrefix("192.0.2.0/23"), MaxLength: 26,
	}},
	{ipv6, Unit{
		Kind: IPv6Prefix, Version: 1, ASN: 65551,
		Prefix: netip.MustParsePrefix("2001:db8::/32"), MaxLength: 48,
	}},
	{end, Unit{
		Kind: EndOfData, Version: 1, Session: 0x1234, Serial: 0xdeadbeef,
		Refresh: 3600, Retry: 600, Expire: 7200,
	}},
	{end0, Unit{Kind: EndOfData, Session: 0x1234, Serial: 0xdeadbeef}},
	{cacheReset, Unit{Kind: CacheReset, Version: 1}},
	{key, Unit{
		Kind: RouterKey, Version: 1, Announce: true, ASN: 65551,
		KeyIdentifier: [20]byte{1, 2, 3, 4, 5, 6, 7, 8, 9, 10, 11, 12, 13, 14, 15, 16, 17, 18, 19, 20},
		KeyInfo:       []byte{0xca, 0xfe},
	}},
	{errorReport, Unit{
		Kind: ErrorReport, Version: 1, Code: NoDataAvailable, Enclosed: []byte{1, 2, 0, 0, 0, 0, 0, 8},
		Text: []byte("no"),
	}},
	{emptyReport, Unit{
		Kind: ErrorReport, Version: 1, Code: InternalError, Enclosed: []byte{}, Text: []byte{},
	}},
	{textReport, Unit{
		Kind: ErrorReport, Version: 1, Code: InternalError, Enclosed: []byte{}, Text: []byte("no"),
	}},
	{aspa, Unit{
		Kind: ASPA, Version: 2, Announce: true, Customer: 65000, Providers: NewProviders(65001, 65551),
	}},
	{withdrawn, Unit{Kind: ASPA, Version: 2, Customer: 65000, Providers: Providers{}}},
}

// join returns the concatenated slices.
func join(all ...[]byte) []byte {
	return bytes.Join(all, nil)
}

// session returns the concatenated units.
func session() []byte {
	var all []byte
	for _, shown := range shownUnits {
		all = append(all, shown.bytes...)
	}
	return all
}

// Next decodes each unit, and AppendBinary encodes it again after existing bytes.
func TestFields(t *testing.T) {
	for _, shown := range shownUnits {
		unit, rest, err := Next(join(shown.bytes, []byte{7}))
		if err != nil || !reflect.DeepEqual(unit, shown.unit) || !bytes.Equal(rest, []byte{7}) {
			t.Fatalf("%x: %+v %x %v", shown.bytes, unit, rest, err)
		}
		if size, err := UnitSize(shown.bytes[:8]); size != len(shown.bytes) || err != nil {
			t.Fatalf("%x: %d %v", shown.bytes, size, err)
		}
		if size, err := UnitSize(shown.bytes[:7]); size != 8 || !errors.Is(err, Short) {
			t.Fatalf("%x: %d %v", shown.bytes, size, err)
		}
		form, err := unit.AppendBinary([]byte("front"))
		if err != nil || !bytes.Equal(form, join([]byte("front"), shown.bytes)) {
			t.Fatalf("%x: %x %v", shown.bytes, form, err)
		}
		if clone := unit.Clone(); !reflect.DeepEqual(*clone, unit) {
			t.Fatalf("%x: %v", shown.bytes, clone)
		}
	}
	unit, _, err := Next(aspa)
	if err != nil || unit.Providers.Len() != 2 || unit.Providers.At(0) != 65001 ||
		unit.Providers.At(1) != 65551 {
		t.Fatalf("%v %v", unit.Providers, err)
	}
}

// Free bits are written as zero: host bits, sessions without a meaning, flags but the lowest, and
// the providers of a withdrawal.
func TestForms(t *testing.T) {
	for _, shown := range []struct{ bytes, form []byte }{
		{[]byte{2, 2, 3, 4, 0, 0, 0, 8}, resetQuery},
		{[]byte{1, 8, 3, 4, 0, 0, 0, 8}, cacheReset},
		{[]byte{1, 4, 3, 4, 0, 0, 0, 20, 0xff, 23, 26, 7, 192, 0, 3, 0xff, 0, 1, 0, 15}, ipv4},
		{join([]byte{2, 11, 0xfe, 7, 0, 0, 0, 20}, aspa[8:]), withdrawn},
	} {
		unit, _, err := Next(shown.bytes)
		if err != nil {
			t.Fatal(err)
		}
		if form, err := unit.MarshalBinary(); err != nil || !bytes.Equal(form, shown.form) {
			t.Fatalf("%x: %x %v", shown.bytes, form, err)
		}
	}
	// The host bits of a unit in Go.
	unit := Unit{
		Kind: IPv4Prefix, Version: 1, Announce: true, ASN: 65551, MaxLength: 26,
		Prefix: netip.MustParsePrefix("192.0.3.255/23"),
	}
	if form, err := unit.MarshalBinary(); err != nil || !bytes.Equal(form, ipv4) {
		t.Fatalf("%x %v", form, err)
	}
}

// A report whose inner lengths are wrong has no parts.
func TestReportsThatDontFit(t *testing.T) {
	for _, lengths := range [][2]uint32{
		{9, 2}, {7, 2}, {8, 3}, {8, 1}, {0xffffffff, 2}, {8, 0xffffffff}, {11, 0},
	} {
		report := append([]byte{}, errorReport...)
		binary.BigEndian.PutUint32(report[8:], lengths[0])
		binary.BigEndian.PutUint32(report[20:], lengths[1])
		unit, rest, err := Next(report)
		expected := Unit{Kind: ErrorReport, Version: 1, Code: NoDataAvailable}
		if err != nil || len(rest) != 0 || !reflect.DeepEqual(unit, expected) {
			t.Fatalf("%x: %+v %v", report, unit, err)
		}
	}
}

// No end of data is written or read in a version above 2, and no sequence.
func TestVersions(t *testing.T) {
	output := make([]byte, len(end)+12)
	for version := 3; version < 256; version++ {
		progress, err := NormaliseFor(end, output, 1, uint8(version))
		status, detail := numbers(err)
		if Status(status) != UnitVersion || int(detail) != version || progress != (Progress{}) {
			t.Fatalf("%d: %v %v", version, progress, err)
		}
		unit := Unit{Kind: EndOfData, Version: uint8(version)}
		form, err := unit.MarshalBinary()
		status, detail = numbers(err)
		if len(form) != 0 || Status(status) != UnitVersion || int(detail) != version {
			t.Fatalf("%d: %x %v", version, form, err)
		}
		read := join([]byte{uint8(version)}, end[1:])
		_, err = NewReader(bytes.NewReader(read)).Next()
		if status, detail = numbers(err); Status(status) != UnitVersion || int(detail) != version {
			t.Fatalf("%d: %v", version, err)
		}
	}
	if !bytes.Equal(output, make([]byte, len(output))) {
		t.Fatalf("%x", output)
	}
	for kind := 0; kind < 256; kind++ {
		for version := 0; version < 256; version++ {
			has := version <= 2 && kind <= 11 && kind != 5
			has = has && (kind != 9 || version >= 1) && (kind != 11 || version >= 2)
			if Kind(kind).In(uint8(version)) != has {
				t.Fatalf("%v in version %d", Kind(kind), version)
			}
		}
	}
}

// Units that can't be encoded.
var formless = []struct {
	unit   Unit
	status Status
	detail uint8
}{
	{Unit{Kind: 5}, UnitType, 5},
	{Unit{Kind: 12, Announce: true}, UnitType, 12},
	{Unit{Kind: 255}, UnitType, 255},
	{Unit{Announce: true}, NoForm, 0},
	{Unit{Kind: SerialQuery, Announce: true}, NoForm, 0},
	{Unit{Kind: ResetQuery, Announce: true}, NoForm, 0},
	{Unit{Kind: CacheResponse, Announce: true}, NoForm, 0},
	{Unit{Kind: EndOfData, Version: 1, Announce: true}, NoForm, 0},
	{Unit{Kind: CacheReset, Announce: true}, NoForm, 0},
	{Unit{Kind: ErrorReport, Announce: true}, NoForm, 0},
	{Unit{Kind: ErrorReport, Announce: true, Text: make([]byte, 65520)}, NoForm, 0},
	{Unit{Kind: IPv4Prefix}, NoForm, 0},
	{Unit{Kind: IPv6Prefix}, NoForm, 0},
	{Unit{Kind: IPv4Prefix, Prefix: netip.MustParsePrefix("2001:db8::/32"), MaxLength: 32}, NoForm, 0},
	{Unit{Kind: IPv4Prefix, Prefix: netip.MustParsePrefix("::ffff:192.0.2.0/120"), MaxLength: 120}, NoForm, 0},
	{Unit{Kind: IPv6Prefix, Prefix: netip.MustParsePrefix("192.0.2.0/24"), MaxLength: 24}, NoForm, 0},
	{Unit{Kind: IPv4Prefix, Prefix: netip.MustParsePrefix("192.0.2.0/24"), MaxLength: 33}, PrefixRule, 2},
	{Unit{Kind: IPv6Prefix, Prefix: netip.MustParsePrefix("2001::/9"), MaxLength: 129}, PrefixRule, 2},
	{Unit{Kind: IPv6Prefix, Prefix: netip.MustParsePrefix("2001::/9"), MaxLength: 8}, PrefixRule, 3},
	{Unit{Kind: RouterKey, KeyInfo: make([]byte, 65504)}, TooLong, 0},
	{Unit{Kind: RouterKey, KeyInfo: make([]byte, 1<<20)}, TooLong, 0},
	{Unit{Kind: ErrorReport, Enclosed: make([]byte, 65520)}, TooLong, 0},
	{Unit{Kind: ErrorReport, Text: make([]byte, 65520)}, TooLong, 0},
	{Unit{Kind: ErrorReport, Enclosed: make([]byte, 65519), Text: []byte{0}}, TooLong, 0},
	{Unit{Kind: ErrorReport, Enclosed: make([]byte, 1<<20), Text: make([]byte, 1<<20)}, TooLong, 0},
	{Unit{Kind: ASPA, Announce: true, Providers: make([]byte, 65524)}, TooLong, 0},
	{Unit{Kind: ASPA, Announce: true, Providers: make([]byte, 6)}, UnitLength, 0},
	{Unit{Kind: ASPA, Announce: true}, EmptyProviders, 0},
	{Unit{Kind: EndOfData, Version: 3}, UnitVersion, 3},
}

// A unit that can't be encoded is refused, nothing is appended or written, and no report is owed.
func TestNoForm(t *testing.T) {
	for _, shown := range formless {
		form, err := shown.unit.AppendBinary([]byte("front"))
		var fault *Fault
		if string(form) != "front" || !errors.As(err, &fault) || !errors.Is(err, shown.status) {
			t.Fatalf("%v: %x %v", shown.unit.Kind, form, err)
		}
		if fault.Detail != shown.detail || fault.Offset != -1 {
			t.Fatalf("%v: %+v", shown.unit.Kind, fault)
		}
		if report, owed := fault.Report(); owed {
			t.Fatalf("%v: %+v", shown.unit.Kind, report)
		}
		form, err = shown.unit.AppendBinary(make([]byte, 0, 1<<17))
		if len(form) != 0 || !bytes.Equal(form[:cap(form)], make([]byte, 1<<17)) {
			t.Fatalf("%v: something was written: %v", shown.unit.Kind, err)
		}
		var written bytes.Buffer
		writer := NewWriter(&written)
		if err := writer.Write(&shown.unit); !errors.Is(err, shown.status) || written.Len() > 0 {
			t.Fatalf("%v: %x %v", shown.unit.Kind, written.Bytes(), err)
		}
	}
}

// The longest router key, reports and ASPA.
func TestLongest(t *testing.T) {
	for _, shown := range []struct {
		unit Unit
		size int
	}{
		{Unit{Kind: RouterKey, Version: 1, Announce: true, KeyInfo: make([]byte, 65503)}, 65535},
		{Unit{Kind: ErrorReport, Enclosed: make([]byte, 65519), Text: []byte{}}, 65535},
		{Unit{Kind: ErrorReport, Enclosed: []byte{}, Text: make([]byte, 65519)}, 65535},
		{Unit{Kind: ErrorReport, Enclosed: []byte{1, 2}, Text: make([]byte, 65517)}, 65535},
		{Unit{Kind: ASPA, Version: 2, Announce: true, Providers: make([]byte, 65520)}, 65532},
	} {
		form, err := shown.unit.MarshalBinary()
		if err != nil || len(form) != shown.size {
			t.Fatalf("%v: %d bytes, %v", shown.unit.Kind, len(form), err)
		}
		unit, rest, err := Next(form)
		if err != nil || len(rest) != 0 || !reflect.DeepEqual(unit, shown.unit) {
			t.Fatalf("%v: %v", shown.unit.Kind, err)
		}
		read, err := NewReader(bytes.NewReader(form)).Next()
		if err != nil || !reflect.DeepEqual(*read, shown.unit) {
			t.Fatalf("%v: %v", shown.unit.Kind, err)
		}
	}
}

// Appending to a part of a unit doesn't write into the input, and a clone doesn't change with it.
func TestParts(t *testing.T) {
	for _, shown := range [][]byte{key, aspa, errorReport} {
		input := join(shown, []byte{7})
		unit, _, err := Next(input)
		if err != nil {
			t.Fatal(err)
		}
		clone := unit.Clone()
		for _, part := range [][]byte{unit.KeyInfo, unit.Providers, unit.Enclosed, unit.Text} {
			_ = append(part, 8)
		}
		if !bytes.Equal(input, join(shown, []byte{7})) {
			t.Fatalf("%v: the input was changed", unit.Kind)
		}
		for i := range input {
			input[i] ^= 0xff
		}
		expected, _, err := Next(shown)
		if err != nil || !reflect.DeepEqual(*clone, expected) || reflect.DeepEqual(unit, expected) {
			t.Fatalf("%v: the clone has the bytes of the input", unit.Kind)
		}
	}
}

// Nothing is allocated for a unit, in memory, by a Reader or by a Writer.
func TestAllocations(t *testing.T) {
	output := make([]byte, 0, 100)
	for _, shown := range shownUnits {
		count := testing.AllocsPerRun(100, func() {
			unit, _, err := Next(shown.bytes)
			if err != nil {
				t.Fatal(err)
			}
			if output, err = unit.AppendBinary(output[:0]); err != nil {
				t.Fatal(err)
			}
		})
		if count != 0 {
			t.Fatalf("%x: %v allocations", shown.bytes, count)
		}
	}
	count := testing.AllocsPerRun(100, func() {
		if _, err := Normalise(end, output[:len(end)], 1); err != nil {
			t.Fatal(err)
		}
		if _, err := NormaliseFor(end, output[:len(end)], 1, 2); err != nil {
			t.Fatal(err)
		}
		if same, err := SameMeaning(end, end, 1); !same || err != nil {
			t.Fatal(err)
		}
	})
	if count != 0 {
		t.Fatalf("%v allocations", count)
	}
	input := bytes.NewReader(nil)
	reader, writer := NewReader(input), NewWriter(io.Discard)
	long, err := (&Unit{Kind: RouterKey, KeyInfo: make([]byte, 1000)}).MarshalBinary()
	if err != nil {
		t.Fatal(err)
	}
	all := join(session(), long)
	count = testing.AllocsPerRun(100, func() {
		input.Reset(all)
		for i := 0; i <= len(shownUnits); i++ {
			unit, err := reader.Next()
			if err != nil {
				t.Fatal(err)
			}
			if err := writer.Write(unit); err != nil {
				t.Fatal(err)
			}
		}
	})
	if count != 0 {
		t.Fatalf("%v allocations", count)
	}
}

func BenchmarkNext(b *testing.B) {
	for _, shown := range shownUnits {
		b.Run(shown.unit.Kind.String(), func(b *testing.B) {
			b.ReportAllocs()
			for i := 0; i < b.N; i++ {
				if _, _, err := Next(shown.bytes); err != nil {
					b.Fatal(err)
				}
			}
		})
	}
}

// NextMany returns the same units as Next, for slices of any length.
func TestNextMany(t *testing.T) {
	var input []byte
	for i := 0; i < 30; i++ {
		for _, shown := range shownUnits {
			input = append(input, shown.bytes...)
		}
	}
	for _, end := range [][]byte{nil, ipv4[:5], {1, 5, 0, 0, 0, 0, 0, 8}} {
		all := append(append([]byte(nil), input...), end...)
		var expected []Unit
		rest, refused := all, error(nil)
		for len(rest) > 0 && refused == nil {
			var unit Unit
			if unit, rest, refused = Next(rest); refused == nil {
				expected = append(expected, unit)
			}
		}
		for _, places := range []int{1, 2, 63, 64, 65, 128, 1000} {
			var got []Unit
			rest, err := all, error(nil)
			for len(rest) > 0 && err == nil {
				units, n := make([]Unit, places), 0
				n, rest, err = NextMany(rest, units)
				if n < places && err == nil && len(rest) > 0 {
					t.Fatal(n, places)
				}
				got = append(got, units[:n]...)
			}
			if !reflect.DeepEqual(got, expected) || !reflect.DeepEqual(err, refused) ||
				len(rest) != len(end) {
				t.Fatal(places, len(got), err, len(rest))
			}
		}
	}
	if n, rest, err := NextMany(input, nil); n != 0 || err != nil || len(rest) != len(input) {
		t.Fatal(n, len(rest), err)
	}
	if n, _, err := NextMany(nil, make([]Unit, 1)); n != 0 || err != nil {
		t.Fatal(n, err)
	}
}

// Reading data makes few calls of C: a call from Go takes longer than decoding a unit.
func TestNextManyCrossings(t *testing.T) {
	input := bytes.Repeat(ipv4, 64000)
	units := make([]Unit, 256)
	before := runtime.NumCgoCall()
	for rest := input; len(rest) > 0; {
		var err error
		if _, rest, err = NextMany(rest, units); err != nil {
			t.Fatal(err)
		}
	}
	if calls := runtime.NumCgoCall() - before; calls > 6400 {
		t.Errorf("%d calls for 64000 units", calls)
	}
}

// Data of 100,000 prefixes.
func BenchmarkNextMany(b *testing.B) {
	b.ReportAllocs()
	input := bytes.Repeat(ipv4, 100000)
	units := make([]Unit, 256)
	for i := 0; i < b.N; i++ {
		for rest := input; len(rest) > 0; {
			var err error
			if _, rest, err = NextMany(rest, units); err != nil {
				b.Fatal(err)
			}
		}
	}
}

func BenchmarkAppendBinary(b *testing.B) {
	for _, shown := range shownUnits {
		b.Run(shown.unit.Kind.String(), func(b *testing.B) {
			b.ReportAllocs()
			unit, output := shown.unit, make([]byte, 0, 100)
			var err error
			for i := 0; i < b.N; i++ {
				if output, err = unit.AppendBinary(output[:0]); err != nil {
					b.Fatal(err)
				}
			}
		})
	}
}

// A unit that a Reader reads from memory, and one that a Writer writes.
func BenchmarkReader(b *testing.B) {
	b.ReportAllocs()
	input := bytes.NewReader(nil)
	reader := NewReader(input)
	for i := 0; i < b.N; i++ {
		input.Reset(ipv4)
		if _, err := reader.Next(); err != nil {
			b.Fatal(err)
		}
	}
}

func BenchmarkWriter(b *testing.B) {
	b.ReportAllocs()
	writer := NewWriter(io.Discard)
	unit := shownUnits[4].unit
	for i := 0; i < b.N; i++ {
		if err := writer.Write(&unit); err != nil {
			b.Fatal(err)
		}
	}
}

// The texts of the library, as in all languages.
func TestTextRows(t *testing.T) {
	file, err := os.ReadFile("../../tests/texts")
	if err != nil {
		t.Fatal(err)
	}
	rows := 0
	for _, row := range strings.Split(string(file), "\n") {
		if row == "" || row[0] == '#' {
			continue
		}
		word, rest, _ := strings.Cut(row, " ")
		digits, text, _ := strings.Cut(rest, " ")
		number, err := strconv.ParseUint(digits, 10, 16)
		if err != nil {
			t.Fatal(row)
		}
		got := ""
		switch word {
		case "text":
			digits, after, _ := strings.Cut(text, " ")
			detail, err := strconv.ParseUint(digits, 10, 8)
			if err != nil {
				t.Fatal(row)
			}
			fault := Fault{Status: Status(number), Detail: uint8(detail), Offset: -1}
			text, got = "rtr: "+after, fault.Error()
		case "at":
			var detail uint8
			var offset uint64
			if _, err := fmt.Sscan(text, &detail, &offset); err != nil {
				t.Fatal(row)
			}
			text = strings.SplitN(text, " ", 3)[2]
			got = statusTextAt(Status(number), detail, offset)
		case "report":
			digits, after, _ := strings.Cut(text, " ")
			reported, _ := hex.DecodeString(digits)
			text = after
			got = reportText(ErrorCode(number), string(reported))
		case "status":
			got = name(namedStatus, uint16(number))
		case "kind":
			got = name(namedKind, uint16(number))
		case "cause":
			got = name(namedCause, uint16(number))
		case "reason":
			got = name(namedReason, uint16(number))
		case "code":
			got = ErrorCode(number).String()
		case "time_rule":
			got = name(namedTimeRule, uint16(number))
		}
		if got != text {
			t.Fatalf("%s: %q", row, got)
		}
		rows++
	}
	if rows < 80 {
		t.Fatal(rows)
	}
}

func TestKinds(t *testing.T) {
	for kind, text := range []string{
		"serial notify", "serial query", "reset query", "cache response", "IPv4 prefix", "type 5",
		"IPv6 prefix",
		"end of data", "cache reset", "router key", "error report", "ASPA", "type 12",
	} {
		if Kind(kind).String() != text {
			t.Fatalf("%d: %v", kind, Kind(kind))
		}
	}
	// The texts are those of RFC 8210 section 12, and above 8 those of the Rust crate rpki.
	for code, text := range []string{
		"Corrupt Data", "Internal Error", "No Data Available", "Invalid Request",
		"Unsupported Protocol Version",
		"Unsupported PDU Type", "Withdrawal of Unknown Record", "Duplicate Announcement Received",
		"Unexpected Protocol Version", "ASPA Provider List Error", "Transport Error", "Ordering Error",
		"error code 12",
	} {
		if ErrorCode(code).String() != text {
			t.Fatalf("%d: %v", code, ErrorCode(code))
		}
	}
}

// Each status has the text of rtr.h, and is an error.
func TestStatus(t *testing.T) {
	for status, text := range []string{
		"accepted",
		"unexpected end of input",
		"unit type is not allowed here",
		"version is not supported here",
		"unit is longer than 65535 bytes",
		"invalid unit length",
		"ASPA unit has no providers",
		"prefix fields are not allowed",
		"too many units",
		"no room in the output",
		"no unit has these fields",
		"unknown status 11",
		"not in canonical form",
		"of another session",
		"duplicate announcement",
		"withdrawal of an unknown record",
		"an ASPA is announced and then withdrawn",
		"no room in the index",
		"too many members",
	} {
		var err error = Status(status)
		if err.Error() != text || Status(status).String() != text {
			t.Fatalf("%d: %v", status, err)
		}
		fault := fmt.Errorf("wrapped: %w", &Fault{Status: Status(status)})
		for other := OK; other < 19; other++ {
			if errors.Is(fault, other) != (other == Status(status)) {
				t.Fatalf("%v: %v", fault, other)
			}
		}
		if errors.Is(fault, io.ErrUnexpectedEOF) != (Status(status) == Short) ||
			errors.Is(fault, io.EOF) {
			t.Fatalf("%v", fault)
		}
	}
}

// errors.Is finds the reason of a breach, and no other; the reason of a cause has the cause's text.
func TestBreaches(t *testing.T) {
	reasons := []error{
		ErrOtherVersion, ErrHigherVersion, ErrNoVersion, ErrOtherSession, ErrSerialBack,
		ErrOtherData, ErrNoQuery, ErrMisplaced, ErrNoPayload,
	}
	for _, reason := range reasons {
		breach := fmt.Errorf("wrapped: %w", &Breach{Reason: reason})
		for _, other := range reasons {
			if errors.Is(breach, other) != (other == reason) {
				t.Errorf("%v: %v", breach, other)
			}
		}
	}
	for cause, reason := range breaches {
		if reason.Error() != cause.String() {
			t.Errorf("%v: %v", cause, reason)
		}
	}
}

// A breach owes a report with its code, unit and reason, unless the unit is an error report, whole
// or cut (RFC 8210 section 5.11).
func TestReportsOfBreaches(t *testing.T) {
	query := []byte{1, 2, 0, 0, 0, 0, 0, 8}
	breach := &Breach{Reason: ErrMisplaced, Code: InvalidRequest, Unit: query}
	report, owed := breach.Report()
	if !owed {
		t.Fatal("no report is owed about a query")
	}
	expected := reportBytes(1, 3, query, ErrMisplaced.Error())
	if form, err := report.MarshalBinary(); err != nil || !bytes.Equal(form, expected) {
		t.Fatalf("%x: %v", form, err)
	}
	refused := reportBytes(0, 2, nil, "")
	for size := 2; size <= len(refused); size++ {
		breach.Unit = refused[:size]
		if report, owed := breach.Report(); owed || report != nil {
			t.Fatalf("%x: %+v", breach.Unit, report)
		}
	}
}

// A report of this version and code, about these bytes and with this text (RFC 8210 section 5.11).
func reportBytes(version, code byte, about []byte, text string) []byte {
	size := byte(16 + len(about) + len(text))
	front := []byte{version, 10, 0, code, 0, 0, 0, size, 0, 0, 0, byte(len(about))}
	return join(front, about, []byte{0, 0, 0, byte(len(text))}, []byte(text))
}

// The text of a fault, its error code by RFC 8210 section 12, and the report that it owes.
func TestReports(t *testing.T) {
	prefix := []byte{1, 4, 0, 0, 0, 0, 0, 20, 1, 24, 23, 0, 192, 0, 2, 0, 0, 1, 0, 15}
	for _, shown := range []struct {
		input []byte
		text  string
		code  int // -1 if no report is owed
		about int // the enclosed bytes of the input
	}{
		{[]byte{1, 4}, "unexpected end of input", 0, 2},
		{ipv4[:19], "unexpected end of input", 0, 19},
		{[]byte{1, 5, 0, 0, 0, 0, 0, 12, 9, 9}, "unit type 5 is not allowed here", 5, 8},
		{[]byte{3, 7, 0, 0, 0, 0, 0, 24, 9, 9}, "version 3 is not supported here", 4, 8},
		{[]byte{2, 9, 1, 0, 0, 1, 0, 0, 9, 9}, "unit is longer than 65535 bytes", 0, 8},
		{[]byte{2, 2, 0, 0, 0, 0, 0, 9, 9, 9}, "invalid unit length", 0, 8},
		{[]byte{2, 11, 1, 0, 0, 0, 0, 12, 9, 9}, "ASPA unit has no providers", 9, 8},
		{join(prefix, key), "max-length smaller than prefix length", 0, 20},
		// No report is owed about a report.
		{[]byte{1, 10, 0, 0, 0, 0, 0, 15, 9, 9}, "invalid unit length", -1, 0},
		{[]byte{1, 10, 0, 0, 0, 1, 0, 0, 9, 9}, "unit is longer than 65535 bytes", -1, 0},
		{[]byte{1, 10, 0, 0, 0, 0, 0, 16, 9, 9}, "unexpected end of input", -1, 0},
	} {
		_, _, inMemory := Next(shown.input)
		_, read := NewReader(bytes.NewReader(shown.input)).Next()
		for _, err := range []error{inMemory, read} {
			var fault *Fault
			if !errors.As(err, &fault) || err.Error() != "rtr: "+shown.text+", at byte 0" {
				t.Fatalf("%x: %v", shown.input, err)
			}
			if err == inMemory && cap(fault.Unit) != len(fault.Unit) {
				t.Fatalf("%x: what is appended to %x would change the input", shown.input, fault.Unit)
			}
			report, owed := fault.Report()
			if owed != (shown.code >= 0) {
				t.Fatalf("%x: %+v", shown.input, report)
			}
			if !owed {
				continue
			}
			expected := reportBytes(shown.input[0], byte(shown.code), shown.input[:shown.about], shown.text)
			if form, err := report.MarshalBinary(); err != nil || !bytes.Equal(form, expected) {
				t.Fatalf("%x: %x %v", shown.input, form, err)
			}
		}
	}
}

// The unit that a report encloses, and then its text, is truncated so that the report has 65535
// bytes.
func TestReportsCut(t *testing.T) {
	for length, text := range map[int]string{
		65534: "", 65519: "", 65518: "u", 65497: "unexpected end of inpu", 65496: "unexpected end of input",
	} {
		input := join([]byte{1, 9, 0, 0, 0, 0, 0xff, 0xff}, make([]byte, length-8))
		var fault *Fault
		if _, _, err := Next(input); !errors.As(err, &fault) || fault.Status != Short {
			t.Fatal(err)
		}
		about := length
		if about > 65519 {
			about = 65519
		}
		report, owed := fault.Report()
		if !owed || !bytes.Equal(report.Enclosed, input[:about]) || string(report.Text) != text {
			t.Fatalf("%d: %d %q", length, len(report.Enclosed), report.Text)
		}
		if form, err := report.MarshalBinary(); err != nil || len(form) != 16+about+len(text) {
			t.Fatalf("%d: %d bytes, %v", length, len(form), err)
		}
	}
}

// Serial numbers are compared by RFC 1982 section 3.2.
func TestSerials(t *testing.T) {
	for _, shown := range []struct {
		left, right uint32
		order       int
		ok          bool
	}{
		{0, 0, 0, true}, {0xffffffff, 0xffffffff, 0, true},
		{0, 1, -1, true}, {1, 0, 1, true},
		{0xffffffff, 0, -1, true}, {0, 0xffffffff, 1, true},
		{0, 0x7fffffff, -1, true}, {0, 0x80000001, 1, true},
		{0, 0x80000000, 0, false}, {0x80000000, 0, 0, false}, {5, 0x80000005, 0, false},
	} {
		if order, ok := CompareSerials(shown.left, shown.right); order != shown.order || ok != shown.ok {
			t.Fatalf("%d %d: %d %v", shown.left, shown.right, order, ok)
		}
	}
}

// The text of each fault is one line, with its offset.
func TestTexts(t *testing.T) {
	for status := Status(0); status < 12; status++ {
		for detail := 0; detail < 256; detail++ {
			text := (&Fault{Status: status, Detail: uint8(detail), Offset: 7}).Error()
			if !strings.HasPrefix(text, "rtr: ") || !strings.HasSuffix(text, ", at byte 7") ||
				strings.ContainsAny(text, "\n%") {
				t.Fatal(text)
			}
			fault := Fault{Status: status, Detail: uint8(detail), Offset: 7, Side: Right}
			if fault.Error() != text+" of the right input" {
				t.Fatal(&fault)
			}
		}
	}
}
