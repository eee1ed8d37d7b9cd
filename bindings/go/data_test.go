//go:build cgo && linux

package rtr

import (
	"bytes"
	"encoding/binary"
	"errors"
	"fmt"
	"math/rand"
	"sort"
	"sync"
	"testing"
)

// record is a payload in these tests. Its rank orders records as payloads in Data, and its name is
// unique in data.
type record struct {
	kind Kind
	body string // of the unit after its flags, without free bits
	rank string
	name string
}

// recordOf returns one of a few records, so that they collide.
func recordOf(random *rand.Rand) record {
	number := func(n int) byte { return byte(random.Intn(n)) }
	asn := []byte{0, number(2), 0, number(3)}
	switch random.Intn(4) {
	case 0:
		length := 8 * (1 + number(2))
		address := []byte{10, 0, 0, 0}
		if length == 16 {
			address[1] = number(3)
		}
		return origin(IPv4Prefix, address, length, length+number(3), asn)
	case 1:
		address := make([]byte, 16)
		address[0], address[3] = 0x20, number(3)
		return origin(IPv6Prefix, address, 32+number(2), 48+number(2), asn)
	case 2:
		identifier := bytes.Repeat([]byte{number(2)}, 20)
		body := string(identifier) + string(asn) + string(make([]byte, number(3)))
		return record{kind: RouterKey, body: body, rank: "k" + body, name: "k" + body}
	}
	customer := []byte{0, 0, number(3), number(3)}
	providers := make([]byte, 4*(1+number(2)))
	providers[3] = number(3)
	body := string(customer) + string(providers)
	return record{
		kind: ASPA, body: body, rank: "p" + string(customer), name: "p" + string(customer),
	}
}

// origin returns the record of a prefix unit.
func origin(kind Kind, address []byte, length, most byte, asn []byte) record {
	rank := string([]byte{byte(kind)}) + string(address) + string([]byte{length, most}) + string(asn)
	body := string([]byte{length, most, 0}) + string(address) + string(asn)
	return record{kind: kind, body: body, rank: rank, name: rank}
}

// unit returns the unit that announces or withdraws the record.
func (r record) unit(version byte, announce bool) []byte {
	var flags byte
	body := r.body
	if announce {
		flags = 1
	} else if r.kind == ASPA {
		body = body[:4]
	}
	unit := []byte{version, byte(r.kind), 0, 0, 0, 0, 0, 0}
	if r.kind == IPv4Prefix || r.kind == IPv6Prefix {
		unit = append(unit, flags)
	} else {
		unit[2] = flags
	}
	unit = append(unit, body...)
	binary.BigEndian.PutUint32(unit[4:], uint32(len(unit)))
	return unit
}

// ending returns an end of data with the recommended timing.
func ending(version byte, session uint16, serial uint32) []byte {
	if version == 0 {
		unit := []byte{0, 7, 0, 0, 0, 0, 0, 12, 0, 0, 0, 0}
		binary.BigEndian.PutUint16(unit[2:], session)
		binary.BigEndian.PutUint32(unit[8:], serial)
		return unit
	}
	unit := append([]byte{version}, end[1:]...)
	binary.BigEndian.PutUint16(unit[2:], session)
	binary.BigEndian.PutUint32(unit[8:], serial)
	return unit
}

// records is data, by name.
type records map[string]record

// someRecords returns random data.
func someRecords(random *rand.Rand, count int) records {
	all := records{}
	for i := 0; i < count; i++ {
		r := recordOf(random)
		all[r.name] = r
	}
	return all
}

// ordered returns the records for which this holds, by rank.
func (rs records) ordered(holds func(record) bool) []record {
	var all []record
	for _, r := range rs {
		if holds(r) {
			all = append(all, r)
		}
	}
	sort.Slice(all, func(i, j int) bool { return all[i].rank < all[j].rank })
	return all
}

// units returns the units that announce or withdraw these records.
func units(version byte, announce bool, all []record) [][]byte {
	var units [][]byte
	for _, r := range all {
		units = append(units, r.unit(version, announce))
	}
	return units
}

// canonical returns the bytes of the data.
func (rs records) canonical(version byte, serial uint32) []byte {
	all := units(version, true, rs.ordered(func(record) bool { return true }))
	return join(append(all, ending(version, 0x1234, serial))...)
}

// leadingTo returns the units of the delta to new.
func (rs records) leadingTo(new records, version byte) [][]byte {
	announced := new.ordered(func(r record) bool { return rs[r.name] != r })
	withdrawn := rs.ordered(func(r record) bool { _, stays := new[r.name]; return !stays })
	return append(units(version, true, announced), units(version, false, withdrawn)...)
}

// parsed returns data that have to be accepted.
func parsed(t testing.TB, input []byte) Data {
	t.Helper()
	data, err := ParseData(input)
	if err != nil {
		t.Fatalf("%x: %v", input, err)
	}
	return data
}

// The delta between any two data is that of maps, and turns the old data into the new, in whichever
// order its units come.
func TestDeltas(t *testing.T) {
	random := rand.New(rand.NewSource(1))
	for i := 0; i < 2000; i++ {
		version := byte(1 + i%2)
		old := someRecords(random, random.Intn(12))
		new := someRecords(random, random.Intn(12))
		before := parsed(t, old.canonical(version, 5))
		after := parsed(t, append(new.canonical(version, 6), 1, 2, 3))
		if !bytes.Equal(after.Bytes(), new.canonical(version, 6)) || after.Len() != len(new) {
			t.Fatalf("%x has %d units", after.Bytes(), after.Len())
		}
		changes := old.leadingTo(new, version)
		form := join(append(changes, ending(version, 0x1234, 6))...)
		delta, err := Delta(before, after)
		if err != nil || !bytes.Equal(delta, form) {
			t.Fatalf("%x to %x: %x, not %x: %v", before.Bytes(), after.Bytes(), delta, form, err)
		}
		random.Shuffle(len(changes), func(i, j int) {
			changes[i], changes[j] = changes[j], changes[i]
		})
		ordered, err := Order(join(append(changes, ending(version, 0x1234, 6))...))
		if err != nil || !bytes.Equal(ordered, form) {
			t.Fatalf("%x becomes %x: %v", changes, ordered, err)
		}
		applied, err := Apply(before, append(ordered, 7))
		if err != nil || !applied.Equal(after) {
			t.Fatalf("%x and %x: %x %v", before.Bytes(), ordered, applied.Bytes(), err)
		}
	}
}

// changing has units of changes, and the records after them, up to the first that isn't allowed.
type changing struct {
	held   records
	input  []byte
	status Status
	offset int // of the unit that isn't allowed
}

// change appends the unit that announces or withdraws a record.
func (c *changing) change(r record, announce bool) {
	_, there := c.held[r.name]
	switch {
	case c.status != OK:
	case announce && there && r.kind != ASPA:
		c.status, c.offset = Duplicate, len(c.input)
	case !announce && !there:
		c.status, c.offset = Unknown, len(c.input)
	case announce:
		c.held[r.name] = r
	default:
		delete(c.held, r.name)
	}
	c.input = append(c.input, r.unit(2, announce)...)
}

// becomes checks the result of a call that applied the changes.
func (c *changing) becomes(t *testing.T, got Data, err error) {
	t.Helper()
	if c.status == OK {
		if err != nil || !bytes.Equal(got.Bytes(), c.held.canonical(2, 6)) {
			t.Fatalf("%x: %x %v", c.input, got.Bytes(), err)
		}
	} else if wrong := refusedAt(err, c.status, c.input, c.offset); wrong != nil || !got.IsZero() {
		t.Fatalf("%x: %v", c.input, wrong)
	}
}

// Changes in any order are applied one after the other, all or none, and the fault is about the
// first that isn't allowed.
func TestApplyInOrder(t *testing.T) {
	random := rand.New(rand.NewSource(6))
	refused := map[Status]int{}
	for i := 0; i < 4000; i++ {
		c := changing{held: someRecords(random, random.Intn(8))}
		data := parsed(t, c.held.canonical(2, 5))
		for j := random.Intn(8); j > 0; j-- {
			r := recordOf(random)
			if there := c.held.ordered(func(record) bool { return true }); random.Intn(2) == 0 &&
				len(there) > 0 {
				r = there[random.Intn(len(there))]
			}
			_, there := c.held[r.name]
			c.change(r, there == (random.Intn(8) == 0))
		}
		c.input = append(c.input, ending(2, 0x1234, 6)...)
		got, err := ApplyInOrder(data, append(c.input, 7))
		refused[c.status]++
		c.becomes(t, got, err)
	}
	if len(refused) != 3 {
		t.Fatal(refused)
	}
}

// Changes in canonical form are applied, all or none, and the fault is about the first that isn't
// allowed.
func TestApply(t *testing.T) {
	random := rand.New(rand.NewSource(2))
	refused := map[Status]int{}
	for i := 0; i < 3000; i++ {
		c := changing{held: someRecords(random, random.Intn(20))}
		data := parsed(t, c.held.canonical(2, 5))
		announced := someRecords(random, random.Intn(3))
		withdrawn := someRecords(random, random.Intn(3))
		for _, r := range announced.ordered(func(record) bool { return true }) {
			c.change(r, true)
		}
		for _, r := range withdrawn.ordered(func(r record) bool {
			_, there := announced[r.name]
			return !there
		}) {
			c.change(r, false)
		}
		c.input = append(c.input, ending(2, 0x1234, 6)...)
		applied, err := Apply(data, c.input)
		refused[c.status]++
		c.becomes(t, applied, err)
	}
	if len(refused) != 3 {
		t.Fatal(refused)
	}
}

// refusedAt returns what is wrong with an error that should have this status, offset and unit, and
// owe the report of RFC 8210 section 12.
func refusedAt(err error, status Status, input []byte, offset int) error {
	var fault *Fault
	if !errors.As(err, &fault) || !errors.Is(err, status) || fault.Offset != int64(offset) {
		return fmt.Errorf("%v, but expected is %v at %d", err, status, offset)
	}
	size := int(binary.BigEndian.Uint32(input[offset+4:]))
	if !bytes.Equal(fault.Unit, input[offset:offset+size]) {
		return fmt.Errorf("%v has the unit %x", err, fault.Unit)
	}
	report, owed := fault.Report()
	codes := map[Status]ErrorCode{
		Unknown: WithdrawalOfUnknownRecord, Duplicate: DuplicateAnnouncementReceived,
	}
	code, expected := codes[status]
	if owed != expected {
		return fmt.Errorf("%v owes %v", err, report)
	}
	if owed && (report.Code != code || report.Version != input[offset] ||
		!bytes.Equal(report.Enclosed, fault.Unit) || string(report.Text) != status.String()) {
		return fmt.Errorf("%v owes %+v", err, report)
	}
	return nil
}

// Sequences of repeated announcements and withdrawals: their net effect, as maps have it.
func TestOrder(t *testing.T) {
	random := rand.New(rand.NewSource(3))
	seen := map[Status]int{}
	for i := 0; i < 4000; i++ {
		pool := someRecords(random, 3).ordered(func(record) bool { return true })
		var input []byte
		var events []event
		for j := random.Intn(8); j > 0; j-- {
			e := event{pool[random.Intn(len(pool))], random.Intn(2) == 0, len(input)}
			events = append(events, e)
			input = append(input, e.unit(2, e.announce)...)
		}
		input = append(input, ending(2, 0x1234, 6)...)
		form, status, offset, known := comesTo(pool, events)
		if !known {
			continue
		}
		seen[status]++
		ordered, err := Order(input)
		if status != OK {
			if wrong := refusedAt(err, status, input, offset); wrong != nil || ordered != nil {
				t.Fatalf("%x: %v", input, wrong)
			}
		} else if err != nil || !bytes.Equal(ordered, form) {
			t.Fatalf("%x: %x, not %x: %v", input, ordered, form, err)
		}
	}
	if len(seen) != 4 {
		t.Fatal(seen)
	}
}

// event is a unit in a sequence.
type event struct {
	record
	announce bool
	offset   int
}

// comesTo returns the net effect of events on the ordered records of a pool, in canonical form, or
// the refused unit. An ASPA that is withdrawn, announced and withdrawn again has no effect.
func comesTo(pool []record, events []event) (form []byte, status Status, offset int, known bool) {
	var announced, withdrawn []byte
	for _, r := range pool {
		var own []event
		for _, event := range events {
			if event.name != r.name {
				continue
			}
			if n := len(own); n > 0 && own[n-1].announce == event.announce &&
				(r.kind != ASPA || !event.announce) {
				status = map[bool]Status{true: Duplicate, false: Unknown}[event.announce]
				return nil, status, event.offset, true
			}
			own = append(own, event)
		}
		if len(own) == 0 {
			continue
		}
		first, last := own[0], own[len(own)-1]
		switch {
		case r.kind == ASPA && last.announce:
			announced = append(announced, last.unit(2, true)...)
		case r.kind == ASPA && first.announce:
			return nil, Undecided, last.offset, true
		case r.kind == ASPA && len(own) > 1:
			return nil, OK, 0, false
		case first.announce != last.announce:
		case first.announce:
			announced = append(announced, first.unit(2, true)...)
		default:
			withdrawn = append(withdrawn, first.unit(2, false)...)
		}
	}
	return join(announced, withdrawn, ending(2, 0x1234, 6)), OK, 0, true
}

// changed returns a copy of bytes with one changed.
func changed(b []byte, at int, to byte) []byte {
	b = append([]byte{}, b...)
	b[at] = to
	return b
}

var (
	otherIPv4   = changed(ipv4, 14, 4)
	announced6  = changed(ipv6, 8, 1)
	withdrawn4  = changed(ipv4, 8, 0)
	longPrefix  = changed(ipv4, 9, 33)
	otherEnd    = changed(end, 3, 0x35)
	aspa1       = changed(aspa, 0, 1)
	withdrawn11 = changed(withdrawn, 0, 1)
)

// Refusals of data, of changes by Apply, and of changes by Order.
var refusals = []struct {
	name   string
	call   func([]byte) error
	input  []byte
	status Status
	detail uint8
	offset int64
}{
	{"data: nothing", parseError, nil, Short, 0, 0},
	{"data: no end", parseError, ipv4, Short, 0, 20},
	{"data: cut", parseError, join(ipv4, end[:23]), Short, 0, 20},
	{"data: a response", parseError, join(cacheResponse, end), UnitType, 3, 0},
	{"data: version 3", parseError, join(ipv4, changed(end, 0, 3)), UnitVersion, 3, 20},
	{"data: too long", parseError, join(ipv4, changed(key, 5, 1)), TooLong, 0, 20},
	{"data: a length", parseError, join(ipv4, changed(end, 7, 25)), UnitLength, 0, 20},
	{"data: no providers", parseError, changed(withdrawn, 2, 1), EmptyProviders, 0, 0},
	{"data: a prefix", parseError, join(longPrefix, end), PrefixRule, 1, 0},
	{"data: twice", parseError, join(ipv4, ipv4, end), NotCanonical, 0, 20},
	{"data: order", parseError, join(otherIPv4, ipv4, end), NotCanonical, 0, 20},
	{"data: withdrawn", parseError, join(ipv4, ipv6, end), NotCanonical, 0, 20},
	{"data: versions", parseError, join(ipv4, changed(announced6, 0, 2), end), NotCanonical, 0, 20},
	{"data: another end", parseError, join(ipv4, end0), NotCanonical, 0, 20},

	{"apply: nothing", applyError, nil, Short, 0, 0},
	{"apply: a prefix", applyError, join(longPrefix, end), PrefixRule, 1, 0},
	{"apply: order", applyError, join(withdrawn4, otherIPv4, end), NotCanonical, 0, 20},
	{"apply: twice", applyError, join(ipv4, withdrawn4, end), NotCanonical, 0, 20},
	{"apply: version", applyError, end0, UnitVersion, 0, -1},
	{"apply: session", applyError, join(otherIPv4, otherEnd), OtherSession, 0, -1},
	{"apply: duplicate", applyError, join(announced6, ipv4, end)[32:], Duplicate, 0, 0},
	{"apply: unknown", applyError, join(otherIPv4, ipv6, end), Unknown, 0, 20},

	{"in order: nothing", inOrderError, nil, Short, 0, 0},
	{"in order: versions", inOrderError, join(otherIPv4, withdrawn, end), NotCanonical, 0, 20},
	{"in order: version", inOrderError, end0, UnitVersion, 0, -1},
	{"in order: session", inOrderError, join(ipv4, otherEnd), OtherSession, 0, -1},
	{"in order: duplicate", inOrderError, join(ipv4, withdrawn4, end), Duplicate, 0, 0},
	{"in order: unknown", inOrderError, join(ipv6, announced6, ipv4, end), Unknown, 0, 0},

	{"order: no end", orderError, ipv4, Short, 0, 20},
	{"order: a query", orderError, join(ipv4, resetQuery), UnitType, 2, 20},
	{"order: a prefix", orderError, join(ipv4, longPrefix, end), PrefixRule, 1, 20},
	{"order: versions", orderError, join(ipv4, withdrawn, end), NotCanonical, 0, 20},
	{"order: duplicate", orderError, join(ipv4, ipv6, ipv4, end), Duplicate, 0, 52},
	{"order: unknown", orderError, join(ipv6, ipv4, ipv6, end), Unknown, 0, 52},
	{"order: undecided", orderError, join(ipv4, aspa1, withdrawn11, end), Undecided, 0, 40},
}

func parseError(input []byte) error {
	_, err := ParseData(input)
	return err
}

// applyError applies changes to data with one prefix.
func applyError(input []byte) error {
	data, err := ParseData(join(ipv4, end))
	if err == nil {
		_, err = Apply(data, input)
	}
	return err
}

// inOrderError applies changes in their order to data with one prefix.
func inOrderError(input []byte) error {
	data, err := ParseData(join(ipv4, end))
	if err == nil {
		_, err = ApplyInOrder(data, input)
	}
	return err
}

func orderError(input []byte) error {
	_, err := Order(input)
	return err
}

func TestDataRefusals(t *testing.T) {
	for _, row := range refusals {
		err := row.call(row.input)
		var fault *Fault
		if !errors.As(err, &fault) || !errors.Is(err, row.status) {
			t.Fatalf("%s: %v", row.name, err)
		}
		if fault.Detail != row.detail || fault.Offset != row.offset {
			t.Fatalf("%s: detail %d at %d", row.name, fault.Detail, fault.Offset)
		}
		if fault.Offset >= 0 && !bytes.HasPrefix(row.input[fault.Offset:], fault.Unit) {
			t.Fatalf("%s: unit %x", row.name, fault.Unit)
		}
	}
}

// Data of two versions or two sessions have no delta, and the zero Data is refused everywhere.
func TestDeltaRefusals(t *testing.T) {
	left, right := parsed(t, join(ipv4, end)), parsed(t, join(ipv4, otherEnd))
	if _, err := Delta(left, right); !errors.Is(err, OtherSession) {
		t.Fatal(err)
	}
	var fault *Fault
	if _, err := Delta(left, parsed(t, end0)); !errors.As(err, &fault) ||
		fault.Status != UnitVersion || fault.Detail != 0 || fault.Offset >= 0 {
		t.Fatal(err)
	}
	var zero Data
	for _, err := range []error{
		second(Delta(zero, left)), second(Delta(left, zero)), second(Delta(zero, zero)),
		second(Apply(zero, end)), second(ApplyInOrder(zero, end)), second(zero.For(1)),
	} {
		if !errors.Is(err, Short) {
			t.Fatal(err)
		}
	}
	if !zero.IsZero() || zero.Len() != 0 || zero.Version() != 0 || zero.Units().Scan() {
		t.Fatalf("%+v", zero)
	}
}

// second returns the error of a call with two results.
func second(_ any, err error) error { return err }

// An output of the exact size suffices, one that is a byte shorter doesn't, and nothing is written
// after it.
func TestDataOutputs(t *testing.T) {
	old, new := join(ipv4, end), join(otherIPv4, announced6, end)
	changes := join(otherIPv4, announced6, withdrawn4, end)
	calls := map[string]func([]byte) (int, error){
		"delta": func(output []byte) (int, error) { return delta(old, new, output) },
		"apply": func(output []byte) (int, error) { return apply(old, changes, output) },
		"order": func(output []byte) (int, error) {
			return order(join(withdrawn4, announced6, otherIPv4, end), output, 3)
		},
	}
	forms := map[string][]byte{"delta": changes, "apply": new, "order": changes}
	for name, call := range calls {
		for size := 0; size <= len(forms[name])+1; size++ {
			output := bytes.Repeat([]byte{0xa5}, size+8)
			n, err := call(output[:size:size])
			if size < len(forms[name]) {
				if !errors.Is(err, NoRoom) || n != 0 {
					t.Fatalf("%s in %d bytes: %d %v", name, size, n, err)
				}
			} else if err != nil || !bytes.Equal(output[:n], forms[name]) {
				t.Fatalf("%s in %d bytes: %x %v", name, size, output, err)
			}
			if !bytes.Equal(output[size:], bytes.Repeat([]byte{0xa5}, 8)) {
				t.Fatalf("%s in %d bytes: %x", name, size, output)
			}
		}
	}
}

// Data without payloads, and the fields of an end of data.
func TestNewData(t *testing.T) {
	timing := Timing{Refresh: 1, Retry: 2, Expire: 600}
	for version := uint8(0); version < 4; version++ {
		data, err := NewData(version, 7, 8, timing)
		if version == 3 {
			var fault *Fault
			if !errors.As(err, &fault) || fault.Status != UnitVersion || fault.Detail != 3 {
				t.Fatal(err)
			}
			continue
		}
		shown := timing
		if version == 0 {
			shown = Timing{}
		}
		if err != nil || data.Version() != version || data.Session() != 7 || data.Serial() != 8 ||
			data.Timing() != shown || data.Len() != 0 || data.IsZero() || data.Units().Scan() {
			t.Fatalf("%+v %v", data, err)
		}
		if !parsed(t, data.Bytes()).Equal(data) {
			t.Fatalf("%x", data.Bytes())
		}
	}
}

// Free bits may differ in the input: the data are the same.
func TestDataForm(t *testing.T) {
	stray := changed(changed(changed(ipv4, 3, 9), 8, 3), 15, 77)
	data := parsed(t, join(stray, end, stray))
	if !bytes.Equal(data.Bytes(), join(ipv4, end)) || !data.Equal(parsed(t, join(ipv4, end))) {
		t.Fatalf("%x", data.Bytes())
	}
	if data.Equal(parsed(t, join(ipv4, otherEnd))) || data.Equal(Data{}) {
		t.Fatalf("%x", data.Bytes())
	}
	for changes, expected := range map[string][]byte{
		string(join(changed(otherIPv4, 11, 1), end)):   join(ipv4, otherIPv4, end),
		string(join(changed(withdrawn4, 8, 254), end)): end,
	} {
		after, err := Apply(data, []byte(changes))
		if err != nil || !bytes.Equal(after.Bytes(), expected) {
			t.Fatalf("%x: %x %v", changes, after.Bytes(), err)
		}
	}
	ordered, err := Order(join(changed(withdrawn4, 8, 254), changed(announced6, 11, 7), end))
	if err != nil || !bytes.Equal(ordered, join(announced6, withdrawn4, end)) {
		t.Fatalf("%x %v", ordered, err)
	}
}

// Data for each version have the payloads that the version has.
func TestDataFor(t *testing.T) {
	random := rand.New(rand.NewSource(4))
	for i := 0; i < 300; i++ {
		all := someRecords(random, 20)
		version := byte(i % 3)
		for name, r := range all {
			if !r.kind.In(version) {
				delete(all, name)
			}
		}
		data := parsed(t, all.canonical(version, 5))
		for to := uint8(0); to < 3; to++ {
			for name, r := range all {
				if !r.kind.In(to) {
					delete(all, name)
				}
			}
			got, err := data.For(to)
			if err != nil || !bytes.Equal(got.Bytes(), all.canonical(to, 5)) || got.Len() != len(all) {
				t.Fatalf("%x for %d: %x %v", data.Bytes(), to, got.Bytes(), err)
			}
			all = reread(t, got, data, to, all)
		}
		if _, err := data.For(3); !errors.Is(err, UnitVersion) {
			t.Fatal(err)
		}
	}
}

// reread checks a loop over data, and returns the data for the next version.
func reread(t *testing.T, got, data Data, to uint8, all records) records {
	units, at := got.Units(), 0
	for units.Scan() {
		form, err := units.Unit().AppendBinary(nil)
		if err != nil || !bytes.HasPrefix(got.Bytes()[at:], form) {
			t.Fatalf("%x at %d: %x %v", got.Bytes(), at, form, err)
		}
		at += len(form)
	}
	if at != len(got.Bytes())-len(ending(to, 0, 0)) {
		t.Fatalf("the loop over %x ended at %d", got.Bytes(), at)
	}
	next := records{}
	for units := data.Units(); units.Scan(); {
		for name, r := range recordsOf(units.Unit()) {
			next[name] = r
		}
	}
	return next
}

// recordsOf returns the record of a unit.
func recordsOf(unit *Unit) records {
	form, _ := unit.MarshalBinary()
	body := string(form[8:])
	r := record{kind: unit.Kind, body: body, name: body, rank: "k" + body}
	switch unit.Kind {
	case ASPA:
		r.rank = "p" + body[:4]
	case IPv4Prefix, IPv6Prefix:
		address := unit.Prefix.Addr().AsSlice()
		r = origin(unit.Kind, address, form[9], form[10], form[len(form)-4:])
	}
	return records{r.name: r}
}

// The raw bytes of a sequence are collected, up to a limit.
func TestCollect(t *testing.T) {
	input := join(ipv4, withdrawn, changed(ipv6, 2, 9), end, resetQuery)
	sequence := join(ipv4, withdrawn, changed(ipv6, 2, 9), end)
	for name, as := range asRead {
		for most := 0; most <= len(sequence)+1; most++ {
			reader := NewReader(as(bytes.NewReader(input)))
			got, err := reader.Sequence(5).Collect(most)
			if most >= len(sequence) {
				if err != nil || !bytes.Equal(got, sequence) {
					t.Fatalf("%s: %x %v", name, got, err)
				}
				if unit, err := reader.Next(); err != nil || unit.Kind != ResetQuery {
					t.Fatalf("%s: %v %v", name, unit, err)
				}
				continue
			}
			var fault *Fault
			if !errors.As(err, &fault) || fault.Status != NoRoom || got != nil {
				t.Fatalf("%s: %x %v", name, got, err)
			}
			if _, owed := fault.Report(); owed || fault.Offset > int64(most) {
				t.Fatalf("%s: %v", name, fault)
			}
		}
		reader := NewReader(as(bytes.NewReader(input)))
		if _, err := reader.Sequence(3).Collect(999); !errors.Is(err, TooMany) {
			t.Fatalf("%s: %v", name, err)
		}
	}
}

// One Data in several goroutines at once.
func TestDataAtOnce(t *testing.T) {
	random := rand.New(rand.NewSource(5))
	old, new := someRecords(random, 40), someRecords(random, 40)
	before, after := parsed(t, old.canonical(2, 5)), parsed(t, new.canonical(2, 6))
	var running sync.WaitGroup
	for i := 0; i < 8; i++ {
		running.Add(1)
		go func() {
			defer running.Done()
			for j := 0; j < 50; j++ {
				delta, err := Delta(before, after)
				if err != nil {
					t.Error(err)
					return
				}
				data, err := Apply(before, delta)
				if err != nil || !bytes.Equal(data.Bytes(), after.Bytes()) {
					t.Error(err)
					return
				}
				if _, err := before.For(uint8(j % 3)); err != nil {
					t.Error(err)
				}
			}
		}()
	}
	running.Wait()
}
