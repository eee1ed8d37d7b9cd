//go:build cgo && linux

package rtr

import (
	"bytes"
	"encoding/binary"
	"errors"
	"fmt"
	"io"
	"os"
	"os/exec"
	"sync"
	"testing"
)

// A case that tests/libraries/cases.py wrote.
type testCase struct {
	version, status, detail uint8
	numbers                 [5]uint64 // units, forms, taken, length of the input and of the form
	input, form             []byte
}

var (
	caseBytes  []byte
	caseErr    error
	readsCases sync.Once
)

// cases returns the cases in the file $RTR_CASES, or of cases.py without that. Without python3 too
// it skips the test.
func cases(t *testing.T) []testCase {
	readsCases.Do(func() {
		if path := os.Getenv("RTR_CASES"); path != "" {
			caseBytes, caseErr = os.ReadFile(path)
		} else {
			script := "../../tests/libraries/cases.py"
			caseBytes, caseErr = exec.Command("python3", script, "--inputs", "300").Output()
		}
	})
	if errors.Is(caseErr, exec.ErrNotFound) {
		t.Skip("there is no python3 to make cases, and RTR_CASES names no file of them")
	}
	if caseErr != nil {
		t.Fatal(caseErr)
	}
	var all []testCase
	for rest := caseBytes; len(rest) > 0; {
		c := testCase{version: rest[0], status: rest[1], detail: rest[2]}
		rest = rest[3:]
		for i := range c.numbers {
			c.numbers[i] = binary.LittleEndian.Uint64(rest)
			rest = rest[8:]
		}
		c.input, rest = rest[:c.numbers[3]], rest[c.numbers[3]:]
		c.form, rest = rest[:c.numbers[4]], rest[c.numbers[4]:]
		all = append(all, c)
	}
	return all
}

// numbers returns the status and the detail of an error, as rtr.h has them.
func numbers(err error) (uint8, uint8) {
	var fault *Fault
	if !errors.As(err, &fault) {
		return 0, 0
	}
	return uint8(fault.Status), fault.Detail
}

// normalised calls Normalise, or NormaliseFor if the case is for one version.
func (c *testCase) normalised(input, output []byte, limit uint64) (Progress, error) {
	if c.version == 255 {
		return Normalise(input, output, limit)
	}
	return NormaliseFor(input, output, limit, c.version)
}

// room returns an output size that always suffices.
func (c *testCase) size() int {
	if c.version == 255 {
		return len(c.input)
	}
	return len(c.input) + 12
}

// whole returns what is wrong if the case is one call.
func (c *testCase) whole() error {
	output := make([]byte, c.size())
	progress, err := c.normalised(c.input, output, 1<<32)
	status, detail := numbers(err)
	expected := Progress{c.numbers[0], c.numbers[1], int(c.numbers[2]), len(c.form)}
	if status != c.status || detail != c.detail || progress != expected {
		return fmt.Errorf("%x: %v %v", c.input, progress, err)
	}
	if !bytes.Equal(output[:progress.Written], c.form) {
		return fmt.Errorf("%x: another form", c.input)
	}
	return nil
}

// read returns what is wrong if the case is read as a sequence of a Reader, and written by a
// Writer.
func (c *testCase) read() error {
	if c.version != 255 {
		return nil
	}
	var form bytes.Buffer
	reader, writer := NewReader(bytes.NewReader(c.input)), NewWriter(&form)
	sequence := reader.Sequence(1 << 32)
	for sequence.Scan() {
		if err := writer.Write(sequence.Unit()); err != nil {
			return fmt.Errorf("%x: %v", c.input, err)
		}
	}
	status, detail := numbers(sequence.Err())
	taken := reader.Offset()
	var fault *Fault
	if errors.As(sequence.Err(), &fault) {
		// A refused prefix is skipped.
		taken = fault.Offset
	}
	if status != c.status || detail != c.detail || taken != int64(c.numbers[2]) {
		return fmt.Errorf("%x: %v after %d bytes", c.input, sequence.Err(), taken)
	}
	if !bytes.Equal(form.Bytes(), c.form) {
		return fmt.Errorf("%x: another form", c.input)
	}
	return nil
}

func TestSequences(t *testing.T) {
	for _, c := range cases(t) {
		for _, err := range []error{c.whole(), c.read()} {
			if err != nil {
				t.Fatal(err)
			}
		}
	}
}

// In eight goroutines at once.
func TestGoroutines(t *testing.T) {
	all := cases(t)
	var running sync.WaitGroup
	for i := 0; i < 8; i++ {
		running.Add(1)
		go func() {
			defer running.Done()
			for _, c := range all {
				for _, err := range []error{c.whole(), c.read()} {
					if err != nil {
						t.Error(err)
						return
					}
				}
			}
		}()
	}
	running.Wait()
}

// In steps, with a small output and few units each time: the result is the same.
func TestInTurns(t *testing.T) {
	for _, c := range cases(t) {
		if len(c.input) >= 1<<16 {
			continue
		}
		var form []byte
		var units uint64
		var err error
		rest, size := c.input, 16
		for {
			var progress Progress
			output := make([]byte, size)
			progress, err = c.normalised(rest, output, 3)
			form = append(form, output[:progress.Written]...)
			rest = rest[progress.Taken:]
			units += progress.Units
			if errors.Is(err, NoRoom) && progress.Taken == 0 {
				size *= 2
			} else if !errors.Is(err, NoRoom) && !errors.Is(err, TooMany) {
				break
			}
		}
		status, detail := numbers(err)
		taken := len(c.input) - len(rest)
		if status != c.status || detail != c.detail || taken != int(c.numbers[2]) {
			t.Fatalf("%x: %v after %d bytes", c.input, err, taken)
		}
		if units != c.numbers[0] || !bytes.Equal(form, c.form) {
			t.Fatalf("%x: another form", c.input)
		}
	}
}

// An output that is one byte too short, and a limit that is one too low.
func TestNoRoomAndTooMany(t *testing.T) {
	for _, c := range cases(t) {
		if c.status != 0 {
			continue
		}
		output := make([]byte, len(c.form))
		progress, err := c.normalised(c.input, output[1:], c.numbers[0]+1)
		if !errors.Is(err, NoRoom) || progress.Taken >= int(c.numbers[2]) {
			t.Fatalf("%x: %v %v", c.input, progress, err)
		}
		if !bytes.Equal(output[1:1+progress.Written], c.form[:progress.Written]) {
			t.Fatalf("%x: another form", c.input)
		}
		progress, err = c.normalised(c.input, output, c.numbers[0])
		if !errors.Is(err, TooMany) || progress.Units != c.numbers[0] {
			t.Fatalf("%x: %v %v", c.input, progress, err)
		}
		_, err = c.normalised(c.input, output, c.numbers[0]+1)
		if err != nil {
			t.Fatalf("%x: %v", c.input, err)
		}
	}
}

// The limit of a Sequence counts units as that of Normalise does. After it another Sequence
// continues.
func TestSequenceLimit(t *testing.T) {
	for _, c := range cases(t) {
		if c.status != 0 || c.version != 255 || c.numbers[0] > 20 {
			continue
		}
		for limit := uint64(0); limit <= c.numbers[0]; limit++ {
			reader := NewReader(bytes.NewReader(c.input))
			for _, left := range []uint64{limit / 2, limit - limit/2} {
				sequence, count := reader.Sequence(left), uint64(0)
				for sequence.Scan() {
					count++
				}
				var fault *Fault
				if !errors.As(sequence.Err(), &fault) || fault.Status != TooMany || count != left ||
					fault.Offset != reader.Offset() || sequence.Unit() != nil || sequence.Scan() {
					t.Fatalf("%x: %d units, %v", c.input, count, sequence.Err())
				}
			}
		}
		sequence := NewReader(bytes.NewReader(c.input)).Sequence(c.numbers[0] + 1)
		for sequence.Scan() {
		}
		if sequence.Err() != nil || sequence.Unit().Kind != EndOfData || sequence.Scan() {
			t.Fatalf("%x: %v", c.input, sequence.Err())
		}
	}
}

func TestMeanings(t *testing.T) {
	// Only an end of data, of version 0.
	end := []byte{0, 7, 0, 1, 0, 0, 0, 12, 0, 0, 0, 2}
	for _, c := range cases(t) {
		if c.version != 255 {
			continue
		}
		same, err := SameMeaning(c.input, c.form, 1<<32)
		c.checkSame(t, same, c.status == 0, Left, err)
		same, err = SameMeaning(end, c.input, 1<<32)
		c.checkSame(t, same, c.status == 0 && bytes.Equal(end, c.form), Right, err)
	}
}

// The limit of SameMeaning applies to both sequences, and its fault has the offset at which it
// ended them.
func TestSameMeaningLimit(t *testing.T) {
	short, long := join(ipv4, end), join(ipv4, ipv4, end)
	for limit := uint64(0); limit < 4; limit++ {
		for _, pair := range [][2][]byte{{short, long}, {long, short}, {long, long}} {
			same, err := SameMeaning(pair[0], pair[1], limit)
			units := uint64(2)
			if limit >= 2 {
				units = 3
			}
			var fault *Fault
			refused := errors.As(err, &fault)
			if same != (limit == 3 && bytes.Equal(pair[0], pair[1])) || refused != (limit < units) {
				t.Fatalf("%d: %v %v", limit, same, err)
			}
			side := Left
			if limit == 2 && len(pair[0]) == len(short) {
				side = Right
			}
			if refused && (fault.Status != TooMany || fault.Side != side || len(fault.Unit) > 0 ||
				fault.Offset != int64(limit)*int64(len(ipv4))) {
				t.Fatalf("%d: %v", limit, err)
			}
		}
	}
}

// checkSame checks the result of SameMeaning for the case, which is the input of this side, and a
// sequence that is accepted.
func (c *testCase) checkSame(t *testing.T, same, expected bool, side Side, err error) {
	status, detail := numbers(err)
	if same != expected || status != c.status || detail != c.detail {
		t.Fatalf("%x: %v %v", c.input, same, err)
	}
	var fault *Fault
	if errors.As(err, &fault) && (fault.Offset != int64(c.numbers[2]) || fault.Side != side ||
		!bytes.HasPrefix(c.input[fault.Offset:], fault.Unit)) {
		t.Fatalf("%x: %v", c.input, err)
	}
	if errors.Is(err, io.ErrUnexpectedEOF) != (c.status == uint8(Short)) {
		t.Fatalf("%x: %v", c.input, err)
	}
}

// answer is what tests/libraries/sessions.py computed of one unit: numbers in the order of its
// NUMBERS.
type answer struct {
	numbers             [22]uint64
	address, identifier []byte
	form                []byte
}

// sessions returns the sessions in the file $RTR_SESSIONS, or of sessions.py without that, with the
// answer for each of their units.
func sessions(t *testing.T) (inputs [][]byte, answers [][]answer) {
	var rest []byte
	var err error
	if path := os.Getenv("RTR_SESSIONS"); path != "" {
		rest, err = os.ReadFile(path)
	} else {
		rest, err = exec.Command("python3", "../../tests/libraries/sessions.py", "cases").Output()
	}
	if errors.Is(err, exec.ErrNotFound) {
		t.Skip("there is no python3 to make sessions, and RTR_SESSIONS names no file of them")
	}
	if err != nil {
		t.Fatal(err)
	}
	take := func(n uint64) []byte {
		taken := rest[:n]
		rest = rest[n:]
		return taken
	}
	number := func() uint64 { return binary.LittleEndian.Uint64(take(8)) }
	for len(rest) > 0 {
		length, count := number(), number()
		inputs = append(inputs, take(length))
		all := make([]answer, count)
		for i := range all {
			for j := range all[i].numbers {
				all[i].numbers[j] = number()
			}
			all[i].address, all[i].identifier = take(16), take(20)
			all[i].form = take(number())
		}
		answers = append(answers, all)
	}
	return inputs, answers
}

// shown returns the fields of a unit, as the numbers of an answer, without those of a fault.
func shown(unit *Unit, size int) [22]uint64 {
	numbers := [22]uint64{
		1: uint64(size), 7: uint64(unit.ASN), 8: uint64(unit.Customer), 9: uint64(unit.Serial),
		10: uint64(unit.Refresh), 11: uint64(unit.Retry), 12: uint64(unit.Expire),
		13: uint64(unit.Session),
		14: uint64(unit.Code), 15: uint64(unit.Kind), 16: uint64(unit.Version),
		20: uint64(unit.MaxLength),
	}
	part := unit.part()
	switch {
	case unit.Kind == RouterKey:
		numbers[3] = 32
	case unit.Kind == ASPA || unit.Enclosed != nil:
		numbers[3] = 12
	}
	if unit.Enclosed != nil {
		numbers[5], numbers[6] = 16+uint64(len(part)), uint64(len(unit.Text))
	}
	numbers[4] = uint64(len(part))
	if unit.Announce {
		numbers[17] = 1
	}
	if unit.Prefix.IsValid() {
		numbers[18], numbers[19] = 6, uint64(unit.Prefix.Bits())
		if unit.Prefix.Addr().Is4() {
			numbers[18] = 4
		}
	}
	return numbers
}

// check returns what is wrong with a unit that was read, or refused.
func (a *answer) check(unit *Unit, read []byte, err error) error {
	status, detail := numbers(err)
	if uint64(status) != a.numbers[0] || uint64(detail) != a.numbers[21] {
		return fmt.Errorf("%v, but expected is %v", err, a.numbers)
	}
	if err != nil {
		return nil
	}
	if shown(unit, len(read)) != a.numbers || !bytes.Equal(unit.KeyIdentifier[:], a.identifier) {
		return fmt.Errorf("%+v, but expected is %v", unit, a.numbers)
	}
	if unit.Prefix.IsValid() && !bytes.HasPrefix(a.address, unit.Prefix.Addr().AsSlice()) {
		return fmt.Errorf("%v, but expected is %x", unit.Prefix, a.address)
	}
	if !bytes.Equal(unit.part(), read[a.numbers[3]:][:a.numbers[4]]) ||
		!bytes.Equal(unit.Text, read[a.numbers[5]:][:a.numbers[6]]) {
		return fmt.Errorf("%+v has other parts", unit)
	}
	form, err := unit.AppendBinary(nil)
	if err != nil || !bytes.Equal(form, a.form) {
		return fmt.Errorf("%+v is written as %x: %v", unit, form, err)
	}
	return nil
}

// Sessions with units of all kinds, whole, truncated, and hostile: read by a Reader, and in memory.
func TestSessions(t *testing.T) {
	inputs, answers := sessions(t)
	for i, input := range inputs {
		reader, rest := NewReader(bytes.NewReader(input)), input
		for _, a := range answers[i] {
			unit, err := reader.Next()
			if err == io.EOF && len(rest) == 0 {
				break
			}
			if wrong := a.check(unit, reader.Bytes(), err); wrong != nil {
				t.Fatalf("%x: %v", input, wrong)
			}
			inMemory, after, err := Next(rest)
			size := len(rest) - len(after)
			if wrong := a.check(&inMemory, rest[:size], err); wrong != nil {
				t.Fatalf("%x: %v", input, wrong)
			}
			if errors.Is(err, PrefixRule) {
				size, _ = UnitSize(rest)
			}
			rest = rest[size:]
		}
	}
}
