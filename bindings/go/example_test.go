//go:build cgo && linux

package rtr_test

import (
	"bufio"
	"bytes"
	"errors"
	"fmt"
	"io"
	"net/netip"

	"fishreef/rtr"
)

// What a cache sends: a cache response, two prefixes and an end of data (RFC 8210 sections 5.5, 5.6
// and 5.8).
var sent = []byte{
	1, 3, 0x12, 0x34, 0, 0, 0, 8,
	1, 4, 0, 0, 0, 0, 0, 20, 1, 23, 26, 0, 192, 0, 2, 0, 0, 1, 0, 15,
	1, 4, 0, 0, 0, 0, 0, 20, 0, 24, 24, 0, 198, 51, 100, 0, 0, 1, 0, 15,
	1, 7, 0x12, 0x34, 0, 0, 0, 24, 0, 0, 0, 5, 0, 0, 0x0e, 0x10, 0, 0, 2, 0x58, 0, 0, 0x1c, 0x20,
}

// fetch asks a cache for all of its data, and prints them. If a unit is refused, it sends the owed
// report to the cache.
func fetch(connection io.ReadWriter) error {
	writer := rtr.NewWriter(connection)
	if err := writer.Write(&rtr.Unit{Kind: rtr.ResetQuery, Version: 1}); err != nil {
		return err
	}
	refused := read(rtr.NewReader(bufio.NewReader(connection)))
	var fault *rtr.Fault
	if errors.As(refused, &fault) {
		if report, owed := fault.Report(); owed {
			if err := writer.Write(report); err != nil {
				return err
			}
		}
	}
	return refused
}

// read reads a cache response, and the sequence that follows it.
func read(reader *rtr.Reader) error {
	response, err := reader.Next()
	if err != nil {
		return err
	}
	if response.Kind != rtr.CacheResponse {
		return fmt.Errorf("the cache has no data: %v", response.Kind)
	}
	sequence := reader.Sequence(1 << 24)
	for sequence.Scan() {
		switch unit := sequence.Unit(); unit.Kind {
		case rtr.IPv4Prefix, rtr.IPv6Prefix:
			fmt.Printf("%v-%d AS%d announced: %v\n", unit.Prefix, unit.MaxLength, unit.ASN, unit.Announce)
		case rtr.EndOfData:
			fmt.Println("serial", unit.Serial)
		}
	}
	return sequence.Err()
}

// memory stands in for a net.Conn.
type memory struct {
	io.Reader
	io.Writer
}

// A client asks for all data.
func ExampleReader_Sequence() {
	var written bytes.Buffer
	if err := fetch(memory{bytes.NewReader(sent), &written}); err != nil {
		fmt.Println(err)
	}
	fmt.Printf("%x\n", written.Bytes())
	// Output:
	// 192.0.2.0/23-26 AS65551 announced: true
	// 198.51.100.0/24-24 AS65551 announced: false
	// serial 5
	// 0102000000000008
}

// A fault is answered by the report that it owes to the peer.
func ExampleFault_Report() {
	// A cache response, and a prefix of 33 bits.
	input := []byte{
		1, 3, 0x12, 0x34, 0, 0, 0, 8,
		1, 4, 0, 0, 0, 0, 0, 20, 1, 33, 33, 0, 192, 0, 2, 0, 0, 1, 0, 15,
	}
	var written bytes.Buffer
	err := fetch(memory{bytes.NewReader(input), &written})
	fmt.Println(err)
	fmt.Println(errors.Is(err, rtr.PrefixRule))
	_, rest, _ := rtr.Next(written.Bytes()) // the query
	report, _, err := rtr.Next(rest)
	fmt.Printf("%v: %s, %v\n", report.Code, report.Text, err)
	// Output:
	// rtr: prefix length too large, at byte 8
	// true
	// Corrupt Data: prefix length too large, <nil>
}

// All units of a connection. Here it is memory; a net.Conn belongs into a bufio.Reader.
func ExampleReader_Next() {
	reader := rtr.NewReader(bytes.NewReader(sent))
	for {
		unit, err := reader.Next()
		if err == io.EOF {
			break
		}
		if err != nil {
			fmt.Println(err)
			return
		}
		fmt.Println(unit.Kind, unit.Session)
	}
	// Output:
	// cache response 4660
	// IPv4 prefix 0
	// IPv4 prefix 0
	// end of data 4660
}

// A query, as a router sends it.
func ExampleWriter() {
	var connection bytes.Buffer
	writer := rtr.NewWriter(&connection)
	err := writer.Write(&rtr.Unit{Kind: rtr.SerialQuery, Version: 1, Session: 0x1234, Serial: 5})
	fmt.Printf("%x %v\n", connection.Bytes(), err)
	// Output: 010112340000000c00000005 <nil>
}

// The units of bytes in memory.
func ExampleNext() {
	for rest := sent; len(rest) > 0; {
		unit, after, err := rtr.Next(rest)
		if err != nil {
			fmt.Println(err)
			return
		}
		fmt.Println(unit.Kind, len(rest)-len(after), "bytes")
		rest = after
	}
	// Output:
	// cache response 8 bytes
	// IPv4 prefix 20 bytes
	// IPv4 prefix 20 bytes
	// end of data 24 bytes
}

func ExampleUnit_AppendBinary() {
	unit := rtr.Unit{
		Kind: rtr.IPv4Prefix, Version: 1, Announce: true,
		Prefix: netip.MustParsePrefix("192.0.2.0/23"), MaxLength: 26, ASN: 65551,
	}
	form, err := unit.AppendBinary(nil)
	fmt.Printf("%x %v\n", form, err)
	// Output: 010400000000001401171a00c00002000001000f <nil>
}

// The form of what a sequence means, for clients of version 0.
func ExampleNormaliseFor() {
	input := sent[8:]
	output := make([]byte, len(input)+12)
	progress, err := rtr.NormaliseFor(input, output, 1<<24, 0)
	fmt.Println(progress.Units, "payload units,", progress.Written, "bytes,", err)
	// Output: 2 payload units, 52 bytes, <nil>
}

func ExampleCompareSerials() {
	fmt.Println(rtr.CompareSerials(0xffffffff, 0))
	fmt.Println(rtr.CompareSerials(0, 1<<31))
	// Output:
	// -1 true
	// 0 false
}

func ExampleNewProviders() {
	unit := rtr.Unit{
		Kind: rtr.ASPA, Version: 2, Announce: true, Customer: 65000,
		Providers: rtr.NewProviders(65001, 65551),
	}
	for i := 0; i < unit.Providers.Len(); i++ {
		fmt.Println(unit.Providers.At(i))
	}
	// Output:
	// 65001
	// 65551
}

// A cache changes its data, and a router follows by the delta.
func ExampleDelta() {
	// One prefix, and an end of data of session 7 and serial number 1.
	input := []byte{
		1, 4, 0, 0, 0, 0, 0, 20, 1, 23, 26, 0, 192, 0, 2, 0, 0, 1, 0, 15,
		1, 7, 0, 7, 0, 0, 0, 24, 0, 0, 0, 1, 0, 0, 0x0e, 0x10, 0, 0, 2, 0x58, 0, 0, 0x1c, 0x20,
	}
	old, err := rtr.ParseData(input)
	if err != nil {
		fmt.Println(err)
		return
	}
	// The cache has nothing any more.
	new, err := rtr.NewData(1, 7, 2, rtr.RecommendedTiming)
	if err != nil {
		fmt.Println(err)
		return
	}
	changes, err := rtr.Delta(old, new)
	if err != nil {
		fmt.Println(err)
		return
	}
	router, err := rtr.Apply(old, changes)
	fmt.Println(router.Len(), "payloads at serial number", router.Serial(), err)
	_, err = rtr.Apply(router, changes)
	fmt.Println(err, errors.Is(err, rtr.Unknown))
	// Output:
	// 0 payloads at serial number 2 <nil>
	// rtr: withdrawal of an unknown record, at byte 0 true
}

// Changes as they come from a cache are put in order, and then applied, all or none.
func ExampleApply() {
	reader := rtr.NewReader(bytes.NewReader(sent[8:]))
	read, err := reader.Sequence(1000).Collect(1 << 20)
	if err != nil {
		fmt.Println(err)
		return
	}
	changes, err := rtr.Order(read)
	if err != nil {
		fmt.Println(err)
		return
	}
	data, err := rtr.NewData(1, 0x1234, 4, rtr.RecommendedTiming)
	if err != nil {
		fmt.Println(err)
		return
	}
	// The second of them withdraws a prefix that isn't there.
	after, err := rtr.Apply(data, changes)
	fmt.Println(after.IsZero(), err)
	// Output: true rtr: withdrawal of an unknown record, at byte 20
}
