package payloads

import (
	"bufio"
	"errors"
	"fmt"
	"io"
	"reflect"
	"strings"
	"testing"
	"testing/iotest"
)

// The items of lists by the trust anchor that they name, as validators write them.
func TestAnchors(t *testing.T) {
	const (
		header    = "ASN,IP Prefix,Max Length,Trust Anchor"
		routinate = header +
			"\nAS64496,10.0.0.0/16,16,ripe\nAS64496,10.1.0.0/16,16,apnic\nAS64496,10.2.0.0/16,16,ripe\n"
		fort   = "ASN,Prefix,Max prefix length\nAS64496,10.0.0.0/16,16\n"
		client = `{"metadata": {"ta": 3, "buildtime": "x"}, "roas": [
			{ "asn": 64496, "prefix": "10.0.0.0/16", "maxLength": 16, "ta": "ripe", "expires": 1 },
			{ "asn": 64496, "prefix": "10.1.0.0/16", "maxLength": 16, "ta" : "apnic", "expires": 1 },
			{ "asn": 64496, "prefix": "10.2.0.0/16", "maxLength": 16, "ta":
				"ripe" } ], "aspas": [ { "customer_asid": 1, "ta": "ripe" } ] }`
	)
	for name, c := range map[string]struct {
		format   Format
		text     string
		expected Anchors
	}{
		"rpki-client":       {JSON, client, Anchors{"ripe": 3, "apnic": 1}},
		"no names":          {JSON, `{"roas": [{"asn": 1, "prefix": "10.0.0.0/16"}]}`, Anchors{}},
		"a value":           {JSON, `{"name": "ta", "ta": "a", "x": ":"}`, Anchors{"a": 1}},
		"inside of strings": {JSON, `{"x": "\"ta\": \"b\"", "ta": "a", "data": "b", "ta2": "c"}`, Anchors{"a": 1}},
		"no string":         {JSON, `{"ta": ["a"], "ta": null, "ta": {"ta": "b"}}`, Anchors{"b": 1}},
		"cut off":           {JSON, `{"ta": "a", "ta": "b`, Anchors{"a": 1}},
		"Routinator's CSV":  {CSV, routinate, Anchors{"ripe": 2, "apnic": 1}},
		"rpki-client's CSV": {CSV, header + ",Expires\nAS1,10.0.0.0/16,16,\"a, b\",1\nAS1,10.1.0.0/16,16,\"a, b\",1\n",
			Anchors{"a, b": 2}},
		"other case":      {CSV, strings.ToLower(routinate), Anchors{"ripe": 2, "apnic": 1}},
		"FORT's CSV":      {CSV, fort, nil},
		"without header":  {CSV, "AS1,10.0.0.0/16,16,ripe\n", nil},
		"an empty file":   {CSV, "", Anchors{}},
		"units":           {Sequence, client, nil},
		"an empty object": {JSON, "{}", Anchors{}},
	} {
		got, err := anchorsOf(iotest.HalfReader(strings.NewReader(c.text)), c.format)
		if err != nil || !reflect.DeepEqual(got, c.expected) {
			t.Errorf("%s: %v, %v", name, got, err)
		}
	}
}

// A list of arbitrary names takes bounded memory, and the first ones are still counted.
func TestManyAnchors(t *testing.T) {
	var text strings.Builder
	for turn := 0; turn < 2; turn++ {
		for i := 0; i < 1000; i++ {
			fmt.Fprintf(&text, `{"ta":"%d"}`, i)
		}
	}
	got, err := jsonAnchors(bufio.NewReaderSize(strings.NewReader(text.String()), 16))
	if err != nil || len(got) != 64 || got["0"] != 2 || got["63"] != 2 {
		t.Error(len(got), got, err)
	}
}

// A name is found at any position in the buffer.
func TestAnchorsAnywhere(t *testing.T) {
	for size := 16; size < 24; size++ {
		for before := 0; before < 50; before++ {
			text := strings.Repeat("x", before) + `{"ta": "ripe"}, {"ta":"apnic"}`
			byteByByte := iotest.OneByteReader(strings.NewReader(text))
			for _, input := range []io.Reader{strings.NewReader(text), byteByByte} {
				got, err := jsonAnchors(bufio.NewReaderSize(input, size))
				if err != nil || !reflect.DeepEqual(got, Anchors{"ripe": 1, "apnic": 1}) {
					t.Fatal(size, before, got, err)
				}
			}
		}
	}
}

// An error of the input isn't its end.
func TestAnchorsFail(t *testing.T) {
	broken := errors.New("broken")
	for _, format := range []Format{JSON, CSV} {
		input := iotest.TimeoutReader(iotest.OneByteReader(strings.NewReader(`{"ta": "a"}`)))
		if _, err := anchorsOf(input, format); !errors.Is(err, iotest.ErrTimeout) {
			t.Error(format, err)
		}
		if _, err := anchorsOf(iotest.ErrReader(broken), format); !errors.Is(err, broken) {
			t.Error(format, err)
		}
	}
}
