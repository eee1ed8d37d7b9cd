package payloads

import (
	"context"
	"fmt"
	"os"
	"path/filepath"
	"testing"
	"time"

	"fishreef/programs/internal/beside"
	"fishreef/programs/internal/trial"
)

func TestMain(tests *testing.M) {
	trial.WithPrebuilt()
	os.Exit(tests.Run())
}

// written returns a file of this format and text.
func written(t *testing.T, format Format, text string) File {
	t.Helper()
	path := filepath.Join(t.TempDir(), "f")
	if err := os.WriteFile(path, []byte(text), 0o600); err != nil {
		t.Fatal(err)
	}
	return File{Format: format, Path: path}
}

// The message of rtr_make about expired items is parsed, for JSON and CSV.
func TestExpired(t *testing.T) {
	maker, err := beside.Find("rtr_make")
	if err != nil {
		t.Fatal(err)
	}
	reader := Reader{Maker: maker}
	now := time.Now().Unix()
	past, later := now-1, now+3600
	const header = "ASN,IP Prefix,Max Length,Trust Anchor,Expires\n"
	row := func(octet int, at int64) string {
		return fmt.Sprintf("AS64496,10.%d.0.0/16,16,made-up,%d\n", octet, at)
	}
	item := func(octet int, at int64) string {
		return fmt.Sprintf(`{"asn": 64496, "prefix": "10.%d.0.0/16", "expires": %d}`, octet, at)
	}
	const plain = `{"asn": 64496, "prefix": "10.9.0.0/16"}`
	for _, try := range []struct {
		format  Format
		text    string
		count   int
		leftOut int
		next    int64 // 0 for none
	}{
		{CSV, header + row(0, past) + row(1, later) + row(2, later+1), 2, 1, later},
		{CSV, header + row(0, later), 1, 0, later},
		{CSV, "AS64496,10.0.0.0/16,16\n", 1, 0, 0},
		{CSV, row(0, past), 1, 0, 0},
		{JSON, `{"roas": [` + item(0, past) + "," + item(1, later) + "]}", 1, 1, later},
		{JSON, `{"roas": [` + item(0, past) + "," + plain + "]}", 1, 1, 0},
		{JSON, `{"roas": [` + plain + "]}", 1, 0, 0},
	} {
		file := written(t, try.format, try.text)
		list, err := reader.Read(context.Background(), file, Read{Now: time.Now()})
		data, expired := list.Data, list.Expired
		if err != nil {
			t.Errorf("%s: %v", try.text, err)
			continue
		}
		next := int64(0)
		if !expired.Next.IsZero() {
			next = expired.Next.Unix()
		}
		if data.Len() != try.count || expired.LeftOut != try.leftOut || next != try.next {
			t.Errorf("%s: %d payloads, %d left out, the next at %d",
				try.text, data.Len(), expired.LeftOut, next)
		}
	}
}

// An invalid time in CSV is refused with its line number.
func TestWrongTime(t *testing.T) {
	maker, err := beside.Find("rtr_make")
	if err != nil {
		t.Fatal(err)
	}
	reader := Reader{Maker: maker}
	file := written(t, CSV, "ASN,IP Prefix,Max Length,Trust Anchor,Expires\n"+
		"AS64496,10.0.0.0/16,16,made-up,soon\n")
	_, err = reader.Read(context.Background(), file, Read{Now: time.Now()})
	if err == nil || err.Error() != "line 2: invalid time" {
		t.Error(err)
	}
}

// A line that rtr_make doesn't write is an error.
func TestOtherLine(t *testing.T) {
	for _, line := range []string{
		"", "left out 3 that have expired", "left out x that have expired; none of the others will",
		"left out 3 that have expired; the next expires at once",
	} {
		if expired, err := expiredOf(line); err == nil {
			t.Errorf("%q: %v", line, expired)
		}
	}
}
