// Session lists the units of a recorded session on standard input.
package main

import (
	"bufio"
	"fmt"
	"io"
	"log"
	"os"

	"fishreef/rtr"
)

func main() {
	output := bufio.NewWriter(os.Stdout)
	err := list(rtr.NewReader(bufio.NewReader(os.Stdin)), output)
	if failed := output.Flush(); err == nil {
		err = failed
	}
	if err != nil {
		log.Fatal(err)
	}
}

// list writes a line for each unit: of the fields, or for a report as the program rtr_list does.
func list(reader *rtr.Reader, output io.Writer) error {
	for {
		offset := reader.Offset()
		unit, err := reader.Next()
		if err == io.EOF {
			return nil
		}
		if err != nil {
			return err
		}
		if unit.Kind == rtr.ErrorReport {
			line, _, err := rtr.UnitLine(nil, reader.Bytes(), uint64(offset))
			if err != nil {
				return err
			}
			fmt.Fprintf(output, "%s\n", line)
			continue
		}
		fmt.Fprintf(output, "%d v%d %v%s\n", offset, unit.Version, unit.Kind, fields(unit))
	}
}

// fields returns the fields of a unit that isn't a report, as text.
func fields(unit *rtr.Unit) string {
	action := "withdraw"
	if unit.Announce {
		action = "announce"
	}
	switch unit.Kind {
	case rtr.SerialNotify, rtr.SerialQuery:
		return fmt.Sprintf(" session %d serial %d", unit.Session, unit.Serial)
	case rtr.CacheResponse:
		return fmt.Sprintf(" session %d", unit.Session)
	case rtr.IPv4Prefix, rtr.IPv6Prefix:
		return fmt.Sprintf(" %s %v-%d AS%d", action, unit.Prefix, unit.MaxLength, unit.ASN)
	case rtr.EndOfData:
		return fmt.Sprintf(" session %d serial %d refresh %d retry %d expire %d",
			unit.Session, unit.Serial, unit.Refresh, unit.Retry, unit.Expire)
	case rtr.RouterKey:
		return fmt.Sprintf(" %s %x AS%d key info %x", action, unit.KeyIdentifier, unit.ASN, unit.KeyInfo)
	case rtr.ASPA:
		line := fmt.Sprintf(" %s AS%d providers", action, unit.Customer)
		for i := 0; i < unit.Providers.Len(); i++ {
			line += fmt.Sprintf(" AS%d", unit.Providers.At(i))
		}
		return line
	}
	return "" // a reset query or a cache reset
}
