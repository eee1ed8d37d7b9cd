// Units prints the units of the sequence on standard input, and the length of its form.
package main

import (
	"fmt"
	"io"
	"log"
	"os"

	"fishreef/rtr"
)

func main() {
	input, err := io.ReadAll(os.Stdin)
	if err != nil {
		log.Fatal(err)
	}
	var unit rtr.Unit
	for rest := input; unit.Kind != rtr.EndOfData; {
		if unit, rest, err = rtr.Next(rest); err != nil {
			log.Fatal(err)
		}
		fmt.Printf("%v, AS %d\n", unit.Kind, unit.ASN)
	}
	form := make([]byte, len(input))
	progress, err := rtr.Normalise(input, form, 1<<32)
	if err != nil {
		log.Fatal(err)
	}
	fmt.Printf("payload units: %d, bytes of their form: %d\n", progress.Units, progress.Written)
}
