package main

import (
	"testing"

	"fishreef/programs/internal/trial"
)

// slurm returns a SLURM file (RFC 8416) with these prefix filters and prefix assertions.
func slurm(filters, assertions string) string {
	return `{"slurmVersion": 1,
		"validationOutputFilters": {"prefixFilters": [` + filters + `], "bgpsecFilters": []},
		"locallyAddedAssertions": {"prefixAssertions": [` + assertions + `], "bgpsecAssertions": []}}`
}

// A SLURM file filters the payloads of lists, and adds others. A change of it is served like a
// change of a list; an invalid one changes nothing.
func TestSlurm(t *testing.T) {
	folder := t.TempDir()
	trial.Write(t, folder+"/f", "AS1,10.0.0.0/16,16\nAS2,10.1.0.0/16,16\n")
	trial.Write(t, folder+"/g", "AS1,192.0.2.0/24,24\nAS3,10.2.0.0/16,16\n")
	trial.Write(t, folder+"/s", slurm(`{"asn": 1}`, `{"asn": 1, "prefix": "198.51.100.0/24"}`))
	process, address := started(t, folder, "--csv", "f", "--csv", "g", "--slurm", "s",
		"--guard", "100%")
	process.Says("serial 1: 3 payloads", 1)
	const first = "IPv4 prefix 10.1.0.0/16-16 AS2\nIPv4 prefix 10.2.0.0/16-16 AS3\n" +
		"IPv4 prefix 198.51.100.0/24-24 AS1"
	if got := lines(fetched(t, address, 2)); got != first {
		t.Errorf("%s, not %s", got, first)
	}
	trial.Write(t, folder+"/s", slurm(`{"asn": 1, "origin": 2}`, ""))
	process.Says("f: s: prefixFilters[0].", 1)
	process.Says("g: s: prefixFilters[0].", 1)
	if got := lines(fetched(t, address, 2)); got != first {
		t.Errorf("%s, not %s", got, first)
	}
	trial.Write(t, folder+"/s", slurm(`{"prefix": "10.0.0.0/8", "asn": 2}`, ""))
	const second = "IPv4 prefix 10.0.0.0/16-16 AS1\nIPv4 prefix 10.2.0.0/16-16 AS3\n" +
		"IPv4 prefix 192.0.2.0/24-24 AS1"
	process.Await(second, func() bool { return lines(fetched(t, address, 2)) == second })
}

// SLURM files that overlap are refused, in either order.
func TestSlurmOverlap(t *testing.T) {
	folder := t.TempDir()
	trial.Write(t, folder+"/f", "AS1,10.0.0.0/16,16\n")
	trial.Write(t, folder+"/s", slurm(`{"prefix": "192.0.2.0/24"}`, ""))
	trial.Write(t, folder+"/u", slurm("", `{"asn": 1, "prefix": "192.0.2.128/25"}`))
	process, _ := started(t, folder, "--csv", "f", "--slurm", "s", "--slurm", "u")
	process.Says("f: u: overlaps another SLURM file (RFC 8416 section 4.2)", 1)
	if process.Lines("serial") != 0 {
		t.Error(process.Stderr())
	}
}
