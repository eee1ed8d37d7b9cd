package main

import (
	"context"
	"fmt"
	"net/netip"
	"os"
	"path/filepath"
	"strings"
	"testing"

	"fishreef/programs/internal/trial"
	"fishreef/programs/internal/words"
	"fishreef/rtr"
)

func TestMain(tests *testing.M) { trial.Main(tests, run) }

// rows returns lines of CSV with this many prefixes of AS 64496.
func rows(count int) string {
	var text strings.Builder
	for i := 0; i < count; i++ {
		fmt.Fprintf(&text, "AS64496,10.%d.%d.0/24,24\n", i/256, i%256)
	}
	return text.String()
}

// started starts a cache with these options, and returns it and its address.
func started(t *testing.T, folder string, line ...string) (*trial.Process, string) {
	t.Helper()
	process := trial.Start(t, folder, append(line, "--listen", "127.0.0.1:0")...)
	return process, process.After("listening at ")
}

// fetched returns the data that a client of a version gets from a cache.
func fetched(t *testing.T, address string, version uint8) rtr.Data {
	t.Helper()
	ctx, cancel := context.WithTimeout(context.Background(), trial.Wait)
	defer cancel()
	client := rtr.NewClient(address)
	client.AskIn(version)
	data, err := client.Fetch(ctx)
	if err != nil {
		t.Fatal(err)
	}
	return data
}

// lines returns the payloads of data, one per line.
func lines(data rtr.Data) string {
	var all []string
	for units := data.Units(); units.Scan(); {
		all = append(all, strings.TrimPrefix(rtr.ChangeLine(units.Unit()), "+ "))
	}
	return strings.Join(all, "\n")
}

const validators = `{"roas": [
	{"asn": 64496, "prefix": "192.0.2.0/24", "maxLength": 24},
	{"asn": 65551, "prefix": "2001:db8::/32", "maxLength": 48}],
	"aspas": [{"customer_asid": 64496, "providers": [64510, 64511]}]}`

// Files of all formats are merged, without duplicates. Each client gets the payloads that its
// version has.
func TestServesFiles(t *testing.T) {
	folder := t.TempDir()
	trial.Write(t, folder+"/a.json", validators)
	trial.Write(t, folder+"/b.csv",
		"ASN,IP Prefix,Max Length\nAS64496,192.0.2.0/24,24\nAS64497,198.51.100.0/24,26\n")
	if _, err := rtr.NewDataOf([]rtr.VRP{{ASN: 64499}}, 1, 7, 9, rtr.RecommendedTiming); err == nil {
		t.Fatal("a VRP without a prefix")
	}
	vrp := rtr.VRP{Prefix: netip.MustParsePrefix("192.0.2.0/24"), ASN: 64496}
	list, err := rtr.NewDataOf([]rtr.VRP{vrp}, 0, 7, 9, rtr.RecommendedTiming)
	if err != nil {
		t.Fatal(err)
	}
	trial.Write(t, folder+"/c", string(list.Bytes()))
	process, address := started(t, folder, "--json", "a.json", "--csv", "b.csv", "--sequence", "c",
		"--refresh", "100", "--retry", "50", "--expire", "6000")
	process.Says("4 payloads", 1)
	const prefixes = "IPv4 prefix 192.0.2.0/24-24 AS64496\nIPv4 prefix 198.51.100.0/24-26 AS64497\n" +
		"IPv6 prefix 2001:db8::/32-48 AS65551"
	all := prefixes + "\nASPA AS64496 providers AS64510 AS64511"
	for version, says := range []string{prefixes, prefixes, all} {
		data := fetched(t, address, uint8(version))
		if lines(data) != says || int(data.Version()) != version {
			t.Errorf("version %d has\n%s", data.Version(), lines(data))
		}
		times := rtr.Timing{Refresh: 100, Retry: 50, Expire: 6000}
		if version > 0 && data.Timing() != times {
			t.Error(data.Timing())
		}
	}
	if status := process.End(); status != words.Well {
		t.Error(status)
	}
}

// If two files contradict each other, the second is refused, with the payload in the message.
func TestContradiction(t *testing.T) {
	folder := t.TempDir()
	trial.Write(t, folder+"/a", validators)
	trial.Write(t, folder+"/b",
		`{"roas": [], "aspas": [{"customer_asid": 64496, "providers": [64512]}]}`)
	process, _ := started(t, folder, "--json", "a", "--json", "b")
	process.Says("AS64496 providers AS64512", 1)
	if process.Lines("session") != 0 {
		t.Error(process.Stderr())
	}
}

// provided is JSON of an ASPA with this provider, and of this many prefixes.
func provided(provider, prefixes int) string {
	var items []string
	for i := 0; i < prefixes; i++ {
		items = append(items, fmt.Sprintf(`{"asn": 64496, "prefix": "10.0.%d.0/24"}`, i))
	}
	return fmt.Sprintf(`{"roas": [%s], "aspas": [{"customer_asid": 64496, "providers": [%d]}]}`,
		strings.Join(items, ", "), provider)
}

// Two validators see a change of an ASPA one after the other: once their files agree again they are
// served, whichever was refused; a wrong file in between doesn't count.
func TestAgreesAgain(t *testing.T) {
	folder := t.TempDir()
	a, b := folder+"/a", folder+"/b"
	trial.Write(t, a, provided(64510, 1))
	trial.Write(t, b, provided(64511, 2))
	process, address := started(t, folder, "--json", "a", "--json", "b", "--metrics", "127.0.0.1:0")
	health := strings.TrimSuffix(process.After("metrics are at "), "/metrics") + "/health"
	good := func() bool { status, _ := trial.Get(t, health); return status == 200 }
	process.Says("b: ASPA AS64496 providers AS64511: another file has other providers", 1)
	trial.Write(t, a, provided(64511, 1))
	process.Says("serial 1: 3 payloads", 1)
	process.Await("good", good)
	trial.Write(t, a, provided(64512, 3))
	process.Says("a: ASPA AS64496 providers ", 1)
	if data := fetched(t, address, 2); data.Len() != 3 || good() {
		t.Error(lines(data))
	}
	trial.Write(t, b, provided(64512, 4))
	process.Says("serial 2: 5 payloads", 1)
	process.Await("good", good)
	trial.Write(t, a, provided(64513, 5))
	process.Says("a: ASPA AS64496 providers ", 2)
	trial.Write(t, a, "x")
	process.Says("a: offset 0: no JSON", 1)
	trial.Write(t, b, provided(64513, 6))
	process.Says("b: ASPA AS64496 providers ", 2)
	trial.Write(t, a, provided(64513, 1))
	process.Says("serial 3: 7 payloads", 1)
	process.Await("good", good)
}

// change is an update of a client, with the numbers of its changes.
type change struct {
	data               rtr.Data
	announced, removed int
}

// follow runs a client of version 2 until the test ends, and returns the channel of its updates.
func follow(t *testing.T, address string) <-chan change {
	ctx, cancel := context.WithCancel(context.Background())
	changes, ended := make(chan change, 100), make(chan struct{})
	client := rtr.NewClient(address)
	client.Version = 2
	go func() {
		defer close(ended)
		client.Run(ctx, func(update rtr.Update) error {
			c := change{data: update.Data}
			for units := update.Changes(); units.Scan(); {
				if units.Unit().Announce {
					c.announced++
				} else {
					c.removed++
				}
			}
			changes <- c
			return nil
		})
	}()
	t.Cleanup(func() {
		cancel()
		<-ended
	})
	return changes
}

// A rewritten file with the same payloads changes nothing; with other payloads it gets the next
// serial number, and clients get the changes.
func TestSerialNumbers(t *testing.T) {
	folder := t.TempDir()
	file := filepath.Join(folder, "vrps.csv")
	trial.Write(t, file, rows(10))
	process, address := started(t, folder, "--csv", "vrps.csv")
	process.Says("10 payloads", 1)
	changes := follow(t, address)
	first := <-changes
	if first.data.Len() != 10 || first.announced != 10 {
		t.Fatal(first)
	}
	trial.Write(t, file, "\n"+rows(10)+rows(3))
	trial.Write(t, file, rows(12))
	second := <-changes
	if second.announced != 2 || second.removed != 0 || second.data.Serial() != first.data.Serial()+1 ||
		second.data.Session() != first.data.Session() {
		t.Fatal(second)
	}
	if got := fetched(t, address, 2); !got.Equal(second.data) {
		t.Error(lines(got))
	}
}

// Wrong arguments end the program with status 2 and one line that names the argument.
func TestWrongWords(t *testing.T) {
	folder := t.TempDir()
	trial.Write(t, folder+"/f", rows(1))
	for _, row := range []struct{ words, says string }{
		{"", "no list given"},
		{"--sequence f --slurm s", "--slurm filters the lists of validators, and no units (sequence)"},
		{"f", `"f" isn't an option`},
		{"--csv", "--csv needs FILE"},
		{"--csv=", "--csv: it is empty"},
		{"--csv f --slurm=", "--slurm: it is empty"},
		{"--csv f --csv f", "--csv: f is given twice"},
		{"--csv f --nothing", `unknown option "--nothing"`},
		{"--csv f -x", `unknown option "-x"`},
		{"--csv f --help", "--help has to stand alone"},
		{"--csv f --force=yes", "--force takes no argument"},
		{"--csv f --guard 101%", `--guard: "101%" isn't a share`},
		{"--csv f --guard half", `--guard: "half" isn't a share`},
		{"--csv f --guard-time 0s", `--guard-time: "0s" isn't a time`},
		{"--csv f --hold=yes", "--hold takes no argument"},
		{"--csv f --look 10", `--look: "10" isn't a time`},
		{"--csv f --look 1ms", `--look: "1ms" isn't a time`},
		{"--csv f --refresh 4294967296", `--refresh: "4294967296" isn't a number`},
		{"--csv f --refresh 0", "--refresh 0 --retry 600 --expire 7200: rtr: a cache may not send these " +
			"times: the refresh time has to be 1 to 86400 seconds"},
		{"--csv f --retry 7201 --expire 8000", "the retry time has to be 1 to 7200 seconds"},
		{"--csv f --expire 10", "the expire time has to be 600 to 172800 seconds"},
		{"--csv f --refresh 7200", "the expire time has to be longer than the refresh time"},
		{"--csv f --retry 600 --refresh 60 --expire 600", "the expire time has to be longer than the " +
			"retry time"},
		{"--csv f --listen 3323", `--listen: "3323" isn't ADDRESS:PORT`},
		{"--csv f --listen quic:1.2.3.4:5", `--listen: "quic:1.2.3.4:5" isn't ADDRESS:PORT`},
		{"--csv f --listen tls:[::]:70000", `--listen: "tls:[::]:70000" isn't ADDRESS:PORT`},
		{"--csv f --metrics 9", `--metrics: "9" isn't ADDRESS:PORT`},
		{"--csv f --metrics [::]:-1", `--metrics: "[::]:-1" isn't ADDRESS:PORT`},
		{"--csv f --max-clients 0", `--max-clients: "0" isn't a number`},
		{"--csv f --max-clients 99999999999", `"99999999999" isn't a number from 1 to 2147483647`},
		{"--csv f --state a --state b", "--state: it is given twice"},
		{"--csv f --refresh 60 --refresh 120", "--refresh: it is given twice"},
		{"--csv f --max-clients 2 --max-clients=3", "--max-clients: it is given twice"},
		{"--csv f --look 1s --look 2s", "--look: it is given twice"},
		{"--csv f --guard 10% --hold --guard 20%", "--guard: it is given twice"},
		{"--csv f --log-level error --log-level debug", "--log-level: it is given twice"},
		{"--csv f --fetch-limit 2 --fetch-limit 3", "--fetch-limit: it is given twice"},
		{"--csv f --log-level loud", `--log-level: "loud" is none of debug, info, warning and error`},
		{"--csv f --log-level panic", `--log-level: "panic" is none of debug, info, warning and error`},
	} {
		process := trial.Start(t, folder, strings.Fields(row.words)...)
		process.Refuses(words.Usage, "rtr-cache: ", row.says)
	}
}

// An option that has no effect without another one, or without a list of some kind, is refused with
// a line that names both, also if it was given its default.
func TestNeeds(t *testing.T) {
	folder := t.TempDir()
	trial.Write(t, folder+"/f", rows(1))
	const web, pair = "a list by URL: http://HOST/PATH or https://HOST/PATH", " need each other"
	for _, row := range []struct{ words, says string }{
		{"--csv f --fetch 5m", "--fetch needs " + web},
		{"--csv f --fetch-timeout=2m", "--fetch-timeout needs " + web},
		{"--csv f --fetch-limit 268", "--fetch-limit needs " + web},
		{"--csv f --fetch-ca ca", "--fetch-ca needs " + web},
		{"--sequence f --json ./https:f --fetch-ca ca", "--fetch-ca needs " + web},
		{"--csv f --ignore x", "--ignore needs a list of JSON"},
		{"--sequence f --ignore x", "--ignore needs a list of JSON"},
		{"--csv f --stale 2h", "--stale needs --metrics"},
		{"--csv f --tls-cert a", "--tls-cert and --tls-key" + pair},
		{"--csv f --tls-key a", "--tls-cert and --tls-key" + pair},
		{"--csv f --tls-client-ca a", "--tls-client-ca needs --tls-cert and --tls-key"},
		{"--csv f --tls-any-address", "--tls-any-address needs --tls-client-ca"},
		{"--csv f --tls-cert a --tls-key b --tls-any-address", "--tls-any-address needs --tls-client-ca"},
		{"--csv f --ssh-host-key a", "--ssh-host-key and --ssh-routers" + pair},
		{"--csv f --ssh-routers a", "--ssh-host-key and --ssh-routers" + pair},
	} {
		process := trial.Start(t, folder, strings.Fields(row.words)...)
		process.Refuses(words.Usage, "rtr-cache: ", row.says)
	}
}

// A folder, address, certificate or key that can't be used at the start ends the program with a
// line that names it.
func TestWrongPlaces(t *testing.T) {
	folder := t.TempDir()
	trial.Write(t, folder+"/f", rows(1))
	trial.Write(t, folder+"/file", "no certificate")
	_, address := started(t, folder, "--csv", "f", "--state", "taken")
	for _, row := range []struct {
		words, says string
		status      words.Status
	}{
		{"--listen " + address, address + ": bind: address already in use", words.Failed},
		{"--listen nowhere.invalid:3323", "nowhere.invalid", words.Failed},
		{"--listen 127.0.0.1:unknown-name", "unknown-name", words.Failed},
		{"--listen 127.0.0.1:0 --metrics " + address, address + ": bind: address already in use", words.Failed},
		{"--listen 127.0.0.1:0 --metrics 127.0.0.1:unknown-name", "unknown-name", words.Failed},
		{"--listen 127.0.0.1:0 --state taken", "taken: another cache uses this folder", words.Refused},
		{"--listen 127.0.0.1:0 --state f", "f/lock: not a directory", words.Failed},
		{"--listen 127.0.0.1:0 --state a/b", "a/b: no such file or directory", words.Failed},
		{"--listen tls:127.0.0.1:0", "TLS needs --tls-cert and --tls-key", words.Usage},
		{"--listen tls:127.0.0.1:0 --tls-cert none --tls-key file", "none: no such file", words.Failed},
		{"--listen tls:127.0.0.1:0 --tls-cert file --tls-key file", "file with file: ", words.Refused},
		{"--listen ssh:127.0.0.1:0", "SSH needs --ssh-host-key and --ssh-routers", words.Usage},
		{"--listen 127.0.0.1:0 --tls-cert file --tls-key file", "--tls-cert needs --listen tls:", words.Usage},
		{"--listen 127.0.0.1:0 --ssh-host-key file --ssh-routers file", "--ssh-host-key needs --listen ssh:",
			words.Usage},
		{"--listen ssh:127.0.0.1:0 --ssh-host-key none --ssh-routers file", "none: no such file", words.Failed},
		{"--listen ssh:127.0.0.1:0 --ssh-host-key file --ssh-routers file", "file: ssh: no key found", words.Refused},
	} {
		process := trial.Start(t, folder, append([]string{"--csv", "f"}, strings.Fields(row.words)...)...)
		status, stderr := process.Status(), process.Stderr()
		if status != row.status || !strings.Contains(stderr, row.says) ||
			process.Lines("level=error") != 1 {
			t.Errorf("%q: status %d, %s", row.words, status, stderr)
		}
	}
}

// An invalid file is reported by one line with the position in it, and the served data stay.
func TestWrongFiles(t *testing.T) {
	folder := t.TempDir()
	trial.Write(t, folder+"/good", rows(2))
	trial.Write(t, folder+"/j", validators)
	trial.Write(t, folder+"/s", "")
	process, address := started(t, folder, "--csv", "good", "--json", "j", "--metrics", "127.0.0.1:0")
	process.Says("5 payloads", 1)
	served := fetched(t, address, 2)
	for _, row := range []struct{ file, text, says string }{
		{"good", rows(2) + "AS64496,10.0.0.1/24,24\n", "good: line 3: non-zero host portion"},
		{"good", rows(2) + "AS64496,10.0.0.0/33,33\n", "good: line 3: prefix"},
		{"good", rows(2) + "AS64496,10.0.0.0/24,23\n", "good: line 3: max"},
		{"good", rows(2) + "64496x,10.0.0.0/24,24\n", "good: line 3: invalid AS number"},
		{"good", "", "good: input: no payloads"},
		{"j", validators[:len(validators)-1], "j: "},
		{"j", strings.Replace(validators, "roas", "vrps", 1), `j: \"vrps\": payloads under an unknown name`},
		{"j", strings.Replace(validators, `"192.0.2.0/24"`, `"192.0.2.1/24"`, 1), "j: roas[0].prefix: non-zero host portion"},
		{"j", strings.Replace(validators, "64511", "4294967296", 1), "j: aspas[0].providers"},
	} {
		before := process.Lines("level=warning")
		trial.Write(t, filepath.Join(folder, row.file), row.text)
		process.Says("level=warning", before+1)
		all := strings.Split(strings.TrimSpace(process.Stderr()), "\n")
		last := all[len(all)-1]
		if !strings.Contains(last, row.says) || process.Lines("level=warning") != before+1 {
			t.Errorf("%q: %s", row.says, last)
		}
		if !fetched(t, address, 2).Equal(served) {
			t.Errorf("%q changed the served data", row.says)
		}
	}
	if err := os.Remove(folder + "/good"); err != nil {
		t.Fatal(err)
	}
	process.Says("good: no such file or directory", 1)
	if err := os.Mkdir(folder+"/good", 0o700); err != nil {
		t.Fatal(err)
	}
	process.Says("good: not a regular file", 1)
	if !fetched(t, address, 2).Equal(served) {
		t.Error("a removed file changed the served data")
	}
}
