package main

import (
	"crypto/tls"
	"fmt"
	"math/rand"
	"net"
	"net/netip"
	"os"
	"os/exec"
	"regexp"
	"strconv"
	"strings"
	"syscall"
	"testing"
	"time"

	"fishreef/programs/internal/trial"
	"fishreef/programs/internal/words"
	"fishreef/rtr"
)

func TestMain(tests *testing.M) { trial.Main(tests, run) }

// vrp is a VRP of AS 64496.
func vrp(prefix string, maxLength uint8) rtr.VRP {
	return rtr.VRP{Prefix: netip.MustParsePrefix(prefix), MaxLength: maxLength, ASN: 64496}
}

// data returns data of version 1 and session 7.
func data(t *testing.T, serial uint32, vrps ...rtr.VRP) rtr.Data {
	t.Helper()
	withPayloads, err := rtr.NewDataOf(vrps, 1, 7, serial, rtr.RecommendedTiming)
	if err != nil {
		t.Fatal(err)
	}
	return withPayloads
}

// cached returns a cache with data at an address, and the address.
func cached(t *testing.T, address string, first rtr.Data) (*rtr.Server, string) {
	t.Helper()
	listener, err := net.Listen("tcp", address)
	if err != nil {
		t.Fatal(err)
	}
	server := rtr.NewServer()
	server.Limits.Notify = 0
	if !first.IsZero() {
		if err := server.Update(first); err != nil {
			t.Fatal(err)
		}
	}
	go server.Serve(listener)
	t.Cleanup(server.Close)
	return server, listener.Addr().String()
}

// when is the pattern of the time in a line.
var when = regexp.MustCompile(`20\d\d-\d\d-\d\dT\d\d:\d\d:\d\dZ`)

// Changes are printed as lines or as JSON, as they come. JSON always has their time and cache, and
// lines do with --times.
func TestPrintsChanges(t *testing.T) {
	const added = "IPv6 prefix 2001:db8::/32-32 AS64496\n"
	const gone = "IPv4 prefix 192.0.2.0/24-26 AS64496\n"
	const ipv4 = `"prefix":"192.0.2.0","prefix_length":24,"max_length":26,"asn":64496`
	const ipv6 = `"prefix":"2001:db8::","prefix_length":32,"max_length":32,"asn":64496`
	object := func(serial int, rest string) string {
		return fmt.Sprintf(`{"time":"TIME","cache":"CACHE","session_id":7,"serial_number":%d,%s}`+"\n",
			serial, rest)
	}
	for option, says := range map[string][2]string{
		"--version=1": {"+ " + gone, "+ " + added + "- " + gone},
		"--times": {
			"TIME CACHE session 7 serial 1: + " + gone,
			"TIME CACHE session 7 serial 2: + " + added + "TIME CACHE session 7 serial 2: - " + gone,
		},
		"--json": {
			object(1, `"kind":"ipv4_prefix","action":"announce",`+ipv4),
			object(2, `"kind":"ipv6_prefix","action":"announce",`+ipv6) +
				object(2, `"kind":"ipv4_prefix","action":"withdraw",`+ipv4),
		},
	} {
		server, address := cached(t, "127.0.0.1:0", data(t, 1, vrp("192.0.2.0/24", 26)))
		process := trial.Start(t, t.TempDir(), address, option)
		printed := func() string {
			return strings.ReplaceAll(when.ReplaceAllString(process.Output(), "TIME"), address, "CACHE")
		}
		process.Await("the first data", func() bool { return printed() == says[0] })
		if err := server.Update(data(t, 2, vrp("2001:db8::/32", 32))); err != nil {
			t.Fatal(err)
		}
		process.Await("the change", func() bool { return printed() == says[0]+says[1] })
		process.Says("session 7 serial 2", 1)
		if timed := when.MatchString(process.Stderr()); timed != (option == "--times") {
			t.Errorf("%s: %s", option, process.Stderr())
		}
		for _, text := range when.FindAllString(process.Output(), -1) {
			at, err := time.Parse(time.RFC3339, text)
			if since := time.Since(at); err != nil || since < -time.Second || since > trial.Wait {
				t.Errorf("%s: %s", option, text)
			}
		}
		if status := process.End(); status != words.Well {
			t.Error(status)
		}
	}
}

// Dropped data have no session, and validity has its time and cache, too.
func TestStamps(t *testing.T) {
	none := stampOf("cache:323", rtr.Data{})
	none.Time = "TIME"
	if got := none.text() + "- x"; got != "TIME cache:323 no data: - x" {
		t.Error(got)
	}
	const noSerial = `{"time":"TIME","cache":"cache:323","session_id":null,"serial_number":null,`
	if got := none.json(); got != noSerial {
		t.Error(got)
	}
	_, address := cached(t, "127.0.0.1:0", data(t, 1, vrp("192.0.2.0/24", 26)))
	for option, expected := range map[string]string{
		"--times": "TIME CACHE session 7 serial 1: 192.0.2.0/24 AS64496 valid\n",
		"--json":  `{"time":"TIME","cache":"CACHE","session_id":7,"serial_number":1,"prefix":"192.0.2.0/24","asn":64496,"state":"valid"`,
	} {
		process := trial.Start(t, t.TempDir(), address, option, "--once",
			"--validate", "192.0.2.0/24", "AS64496")
		status := process.Status()
		output := strings.ReplaceAll(when.ReplaceAllString(process.Output(), "TIME"), address, "CACHE")
		if status != words.Well || !strings.HasPrefix(output, expected) || strings.Count(output, "\n") != 1 {
			t.Errorf("%s: status %d, %s", option, status, output)
		}
	}
}

// With --once the program exits after the first data, or with status 1 if there are none.
func TestOnce(t *testing.T) {
	_, empty := cached(t, "127.0.0.1:0", rtr.Data{})
	_, full := cached(t, "127.0.0.1:0", data(t, 1, vrp("192.0.2.0/24", 24)))
	nobody := trial.Reserved(t)
	for _, row := range []struct {
		words, output string
		status        words.Status
		says          []string
	}{
		{full, "+ IPv4 prefix 192.0.2.0/24-24 AS64496\n", words.Well, []string{full + ": session 7 serial 1 version 2: 1 payload"}},
		{empty, "", words.Refused, []string{empty + ": the cache reports an error: No Data Available", "there are no data"}},
		{nobody, "", words.Refused, []string{nobody + ": dial tcp", "connection refused"}},
		{nobody + " " + empty + " " + full, "+ IPv4 prefix 192.0.2.0/24-24 AS64496\n", 0,
			[]string{nobody + ": dial", empty + ": the cache reports an error", full + ": session 7"}},
		{full + " --validate 192.0.2.0/25 AS64496",
			"192.0.2.0/25 AS64496 invalid: 192.0.2.0/24-24 AS64496 (longer than 24)\n", words.Well, nil},
		{full + " --validate 192.0.2.0/24 64496 --validate 198.51.100.0/24 AS1",
			"192.0.2.0/24 AS64496 valid\n198.51.100.0/24 AS1 not found\n", words.Well, nil},
	} {
		process := trial.Start(t, t.TempDir(), append(strings.Fields(row.words), "--once")...)
		if status := process.Status(); status != row.status || process.Output() != row.output {
			t.Errorf("%s: status %d, %s%s", row.words, status, process.Output(), process.Stderr())
		}
		for _, text := range row.says {
			if process.Lines(text) != 1 {
				t.Errorf("%s: %q is missing in %s", row.words, text, process.Stderr())
			}
		}
	}
}

// The file has the newest data, as JSON of rpki-client's form or as CSV, and readers never see a
// part of them.
func TestOut(t *testing.T) {
	server, address := cached(t, "127.0.0.1:0", data(t, 1, vrp("192.0.2.0/24", 26)))
	folder := t.TempDir()
	const first = `{"prefix":"192.0.2.0/24","maxLength":26,"asn":64496}`
	const second = `{"prefix":"2001:db8::/32","maxLength":32,"asn":64496}`
	json := trial.Start(t, folder, address, "--out", "vrps.json")
	csv := trial.Start(t, folder, address, "--out", "vrps.csv")
	has := func(file, text string) func() bool {
		return func() bool {
			read, err := os.ReadFile(folder + "/" + file)
			if err != nil {
				return false
			}
			if strings.HasSuffix(file, ".json") && !strings.HasSuffix(string(read), "]}\n") {
				t.Errorf("half a file: %s", read)
			}
			return strings.Contains(string(read), text)
		}
	}
	json.Await("the first data", has("vrps.json", first))
	csv.Await("the first data", has("vrps.csv", "AS64496,192.0.2.0/24,26\n"))
	if err := server.Update(data(t, 2, vrp("2001:db8::/32", 32))); err != nil {
		t.Fatal(err)
	}
	json.Await("the change", has("vrps.json", second))
	csv.Await("the change", has("vrps.csv", "AS64496,2001:db8::/32,32\n"))
	if has("vrps.json", first)() || json.Output() != "" {
		t.Error("what was withdrawn is there, or changes were printed")
	}
	json.End()
	csv.End()
	if left, err := os.ReadDir(folder); err != nil || len(left) != 2 {
		t.Error(left, err)
	}
}

// A recording has both directions, and the programs read it; each connection has its own, and an
// existing file stays.
func TestRecord(t *testing.T) {
	server, address := cached(t, trial.Reserved(t), data(t, 1, vrp("192.0.2.0/24", 26)))
	folder := t.TempDir()
	process := trial.Start(t, folder, address, "--version", "1", "--record", "r")
	process.Says("serial 1", 1)
	next := data(t, 2, vrp("192.0.2.0/24", 26), vrp("2001:db8::/32", 32))
	if err := server.Update(next); err != nil {
		t.Fatal(err)
	}
	process.Says("serial 2", 1)
	server.Close()
	process.Says("closed", 1)
	trial.Write(t, folder+"/r.2", "of before")
	cached(t, address, data(t, 3, vrp("192.0.2.0/24", 26)))
	process.Says("serial 3", 1)
	process.End()
	lists(t, folder, "r", "0 v1 reset query", "8 v1 cache response session 7",
		"16 v1 IPv4 prefix announce 192.0.2.0/24-26 AS64496",
		"36 v1 end of data session 7 serial 1 refresh 3600 retry 600 expire 7200",
		"60 v1 serial notify session 7 serial 2", "72 v1 serial query session 7 serial 1",
		"84 v1 cache response session 7", "92 v1 IPv6 prefix announce 2001:db8::/32-32 AS64496",
		"124 v1 end of data session 7 serial 2 refresh 3600 retry 600 expire 7200")
	times, err := os.ReadFile(folder + "/r.times")
	if err != nil {
		t.Fatal(err)
	}
	var ways []string
	for _, line := range strings.Split(strings.TrimSpace(string(times)), "\n") {
		fields := strings.Fields(line)
		at, err := time.Parse(time.RFC3339Nano, fields[1])
		if err != nil || time.Since(at) > trial.Wait {
			t.Error(line, err)
		}
		ways = append(ways, fields[0]+" "+fields[2])
	}
	joined := strings.Join(ways, ",")
	if !strings.HasPrefix(joined, "0 sent,8 received,") ||
		!strings.Contains(joined, "60 received,72 sent,84 received") {
		t.Error(joined)
	}
	if info, err := os.Stat(folder + "/r.3"); err != nil || info.Size() == 0 ||
		!trial.Same(folder+"/r.2", "of before") {
		t.Error(info, err)
	}
	process = trial.Start(t, folder, address, "--record", "r", "--once")
	if status := process.Status(); status != words.Failed || process.Lines("r: file exists") != 1 {
		t.Error(status, process.Stderr())
	}
}

// lists compares the output of rtr_list for a recording.
func lists(t *testing.T, folder, file string, lines ...string) {
	t.Helper()
	input, err := os.Open(folder + "/" + file)
	if err != nil {
		t.Fatal(err)
	}
	defer input.Close()
	run := exec.Command("rtr_list")
	run.Stdin = input
	output, err := run.CombinedOutput()
	if want := strings.Join(lines, "\n") + "\n"; err != nil || string(output) != want {
		t.Errorf("%v, %s", err, output)
	}
}

// The first cache that has data is followed. While it fails the next one is asked, until the first
// is back; shown data stay until they expire.
func TestPreference(t *testing.T) {
	first := trial.Reserved(t)
	_, second := cached(t, "127.0.0.1:0", data(t, 5, vrp("198.51.100.0/24", 24)))
	process := trial.Start(t, t.TempDir(), first, second)
	process.Says(second+": session 7 serial 5", 1)
	preferred, _ := cached(t, first, data(t, 1, vrp("192.0.2.0/24", 24)))
	process.Says(first+": session 7 serial 1", 1)
	preferred.Close()
	process.Says(second+": session 7 serial 5", 2)
	cached(t, first, data(t, 2, vrp("192.0.2.0/24", 25)))
	process.Says(first+": session 7 serial 2", 1)
	want := "+ IPv4 prefix 198.51.100.0/24-24 AS64496\n" +
		"+ IPv4 prefix 192.0.2.0/24-24 AS64496\n- IPv4 prefix 198.51.100.0/24-24 AS64496\n" +
		"+ IPv4 prefix 198.51.100.0/24-24 AS64496\n- IPv4 prefix 192.0.2.0/24-24 AS64496\n" +
		"+ IPv4 prefix 192.0.2.0/24-25 AS64496\n- IPv4 prefix 198.51.100.0/24-24 AS64496\n"
	process.Await("the way back", func() bool { return process.Output() == want })
	process.End()
	if process.Lines(second+": session") != 2 {
		t.Error(process.Stderr())
	}
}

// A cache without payloads is a failure if there is another one, and a silent one costs five
// seconds.
func TestNoPayloads(t *testing.T) {
	_, empty := cached(t, "127.0.0.1:0", data(t, 1))
	_, other := cached(t, "127.0.0.1:0", data(t, 2))
	_, second := cached(t, "127.0.0.1:0", data(t, 5, vrp("198.51.100.0/24", 24)))
	silent, err := net.Listen("tcp", "127.0.0.1:0")
	if err != nil {
		t.Fatal(err)
	}
	defer silent.Close()
	const line = "+ IPv4 prefix 198.51.100.0/24-24 AS64496\n"
	for _, row := range []struct {
		words  []string
		status words.Status
		output string
	}{
		{[]string{empty, second}, words.Well, line},
		{[]string{silent.Addr().String(), second}, words.Well, line},
		{[]string{empty, other}, words.Refused, ""},
		{[]string{empty}, words.Well, ""},
	} {
		began := time.Now()
		process := trial.Start(t, t.TempDir(), append(row.words, "--once")...)
		if got := process.Status(); got != row.status || process.Output() != row.output {
			t.Errorf("%v: status %d, %s", row.words, got, process.Stderr())
		}
		stderr := process.Lines(row.words[0] + ": the cache has no payloads")
		if expected := row.words[0] == empty && len(row.words) > 1; (stderr == 1) != expected {
			t.Errorf("%v: %s", row.words, process.Stderr())
		}
		took := time.Since(began)
		if row.words[0] == silent.Addr().String() && took < 5*time.Second {
			t.Error(took)
		}
	}
}

// Over TLS the authority must have signed the cache's certificate, and the cache gets the router's
// certificate.
func TestTLS(t *testing.T) {
	folder := t.TempDir()
	ours, others := trial.NewAuthority(t), trial.NewAuthority(t)
	ours.Save(folder + "/ca")
	others.Save(folder + "/others")
	trial.Save(t, ours.Issue("127.0.0.1"), folder+"/cert", folder+"/key")
	listener, err := tls.Listen("tcp", "127.0.0.1:0", &tls.Config{
		Certificates: []tls.Certificate{ours.Issue("127.0.0.1")},
		ClientAuth:   tls.RequireAndVerifyClientCert, ClientCAs: ours.Pool(),
	})
	if err != nil {
		t.Fatal(err)
	}
	server := rtr.NewServer()
	if err := server.Update(data(t, 1, vrp("192.0.2.0/24", 24))); err != nil {
		t.Fatal(err)
	}
	go server.Serve(listener)
	t.Cleanup(server.Close)
	address := listener.Addr().String()
	for line, status := range map[string]words.Status{
		"--tls --tls-ca ca --tls-cert cert --tls-key key":                          words.Well,
		"--tls --tls-ca ca --tls-cert cert --tls-key key --tls-name cache.invalid": words.Refused,
		"--tls --tls-ca ca":     words.Refused,
		"--tls --tls-ca others": words.Refused,
		"--tls":                 words.Refused,
	} {
		process := trial.Start(t, folder, append(strings.Fields(line), address, "--once")...)
		if got := process.Status(); got != status {
			t.Errorf("%s: status %d, %s", line, got, process.Stderr())
		}
	}
}

// Wrong arguments end the program with status 2 and one line that names the argument; wrong files
// with status 1.
func TestWrongWords(t *testing.T) {
	folder := t.TempDir()
	trial.Write(t, folder+"/file", "no certificate")
	for _, row := range []struct {
		words  string
		status words.Status
		says   string
	}{
		{"", words.Usage, "no cache given: HOST:PORT"},
		{"localhost", words.Usage, `"localhost" isn't HOST:PORT`},
		{"localhost:65536", words.Usage, `"localhost:65536" isn't HOST:PORT`},
		{"a:1 a:1", words.Usage, "a:1 is given twice"},
		{"a:1 a:2 a:3 a:4 a:5 a:6 a:7 a:8 a:9 b:1 b:2 b:3 b:4 b:5 b:6 b:7 b:8", words.Usage,
			"more than 16 caches given"},
		{"a:1 --version 3", words.Usage, `--version: "3" isn't a version`},
		{"a:1 --version", words.Usage, "--version needs 0|1|2"},
		{"a:1 --version 1 --version 2", words.Usage, "--version: it is given twice"},
		{"a:1 --out a --out b", words.Usage, "--out: it is given twice"},
		{"a:1 --nothing", words.Usage, `unknown option "--nothing"`},
		{"a:1 --out", words.Usage, "--out needs FILE"},
		{"a:1 --validate 10.0.0.0/8", words.Usage, "--validate needs PREFIX ASN"},
		{"a:1 --validate 10.0.0.0 AS1", words.Usage, `--validate: "10.0.0.0" isn't a prefix`},
		{"a:1 --validate 10.0.0.1/8 AS1", words.Usage, `--validate: "10.0.0.1/8" has host bits`},
		{"a:1 --validate 10.0.0.0/8 ASx", words.Usage, `--validate: "ASx" isn't an AS number`},
		{"a:1 --ssh rpki --tls", words.Usage, "--tls and --ssh exclude each other"},
		{"a:1 --ssh rpki --ssh-key none --ssh-known-hosts none", words.Failed, "none: no such file"},
		{"a:1 --ssh rpki --ssh-key file --ssh-known-hosts none", words.Refused, "file: ssh: no key found"},
		{"a:1 --once=1", words.Usage, "--once takes no argument"},
		{"a:1 --tls --tls-ca none", words.Failed, "none: no such file"},
		{"a:1 --tls --tls-ca file", words.Refused, "file: there is no certificate in it"},
		{"a:1 --tls --tls-cert file --tls-key file", words.Refused, "file with file: "},
		{"a:1 --record none/r", words.Failed, "none/r: no such file"},
	} {
		process := trial.Start(t, folder, strings.Fields(row.words)...)
		process.Refuses(row.status, "rtr-client: ", row.says)
	}
}

// An option that has no effect without another one is refused with a line that names both.
func TestNeeds(t *testing.T) {
	folder := t.TempDir()
	const pair = "--tls-cert and --tls-key need each other"
	const three = "--ssh, --ssh-key and --ssh-known-hosts need each other"
	for _, row := range []struct{ words, says string }{
		{"--json --out f", "--json with --out needs --validate, since no changes are printed"},
		{"--once --out f.csv --times --json", "--json with --out needs --validate"},
		{"--tls-ca x", "--tls-ca needs --tls"},
		{"--tls-cert x --tls-key x", "--tls-cert needs --tls"},
		{"--tls-name x", "--tls-name needs --tls"},
		{"--tls-cert x", pair}, {"--tls-key x", pair},
		{"--tls --tls-cert x", pair}, {"--tls --tls-key x", pair},
		{"--ssh rpki", three}, {"--ssh-key x", three}, {"--ssh-known-hosts x", three},
		{"--ssh rpki --ssh-key x", three}, {"--ssh rpki --ssh-known-hosts x", three},
		{"--ssh-key x --ssh-known-hosts x", three}, {"--tls --ssh-key x", three},
	} {
		process := trial.Start(t, folder, strings.Fields("a:1 "+row.words)...)
		process.Refuses(words.Usage, "rtr-client: ", row.says)
	}
}

// SIGUSR1 prints the statistics, as the end does.
func TestStatistics(t *testing.T) {
	server, address := cached(t, "127.0.0.1:0", data(t, 1, vrp("192.0.2.0/24", 24)))
	process := trial.Start(t, t.TempDir(), address, "--version", "1")
	process.Says("serial 1", 1)
	next := data(t, 2, vrp("198.51.100.0/24", 24), vrp("203.0.113.0/24", 24))
	if err := server.Update(next); err != nil {
		t.Fatal(err)
	}
	process.Says("serial 2", 1)
	process.Signal(syscall.SIGUSR1)
	process.Says(address+": connections 1, failures 0", 1)
	process.Says("bytes received 156, sent 20", 1)
	process.Says("payloads 2, changes of the data 2, announced 3, withdrawn 1", 1)
	process.End()
	process.Says("payloads 2, changes of the data 2, announced 3, withdrawn 1", 2)
}

// proxy forwards connections to an address, and cuts each after some bytes.
func proxy(t *testing.T, to string) string {
	listener, err := net.Listen("tcp", "127.0.0.1:0")
	if err != nil {
		t.Fatal(err)
	}
	t.Cleanup(func() { listener.Close() })
	go func() {
		for {
			client, err := listener.Accept()
			if err != nil {
				return
			}
			cache, err := net.Dial("tcp", to)
			if err != nil {
				client.Close()
				continue
			}
			most := rand.Intn(4000)
			pass := func(to, from net.Conn) {
				defer to.Close()
				defer from.Close()
				buffer := make([]byte, 100)
				for sum := 0; sum < most; {
					n, err := from.Read(buffer)
					if err != nil {
						return
					}
					to.Write(buffer[:n])
					sum += n
				}
			}
			go pass(client, cache)
			go pass(cache, client)
		}
	}()
	return listener.Addr().String()
}

// With a changing cache behind a proxy that cuts connections at random, the file only ever has data
// that the cache had, and in the end the last ones.
func TestCuts(t *testing.T) {
	folder := t.TempDir()
	list := func(serial int) (vrps []rtr.VRP) {
		for i := serial; i < serial+50; i++ {
			vrps = append(vrps, vrp(fmt.Sprintf("10.0.%d.0/24", i), 24))
		}
		return vrps
	}
	server, address := cached(t, "127.0.0.1:0", data(t, 1, list(1)...))
	process := trial.Start(t, folder, proxy(t, address), "--out", "vrps.csv")
	const last = 60
	for serial := 2; serial <= last; serial++ {
		if err := server.Update(data(t, uint32(serial), list(serial)...)); err != nil {
			t.Fatal(err)
		}
		time.Sleep(50 * time.Millisecond)
		text, err := os.ReadFile(folder + "/vrps.csv")
		if err != nil {
			continue
		}
		lines := strings.Split(strings.TrimSpace(string(text)), "\n")
		from := strings.Split(lines[1], ".")[2]
		first, err := strconv.Atoi(from)
		if err != nil || len(lines) != 51 ||
			!strings.Contains(lines[50], fmt.Sprintf("10.0.%d.0/24", first+49)) {
			t.Fatalf("%s", text)
		}
	}
	process.Await("the last data", func() bool {
		text, err := os.ReadFile(folder + "/vrps.csv")
		return err == nil && strings.Contains(string(text), fmt.Sprintf("10.0.%d.0/24", last+49))
	})
}

// A failed write of the output ends the program.
func TestNoOutput(t *testing.T) {
	_, address := cached(t, "127.0.0.1:0", data(t, 1, vrp("192.0.2.0/24", 24)))
	process := trial.Start(t, t.TempDir(), address, "--out", "none/vrps.json")
	if status := process.Status(); status != words.Failed || process.Lines("none/") != 1 {
		t.Error(status, process.Stderr())
	}
}

// The client first asks in the default version of the help and the man page.
func TestDocumentedVersion(t *testing.T) {
	page, err := os.ReadFile("../../docs/man/rtr-client.1")
	if err != nil {
		t.Fatal(err)
	}
	process := trial.Start(t, t.TempDir(), "--help")
	const version = "Ask in this protocol version at most (default 2)\n"
	if process.Status(); !strings.Contains(process.Output(), version) ||
		!strings.Contains(string(page), "\nThe highest version of the protocol to use (default 2);") {
		t.Error(process.Output())
	}
	listener, err := net.Listen("tcp", "127.0.0.1:0")
	if err != nil {
		t.Fatal(err)
	}
	defer listener.Close()
	trial.Start(t, t.TempDir(), listener.Addr().String())
	connection, err := listener.Accept()
	if err != nil {
		t.Fatal(err)
	}
	defer connection.Close()
	if unit, err := rtr.NewReader(connection).Next(); err != nil || unit.Version != 2 ||
		unit.Kind != rtr.ResetQuery {
		t.Error(unit, err)
	}
}
