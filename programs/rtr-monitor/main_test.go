package main

import (
	"fmt"
	"net"
	"net/http"
	"net/http/httptest"
	"net/netip"
	"strings"
	"testing"
	"time"

	"fishreef/programs/internal/transport"
	"fishreef/programs/internal/trial"
	"fishreef/programs/internal/words"
	"fishreef/rtr"
)

func TestMain(tests *testing.M) { trial.Main(tests, run) }

// prefixes returns data of version 1 with this many prefixes, and a serial number.
func prefixes(t *testing.T, count int, serial uint32) rtr.Data {
	t.Helper()
	var vrps []rtr.VRP
	for i := 0; i < count; i++ {
		prefix := netip.MustParsePrefix(fmt.Sprintf("10.%d.%d.0/24", i/256, i%256))
		vrps = append(vrps, rtr.VRP{Prefix: prefix, ASN: 64496})
	}
	data, err := rtr.NewDataOf(vrps, 1, 7, serial, rtr.RecommendedTiming)
	if err != nil {
		t.Fatal(err)
	}
	return data
}

// cache starts a cache of these data at an address.
func cache(t *testing.T, address string, data rtr.Data) *rtr.Server {
	t.Helper()
	listener, err := net.Listen("tcp", address)
	if err != nil {
		t.Fatal(err)
	}
	server := rtr.NewServer()
	t.Cleanup(func() { server.Close() })
	go server.Serve(listener)
	updated(t, server, data)
	return server
}

// updated updates a cache to new data.
func updated(t *testing.T, server *rtr.Server, data rtr.Data) {
	t.Helper()
	if err := server.Update(data); err != nil {
		t.Fatal(err)
	}
}

// monitoring returns a monitor of these sources, and the URL of its page.
func monitoring(t *testing.T, folder string, line ...string) (process *trial.Process, page string) {
	t.Helper()
	process = trial.Start(t, folder, append(line, "--http", "127.0.0.1:0")...)
	return process, process.After("the page is at ")
}

// shows waits until an answer has a text.
func shows(t *testing.T, process *trial.Process, url, text string) {
	t.Helper()
	process.Await(url+" with "+text, func() bool {
		_, says := trial.Get(t, url)
		return strings.Contains(says, text)
	})
}

// A difference that lasts longer than the grace time gets a log line, a metric and a fault, and
// another line at its end; a shorter one isn't reported. Caches notify at most once a minute (RFC
// 8210 section 5.2), so --refresh asks them more often.
func TestDifferences(t *testing.T) {
	first, second := trial.Reserved(t), trial.Reserved(t)
	cache(t, first, prefixes(t, 3, 1))
	other := cache(t, second, prefixes(t, 3, 1))
	monitor := func(grace string) (*trial.Process, string) {
		process, page := monitoring(t, t.TempDir(), first, second, "--grace", grace, "--refresh", "1s")
		shows(t, process, page+"health", "good")
		if status, _ := trial.Get(t, page+"health"); status != 200 || process.Lines("difference") != 0 {
			t.Error(status, process.Stderr())
		}
		return process, page
	}
	process, page := monitor("1h")
	updated(t, other, prefixes(t, 4, 2))
	shows(t, process, page+"metrics", `rtr_monitor_missing{age="young",source="`+first+`"} 1`)
	updated(t, other, prefixes(t, 3, 3))
	shows(t, process, page+"metrics", `rtr_monitor_missing{age="young",source="`+first+`"} 0`)
	if status := process.End(); status != 0 || process.Lines("10.0.3.0") != 0 {
		t.Error(status, process.Stderr())
	}
	process, page = monitor("4s")
	began := time.Now()
	updated(t, other, prefixes(t, 2, 4))
	process.Says(`msg="difference: IPv4 prefix 10.0.2.0/24-24 AS64496" missing="`+second+`" since=`, 1)
	if took := time.Since(began); took < 4*time.Second || process.Lines("10.0.3.0") != 0 {
		t.Errorf("after %v: %s", took, process.Stderr())
	}
	if status, says := trial.Get(t, page+"health"); status != 503 ||
		says != second+": 1 payload is missing for longer than 4s\n" {
		t.Error(status, says)
	}
	for path, says := range map[string]string{
		"metrics": `rtr_monitor_difference_since_timestamp_seconds{missing="` + second +
			`",payload="IPv4 prefix 10.0.2.0/24-24 AS64496"} 1`,
		"diff.json": `"old":true,"payload":"IPv4 prefix 10.0.2.0/24-24 AS64496"`,
		"":          "<td>IPv4 prefix 10.0.2.0/24-24 AS64496<td class=\"text\">" + second,
	} {
		if _, text := trial.Get(t, page+path); !strings.Contains(text, says) {
			t.Errorf("/%s: %s", path, text)
		}
	}
	updated(t, other, prefixes(t, 3, 5))
	process.Says(`msg="difference ended: IPv4 prefix 10.0.2.0/24-24 AS64496"`, 1)
	shows(t, process, page+"health", "good")
	if status := process.End(); status != words.Well {
		t.Error(status)
	}
}

// The data of a cache that died stay in the comparison, as in routers, and its failure gets a log
// line and a metric; once it is back, its new data are compared.
func TestCacheDies(t *testing.T) {
	first, second := trial.Reserved(t), trial.Reserved(t)
	cache(t, first, prefixes(t, 3, 1))
	dies := cache(t, second, prefixes(t, 3, 1))
	process, page := monitoring(t, t.TempDir(), first, second, "--grace", "1s")
	shows(t, process, page+"health", "good")
	dies.Close()
	process.Says(second+": it fails: ", 1)
	shows(t, process, page+"metrics", `rtr_monitor_up{source="`+second+`"} 0`)
	shows(t, process, page+"metrics", `rtr_monitor_payloads{kind="IPv4 prefix",source="`+second+`"} 3`)
	cache(t, second, prefixes(t, 2, 9))
	process.Says(second+": it answers again after", 1)
	process.Says(`msg="difference: IPv4 prefix 10.0.2.0/24-24 AS64496" missing="`+second+`"`, 1)
	shows(t, process, page+"metrics", `rtr_monitor_up{source="`+second+`"} 1`)
	shows(t, process, page+"metrics", `rtr_monitor_serial{source="`+second+`"} 9`)
	if process.Lines("it answers again") != 1 {
		t.Error(process.Stderr())
	}
}

// Lists, by file and by URL, are compared with a cache: when they change, and when they aren't
// available.
func TestLists(t *testing.T) {
	folder, address := t.TempDir(), trial.Reserved(t)
	cache(t, address, prefixes(t, 2, 1))
	rows := "AS64496,10.0.0.0/24,24\nAS64496,10.0.1.0/24,24\n"
	trial.Write(t, folder+"/f", rows)
	trial.Write(t, folder+"/served", `{"roas": [{"asn": 64496, "prefix": "10.0.0.0/24"},
		{"asn": 64496, "prefix": "10.0.1.0/24"}], "aspas": [{"customer_asid": 1, "providers": [2]}]}`)
	web := httptest.NewServer(http.FileServer(http.Dir(folder)))
	defer web.Close()
	json := "json:" + web.URL + "/served"
	process, page := monitoring(t, folder, address, "csv:f", json, "--grace", "1s", "--fetch", "1s",
		"--look", "1s",
		"--version", "1")
	shows(t, process, page+"health", "good")
	trial.Write(t, folder+"/f", rows+"AS64496,10.0.2.0/24,24\n")
	process.Says(`msg="difference: IPv4 prefix 10.0.2.0/24-24 AS64496" missing="`+address+`"`, 1)
	process.Says(`msg="difference: IPv4 prefix 10.0.2.0/24-24 AS64496" missing="`+json+`"`, 1)
	trial.Write(t, folder+"/f", rows+"AS64496,10.0.2.0/33,24\n")
	process.Says("csv:f: it fails: line 3: prefix", 1)
	trial.Write(t, folder+"/f", rows)
	process.Says("csv:f: it answers again", 1)
	process.Says("difference ended", 2)
	web.Close()
	process.Says(json+": it fails: it can't be fetched: dial tcp", 1)
	shows(t, process, page+"metrics", `rtr_monitor_up{source="`+json+`"} 0`)
	if process.Lines("ASPA") != 0 { // version 1 has none
		t.Error(process.Stderr())
	}
	trial.Write(t, folder+"/aspas", `{"roas": [{"asn": 64496, "prefix": "10.0.0.0/24"},
		{"asn": 64496, "prefix": "10.0.1.0/24"}], "aspas": [{"customer_asid": 1, "providers": [2]}]}`)
	process, _ = monitoring(t, folder, address, "csv:f", "json:aspas", "--grace", "1s")
	process.Says(`msg="difference: ASPA AS1 providers AS2" missing="`+address+`"`, 1)
	if process.Lines("csv:f\" since") != 0 { // CSV has none
		t.Error(process.Stderr())
	}
}

// nobody is an observer that ignores all events.
type nobody struct{}

func (nobody) Opened(*transport.Peer)                                       {}
func (nobody) Speaks(*transport.Peer, uint8)                                {}
func (nobody) Leaves(*transport.Peer, uint8)                                {}
func (nobody) Came(*transport.Peer, *rtr.Unit)                              {}
func (nobody) Moved(*transport.Peer, transport.Direction, int)              {}
func (nobody) Reported(*transport.Peer, transport.Direction, rtr.ErrorCode) {}

// secured starts a cache over a transport.
func secured(t *testing.T, kind transport.Kind, secure transport.Secured,
	data rtr.Data) (address string) {
	t.Helper()
	listener, err := net.Listen("tcp", "127.0.0.1:0")
	if err != nil {
		t.Fatal(err)
	}
	gate := transport.NewGate(10, nil)
	server := rtr.NewServer()
	t.Cleanup(func() { gate.Close(); server.Close() })
	go server.Serve(transport.Guarded(transport.Bound{Kind: kind, Listener: listener}, secure, gate,
		nobody{}))
	updated(t, server, data)
	return listener.Addr().String()
}

// Caches over TLS and SSH are compared, with their certificates and keys checked.
func TestTransports(t *testing.T) {
	folder, authority := t.TempDir(), trial.NewAuthority(t)
	authority.Save(folder + "/ca")
	trial.Save(t, authority.Issue("127.0.0.1"), folder+"/cert", folder+"/key")
	identity, err := transport.NewIdentity(transport.TLSFiles{
		Certificate: folder + "/cert", Key: folder + "/key", ClientCA: folder + "/ca"})
	if err != nil {
		t.Fatal(err)
	}
	public := trial.ECDSA.Save(t, folder+"/host")
	trial.Write(t, folder+"/routers", trial.ECDSA.Save(t, folder+"/router"))
	files := transport.SSHFiles{HostKey: folder + "/host", Routers: folder + "/routers"}
	host, err := transport.NewHost(files)
	if err != nil {
		t.Fatal(err)
	}
	overTLS := secured(t, transport.TLS, identity.Secure, prefixes(t, 3, 1))
	overSSH := secured(t, transport.SSH, host.Secure, prefixes(t, 2, 1))
	trial.Write(t, folder+"/known", "["+strings.Replace(overSSH, ":", "]:", 1)+" "+public)
	trial.Write(t, folder+"/nobody", "")
	line := []string{"tls:" + overTLS, "ssh:" + overSSH, "--grace", "1s", "--tls-ca", "ca",
		"--tls-cert", "cert",
		"--tls-key", "key", "--ssh-user", "rpki", "--ssh-key", "router", "--ssh-known-hosts"}
	process, _ := monitoring(t, folder, append(line, "known")...)
	process.Says(`msg="difference: IPv4 prefix 10.0.2.0/24-24 AS64496" missing="ssh:`+overSSH+`"`, 1)
	process, _ = monitoring(t, folder, append(line, "nobody")...)
	process.Says("ssh:"+overSSH+": it fails: ssh: handshake failed: knownhosts: key is unknown", 1)
}

// Wrong arguments end the program with status 2 and one line that names the argument.
func TestWrongWords(t *testing.T) {
	folder := t.TempDir()
	for _, row := range []struct {
		words, says string
		status      words.Status
	}{
		{"", "at least two sources are needed", words.Usage},
		{"a:1", "at least two sources are needed", words.Usage},
		{"a:1 a:1", "a:1 is given twice", words.Usage},
		{"a:1 b", `"b" isn't a source: HOST:PORT`, words.Usage},
		{"a:1 http://b/c", `"http://b/c" isn't a source`, words.Usage},
		{"a:1 json:", "json: needs a file", words.Usage},
		{"a:1 json:ftp://b/c", "isn't an http:// or https:// URL", words.Usage},
		{"a:1 b:1 --grace 10", `--grace: "10" isn't a time`, words.Usage},
		{"a:1 b:1 --version 3", `--version: "3" isn't a version: 0|1|2`, words.Usage},
		{"a:1 b:1 --http 80", `--http: "80" isn't ADDRESS:PORT`, words.Usage},
		{"a:1 ssh:b:1", "ssh:b:1 needs --ssh-user, --ssh-key and --ssh-known-hosts", words.Usage},
		{"a:1 b:1 --grace 10s --grace 20s", "--grace: it is given twice", words.Usage},
		{"a:1 b:1 --version 0 --version 1", "--version: it is given twice", words.Usage},
		{strings.TrimSpace(strings.Repeat("a:1 ", 1) + many(16)), "more than 16 sources given", words.Usage},
		{"a:1 sequence:f --slurm s", "--slurm filters the lists of validators, and no units (sequence)", words.Usage},
		{"a:1 tls:b:1 --tls-ca none", "none: no such file", words.Failed},
		{"a:1 b:1 --http 192.0.2.1:1", "cannot assign requested address", words.Failed},
		{"a:1 csv:http://127.0.0.1/ --fetch-ca none", "none: no such file", words.Failed},
	} {
		process := trial.Start(t, folder, strings.Fields(row.words)...)
		process.Refuses(row.status, "", row.says)
	}
}

// An option that has no effect without another one, or without a source of some kind, is refused
// with a line that names both, also if it was given its default.
func TestNeeds(t *testing.T) {
	folder := t.TempDir()
	const three = "--ssh-user, --ssh-key and --ssh-known-hosts need each other"
	const pair = "--tls-cert and --tls-key need each other"
	for _, row := range []struct{ words, says string }{
		{"a:1 b:1 --ssh-user me", three}, {"a:1 b:1 --ssh-key f", three},
		{"a:1 ssh:b:1 --ssh-known-hosts f", three},
		{"a:1 b:1 --tls-cert f", pair}, {"a:1 tls:b:1 --tls-key f", pair},
		{"a:1 b:1 --tls-ca f", "--tls-ca needs a source tls:HOST:PORT"},
		{"a:1 csv:f --tls-cert f --tls-key f", "--tls-cert needs a source tls:HOST:PORT"},
		{"a:1 tls:b:1 --ssh-user me --ssh-key f --ssh-known-hosts f",
			"--ssh-user needs a source ssh:HOST:PORT"},
		{"csv:f json:f --refresh 1h", "--refresh needs a cache as a source"},
		{"a:1 tls:b:1 --look 10s", "--look needs a list as a source"},
		{"a:1 csv:f --fetch 5m", "--fetch needs a list by URL"},
		{"a:1 csv:f --fetch-timeout 2m", "--fetch-timeout needs a list by URL"},
		{"a:1 b:1 --fetch-limit 268", "--fetch-limit needs a list by URL"},
		{"a:1 csv:f --fetch-ca f", "--fetch-ca needs a list by URL"},
		{"a:1 b:1 --fetch-ca f", "--fetch-ca needs a list by URL"},
		{"a:1 b:1 --ignore x", "--ignore needs a list"},
		{"a:1 csv:f --ignore x", "--ignore needs a list of JSON"},
		{"a:1 b:1 --slurm f", "--slurm needs a list"},
		{"a:1 b:1 --empty", "--empty needs a list"},
	} {
		process := trial.Start(t, folder, strings.Fields(row.words)...)
		process.Refuses(words.Usage, "rtr-monitor: ", row.says)
	}
}

// many returns arguments for this many caches.
func many(count int) string {
	var all []string
	for i := 0; i < count; i++ {
		all = append(all, fmt.Sprintf("b:%d", i+1))
	}
	return strings.Join(all, " ")
}
