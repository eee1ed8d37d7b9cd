package main

import (
	"encoding/json"
	"io"
	"net"
	"net/http"
	"strings"
	"testing"

	"fishreef/programs/internal/trial"
	"fishreef/rtr"
)

// router is an entry of /clients.
type router struct {
	Address, Transport string
	Version            *uint8
	Queries            int
	Has                *struct {
		Session uint16
		Serial  uint32
	}
	Behind *uint32
	Asked  *string
	Sent   int64 `json:"bytes_sent"`
}

// routers returns the entries of /clients.
func routers(t *testing.T, url string) []router {
	t.Helper()
	_, text := trial.Get(t, url+"/clients")
	var all struct{ Clients []router }
	if err := json.Unmarshal([]byte(text), &all); err != nil {
		t.Fatal(err, text)
	}
	return all.Clients
}

// line returns the last line on standard error that has all of these texts.
func line(process *trial.Process, texts ...string) (last string) {
	for _, line := range strings.Split(process.Stderr(), "\n") {
		has := true
		for _, text := range texts {
			has = has && strings.Contains(line, text)
		}
		if has {
			last = line
		}
	}
	return last
}

// A router is seen from its connection to its end: in the log, in /clients, and in the metrics.
func TestClients(t *testing.T) {
	folder := t.TempDir()
	trial.Write(t, folder+"/f", rows(3))
	process, address := started(t, folder, "--csv", "f", "--log-level", "debug",
		"--metrics", "127.0.0.1:0")
	url := strings.TrimSuffix(process.After("metrics are at "), "/metrics")
	process.Says("3 payloads", 1)
	if all := routers(t, url); all == nil || len(all) != 0 {
		t.Error(all)
	}
	first := dialed(t, address)
	data := asked(t, first)
	second := dialed(t, address)
	name := "client=\"" + first.LocalAddr().String() + "\""
	process.Await("both", func() bool { return len(routers(t, url)) == 2 })
	process.Await("an answer", func() bool { return line(process, "msg=answered", name) != "" })
	for _, texts := range [][]string{
		{"level=debug", "msg=connected", name, "transport=tcp"},
		{"level=info", "reset query", name, "version=1"},
		{"level=debug", "msg=answers", name, `unit="cache response"`},
		{"level=debug", "msg=answered", name, "serial=1"},
	} {
		if line(process, texts...) == "" {
			t.Errorf("there is no %q in\n%s", texts, process.Stderr())
		}
	}
	asking, silent := routers(t, url)[0], routers(t, url)[1]
	if asking.Address != first.LocalAddr().String() || asking.Transport != "tcp" ||
		*asking.Version != 1 || asking.Queries != 1 || asking.Has == nil || asking.Has.Serial != 1 ||
		asking.Has.Session != data.Session() || *asking.Behind != 0 ||
		asking.Asked == nil || asking.Sent != int64(len(data.Bytes())+8) {
		t.Errorf("%+v", asking)
	}
	if silent.Address != second.LocalAddr().String() || silent.Version != nil || silent.Has != nil ||
		silent.Queries != 0 {
		t.Errorf("%+v", silent)
	}

	trial.Write(t, folder+"/f", rows(4))
	process.Says("serial 2: 4 payloads, 1 announced (1 IPv4 prefix), 0 withdrawn", 1)
	if behind := routers(t, url)[0].Behind; behind == nil || *behind != 1 {
		t.Error(behind)
	}
	_, metrics := trial.Get(t, url+"/metrics")
	metric := `rtr_cache_client_behind{client="` + first.LocalAddr().String() + `",transport="tcp"} 1`
	if !strings.Contains(metrics, metric) {
		t.Error("there is no metric of the client")
	}
	page := shown(t, url+"/clients")
	if !strings.Contains(page, "<td>"+first.LocalAddr().String()+"<td>tcp<td>1<td>") {
		t.Error(page)
	}
	notify, err := rtr.NewReader(first).Next()
	if err != nil || notify.Kind != rtr.SerialNotify {
		t.Fatal(notify, err)
	}
	first.Close()
	process.Await("the end", func() bool { return line(process, "msg=left", name) != "" })
	left := line(process, "level=info", "msg=left", name, "version=1", "serial=1", "received=8",
		"lasted=")
	if left == "" || len(routers(t, url)) != 1 {
		t.Error(process.Stderr())
	}
}

// shown returns the page at a URL, as a browser gets it.
func shown(t *testing.T, url string) string {
	t.Helper()
	ask, err := http.NewRequest(http.MethodGet, url, nil)
	if err != nil {
		t.Fatal(err)
	}
	ask.Header.Set("Accept", "text/html,application/xhtml+xml")
	answer, err := http.DefaultClient.Do(ask)
	if err != nil {
		t.Fatal(err)
	}
	defer answer.Body.Close()
	text, err := io.ReadAll(answer.Body)
	if err != nil || !strings.HasPrefix(answer.Header.Get("Content-Type"), "text/html") {
		t.Error(err, answer.Header)
	}
	return string(text)
}

// A client that speaks another protocol is reported with its name.
func TestStrangers(t *testing.T) {
	folder := t.TempDir()
	trial.Write(t, folder+"/f", rows(3))
	process, address := started(t, folder, "--csv", "f")
	process.Says("3 payloads", 1)
	for text, says := range map[string]string{
		"GET /metrics HTTP/1.1\r\n\r\n":                "it speaks HTTP: --metrics is for that",
		"HEAD / HTTP/1.0\r\n\r\n":                      "it speaks HTTP: --metrics is for that",
		"CONNECT a:1 HTTP/1.1\r\n\r\n":                 "it speaks HTTP: --metrics is for that",
		"PRI * HTTP/2.0\r\n\r\nSM\r\n\r\n":             "it speaks HTTP: --metrics is for that",
		"SSH-2.0-OpenSSH_9.2\r\n":                      "it speaks SSH: --listen ssh: is for that",
		"\x16\x03\x01\x02\x00\x01\x00\x01\xfc\x03\x03": "it speaks TLS: --listen tls: is for that",
	} {
		connection := dialed(t, address)
		if _, err := connection.Write([]byte(text)); err != nil {
			t.Fatal(err)
		}
		name := "client=\"" + connection.LocalAddr().String() + "\""
		process.Await(says, func() bool { return line(process, "level=warning", says, name) != "" })
	}
}

// reports makes a router ask for the changes since data of a session, if there is one, and then
// report corrupt data.
func reports(t *testing.T, address string, session uint16) net.Conn {
	t.Helper()
	connection := dialed(t, address)
	writer := rtr.NewWriter(connection)
	units := []rtr.Unit{{Kind: rtr.ErrorReport, Version: 1, Code: rtr.CorruptData}}
	if session != 0 {
		query := rtr.Unit{Kind: rtr.SerialQuery, Version: 1, Session: session, Serial: 1}
		units = append([]rtr.Unit{query}, units...)
	}
	for i := range units {
		if err := writer.Write(&units[i]); err != nil {
			t.Fatal(err)
		}
	}
	return connection
}

// After a restart without the state routers report data of another session as corrupt (RFC 8210
// section 5.1): that isn't a fault. A report about data of this session is a warning.
func TestLawfulReports(t *testing.T) {
	folder := t.TempDir()
	trial.Write(t, folder+"/f", rows(3))
	process, address := started(t, folder, "--csv", "f")
	process.Says("3 payloads", 1)
	session := fetched(t, address, 1).Session()
	for other, level := range map[uint16]string{session + 1: "level=info", session: "level=warning"} {
		if other == 0 {
			other = 2
		}
		connection := reports(t, address, other)
		name := "client=\"" + connection.LocalAddr().String() + "\""
		process.Await("the report", func() bool { return line(process, "reason=reported", name) != "" })
		if line(process, level, "reason=reported", name) == "" {
			t.Error(process.Stderr())
		}
	}
}
