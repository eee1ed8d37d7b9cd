package main

import (
	"context"
	"crypto/tls"
	"crypto/x509"
	"net"
	"os"
	"os/exec"
	"strings"
	"syscall"
	"testing"
	"time"

	"fishreef/programs/internal/trial"
	"fishreef/programs/internal/words"
	"fishreef/rtr"
)

const hangup = syscall.SIGHUP

// dialed connects to a cache.
func dialed(t *testing.T, address string) net.Conn {
	t.Helper()
	connection, err := net.Dial("tcp", address)
	if err != nil {
		t.Fatal(err)
	}
	t.Cleanup(func() { connection.Close() })
	return connection
}

// overTLS fetches the data of a cache over TLS.
func overTLS(address string, config *tls.Config) (rtr.Data, error) {
	ctx, cancel := context.WithTimeout(context.Background(), trial.Wait)
	defer cancel()
	client := rtr.NewClient(address)
	client.Dial = (&tls.Dialer{Config: config}).DialContext
	return client.Fetch(ctx)
}

// Over TLS routers need a certificate by the authority for their own address (RFC 8210 section
// 9.2), or for any with --tls-any-address. SIGHUP loads a new certificate; an invalid one is
// reported, and the former one stays in use.
func TestTLS(t *testing.T) {
	folder := t.TempDir()
	trial.Write(t, folder+"/f", rows(3))
	ours, others := trial.NewAuthority(t), trial.NewAuthority(t)
	ours.Save(folder + "/ca")
	first := ours.Issue("127.0.0.1")
	trial.Save(t, first, folder+"/cert", folder+"/key")
	line := []string{"--csv", "f", "--listen", "tls:127.0.0.1:0", "--tls-cert", "cert",
		"--tls-key", "key",
		"--tls-client-ca", "ca"}
	process := trial.Start(t, folder, line...)
	process.Says("3 payloads", 1)
	address := process.After("listening at ")
	router := ours.Issue("127.0.0.1")
	good := &tls.Config{RootCAs: ours.Pool(), Certificates: []tls.Certificate{router}}
	if data, err := overTLS(address, good); err != nil || data.Len() != 3 {
		t.Error(data.Len(), err)
	}
	for name, row := range map[string]struct {
		certificates []tls.Certificate
		says         string
	}{
		"none":            {nil, "client didn't provide a certificate"},
		"another address": {[]tls.Certificate{ours.Issue("192.0.2.1")}, "not 127.0.0.1"},
		"of others":       {[]tls.Certificate{others.Issue("127.0.0.1")}, "unknown authority"},
	} {
		config := &tls.Config{RootCAs: ours.Pool(), Certificates: row.certificates}
		if data, err := overTLS(address, config); err == nil {
			t.Errorf("%s: %d payloads", name, data.Len())
		}
		process.Says(row.says, 1)
	}
	trial.Write(t, folder+"/cert", "nothing")
	process.Signal(hangup)
	process.Says("cert with key: ", 1)
	if _, err := overTLS(address, good); err != nil {
		t.Error(err)
	}
	second := ours.Issue("127.0.0.1")
	trial.Save(t, second, folder+"/cert", folder+"/key")
	process.Signal(hangup)
	process.Says("f: nothing changed", 2)
	shown := serverCertificate(t, address, good)
	if !shown.Equal(second.Leaf) {
		t.Error("the certificate is the former one")
	}
	process = trial.Start(t, folder, append(line, "--tls-any-address")...)
	process.Says("3 payloads", 1)
	config := &tls.Config{RootCAs: ours.Pool(),
		Certificates: []tls.Certificate{ours.Issue("192.0.2.1")}}
	if _, err := overTLS(process.After("listening at "), config); err != nil {
		t.Error(err)
	}
}

// serverCertificate returns the certificate of a cache.
func serverCertificate(t *testing.T, address string, config *tls.Config) *x509.Certificate {
	t.Helper()
	connection, err := tls.Dial("tcp", address, config)
	if err != nil {
		t.Fatal(err)
	}
	defer connection.Close()
	return connection.ConnectionState().PeerCertificates[0]
}

// Clients above the limit of all clients, or of those of one address, get an error report; the
// others are still served.
func TestLimits(t *testing.T) {
	folder := t.TempDir()
	trial.Write(t, folder+"/f", rows(3))
	listens := map[string]string{"--max-clients": "[::1]:0", "--max-per-address": "127.0.0.1:0"}
	for option, address := range listens {
		process := trial.Start(t, folder, "--csv", "f", "--listen", address, option, "2")
		process.Says("3 payloads", 1)
		at := process.After("listening at ")
		first, second := dialed(t, at), dialed(t, at)
		for _, connection := range []net.Conn{first, second, first} {
			if data := asked(t, connection); data.Len() != 3 {
				t.Errorf("%s: %d payloads", option, data.Len())
			}
		}
		unit, err := rtr.NewReader(dialed(t, at)).Next()
		if err != nil || unit.Kind != rtr.ErrorReport || unit.Code != rtr.InternalError {
			t.Errorf("%s: %v, %v", option, unit, err)
		}
		process.Says("reason=full", 1)
		first.Close()
		process.Await("room for a client", func() bool {
			third, err := net.Dial("tcp", at)
			if err != nil {
				return false
			}
			defer third.Close()
			rtr.NewWriter(third).Write(&rtr.Unit{Kind: rtr.ResetQuery, Version: 1})
			unit, err := rtr.NewReader(third).Next()
			return err == nil && unit.Kind == rtr.CacheResponse
		})
		process.End()
	}
}

// asked sends a reset query over a connection, and returns the data of the answer.
func asked(t *testing.T, connection net.Conn) rtr.Data {
	t.Helper()
	query := &rtr.Unit{Kind: rtr.ResetQuery, Version: 1}
	if err := rtr.NewWriter(connection).Write(query); err != nil {
		t.Fatal(err)
	}
	reader := rtr.NewReader(connection)
	if unit, err := reader.Next(); err != nil || unit.Kind != rtr.CacheResponse {
		t.Fatal(unit, err)
	}
	sequence, err := reader.Sequence(1000).Collect(1 << 20)
	if err != nil {
		t.Fatal(err)
	}
	data, err := rtr.ParseData(sequence)
	if err != nil {
		t.Fatal(err)
	}
	return data
}

// /metrics has the data, the clients and the failures, and /health the faults.
func TestMetrics(t *testing.T) {
	folder := t.TempDir()
	process, address := started(t, folder, "--json", "f", "--stale", "1h", "--metrics", "127.0.0.1:0")
	url := strings.TrimSuffix(process.After("http://"), "/metrics")
	process.Says("f: no such file", 1)
	if status, text := trial.Get(t, "http://"+url+"/health"); status != 503 ||
		text != "there are no data\nf: no such file or directory\n" {
		t.Error(status, text)
	}
	trial.Write(t, folder+"/f", validators)
	process.Says("3 payloads", 1)
	process.Await("a good state", func() bool {
		status, text := trial.Get(t, "http://"+url+"/health")
		return status == 200 && text == "good\n"
	})
	first := dialed(t, address)
	asked(t, first)
	second := dialed(t, address)
	second.Write([]byte{0, 2, 0, 0, 0, 0, 0, 8, 0, 200, 0, 0, 0, 0, 0, 8})
	second.(*net.TCPConn).CloseWrite()
	process.Says("reason=unit", 1)
	third := dialed(t, address)
	third.Write([]byte{1, 10, 0, 3, 0, 0, 0, 16, 0, 0, 0, 0, 0, 0, 0, 0})
	process.Says("reason=reported", 1)
	_, text := trial.Get(t, "http://"+url+"/metrics")
	for _, line := range []string{
		`rtr_cache_clients{transport="tcp",version="1"} 1`,
		`rtr_cache_clients{transport="tcp",version="0"} 0`,
		`rtr_cache_connections_total{transport="tcp"} 3`,
		`rtr_cache_bytes_total{direction="received",transport="tcp"} 40`,
		`rtr_cache_error_reports_total{code="5",direction="sent"} 1`,
		`rtr_cache_error_reports_total{code="3",direction="received"} 1`,
		`rtr_cache_ends_total{reason="unit"} 1`,
		`rtr_cache_payloads{kind="IPv4 prefix"} 1`,
		`rtr_cache_payloads{kind="IPv6 prefix"} 1`,
		`rtr_cache_payloads{kind="ASPA"} 1`,
		`rtr_cache_payloads{kind="router key"} 0`,
		`rtr_cache_serial 1`,
		`rtr_cache_file_refusals_total{file="f"} 1`,
		`rtr_cache_changes_total{action="announced",kind="IPv6 prefix"} 1`,
		`rtr_cache_changes_total{action="withdrawn",kind="IPv6 prefix"} 0`,
		`rtr_cache_healthy 1`,
		`rtr_cache_unhealthy{reason="stale"} 0`,
		`rtr_cache_info{version="` + words.Version + `"} 1`,
	} {
		if !strings.Contains(text, line+"\n") {
			t.Errorf("no %s", line)
		}
	}
	old := time.Now().Add(-2 * time.Hour)
	if err := os.Chtimes(folder+"/f", old, old); err != nil {
		t.Fatal(err)
	}
	process.Says("f: nothing changed", 1)
	process.Await("an old file", func() bool {
		status, text := trial.Get(t, "http://"+url+"/health")
		return status == 503 && strings.HasPrefix(text, "f: it was written 2h0m")
	})
	trial.Write(t, folder+"/f", "[")
	process.Says("level=warning msg=\"f: ", 2)
	process.Await("a refused file", func() bool {
		status, text := trial.Get(t, "http://"+url+"/health")
		return status == 503 && strings.HasPrefix(text, "f: ") && !strings.Contains(text, "ago")
	})
}

// The cache serves sockets from systemd, and notifies it when it is ready, reloads and stops.
func TestSystemd(t *testing.T) {
	folder := t.TempDir()
	trial.Write(t, folder+"/f", rows(3))
	socket, err := net.ListenUnixgram("unixgram",
		&net.UnixAddr{Name: folder + "/notify", Net: "unixgram"})
	if err != nil {
		t.Fatal(err)
	}
	defer socket.Close()
	listener, err := net.Listen("tcp", "127.0.0.1:0")
	if err != nil {
		t.Fatal(err)
	}
	defer listener.Close()
	file, err := listener.(*net.TCPListener).File()
	if err != nil {
		t.Fatal(err)
	}
	defer file.Close()
	run := exec.Command("sh", "-c", `LISTEN_PID=$$ exec "$0" --csv f`, os.Args[0])
	run.ExtraFiles = []*os.File{file}
	process := trial.StartBy(t, folder, []string{
		"LISTEN_FDS=1", "LISTEN_FDNAMES=rtr-cache.socket", "NOTIFY_SOCKET=" + folder + "/notify",
	}, run)
	awaitNotify(t, socket, "READY=1")
	if data := fetched(t, listener.Addr().String(), 2); data.Len() != 3 {
		t.Error(data.Len())
	}
	process.Signal(hangup)
	awaitNotify(t, socket, "RELOADING=1")
	awaitNotify(t, socket, "READY=1")
	if status := process.End(); status != words.Well {
		t.Error(status)
	}
	awaitNotify(t, socket, "STOPPING=1")
}

// everywhere has the addresses of a cache for each transport, and the folder with its certificate
// and keys.
type everywhere struct {
	folder                  string
	authority               *trial.Authority
	plain, secured, shelled string
}

// reachable writes the certificate and the keys for all transports into a folder, and reserves the
// addresses.
func reachable(t *testing.T, folder string) everywhere {
	t.Helper()
	e := everywhere{folder, trial.NewAuthority(t), trial.Reserved(t), trial.Reserved(t),
		trial.Reserved(t)}
	trial.Save(t, e.authority.Issue("127.0.0.1"), folder+"/cert", folder+"/key")
	trial.Write(t, folder+"/routers", trial.ECDSA.Save(t, folder+"/router"))
	host := trial.ECDSA.Save(t, folder+"/host")
	trial.Write(t, folder+"/known", "["+strings.Replace(e.shelled, ":", "]:", 1)+" "+host)
	return e
}

// secrets are the options for the certificate and the keys.
var secrets = []string{
	"--tls-cert", "cert", "--tls-key", "key", "--ssh-host-key", "host", "--ssh-routers", "routers",
}

// checkPayloads compares the number of payloads over each transport.
func (e everywhere) checkPayloads(t *testing.T, count int) {
	t.Helper()
	ctx, cancel := context.WithTimeout(context.Background(), trial.Wait)
	defer cancel()
	plain := fetched(t, e.plain, 2)
	secured, err := overTLS(e.secured, &tls.Config{RootCAs: e.authority.Pool()})
	if err != nil {
		t.Error(err)
	}
	shelled, err := overSSH(t, e.shelled, e.folder+"/router", e.folder+"/known").Fetch(ctx)
	if err != nil {
		t.Error(err)
	}
	if plain.Len() != count || secured.Len() != count || shelled.Len() != count {
		t.Error(plain.Len(), secured.Len(), shelled.Len())
	}
}

// Sockets of systemd-socket-activate, if it is installed, are served by the transports of their
// names.
func TestSocketActivation(t *testing.T) {
	path, err := exec.LookPath("systemd-socket-activate")
	if err != nil {
		t.Skip("no systemd-socket-activate here")
	}
	folder := t.TempDir()
	trial.Write(t, folder+"/f", rows(3))
	e := reachable(t, folder)
	line := append([]string{"-l", e.plain, "-l", e.secured, "-l", e.shelled,
		"--fdname=rtr-cache.socket:tls:ssh", "-E", "RTR_TRIAL=1", os.Args[0], "--csv", "f"}, secrets...)
	process := trial.StartBy(t, folder, nil, exec.Command(path, line...))
	process.Says("Listening on "+e.shelled, 1)
	dialed(t, e.plain).Close() // at which the cache is started
	process.Says("3 payloads", 1)
	e.checkPayloads(t, 3)
	if status := process.End(); status != words.Well {
		t.Error(status)
	}
}

// awaitNotify waits for the next notification of systemd, and compares its first line.
func awaitNotify(t *testing.T, socket *net.UnixConn, text string) {
	t.Helper()
	buffer := make([]byte, 100)
	socket.SetReadDeadline(time.Now().Add(trial.Wait))
	n, err := socket.Read(buffer)
	if got := strings.Split(string(buffer[:n]), "\n")[0]; err != nil || got != text {
		t.Fatalf("%q, %v", got, err)
	}
}

// Clients that don't speak RTR are refused and logged by one line, and others are still served.
func TestWrongClients(t *testing.T) {
	folder := t.TempDir()
	trial.Write(t, folder+"/f", rows(3))
	process, address := started(t, folder, "--csv", "f")
	process.Says("3 payloads", 1)
	for text, says := range map[string]string{
		"GET / HTTP/1.1\r\n\r\n":                            "reason=rule",
		"\x01\x04\x00\x00\x00\x00\x00\x14" + "0123456789ab": "reason=",
		"\x01\x02\x00\x00\x00\x00\x00":                      "reason=unit",
	} {
		before := process.Lines("level=warning")
		connection := dialed(t, address)
		connection.Write([]byte(text))
		connection.(*net.TCPConn).CloseWrite()
		process.Says("level=warning", before+1)
		if process.Lines(says) == 0 || process.Lines("level=warning") != before+1 {
			t.Errorf("%q: %s", text, process.Stderr())
		}
		if data := fetched(t, address, 1); data.Len() != 3 {
			t.Error(data.Len())
		}
	}
}

// stayrtr's rtrdump and rtrlib's rtrclient, if installed, read the same payloads.
func TestPeers(t *testing.T) {
	folder := t.TempDir()
	trial.Write(t, folder+"/f", rows(3))
	process, address := started(t, folder, "--csv", "f")
	process.Says("3 payloads", 1)
	host, port, err := net.SplitHostPort(address)
	if err != nil {
		t.Fatal(err)
	}
	for name, line := range map[string][]string{
		"rtrdump":   {"-connect", address, "-rtr.version", "1", "-file", folder + "/dump"},
		"rtrclient": {"-e", "-t", "csv", "-o", folder + "/dump", "tcp", host, port},
	} {
		t.Run(name, func(t *testing.T) {
			path, err := exec.LookPath(name)
			if err != nil {
				t.Skipf("no %s here", name)
			}
			ctx, cancel := context.WithTimeout(context.Background(), trial.Wait)
			defer cancel()
			output, err := exec.CommandContext(ctx, path, line...).CombinedOutput()
			if err != nil {
				t.Fatalf("%v: %s", err, output)
			}
			text, err := os.ReadFile(folder + "/dump")
			if err != nil {
				t.Fatalf("%v: %s", err, output)
			}
			for _, prefix := range []string{"10.0.0.0", "10.0.1.0", "10.0.2.0"} {
				if strings.Count(string(text), prefix) != 1 {
					t.Errorf("%s: %s\n%s", prefix, text, output)
				}
			}
		})
	}
}
