package main

import (
	"bytes"
	"context"
	"net"
	"os/exec"
	"strings"
	"testing"
	"time"

	"fishreef/programs/internal/transport"
	"fishreef/programs/internal/trial"
	"fishreef/rtr"
)

// startedSSH starts a cache of three payloads over SSH, and returns it, its address, and the folder
// of keys: of the host, of routers that it trusts, and of a stranger.
func startedSSH(t *testing.T, keys trial.Keys) (process *trial.Process, address, folder string) {
	folder = t.TempDir()
	trial.Write(t, folder+"/f", rows(3))
	host := keys.Save(t, folder+"/host")
	trial.Write(t, folder+"/routers", "# routers\n"+keys.Save(t, folder+"/router")+"\n"+
		keys.Save(t, folder+"/second")+"\n\n# the last one\n"+keys.Save(t, folder+"/third")+"\n")
	keys.Save(t, folder+"/stranger")
	process = trial.Start(t, folder, "--csv", "f", "--listen", "ssh:127.0.0.1:0",
		"--ssh-host-key", "host",
		"--ssh-routers", "routers", "--metrics", "127.0.0.1:0")
	process.Says("3 payloads", 1)
	address = process.After("listening at ")
	trial.Write(t, folder+"/known", "["+strings.Replace(address, ":", "]:", 1)+" "+host)
	trial.Write(t, folder+"/others",
		"["+strings.Replace(address, ":", "]:", 1)+" "+keys.Save(t, folder+"/other"))
	return process, address, folder
}

// overSSH returns a client of a cache over SSH.
func overSSH(t *testing.T, address, key, known string) *rtr.Client {
	t.Helper()
	dial, err := transport.SSHRouter{User: "rpki", Key: key, KnownHosts: known}.Dialer()
	if err != nil {
		t.Fatal(err)
	}
	client := rtr.NewClient(address)
	client.Dial = dial
	return client
}

// Over SSH a router needs a key that the cache trusts, and the cache a key that the router trusts.
func TestSSH(t *testing.T) {
	for _, keys := range []trial.Keys{trial.ECDSA, trial.RSA} {
		t.Run(string(keys), func(t *testing.T) { knownOverSSH(t, keys) })
	}
}

// knownOverSSH checks that only trusted keys of routers and of caches are accepted.
func knownOverSSH(t *testing.T, keys trial.Keys) {
	process, address, folder := startedSSH(t, keys)
	ctx, cancel := context.WithTimeout(context.Background(), trial.Wait)
	defer cancel()
	for _, router := range []string{"router", "second", "third", "router"} {
		data, err := overSSH(t, address, folder+"/"+router, folder+"/known").Fetch(ctx)
		if err != nil || data.Len() != 3 {
			t.Fatal(router, data.Len(), err)
		}
	}
	if _, err := overSSH(t, address, folder+"/stranger", folder+"/known").Fetch(ctx); err == nil ||
		!strings.Contains(err.Error(), "unable to authenticate") {
		t.Error(err)
	}
	process.Says("isn't the key of a router", 1)
	if _, err := overSSH(t, address, folder+"/router", folder+"/others").Fetch(ctx); err == nil ||
		!strings.Contains(err.Error(), "key mismatch") {
		t.Error(err)
	}
	url := strings.TrimSuffix(process.After("http://"), "/metrics")
	process.Await("no client is left", func() bool {
		_, text := trial.Get(t, "http://"+url+"/metrics")
		return strings.Contains(text, `rtr_cache_clients{transport="ssh",version="1"} 0`+"\n")
	})
}

// A router over SSH follows changes; one that doesn't read is closed, and others are still served.
func TestSSHFollows(t *testing.T) {
	_, address, folder := startedSSH(t, trial.ECDSA)
	ctx, cancel := context.WithCancel(context.Background())
	defer cancel()
	changes := make(chan rtr.Data, 10)
	go overSSH(t, address, folder+"/router", folder+"/known").Run(ctx, func(update rtr.Update) error {
		changes <- update.Data
		return nil
	})
	for _, count := range []int{3, 5000} {
		trial.Write(t, folder+"/f", rows(count))
		select {
		case data := <-changes:
			if data.Len() != count {
				t.Error(data.Len())
			}
		case <-time.After(trial.Wait):
			t.Fatal("no change came")
		}
	}
}

// A client that doesn't speak SSH, or asks for another subsystem, is refused with a line.
func TestWrongSSH(t *testing.T) {
	process, address, _ := startedSSH(t, trial.ECDSA)
	connection := dialed(t, address)
	connection.Write([]byte("\x01\x02\x00\x00\x00\x00\x00\x08\r\n"))
	connection.(*net.TCPConn).CloseWrite()
	process.Says("the handshake of SSH: ", 1)
	if process.Lines("the handshake of SSH: ") != 1 {
		t.Error(process.Stderr())
	}
}

// OpenSSH gets the same bytes, if it is installed.
func TestOpenSSH(t *testing.T) {
	for _, keys := range []trial.Keys{trial.ECDSA, trial.RSA} {
		t.Run(string(keys), func(t *testing.T) { byOpenSSH(t, keys) })
	}
}

// byOpenSSH asks a cache with OpenSSH's client.
func byOpenSSH(t *testing.T, keys trial.Keys) {
	path, err := exec.LookPath("ssh")
	if err != nil {
		t.Skip("no ssh here")
	}
	_, address, folder := startedSSH(t, keys)
	host, port, err := net.SplitHostPort(address)
	if err != nil {
		t.Fatal(err)
	}
	ctx, cancel := context.WithTimeout(context.Background(), trial.Wait)
	defer cancel()
	run := exec.CommandContext(ctx, path, "-F", "none", "-p", port, "-i", folder+"/router",
		"-o", "BatchMode=yes", "-o", "IdentitiesOnly=yes",
		"-o", "UserKnownHostsFile="+folder+"/known", "-l", "rpki", "-s", host, transport.Subsystem)
	run.Stdin = bytes.NewReader([]byte{1, 2, 0, 0, 0, 0, 0, 8})
	var stderr bytes.Buffer
	run.Stderr = &stderr
	output, err := run.Output()
	if err != nil || len(output) != 8+3*20+24 {
		t.Errorf("%x, %v: %s", output, err, stderr.String())
	}
}
