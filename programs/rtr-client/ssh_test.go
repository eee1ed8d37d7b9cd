package main

import (
	"net"
	"strings"
	"testing"

	"fishreef/programs/internal/transport"
	"fishreef/programs/internal/trial"
	"fishreef/programs/internal/words"
	"fishreef/rtr"
)

// nobody is an observer that ignores all events.
type nobody struct{}

func (nobody) Opened(*transport.Peer)                                       {}
func (nobody) Speaks(*transport.Peer, uint8)                                {}
func (nobody) Leaves(*transport.Peer, uint8)                                {}
func (nobody) Came(*transport.Peer, *rtr.Unit)                              {}
func (nobody) Moved(*transport.Peer, transport.Direction, int)              {}
func (nobody) Reported(*transport.Peer, transport.Direction, rtr.ErrorCode) {}

// The client follows a cache over SSH, if each trusts the other's key.
func TestSSH(t *testing.T) {
	folder := t.TempDir()
	host := trial.RSA.Save(t, folder+"/host")
	trial.Write(t, folder+"/routers", trial.RSA.Save(t, folder+"/key"))
	listener, err := net.Listen("tcp", "127.0.0.1:0")
	if err != nil {
		t.Fatal(err)
	}
	address := listener.Addr().String()
	trial.Write(t, folder+"/known", "["+strings.Replace(address, ":", "]:", 1)+" "+host)
	trial.Write(t, folder+"/others", "")
	ours, err := transport.NewHost(transport.SSHFiles{HostKey: folder + "/host", Routers: folder + "/routers"})
	if err != nil {
		t.Fatal(err)
	}
	gate := transport.NewGate(10, nil)
	t.Cleanup(gate.Close)
	server := rtr.NewServer()
	if err := server.Update(data(t, 1, vrp("192.0.2.0/24", 24))); err != nil {
		t.Fatal(err)
	}
	bound := transport.Bound{Kind: transport.SSH, Listener: listener}
	go server.Serve(transport.Guarded(bound, ours.Secure, gate, nobody{}))
	t.Cleanup(server.Close)
	for known, status := range map[string]words.Status{"known": words.Well, "others": words.Refused} {
		process := trial.Start(t, folder, address, "--once", "--ssh", "rpki", "--ssh-key", "key", "--ssh-known-hosts", known)
		if got := process.Status(); got != status {
			t.Errorf("%s: status %d, %s", known, got, process.Stderr())
		}
	}
}
