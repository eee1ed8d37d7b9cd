package transport_test

import (
	"bytes"
	"errors"
	"io"
	"net"
	"os"
	"testing"
	"time"

	"golang.org/x/crypto/ssh"
	"golang.org/x/crypto/ssh/knownhosts"

	"fishreef/programs/internal/transport"
	"fishreef/rtr"
)

// sessionOver returns a session of a trusted router, before it asks for a subsystem. The keys are
// exchanged again after this many bytes, and each time the cache's key is checked.
func sessionOver(
	t *testing.T, folder, address string, bytes uint64, looked func(),
) (*ssh.Client, *ssh.Session) {
	t.Helper()
	text, err := os.ReadFile(folder + "/router")
	if err != nil {
		t.Fatal(err)
	}
	key, err := ssh.ParsePrivateKey(text)
	if err != nil {
		t.Fatal(err)
	}
	trusted, err := knownhosts.New(folder + "/known")
	if err != nil {
		t.Fatal(err)
	}
	client, err := ssh.Dial("tcp", address, &ssh.ClientConfig{
		Config: ssh.Config{RekeyThreshold: bytes},
		User:   "rpki", Auth: []ssh.AuthMethod{ssh.PublicKeys(key)},
		HostKeyCallback: func(name string, from net.Addr, key ssh.PublicKey) error {
			looked()
			return trusted(name, from, key)
		},
	})
	if err != nil {
		t.Fatal(err)
	}
	t.Cleanup(func() { client.Close() })
	session, err := client.NewSession()
	if err != nil {
		t.Fatal(err)
	}
	return client, session
}

// A trusted router that asks for another subsystem or for none is closed after the time limit of a
// first query.
func TestOtherSubsystem(t *testing.T) {
	folder := t.TempDir()
	server := rtr.NewServer()
	server.Limits.First = 5 * time.Second
	ended := make(chan error, 100)
	server.Ended = func(_ net.Addr, err error) { ended <- err }
	defer server.Close()
	address, err := served(folder, server)
	if err != nil {
		t.Fatal(err)
	}
	left := make(chan error, 2)
	for _, name := range []string{"sftp", ""} {
		client, session := sessionOver(t, folder, address, 0, func() {})
		go func() { left <- client.Wait() }()
		if name != "" && session.RequestSubsystem(name) == nil {
			t.Errorf("the cache has %s", name)
		}
	}
	for late := time.After(wait); len(left) < cap(left); {
		select {
		case err := <-ended:
			if !errors.Is(err, rtr.ErrTooSlow) {
				t.Error(err)
			}
		case <-late:
			t.Fatal("the cache goes on")
		case <-time.After(10 * time.Millisecond):
		}
	}
}

// Key exchanges in the middle of answers don't change the data.
func TestNewKeys(t *testing.T) {
	folder := t.TempDir()
	server := rtr.NewServer()
	defer server.Close()
	address, err := served(folder, server)
	if err != nil {
		t.Fatal(err)
	}
	looks := make(chan bool, 1000)
	_, session := sessionOver(t, folder, address, 256, func() { looks <- true })
	input, err := session.StdinPipe()
	if err != nil {
		t.Fatal(err)
	}
	output, err := session.StdoutPipe()
	if err != nil {
		t.Fatal(err)
	}
	if err := session.RequestSubsystem(transport.Subsystem); err != nil {
		t.Fatal(err)
	}
	data, err := onePayload()
	if err != nil {
		t.Fatal(err)
	}
	want := append([]byte{1, 3, 0, 7, 0, 0, 0, 8}, data.Bytes()...)
	for turn := 0; turn < 50; turn++ {
		if _, err := input.Write([]byte{1, 2, 0, 0, 0, 0, 0, 8}); err != nil {
			t.Fatal(err)
		}
		got := make([]byte, len(want))
		if _, err := io.ReadFull(output, got); err != nil || !bytes.Equal(got, want) {
			t.Fatalf("answer %d: %x, %v", turn, got, err)
		}
	}
	if len(looks) < 5 {
		t.Errorf("keys were exchanged %d times", len(looks))
	}
}
