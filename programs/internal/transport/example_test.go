package transport_test

import (
	"context"
	"crypto"
	"crypto/ecdsa"
	"crypto/elliptic"
	"crypto/rand"
	"crypto/x509"
	"encoding/pem"
	"fmt"
	"net"
	"net/netip"
	"os"

	"golang.org/x/crypto/ssh"
	"golang.org/x/crypto/ssh/knownhosts"

	"fishreef/programs/internal/transport"
	"fishreef/rtr"
)

// overSSH returns a listener whose connections go over SSH to the subsystem rpki-rtr (RFC 8210
// section 9.1).
type overSSH struct {
	net.Listener
	host *transport.Host
}

// Accept returns the next connection.
func (l overSSH) Accept() (net.Conn, error) {
	connection, err := l.Listener.Accept()
	if err != nil {
		return nil, err
	}
	return l.host.Secure(connection), nil
}

// newKey writes a key to a file, and returns its public part.
func newKey(path string) (ssh.PublicKey, error) {
	key, err := ecdsa.GenerateKey(elliptic.P256(), rand.Reader)
	if err != nil {
		return nil, err
	}
	text, err := x509.MarshalPKCS8PrivateKey(crypto.PrivateKey(key))
	if err != nil {
		return nil, err
	}
	block := pem.EncodeToMemory(&pem.Block{Type: "PRIVATE KEY", Bytes: text})
	if err := os.WriteFile(path, block, 0o600); err != nil {
		return nil, err
	}
	return ssh.NewPublicKey(key.Public())
}

// onePayload returns data of one VRP.
func onePayload() (rtr.Data, error) {
	vrp := rtr.VRP{Prefix: netip.MustParsePrefix("192.0.2.0/24"), ASN: 64496}
	return rtr.NewDataOf([]rtr.VRP{vrp}, 1, 7, 1, rtr.RecommendedTiming)
}

// served starts a cache over SSH, whose key goes to the file known, and that trusts a router by the
// file router. It returns its address, and a function that stops it.
func served(folder string, server *rtr.Server) (address string, err error) {
	host, err := newKey(folder + "/host")
	if err != nil {
		return "", err
	}
	router, err := newKey(folder + "/router")
	if err != nil {
		return "", err
	}
	routers := ssh.MarshalAuthorizedKey(router)
	if err := os.WriteFile(folder+"/routers", routers, 0o600); err != nil {
		return "", err
	}
	files := transport.SSHFiles{HostKey: folder + "/host", Routers: folder + "/routers"}
	own, err := transport.NewHost(files)
	if err != nil {
		return "", err
	}
	data, err := onePayload()
	if err != nil {
		return "", err
	}
	if err := server.Update(data); err != nil {
		return "", err
	}
	listener, err := net.Listen("tcp", "127.0.0.1:0")
	if err != nil {
		return "", err
	}
	go server.Serve(overSSH{listener, own})
	address = listener.Addr().String()
	line := knownhosts.Line([]string{address}, host)
	return address, os.WriteFile(folder+"/known", []byte(line+"\n"), 0o600)
}

// dialed returns a client of a cache over SSH, by the files of a folder.
func dialed(folder, address string) (*rtr.Client, error) {
	router := transport.SSHRouter{
		User: "rpki", Key: folder + "/router", KnownHosts: folder + "/known",
	}
	dial, err := router.Dialer()
	if err != nil {
		return nil, err
	}
	client := rtr.NewClient(address)
	client.Dial = dial
	return client, nil
}

// A router over SSH, which trusts the cache by its key, and is trusted by its own.
func Example() {
	folder, err := os.MkdirTemp("", "rtr")
	if err != nil {
		fmt.Println(err)
		return
	}
	defer os.RemoveAll(folder)
	server := rtr.NewServer()
	defer server.Close()
	address, err := served(folder, server)
	if err != nil {
		fmt.Println(err)
		return
	}
	client, err := dialed(folder, address)
	if err != nil {
		fmt.Println(err)
		return
	}
	data, err := client.Fetch(context.Background())
	fmt.Println(data.Len(), "payload", err)
	// Output: 1 payload <nil>
}
