package transport

import (
	"errors"
	"fmt"
	"net"
	"os"
	"sync/atomic"
	"time"

	"golang.org/x/crypto/ssh"
)

// Subsystem is the SSH subsystem of RTR (RFC 8210 section 9.1).
const Subsystem = "rpki-rtr"

// SSHFiles are the files of a cache that serves SSH.
type SSHFiles struct {
	HostKey string
	Routers string // public keys of routers, as in authorized_keys
}

// Check returns an error if something is missing.
func (f SSHFiles) Check() error {
	if (f.HostKey == "") != (f.Routers == "") {
		return errors.New("--ssh-host-key and --ssh-routers need each other")
	}
	return nil
}

// privateKey loads a private key.
func privateKey(path string) (ssh.Signer, error) {
	text, err := os.ReadFile(path)
	if err != nil {
		return nil, err
	}
	key, err := ssh.ParsePrivateKey(text)
	if err != nil {
		return nil, fmt.Errorf("%s: %w", path, err)
	}
	return key, nil
}

// Host is a cache's host key for SSH, and the keys that it trusts. Load reloads them.
type Host struct {
	files   SSHFiles
	present atomic.Pointer[ssh.ServerConfig]
}

// NewHost loads the files.
func NewHost(files SSHFiles) (*Host, error) {
	h := &Host{files: files}
	return h, h.Load()
}

// Load reloads the files, as Identity.Load does.
func (h *Host) Load() error {
	key, err := privateKey(h.files.HostKey)
	if err != nil {
		return err
	}
	trusted, err := publicKeys(h.files.Routers)
	if err != nil {
		return err
	}
	config := &ssh.ServerConfig{
		PublicKeyCallback: func(_ ssh.ConnMetadata, key ssh.PublicKey) (*ssh.Permissions, error) {
			if trusted[string(key.Marshal())] {
				return nil, nil
			}
			return nil, fmt.Errorf("%s isn't the key of a router", ssh.FingerprintSHA256(key))
		},
	}
	config.AddHostKey(key)
	h.present.Store(config)
	return nil
}

// publicKeys returns the keys of an authorized_keys file, in their wire format.
func publicKeys(path string) (map[string]bool, error) {
	text, err := os.ReadFile(path)
	if err != nil {
		return nil, err
	}
	keys := map[string]bool{}
	for {
		key, _, _, rest, err := ssh.ParseAuthorizedKey(text)
		if err != nil {
			break
		}
		keys[string(key.Marshal())] = true
		text = rest
	}
	if len(keys) == 0 {
		return nil, fmt.Errorf("%s: there is no public key in it", path)
	}
	return keys, nil
}

// handshakeTime is the time limit until a router asks for the subsystem.
const handshakeTime = 30 * time.Second

// Secure wraps a connection in SSH. The handshake runs in the background.
func (h *Host) Secure(connection net.Conn) net.Conn {
	near, far := newPiped(connection)
	go func() {
		channel, err := h.accept(connection)
		if err != nil {
			err = fmt.Errorf("the handshake of SSH: %w", err)
			near.failed.Store(&err)
			far.close()
			connection.Close()
			return
		}
		far.pass(ending{channel}, connection)
	}()
	return near
}

// ending is a channel that closes with exit status 0.
type ending struct{ ssh.Channel }

// Close closes the channel.
func (e ending) Close() error {
	good := ssh.Marshal(struct{ Status uint32 }{})
	if _, err := e.SendRequest("exit-status", false, good); err != nil {
		return err
	}
	return e.Channel.Close()
}

// accept runs the handshake, and returns the channel of the subsystem.
func (h *Host) accept(connection net.Conn) (ssh.Channel, error) {
	if err := connection.SetDeadline(time.Now().Add(handshakeTime)); err != nil {
		return nil, err
	}
	_, channels, requests, err := ssh.NewServerConn(connection, h.present.Load())
	if err != nil {
		return nil, err
	}
	go ssh.DiscardRequests(requests)
	for offered := range channels {
		if offered.ChannelType() != "session" {
			offered.Reject(ssh.UnknownChannelType, "this is a cache of the RPKI to Router protocol")
			continue
		}
		channel, requests, err := offered.Accept()
		if err != nil {
			return nil, err
		}
		if isSubsystem(requests) {
			go ssh.DiscardRequests(requests)
			go refuseChannels(channels)
			return channel, connection.SetDeadline(time.Time{})
		}
		channel.Close()
	}
	return nil, errors.New("the router didn't ask for the subsystem " + Subsystem)
}

// isSubsystem answers requests until the one for the subsystem comes, and reports whether it came.
func isSubsystem(requests <-chan *ssh.Request) bool {
	for request := range requests {
		var named struct{ Name string }
		accepted := request.Type == "subsystem" && ssh.Unmarshal(request.Payload, &named) == nil &&
			named.Name == Subsystem
		if request.WantReply {
			request.Reply(accepted, nil)
		}
		if accepted {
			return true
		}
	}
	return false
}

// refuseChannels refuses all channels except that of the subsystem.
func refuseChannels(channels <-chan ssh.NewChannel) {
	for offered := range channels {
		offered.Reject(ssh.ResourceShortage, "one channel is enough")
	}
}
