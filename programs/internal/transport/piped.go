package transport

import (
	"io"
	"net"
	"sync/atomic"
	"time"
)

// piped is the near end of two pipes, one for each direction, to a channel of SSH. Pipes have
// deadlines, which such a channel lacks, and can be closed one by one.
type piped struct {
	input, output net.Conn
	under         net.Conn              // the connection under the channel
	failed        atomic.Pointer[error] // the error of the handshake
}

// far is the far end of the pipes.
type far struct{ input, output net.Conn }

// newPiped returns both ends of pipes to a channel over a connection.
func newPiped(under net.Conn) (*piped, *far) {
	nearInput, farInput := net.Pipe()
	nearOutput, farOutput := net.Pipe()
	return &piped{input: nearInput, output: nearOutput, under: under}, &far{farInput, farOutput}
}

// close closes both pipes.
func (f *far) close() {
	f.input.Close()
	f.output.Close()
}

// pass copies bytes between a channel and the pipes until the near end stops writing, and then
// closes the channel and the connection under it. After the peer has closed its writing side, it
// still gets bytes.
func (f *far) pass(channel io.ReadWriteCloser, under net.Conn) {
	ended := make(chan struct{})
	go func() {
		defer close(ended)
		io.Copy(f.input, channel)
		f.input.Close()
	}()
	io.Copy(channel, f.output)
	f.output.Close()
	channel.Close()
	<-ended
	under.Close()
}

// Read reads; if the handshake failed, it returns that error.
func (p *piped) Read(buffer []byte) (int, error) {
	n, err := p.input.Read(buffer)
	return n, p.reason(err)
}

// Write writes.
func (p *piped) Write(bytes []byte) (int, error) {
	n, err := p.output.Write(bytes)
	return n, p.reason(err)
}

// reason returns the error of the handshake, if that failed, instead of the error that it caused.
func (p *piped) reason(err error) error {
	if why := p.failed.Load(); err != nil && why != nil {
		return *why
	}
	return err
}

// lastTime is the time limit for sending written bytes after a close.
const lastTime = 2 * time.Second

// Close closes the connection; written bytes are sent first.
func (p *piped) Close() error {
	p.input.Close()
	p.output.Close()
	return p.under.SetDeadline(time.Now().Add(lastTime))
}

// SetDeadline sets the deadline of reads and writes.
func (p *piped) SetDeadline(at time.Time) error {
	if err := p.input.SetReadDeadline(at); err != nil {
		return err
	}
	return p.output.SetWriteDeadline(at)
}

// SetReadDeadline sets the deadline of reads.
func (p *piped) SetReadDeadline(at time.Time) error { return p.input.SetReadDeadline(at) }

// SetWriteDeadline sets the deadline of writes.
func (p *piped) SetWriteDeadline(at time.Time) error { return p.output.SetWriteDeadline(at) }

// LocalAddr returns the address of the connection under it.
func (p *piped) LocalAddr() net.Addr { return p.under.LocalAddr() }

// RemoteAddr returns the address of the connection under it.
func (p *piped) RemoteAddr() net.Addr { return p.under.RemoteAddr() }
