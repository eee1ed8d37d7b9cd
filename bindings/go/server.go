//go:build cgo && linux

package rtr

// #include "calls.h"
import "C"

import (
	"context"
	"errors"
	"net"
	"sync"
	"sync/atomic"
	"syscall"
	"time"
)

// ServerLimits limit what a Server allows its clients, and what it keeps for them. All clients
// share the data; for each of them only the system buffers bytes. If no number is set, the limits
// are those of NewServer; if any is set, zero in another allows nothing.
type ServerLimits struct {
	Connections int           // at once; further clients get a report, and are closed
	Refused     int           // of these at once; others wait in the queue of the system
	First       time.Duration // from the connection to the first query
	Unit        time.Duration // from the first byte of a unit to its last
	Idle        time.Duration // from one query to the next
	Write       time.Duration // how long a client may receive no byte of an answer
	Response    time.Duration // for a whole response
	Report      time.Duration // to send a last report, and for the client to read it
	Behind      int           // newer data that may come while a client is sent an answer
	Notify      time.Duration // between two notifies to a client, at least
	// How long the changes from old data are kept after newer data came; the last are always kept.
	Keep      time.Duration
	KeepBytes int // the most bytes of these, with 16 for each; and the most of computed deltas
	// Whether to answer a serial query that has no delta with a report of code 0 instead of a cache
	// reset: for routers that wait after a reset, as BIRD 2.0 does.
	Refuse bool
}

// Server is a cache: it serves Data to clients of versions 0 to 2 (RFC 8210 sections 5 to 8).
// NewServer makes one, and the zero Server is the same. Several goroutines may call it at once.
// Each client has a goroutine of its own, so that none delays another; the proved machine of rtr.h
// decides the answers.
type Server struct {
	// The limits; set them before the first call of Serve, Update or Restore.
	Limits ServerLimits
	// Ended is called with the reason when a connection ends, unless the client closed it between
	// two units. It may be nil; otherwise several goroutines may call it at once.
	Ended func(client net.Addr, err error)
	// Log is called with a line for each connection, answer, end and new data. It may be nil;
	// otherwise several goroutines may call it at once.
	Log Log

	once     sync.Once
	clock    clock
	present  atomic.Pointer[edition]
	updating sync.Mutex // guards the fields below
	store    store
	saver    *saver // nil as long as no file is named
	changes  bool   // the next data may be of another session, though it doesn't save

	lock      sync.Mutex
	listeners map[net.Listener]bool
	clients   map[*served]bool
	opening   sync.Once
	door      C.struct_rtr_door // counts the clients, and decides which ones are served
	left      sync.Cond         // a client left, or the server was closed
	closed    atomic.Bool
	running   sync.WaitGroup
}

// NewServer makes a Server without data, with limits for a cache of some hundred routers. A router
// asks at least once a day (RFC 8210 section 6), and gets a notify at most once a minute (section
// 8.2); it keeps data for two hours, if they have the recommended expire time.
func NewServer() *Server {
	s := new(Server)
	s.ready()
	return s
}

// ready initialises a zero Server.
func (s *Server) ready() {
	s.once.Do(func() {
		if s.Limits.areUnset() {
			refuse := s.Limits.Refuse
			s.Limits = usualServerLimits()
			s.Limits.Refuse = refuse
		}
		s.clock = newClock()
		s.listeners, s.clients = map[net.Listener]bool{}, map[*served]bool{}
		s.left.L = &s.lock
		s.present.Store(new(edition))
	})
}

// areUnset reports whether all numbers of the limits are zero.
func (l ServerLimits) areUnset() bool {
	l.Refuse = false
	return l == ServerLimits{}
}

// Update gives the server new data, and notifies its clients. Connections of clients that have data
// of another session are closed. If the data are the present ones, nothing happens.
//
// A server with a file, which Restore or UpdateSaved named, first saves the data to it, as
// UpdateSaved does. Without a file a server doesn't save: all its data are of one session, which it
// may not have used at an earlier start (RFC 8210 section 5.1).
//
// Serial number 0 is logged as a warning: after a cut in the first answer BIRD 2.0 asks for the
// changes since serial number 0, and keeps the part of the data that it has.
//
// Errors: ErrSameSerial, ErrNewTiming, ErrSessionLeft or ErrOneSession; ErrTiming for times that
// RFC 8210 section 6 doesn't allow; a Fault with Short for the zero Data, or with UnitVersion for
// data of a version above that of the file that Restore loaded; those of the file;
// ErrServerClosed after Close or Shutdown. Then nothing changes.
func (s *Server) Update(data Data) error {
	return s.update(data, nil, func() {})
}

// UpdateSaved is Update, but first saves the new data to this file, as Save does, and lets later
// calls of Update save to it. So whenever the process ends, the file has every serial number that a
// client may have data of, and after a restart none of them is used for other data. Restore the
// file first, if there is one: a file that this server neither restored nor wrote isn't replaced,
// as one that Restore refused, until it is removed. All data are saved to one file, which further
// calls may name by another path to it, but not by another link (ErrOtherFile).
//
// Errors: those of Update; ErrNotRestored, ErrOtherFile; ErrUnsaved if the server has data that it
// didn't save.
func (s *Server) UpdateSaved(data Data, path string) error {
	return s.update(data, saverTo(path), func() {})
}

// ChangeSession lets the next data of a server that doesn't save be of another session, under which
// it never served data, at no earlier start either (RFC 8210 section 5.1). The present data are
// served until then. A server that saves knows the sessions that it left, and ignores this call.
func (s *Server) ChangeSession() {
	s.updating.Lock()
	defer s.updating.Unlock()
	s.changes = true
}

// Data returns the data that are served; the zero Data before the first.
func (s *Server) Data() Data {
	s.ready()
	return s.present.Load().data
}

// Changes returns the changes from the present data to new ones of the same session and version, as
// Delta does: for a program that decides by them whether to serve the new data. If Update serves
// these next, clients get the changes without another computation.
//
// Errors: those of Delta.
func (s *Server) Changes(data Data) ([]byte, error) {
	present := s.Data()
	changes, err := Delta(present, data)
	if err == nil {
		data.lookup.noteChanges(present.lookup, changes)
	}
	return changes, err
}

// update is Update with two hooks: save, if it isn't nil, names the file, and before runs when the
// old data aren't served any more, before clients are notified.
func (s *Server) update(data Data, save *saver, before func()) error {
	if data.IsZero() {
		return &Fault{Status: Short, Offset: -1}
	}
	if err := data.servable(); err != nil {
		return err
	}
	s.ready()
	s.updating.Lock()
	defer s.updating.Unlock()
	if s.closed.Load() {
		return ErrServerClosed
	}
	if err := s.begin(save); err != nil {
		return err
	}
	present := s.present.Load()
	form, err := present.alike(data)
	if err != nil {
		return err
	}
	if taken, err := s.keep(form); !taken || err != nil {
		return err
	}
	next := s.edition(present.number + 1)
	if changes := form.lookup.changesFrom(present.data.lookup); len(next.known) > 0 {
		next.keep(question{form.Version(), present.data.Serial()}, changes)
	}
	s.present.Store(next)
	present.replaced()
	before()
	s.logs(data)
	s.wake()
	return nil
}

// begin sets how the server saves, if save isn't nil, and checks that it may replace the file. The
// file stays named even if saving then fails, since it may have the data nevertheless.
func (s *Server) begin(save *saver) error {
	if s.saver != nil {
		named := s.saver.path
		if save != nil {
			named = save.path
		}
		if err := s.saver.is(named); err != nil {
			return err
		}
		return s.saver.check()
	}
	if save == nil {
		return nil
	}
	if err := s.checkSaved(); err != nil {
		return err
	}
	if err := save.begin(); err != nil {
		return err
	}
	if err := save.check(); err != nil {
		return err
	}
	s.store, s.saver = newStore(), save
	return nil
}

// checkSaved returns an error if data are served that weren't saved.
func (s *Server) checkSaved() error {
	if s.saver == nil && !s.present.Load().data.IsZero() {
		return ErrUnsaved
	}
	return nil
}

// keep lets the store take new data, first saves them if there is a file, and reports whether they
// differ from what was served. After an error the store serves what it served.
func (s *Server) keep(data Data) (taken bool, err error) {
	taking, present := s.store, s.present.Load()
	changes := s.changes && data.Session() != present.data.Session()
	if s.saver == nil && (present.data.IsZero() || changes) {
		taking = unsavedStore(data.Session())
	}
	if answer := taking.take(data, s.Limits); answer.status != C.RTR_STORES_OK {
		return false, present.refused(data, answer)
	}
	if s.saver != nil {
		if err := s.saver.write(taking.toSave()); err != nil {
			return false, err
		}
	}
	taking.saved()
	s.store, s.changes = taking, false
	return true, nil
}

// edition returns the edition of what the store serves.
func (s *Server) edition(number C.uint64_t) *edition {
	_, history := s.store.served()
	return newEdition(number, history, s.Limits)
}

// servable returns an error if a cache may not serve the data. Data of version 0 have no times;
// clients of later versions get the default ones with them.
func (d Data) servable() error {
	t := d.Timing()
	return timesError(uint16(C.rtr_end_rule(C.uint8_t(d.Version()), C.uint32_t(t.Refresh),
		C.uint32_t(t.Retry), C.uint32_t(t.Expire))))
}

// SerialZeroText is a warning about data of serial number 0, which a Server logs: after a cut in the
// first answer BIRD 2.0 asks for the changes since that, and keeps the part of the data that it has.
const SerialZeroText = warningSerial0

// logs logs new data, and warns of serial number 0.
func (s *Server) logs(data Data) {
	s.Log.write(LevelInfo, "data", data.fields()...)
	if data.Serial() == 0 {
		s.Log.write(LevelWarn, SerialZeroText, "session", data.Session())
	}
}

// wake makes all clients check for a new edition, and whether the server is closed.
func (s *Server) wake() {
	s.lock.Lock()
	defer s.lock.Unlock()
	newest := s.present.Load()
	for client := range s.clients {
		client.wake(newest)
	}
	s.left.Broadcast()
}

// How many errors of a listener in a row are tolerated, and the pause after one, in which a listener
// that fails at once would take the processor. One that fails for a fifth of a second isn't taken to
// recover, and Serve returns, so that its caller can listen anew. These are of this host alone: no
// router sees them.
const (
	mostFailures = 10
	pause        = 20 * time.Millisecond
)

// Serve accepts the clients of a listener until the server is closed, and closes the listener.
// While Limits.Connections clients are served, further ones get a report; while Limits.Refused of
// these haven't left, the next ones wait in the queue of the system.
//
// Errors: ErrServerClosed; that of the listener, after ten in a row. Errors don't count while the
// system has no descriptor for another connection.
func (s *Server) Serve(listener net.Listener) error {
	defer listener.Close()
	s.ready()
	if !s.enter(listener) {
		return ErrServerClosed
	}
	defer s.leave(listener)
	s.Log.write(LevelInfo, "listening", "address", listener.Addr())
	for failures := 0; ; {
		s.awaitDoor()
		connection, err := listener.Accept()
		if err == nil {
			failures = 0
			s.take(connection)
			continue
		}
		if s.closed.Load() {
			return ErrServerClosed
		}
		if !isFull(err) {
			failures++
		}
		if failures == mostFailures {
			return err
		}
		time.Sleep(pause)
	}
}

// enter registers a listener, and reports whether the server isn't closed.
func (s *Server) enter(listener net.Listener) bool {
	s.lock.Lock()
	defer s.lock.Unlock()
	if s.closed.Load() {
		return false
	}
	s.opening.Do(func() { C.door_init(&s.door, s.Limits.settings()) })
	s.listeners[listener] = true
	s.running.Add(1)
	return true
}

// leave unregisters a listener.
func (s *Server) leave(listener net.Listener) {
	s.lock.Lock()
	defer s.lock.Unlock()
	delete(s.listeners, listener)
	s.running.Done()
}

// awaitDoor waits until another client would be served or refused, or the server is closed. Whether
// the system has a descriptor beside that of the client is known once it is accepted.
func (s *Server) awaitDoor() {
	s.lock.Lock()
	defer s.lock.Unlock()
	for !s.closed.Load() && C.door_next(s.door, true) == C.RTR_ENTRY_WAIT {
		s.left.Wait()
	}
}

// isFull reports whether the system has no descriptor for another connection.
func isFull(err error) bool {
	var why syscall.Errno
	return errors.As(err, &why) && (why == syscall.EMFILE || why == syscall.ENFILE ||
		why == syscall.ENOBUFS || why == syscall.ENOMEM)
}

// hasSpare reports whether the system has another descriptor, as for a file.
func hasSpare() bool {
	descriptor, err := syscall.EpollCreate1(syscall.EPOLL_CLOEXEC)
	if err != nil {
		return false
	}
	syscall.Close(descriptor)
	return true
}

// The size of a connection's send buffer: with a smaller one a goroutine waits more often, and with a
// larger one a slow router costs more memory of the system. It is the same in C, Rust and Python.
const writeBuffer = 1 << 17

// take serves a client in its own goroutine, or refuses it.
func (s *Server) take(connection net.Conn) {
	if tcp, ok := connection.(*net.TCPConn); ok {
		tcp.SetWriteBuffer(writeBuffer)
	}
	client, spare := newServed(s, connection), hasSpare()
	s.lock.Lock()
	defer s.lock.Unlock()
	if s.closed.Load() {
		connection.Close()
		return
	}
	entry := C.rtr_door_enter(&s.door, C.bool(spare))
	if entry == C.RTR_ENTRY_WAIT { // another listener's client was faster
		connection.Close()
		return
	}
	client.refused = entry == C.RTR_ENTRY_REFUSE
	s.clients[client] = true
	s.running.Add(1)
	go s.serve(client, entry)
}

// serve serves a client that the door let in, and closes its connection.
func (s *Server) serve(client *served, entry C.uint8_t) {
	defer s.running.Done()
	client.logs(LevelDebug, "connected")
	err := client.serve()
	client.connection.Close()
	client.logs(LevelInfo, "ended", "error", err)
	s.lock.Lock()
	delete(s.clients, client)
	C.rtr_door_leave(&s.door, entry)
	s.left.Broadcast()
	s.lock.Unlock()
	if err != nil && s.Ended != nil {
		s.Ended(client.connection.RemoteAddr(), err)
	}
}

// Close closes all listeners and connections, and returns when all goroutines of the server have
// ended. The server can't be used again.
func (s *Server) Close() {
	now, end := context.WithCancel(context.Background())
	end()
	s.Shutdown(now)
}

// Shutdown closes the server as Close does, but first completes the answers that have begun.
// Connections without one are closed at once.
//
// Errors: that of the context if it is done first; then the other connections are closed too.
func (s *Server) Shutdown(ctx context.Context) error {
	s.ready()
	s.lock.Lock()
	s.closed.Store(true)
	for listener := range s.listeners {
		listener.Close()
	}
	s.lock.Unlock()
	s.wake()
	ended := make(chan struct{})
	go func() {
		s.running.Wait()
		close(ended)
	}()
	defer func() { s.present.Load().replaced() }() // closes its files in memory
	select {
	case <-ended:
		return nil
	case <-ctx.Done():
	}
	s.lock.Lock()
	for client := range s.clients {
		client.connection.Close()
	}
	s.lock.Unlock()
	<-ended
	return ctx.Err()
}
