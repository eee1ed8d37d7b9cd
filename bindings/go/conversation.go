//go:build cgo && linux

package rtr

// follower is a running Client: the link, which decides what to do, and the connection.
type follower struct {
	link       *link
	peer       peer
	askRequest askRequest // to query before the refresh time
	cache      string
	log        Log
	once       bool // it ends after the first data, or the first failure
	last       bool // it ends after the first failure
	changed    func(Update) error
	onFailure  func(error) // may be nil

	data      Data
	connected bool
	logged    int   // how many of the unsent bytes are in the log
	todo      *todo // the link's last action, until a caller takes it; nil then
	err       error // why there is no connection
	stopped   error // why the follower ends
}

// run performs the link's actions until the follower is stopped.
func (f *follower) run() error {
	defer f.peer.close(nil, false) // also if the caller's function panics
	for f.stopped == nil {
		f.perform(f.next())
	}
	return f.stopped
}

// next returns the next action. A request is handled before bytes that arrived after it; without a
// connection, or once that is lost, it waits for the next wait.
func (f *follower) next() todo {
	if f.connected && f.askRequest.take() {
		return f.link.askNow(f.peer.now())
	}
	return f.link.next(f.peer.now())
}

// perform performs an action.
func (f *follower) perform(t todo) {
	f.todo = &t
	switch t.kind {
	case todoWait:
		f.wait(uint64(t.wakes))
	case todoConnect:
		f.connect(uint64(t.wakes))
	case todoClose:
		f.close(t)
	case todoData:
		f.show(f.link.newData(f.peer.now()))
	case todoDropped:
		f.drop()
		f.failed(ErrExpired)
	case todoNoData:
		f.failed(reportedIn(f.link.inputFrom(t), Reported{noData: true}))
	}
}

// wait waits until a deadline, a request, or until bytes can be read or sent.
func (f *follower) wait(until uint64) {
	switch {
	case !f.connected && f.askRequest.take():
		f.perform(f.link.askNow(f.peer.now()))
	case !f.connected:
		f.stop(f.peer.rest(until))
	case len(f.link.unsent(f.peer.now())) > 0:
		f.send(until)
	default:
		f.receive(until)
	}
}

// connect connects. If the deadline passes, the link ends the attempt.
func (f *follower) connect(until uint64) {
	var err error
	f.logged = 0
	if f.connected, err = f.peer.connect(until); f.connected {
		f.logs(LevelDebug, "connected")
		f.link.opened()
	}
	f.checkLost(err)
}

// send sends some of the unsent bytes.
func (f *follower) send(until uint64) {
	f.logQueries()
	count, err := f.peer.write(f.link.unsent(f.peer.now()), until)
	f.link.sent(count)
	f.logged -= count
	f.checkLost(err)
}

// receive reads some bytes from the cache.
func (f *follower) receive(until uint64) {
	count, err := f.peer.read(f.link.inputTail(f.peer.now()), until)
	f.link.received(count)
	f.checkLost(err)
}

// checkLost tells the link, if err isn't nil, that connecting failed, or that the connection is
// lost.
func (f *follower) checkLost(err error) {
	if err != nil {
		f.err, f.connected = err, false
		f.link.lost()
		f.stop(f.peer.ended())
	}
}

// close sends the unsent bytes, and closes the connection.
func (f *follower) close(t todo) {
	reason := f.reason(t)
	if t.drops {
		f.drop()
	}
	f.logQueries()
	f.peer.close(f.link.unsent(f.peer.now()), bool(t.reports))
	f.connected = false
	f.link.release(f.peer.now())
	if reason != nil {
		f.failed(reason)
	}
}
