package payloads

import (
	"bytes"
	"context"
	"crypto/sha256"
	"errors"
	"fmt"
	"io"
	"net/url"
	"os"
	"os/exec"
	"strconv"
	"strings"
	"syscall"
	"time"

	"fishreef/programs/internal/beside"
	"fishreef/rtr"
)

// Format is the format of a file.
type Format string

// The formats of files: the first two are those of validators, the last is units: a recording of
// one or several answers, or a list, in any order.
const (
	JSON     Format = "json"
	CSV      Format = "csv"
	Sequence Format = "sequence"
)

// File is a file of payloads.
type File struct {
	Format Format
	Path   string   // or its URL, without a password
	URL    *url.URL // where it is fetched; nil for a local file
}

// Body is a fetched list, in a file without a name.
type Body struct {
	File  *os.File
	State Stamp // different from those of earlier lists
}

// Close removes the list.
func (b *Body) Close() error { return b.File.Close() }

// Stamp identifies the state of a file. The zero Stamp is that of a missing file.
type Stamp struct {
	Device, Inode     uint64
	Size              int64
	Modified, Changed syscall.Timespec
	Slurm             [sha256.Size]byte // of the states of SLURM files; zero for none
}

// StampOf returns the present stamp of the file of this path.
func StampOf(path string) Stamp {
	var now syscall.Stat_t
	if syscall.Stat(path, &now) != nil {
		return Stamp{}
	}
	return Stamp{
		Device: uint64(now.Dev), Inode: now.Ino, Size: now.Size, Modified: now.Mtim, Changed: now.Ctim,
	}
}

// SameContent reports whether two states of a file have the same content: its owner or its
// permissions may differ.
func (s Stamp) SameContent(other Stamp) bool {
	s.Changed = other.Changed
	return s == other
}

// Time returns when the file was written.
func (s Stamp) Time() time.Time {
	return time.Unix(s.Modified.Unix())
}

// Reader reads files. The proved program rtr_make reads the lists of validators.
type Reader struct {
	Maker   beside.Program // rtr_make
	Ignored []string       // names that are ignored in JSON
	Slurm   []string       // SLURM files (RFC 8416), which rtr_make applies to each list
	Empty   bool           // whether to accept a file without payloads
}

// ErrChanged is returned if a file changed while it was read.
var ErrChanged = errors.New("the file was changed while it was read")

// Expired is about the expired items of a file when it was read.
type Expired struct {
	LeftOut int       // the number of items that were left out
	Next    time.Time // when the next item expires; zero for never
}

// Has reports whether more items of the file have expired by now.
func (e Expired) Has(now time.Time) bool { return !e.Next.IsZero() && !now.Before(e.Next) }

// Read has the options for reading a file.
type Read struct {
	Now     time.Time // items that have expired by this time are left out
	Expires bool      // the file was accepted before, so it may have no items left
	Body    *Body     // the fetched list to read; nil for a local file
	Size    int       // the bytes of the data that it had before; 0 if unknown
}

// List is the content of a file.
type List struct {
	Data    rtr.Data
	State   Stamp // the state of the file
	Expired Expired
	Anchors Anchors // its items by trust anchor, if they name it
	Notes   string  // messages about the file
}

// Read reads the payloads of a file, without expired ones.
//
// Errors: ErrChanged; those of the system; the message of rtr_make about a file; why units can't be
// loaded, with the offset.
func (r *Reader) Read(ctx context.Context, file File, how Read) (list List, err error) {
	state := r.StateOf(file, how.Body)
	if list, err = r.read(ctx, file, how, state.Size); err == nil {
		list.Data, err = plain(list.Data)
	}
	list.State = state
	if r.StateOf(file, how.Body) != state {
		return List{State: state}, ErrChanged
	}
	return list, err
}

// StateOf returns the state of an input and of the SLURM files; the zero Stamp if there is no
// input.
func (r *Reader) StateOf(file File, body *Body) Stamp {
	var state Stamp
	if body != nil {
		state = body.State
	} else {
		state = StampOf(file.Path)
	}
	if gone := (Stamp{}); state == gone || len(r.Slurm) == 0 {
		return state
	}
	sum := sha256.New()
	for _, path := range r.Slurm {
		fmt.Fprintf(sum, "%q %+v\n", path, StampOf(path))
	}
	sum.Sum(state.Slurm[:0])
	return state
}

// input is a file, or a fetched list, from its start.
type input interface {
	io.Reader
	io.ReaderAt
	io.Closer
}

// fetched is a fetched list, which stays open.
type fetched struct{ *io.SectionReader }

// Close does nothing.
func (fetched) Close() error { return nil }

// open opens the input.
func (r Read) open(file File) (input, error) {
	if r.Body != nil {
		return fetched{io.NewSectionReader(r.Body.File, 0, r.Body.State.Size)}, nil
	}
	return openFile(file.Path)
}

// read reads a file of any format, and of this size.
func (r *Reader) read(
	ctx context.Context, file File, how Read, size int64,
) (list List, err error) {
	input, err := how.open(file)
	if err != nil {
		return List{}, err
	}
	defer input.Close()
	if file.Format == Sequence {
		return r.loadUnits(input)
	}
	capacity := how.capacity(size)
	if list, err = r.runMaker(ctx, input, capacity, r.words(file.Format, how)); err == nil {
		list.Anchors, err = anchorsOf(io.NewSectionReader(input, 0, rtr.MostDataBytes), file.Format)
	}
	return list, err
}

// capacity returns the size of a buffer for the data of a list of this size: with some space for more
// than it had, and for the read that sees the end. Most items of a list take at least four times
// the bytes of their unit.
func (r Read) capacity(size int64) int {
	if r.Size == 0 {
		return int(size / 4)
	}
	return r.Size + r.Size/32 + bytes.MinRead
}

// loadUnits returns the data of a recording or a list of units. Nothing in it expires.
func (r *Reader) loadUnits(input io.Reader) (list List, err error) {
	units, err := io.ReadAll(io.LimitReader(input, rtr.MostDataBytes))
	if err != nil {
		return List{}, err
	}
	data, hasCut, err := rtr.Load(units)
	var fault *rtr.Fault
	switch {
	case errors.As(err, &fault):
		return List{}, fmt.Errorf("offset %d: %s", fault.Offset, fault.Text())
	case err != nil:
		return List{}, err
	case data.Len() == 0 && !r.Empty:
		return List{}, errors.New("input: no payloads: give --empty if that is meant")
	case hasCut:
		list.Notes = "left out: an answer without an end of data"
	}
	list.Data = data
	return list, nil
}

// openFile opens a file of payloads.
//
// Errors: those of the system, without the path, which the caller adds.
func openFile(path string) (input, error) {
	file, err := os.OpenFile(path, os.O_RDONLY|syscall.O_NONBLOCK, 0)
	var failed *os.PathError
	if errors.As(err, &failed) {
		return nil, failed.Err
	}
	info, err := file.Stat()
	switch {
	case err != nil:
	case !info.Mode().IsRegular():
		err = errors.New("not a regular file")
	case info.Size() > rtr.MostDataBytes:
		err = fmt.Errorf("larger than %d bytes", rtr.MostDataBytes)
	default:
		return file, nil
	}
	file.Close()
	return nil, err
}

// IsTransient reports whether a file that couldn't be read has to be read again although it doesn't
// change: the system had no memory or no descriptors, or ended rtr_make.
func IsTransient(err error) bool {
	var ended *exec.ExitError
	if errors.As(err, &ended) {
		return !ended.Exited()
	}
	return errors.As(err, new(syscall.Errno)) && !errors.Is(err, syscall.ENOENT)
}

// runMaker returns the data that rtr_make makes of an input.
func (r *Reader) runMaker(
	ctx context.Context, input io.Reader, capacity int, line []string,
) (list List, err error) {
	output, messages, err := r.Maker.RunInto(ctx, input, capacity, line...)
	if IsTransient(err) {
		return List{}, err
	}
	if err != nil {
		return List{}, errors.New(r.Maker.Unnamed(err.Error()))
	}
	if list.Expired, err = expiredOf(r.Maker.Unnamed(string(messages))); err != nil {
		return List{}, err
	}
	list.Data, err = rtr.ParseData(output)
	return list, err
}

// The last line of rtr_make --at, if other items will expire, and if none will.
const (
	someExpire = "left out %d that have expired; the next expires at %d"
	noneExpire = "left out %d that have expired; none of the others will"
)

// expiredOf parses the last line of rtr_make, about expired items.
//
// Errors: the line has another form; ignoring it, items would expire unnoticed.
func expiredOf(messages string) (expired Expired, err error) {
	lines := strings.Split(strings.TrimSpace(messages), "\n")
	last := lines[len(lines)-1]
	var next int64
	if _, err := fmt.Sscanf(last, someExpire, &expired.LeftOut, &next); err == nil {
		expired.Next = time.Unix(next, 0)
		return expired, nil
	}
	_, _ = fmt.Sscanf(last, noneExpire, &expired.LeftOut)
	if fmt.Sprintf(noneExpire, expired.LeftOut) == last {
		return expired, nil
	}
	return Expired{}, fmt.Errorf("rtr_make says %q of what has expired", last)
}

// words returns the arguments of rtr_make for a format.
func (r *Reader) words(format Format, how Read) []string {
	line := []string{"--" + string(format)}
	if r.Empty || how.Expires {
		line = append(line, "--empty")
	}
	line = append(line, "--at", strconv.FormatInt(how.Now.Unix(), 10))
	for _, path := range r.Slurm {
		line = append(line, "--slurm", path)
	}
	if format != JSON {
		return line
	}
	for _, name := range r.Ignored {
		line = append(line, "--ignore", name)
	}
	return line
}
