//go:build cgo && linux

package rtr

// #define _GNU_SOURCE
// #include <sys/mman.h>
import "C"

import (
	"os"
	"runtime"
	"syscall"
	"unsafe"
)

// The size of a huge page.
const hugePage = 1 << 21

// piece is a part of an answer: bytes, or the rest of a file in memory (memfd_create), which the
// kernel sends without copying it to user space.
type piece struct {
	bytes  []byte
	file   *os.File
	offset int64 // of the unsent rest of the file
	left   int   // the size of that rest
}

// filed returns an answer: its first unit, and data. Large ones are a file in memory, if the system
// supports it, and small ones are in one piece.
func filed(opening, data []byte) [2]piece {
	size := len(opening) + len(data)
	if size < chunk {
		return [2]piece{{bytes: append(append(make([]byte, 0, size), opening...), data...)}}
	}
	if file := fileOf(opening, data); file != nil {
		return [2]piece{{file: file, left: size}}
	}
	return [2]piece{{bytes: opening}, {bytes: data}}
}

// fileOf returns a file in memory with these bytes; nil if the system doesn't support it.
func fileOf(first, second []byte) *os.File {
	size := len(first) + len(second)
	name := [...]C.char{'r', 't', 'r', 0}
	descriptor, _ := C.memfd_create(&name[0], C.MFD_CLOEXEC)
	if descriptor < 0 {
		return nil
	}
	beginHuge(int(descriptor), size)
	// One write: beyond the limit for file sizes a second one would end the process (SIGXFSZ).
	if n, err := writeBoth(int(descriptor), first, second); err != nil || n < size {
		syscall.Close(int(descriptor))
		return nil
	}
	return os.NewFile(uintptr(descriptor), "rtr")
}

// writeBoth writes two byte strings, which aren't empty, to a file by one call of the system.
func writeBoth(file int, first, second []byte) (int, error) {
	parts := [2]syscall.Iovec{{Base: &first[0]}, {Base: &second[0]}}
	parts[0].SetLen(len(first))
	parts[1].SetLen(len(second))
	n, _, err := syscall.Syscall(syscall.SYS_WRITEV, uintptr(file),
		uintptr(unsafe.Pointer(&parts[0])), uintptr(len(parts)))
	if err != 0 {
		return 0, err
	}
	return int(n), nil
}

// beginHuge allocates huge pages at the front of an empty file in memory for size bytes, and leaves
// out a last page that would be less than half full: sending from huge pages is faster. Writing a
// byte to a page allocates it. If the system has no huge pages, or a write past the limit of file
// sizes would end the process, the file gets normal pages later.
func beginHuge(file, size int) {
	const collapse = 25 // MADV_COLLAPSE, since Linux 6.1
	var limit syscall.Rlimit
	huge := (size + hugePage/2) / hugePage * hugePage
	err := syscall.Getrlimit(syscall.RLIMIT_FSIZE, &limit)
	if huge == 0 || err != nil || limit.Cur < uint64(size) {
		return
	}
	length := C.size_t(huge + hugePage)
	area, err := C.mmap(nil, length, C.PROT_NONE, C.MAP_PRIVATE|C.MAP_ANONYMOUS, -1, 0)
	if err != nil {
		return
	}
	defer C.munmap(area, length)
	aligned := unsafe.Add(area, -uintptr(area)%hugePage)
	_, err = C.mmap(aligned, C.size_t(huge), C.PROT_READ, C.MAP_SHARED|C.MAP_FIXED, C.int(file), 0)
	for offset := 0; err == nil && offset < huge; offset += hugePage {
		_, err = syscall.Pwrite(file, []byte{0}, int64(offset))
	}
	if err == nil {
		C.madvise(aligned, C.size_t(huge), collapse)
	}
}

// size returns the number of bytes left to send.
func (p *piece) size() int { return len(p.bytes) + p.left }

// send writes some of the piece to a socket, and returns how many bytes were sent. It repeats a
// call that a signal interrupted: the socket isn't full then, and the system may never report it as
// ready.
func (p *piece) send(socket int) (sent int, err error) {
	for err = syscall.EINTR; err == syscall.EINTR; {
		sent, err = p.sendOnce(socket)
	}
	return sent, err
}

// sendOnce is send with one call of the system.
func (p *piece) sendOnce(socket int) (int, error) {
	if p.file == nil {
		return syscall.Write(socket, p.bytes)
	}
	offset := p.offset
	sent, err := syscall.Sendfile(socket, int(p.file.Fd()), &offset, p.left)
	runtime.KeepAlive(p.file)
	return sent, err
}

// skip skips sent bytes.
func (p *piece) skip(sent int) {
	if p.file == nil {
		p.bytes = p.bytes[sent:]
		return
	}
	p.offset, p.left = p.offset+int64(sent), p.left-sent
}
