//go:build cgo && linux

package rtr

import (
	"errors"
	"io"
)

// Writer writes units to an io.Writer, each with one call of its Write. It has no buffer: give it a
// bufio.Writer where writes are expensive, and flush that.
type Writer struct {
	writer io.Writer
	buffer []byte
}

// ErrNoWriter: the Writer has no io.Writer, like the zero one.
var ErrNoWriter = errors.New("rtr: the Writer has no io.Writer: NewWriter makes one that has")

// NewWriter returns a Writer that writes to an io.Writer.
func NewWriter(writer io.Writer) *Writer {
	return &Writer{writer: writer, buffer: make([]byte, 0, firstBuffer)}
}

// Write writes the bytes of a unit, as Unit.AppendBinary encodes it. It allocates nothing unless
// the buffer has to grow or there is an error.
//
// Errors: those of AppendBinary, and then nothing is written; that of the io.Writer, unchanged, or
// io.ErrShortWrite; ErrNoWriter for the zero Writer.
func (w *Writer) Write(unit *Unit) error {
	if w.writer == nil {
		return ErrNoWriter
	}
	form, err := unit.AppendBinary(w.buffer[:0])
	w.buffer = form[:0]
	if err != nil {
		return err
	}
	n, err := w.writer.Write(form)
	if err == nil && n < len(form) {
		err = io.ErrShortWrite
	}
	return err
}
