package main

import (
	"bytes"
	"context"
	"errors"
	"fmt"
	"os"
	"path/filepath"
	"strings"
	"syscall"

	"fishreef/programs/internal/beside"
	"fishreef/rtr"
)

// outFile is the file of --out.
type outFile struct {
	path   string
	format string         // the option of rtr_list that writes it
	lister beside.Program // rtr_list
}

// newOutFile returns the file of a path: CSV or JSON, by the end of its name.
//
// Errors: the path is that of a folder or a socket; there is no rtr_list.
func newOutFile(path string) (*outFile, error) {
	o := &outFile{path: path, format: "--vrps"}
	if strings.EqualFold(filepath.Ext(path), ".csv") {
		o.format = "--csv"
	}
	if info, err := os.Stat(path); err == nil {
		switch {
		case info.IsDir():
			return nil, fmt.Errorf("--out: %s is a folder", path)
		case info.Mode()&os.ModeSocket != 0:
			return nil, fmt.Errorf("--out: %s is a socket", path)
		}
	}
	var err error
	o.lister, err = beside.Find("rtr_list")
	return o, err
}

// keep writes data, and returns the messages of rtr_list about payloads that the format lacks.
func (o *outFile) keep(ctx context.Context, data rtr.Data) (lacking string, err error) {
	text, notes, err := o.lister.Run(ctx, bytes.NewReader(data.Bytes()), o.format)
	if err != nil {
		return "", err
	}
	lacking = o.lister.Unnamed(string(notes))
	path, info, err := o.target()
	switch {
	case err != nil:
	case info != nil && !info.Mode().IsRegular():
		err = writeThrough(path, text)
	default:
		err = replace(path, info, text)
	}
	return lacking, err
}

// drop removes the file with the former data, which mustn't be kept, and reports whether there was
// one. What was written to a device or a pipe can't be removed.
func (o *outFile) drop() (bool, error) {
	path, info, err := o.target()
	if err != nil || info == nil || !info.Mode().IsRegular() {
		return false, err
	}
	return true, os.Remove(path)
}

// target returns the path of the file after following links, and its info; nil if it doesn't exist.
func (o *outFile) target() (path string, info os.FileInfo, err error) {
	path, err = filepath.EvalSymlinks(o.path)
	if errors.Is(err, os.ErrNotExist) {
		// For a dangling link the file is created at the link's target, else at the path itself.
		path = o.path
		if link, failed := os.Readlink(path); failed == nil {
			path = link
			if !filepath.IsAbs(link) {
				path = filepath.Join(filepath.Dir(o.path), link)
			}
		}
	} else if err != nil {
		return "", nil, err
	}
	info, err = os.Stat(path)
	if errors.Is(err, os.ErrNotExist) {
		return path, nil, nil
	}
	return path, info, err
}

// writeThrough writes a text directly to a device or a pipe. A pipe without a reader is an error.
func writeThrough(path string, text []byte) error {
	file, err := os.OpenFile(path, os.O_WRONLY|syscall.O_NONBLOCK, 0)
	if err != nil {
		return err
	}
	_, err = file.Write(text)
	if failed := file.Close(); err == nil {
		err = failed
	}
	return err
}

// replace writes a text into a file, through a temporary file that is renamed, so that readers see
// whole data. The file keeps its permissions.
func replace(path string, info os.FileInfo, text []byte) error {
	file, err := os.CreateTemp(filepath.Dir(path), "."+filepath.Base(path)+".")
	if err != nil {
		return err
	}
	defer os.Remove(file.Name())
	defer file.Close()
	rights := os.FileMode(0o644)
	if info != nil {
		rights = info.Mode().Perm()
	}
	if _, err = file.Write(text); err == nil {
		err = file.Chmod(rights)
	}
	if err == nil {
		err = file.Sync()
	}
	if err == nil {
		err = os.Rename(file.Name(), path)
	}
	return err
}
