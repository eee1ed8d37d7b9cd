//go:build cgo && linux

package main

import (
	"context"
	"os"
	"path/filepath"
	"strings"
	"testing"
	"time"

	"fishreef/rtr"
)

// A cache doesn't begin anew over a file that it can't read: its serial numbers could be those of
// other data.
func TestDamagedFile(t *testing.T) {
	ctx, cancel := context.WithTimeout(context.Background(), 20*time.Second)
	defer cancel()
	for _, content := range []string{"", "rtrkept2", "rtrkept1 or any other text of this length"} {
		path := filepath.Join(t.TempDir(), "data")
		if err := os.WriteFile(path+rtr.KeptSuffix, []byte(content), 0o600); err != nil {
			t.Fatal(err)
		}
		err := run(ctx, options{path: path, addresses: []string{"127.0.0.1:0", "[::1]:0"}})
		if err == nil || !strings.Contains(err.Error(), "the saved file is damaged") {
			t.Errorf("%q: %v", content, err)
		}
	}
	path := filepath.Join(t.TempDir(), "data")
	if err := os.Mkdir(path+rtr.KeptSuffix, 0o700); err != nil {
		t.Fatal(err)
	}
	err := run(ctx, options{path: path, addresses: []string{"127.0.0.1:0", "[::1]:0"}})
	if err == nil || !strings.Contains(err.Error(), "is a directory") {
		t.Errorf("a folder: %v", err)
	}
}
