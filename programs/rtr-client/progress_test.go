package main

import (
	"fmt"
	"net"
	"os"
	"os/exec"
	"strings"
	"testing"
	"time"

	"fishreef/programs/internal/trial"
	"fishreef/programs/internal/words"
	"fishreef/rtr"
)

// slowly forwards the bytes of an address, a piece at a time, with pauses.
func slowly(t *testing.T, from string) string {
	listener, err := net.Listen("tcp", "127.0.0.1:0")
	if err != nil {
		t.Fatal(err)
	}
	t.Cleanup(func() { listener.Close() })
	go func() {
		client, err := listener.Accept()
		if err != nil {
			return
		}
		defer client.Close()
		cache, err := net.Dial("tcp", from)
		if err != nil {
			return
		}
		defer cache.Close()
		query := make([]byte, 8)
		if _, err := client.Read(query); err != nil {
			return
		}
		cache.Write(query)
		for buffer := make([]byte, 1<<17); ; time.Sleep(2 * pace) {
			n, err := cache.Read(buffer)
			if err != nil {
				return
			}
			client.Write(buffer[:n])
		}
	}()
	return listener.Addr().String()
}

// On a terminal a line shows how much of a long answer has come, and is removed at its end. Without
// a terminal there is no such line.
func TestProgress(t *testing.T) {
	script, err := exec.LookPath("script")
	if err != nil {
		t.Skip("no script here, which makes a terminal")
	}
	var vrps []rtr.VRP
	for i := 0; i < 20_000; i++ {
		vrps = append(vrps, vrp(fmt.Sprintf("10.%d.%d.0/24", i/256, i%256), 24))
	}
	_, address := cached(t, "127.0.0.1:0", data(t, 1, vrps...))
	line := fmt.Sprintf("exec %s %s --once --out vrps.csv", os.Args[0], slowly(t, address))
	on := trial.StartBy(t, t.TempDir(), nil, exec.Command(script, "-qec", line, "/dev/null"))
	if status := on.Status(); status != words.Well || !strings.Contains(on.Output(), "MB have come") ||
		!strings.Contains(on.Output(), "\r\x1b[Krtr-client: ") {
		t.Errorf("status %d, %q", status, on.Output())
	}
	off := trial.Start(t, t.TempDir(), slowly(t, address), "--once", "--out", "vrps.csv")
	if status := off.Status(); status != words.Well || strings.Contains(off.Stderr(), "have come") {
		t.Errorf("status %d, %q", status, off.Stderr())
	}
}
