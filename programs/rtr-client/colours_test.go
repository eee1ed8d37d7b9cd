package main

import (
	"os"
	"os/exec"
	"strings"
	"testing"

	"fishreef/programs/internal/trial"
	"fishreef/programs/internal/words"
)

// On a terminal an announcement is green, unless the environment has NO_COLOR or a terminal without
// colours, or JSON is asked for. Elsewhere there are no colours.
func TestColours(t *testing.T) {
	script, err := exec.LookPath("script")
	if err != nil {
		t.Skip("no script here, which makes a terminal")
	}
	_, address := cached(t, "127.0.0.1:0", data(t, 1, vrp("192.0.2.0/24", 26)))
	const line = "+ IPv4 prefix 192.0.2.0/24-26 AS64496"
	for _, c := range []struct {
		environment, options, shows string
	}{
		{"NO_COLOR= TERM=xterm", "", green + line + plain},
		{"NO_COLOR=1 TERM=xterm", "", line},
		{"NO_COLOR=yes TERM=xterm", "", line},
		{"NO_COLOR=0 TERM=xterm", "", line},
		{"NO_COLOR= TERM=dumb", "", line},
		{"NO_COLOR= TERM=xterm", "--json", `"kind":"ipv4_prefix","action":"announce"`},
		{"NO_COLOR= TERM=xterm", "| cat", line},
	} {
		prefix := "exec"
		if strings.HasPrefix(c.options, "|") {
			prefix = ""
		}
		command := c.environment + " " + prefix + " " + os.Args[0] + " --once " + address + " " + c.options
		on := trial.StartBy(t, t.TempDir(), nil, exec.Command(script, "-qec", command, "/dev/null"))
		status, output := on.Status(), on.Output()
		if status != words.Well || !strings.Contains(output, c.shows) ||
			strings.Contains(output, "\x1b[") != strings.Contains(c.shows, "\x1b[") {
			t.Errorf("%s %s: status %d, %q", c.environment, c.options, status, output)
		}
	}
}

// A withdrawal is red.
func TestColourOfWithdrawals(t *testing.T) {
	is := colours{"+": green, "-": red}
	if line := is.of("- a"); line != red+"- a"+plain {
		t.Errorf("%q", line)
	}
	if line := is.of("a"); line != "a" {
		t.Errorf("%q", line)
	}
}
