//go:build cgo && linux

package rtr

import (
	"bufio"
	"encoding/hex"
	"fmt"
	"os"
	"os/exec"
	"strconv"
	"strings"
	"testing"
)

// step is a given line of a scene: what the other end does, or "at" if only the clock passes.
type step struct {
	time uint64
	what string
	data []byte // the bytes or the word that it has
}

// A sceneEnd is a client or a cache with a simulated clock, in a scene (tests/joined/README.md).
type sceneEnd interface {
	set(name string, value uint64)            // a setting, before play
	parse(words []string) (what, with string) // of a step without its time
	play() error                              // until the lines of the scene end
}

// reader has the lines of scenes, and takes the answers.
type reader struct {
	*bufio.Scanner
	out      *bufio.Writer
	hasScene bool // the last line begins a scene
}

// steps is what ends have in common.
type steps struct {
	*reader
	of      sceneEnd
	pending []step
	clock   uint64
	over    bool // the last line of the scene was read
}

// does prints a step of the end.
func (s *steps) does(format string, values ...any) {
	fmt.Fprintf(s.out, "%d %s\n", s.clock, fmt.Sprintf(format, values...))
}

// sends prints what the end sends.
func (s *steps) sends(name string, bytes []byte) {
	if len(bytes) > 0 {
		s.does("%s> %x", name, bytes)
	}
}

// has reports whether there is another step, for an end that wakes by itself at this time.
func (s *steps) has(wakes uint64) bool {
	if len(s.pending) == 0 && !s.over {
		fmt.Fprintln(s.out, "wakes", wakes)
		s.out.Flush()
		s.take()
	}
	return len(s.pending) > 0
}

// take reads a step, or the line that begins the next scene.
func (s *steps) take() {
	for s.Scan() {
		words := strings.Fields(s.Text())
		if s.hasScene = words[0] == "scene"; s.hasScene {
			break
		}
		if words[0] == "router" || words[0] == "cache" {
			value, _ := strconv.ParseUint(append(words, "0")[2], 10, 64)
			s.of.set(words[1], value)
			continue
		}
		if words[0] == "at" {
			words = []string{words[1], "at"}
		}
		s.pending = append(s.pending, s.parsed(words))
		return
	}
	s.over = true
}

func (s *steps) parsed(words []string) step {
	time, err := strconv.ParseUint(words[0], 10, 64)
	what, with := s.of.parse(words[1:])
	data := []byte(with)
	if err == nil && (what == ">" || what == "data") {
		data, err = hex.DecodeString(with)
	}
	if err != nil {
		panic(err)
	}
	return step{time, what, data}
}

// playScenes runs an end for each scene of standard input.
func playScenes(begin func(s *steps) sceneEnd) error {
	r := &reader{bufio.NewScanner(os.Stdin), bufio.NewWriter(os.Stdout), false}
	r.Buffer(nil, 1<<20)
	for (&steps{reader: r}).take(); r.hasScene; {
		s := &steps{reader: r}
		r.hasScene = false
		s.of = begin(s)
		s.take()
		if err := s.of.play(); err != nil {
			return err
		}
	}
	return r.Err()
}

var ends = map[string]func(s *steps) sceneEnd{"router": newRouterEnd, "cache": newCacheEnd}

// The test program runs as an end, if its argument names one.
func TestMain(m *testing.M) {
	if begin := ends[os.Args[len(os.Args)-1]]; begin != nil {
		if err := playScenes(begin); err != nil {
			panic(err)
		}
		return
	}
	os.Exit(m.Run())
}

// A client and a cache do what each scene says.
func TestTranscripts(t *testing.T) {
	if _, err := exec.LookPath("python3"); err != nil {
		t.Skip("there is no python3 to play scenes")
	}
	program, err := os.Executable()
	if err != nil {
		t.Fatal(err)
	}
	for name := range ends {
		t.Run(name, func(t *testing.T) {
			play := "../../tests/transcripts/play.py"
			out, err := exec.Command(play, name, program, name).CombinedOutput()
			if err != nil {
				t.Fatalf("%v: %s", err, out)
			}
			t.Logf("%s", out)
		})
	}
}
