package main

import (
	"fmt"
	"os"
	"regexp"
	"strings"
	"testing"
	"time"

	"fishreef/programs/internal/trial"
	"fishreef/programs/internal/words"
)

// short returns a time as people write it: 2h, and not 2h0m0s.
func short(span time.Duration) string {
	text := span.String()
	for _, zero := range []string{"m0s", "h0m"} {
		if strings.HasSuffix(text, zero) {
			text = text[:len(text)-2]
		}
	}
	return text
}

// defaults returns the defaults of the code, by option.
func defaults() map[string]string {
	w := usual()
	s := &w.settings
	return map[string]string{
		"look": short(s.Look), "stale": short(s.Rules.Stale), "guard": fmt.Sprintf("%d%%", s.Rules.Guard),
		"guard-time": short(s.Rules.Quiet), "refresh": fmt.Sprint(s.Timing.Refresh), "retry": fmt.Sprint(s.Timing.Retry),
		"expire": fmt.Sprint(s.Timing.Expire), "max-clients": fmt.Sprint(s.Clients),
		"fetch": short(s.Fetch.Every), "fetch-timeout": short(s.Fetch.Timeout),
		"fetch-limit":     fmt.Sprint(s.Fetch.Bytes / 1e6),
		"max-per-address": fmt.Sprint(s.PerAddress), "log-level": w.log.Level.String(), "listen": ":3323",
	}
}

// manual returns the man page's text of each option, without its macros.
func manual(t *testing.T) map[string]string {
	t.Helper()
	page, err := os.ReadFile("../../docs/man/rtr-cache.8")
	if err != nil {
		t.Fatal(err)
	}
	says, names := map[string]string{}, []string(nil)
	for _, line := range strings.Split(string(page), "\n") {
		item := regexp.MustCompile(`^\.It Fl -([a-z-]+)`).FindStringSubmatch(line)
		if item != nil {
			if len(names) > 0 && says[names[0]] != "" {
				names = nil
			}
			names = append(names, item[1])
			continue
		}
		for _, name := range names {
			line = regexp.MustCompile(`^\.[A-Z][a-z] `).ReplaceAllString(line, "")
			says[name] += strings.TrimLeft(line, ".") + " "
		}
		if strings.HasPrefix(line, ".El") {
			names = nil
		}
	}
	return says
}

// The help and the man page name exactly the defaults of the code.
func TestDocumentedDefaults(t *testing.T) {
	w, expected := usual(), defaults()
	options := words.Join(w.ofFiles(), w.settings.Reader.Options(), w.ofData(),
		w.settings.Fetch.Options(),
		w.ofGuard(), w.ofTimings(), w.ofSockets(), w.ofTLS(), w.ofSSH(), w.ofLimits(),
		w.ofReports(), w.log.Options())
	pages := manual(t)
	named := regexp.MustCompile(`\(default\s+([^)]*)\)`)
	listed := []string{expected["refresh"], expected["retry"], expected["expire"]}
	intervals := fmt.Sprintf("%s, %s and %s", listed[0], listed[1], listed[2])
	for _, option := range options {
		help := named.FindStringSubmatch(option.Help)
		page := named.FindStringSubmatch(pages[option.Name])
		value, has := expected[option.Name]
		delete(expected, option.Name)
		if has != (help != nil) || has && help[1] != value {
			t.Errorf("--%s: the help says %q, and the code %q", option.Name, help, value)
		}
		switch option.Name {
		case "refresh", "retry", "expire":
			value = intervals
		case "listen": // it is said in a sentence
			if has = !strings.Contains(pages["listen"], "port 3323 of all addresses"); has {
				t.Error(pages["listen"])
			}
		}
		if has != (page != nil) || has && strings.TrimSpace(page[1]) != value {
			t.Errorf("--%s: the man page says %q, and the code %q", option.Name, page, value)
		}
	}
	if len(expected) != 0 {
		t.Errorf("there are no options %v", expected)
	}
}

// Without options the program uses the documented port, 3323.
func TestUsualPort(t *testing.T) {
	folder := t.TempDir()
	trial.Write(t, folder+"/f", rows(3))
	process := trial.Start(t, folder, "--csv", "f")
	process.Await("the address", func() bool {
		return process.Lines("listening at [::]:3323") == 1 ||
			process.Lines("address already in use") == 1
	})
}
