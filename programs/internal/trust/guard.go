// Package trust decides what a cache trusts: whether a list may replace the served payloads, which
// time it is, and whether the cache is healthy. It does no I/O and doesn't wait: each result
// depends only on the arguments.
package trust

import (
	"fmt"
	"strconv"
	"strings"
	"time"

	"fishreef/rtr"
)

// Rules are the command line's settings of the guard.
type Rules struct {
	Guard Share         // hold a list that withdraws more of the payloads, of a kind or of an anchor
	Quiet time.Duration // accept a held list once it has stayed the same for this time
	Hold  bool          // accept a held list only with confirmation
	Stale time.Duration // report a file that was written longer ago
}

// Share is a part of a whole, in percent.
type Share int

// ParseShare parses a share such as 50%.
func ParseShare(text string) (Share, error) {
	number, err := strconv.ParseUint(strings.TrimSuffix(text, "%"), 10, 8)
	if err != nil || number > 100 {
		return 0, fmt.Errorf("%q isn't a share from 0%% to 100%%", text)
	}
	return Share(number), nil
}

// Counts are numbers of payloads, by kind.
type Counts map[rtr.Kind]int

// Kinds are the kinds of payloads.
var Kinds = []rtr.Kind{rtr.IPv4Prefix, rtr.IPv6Prefix, rtr.RouterKey, rtr.ASPA}

// Total returns the number of all payloads.
func (c Counts) Total() (total int) {
	for _, count := range c {
		total += count
	}
	return total
}

// Offer is a list that would replace the served payloads.
type Offer struct {
	Had       Counts        // the served payloads
	Withdrawn Counts        // the served payloads that the list lacks
	Anchors   []Anchor      // the trust anchors of the file when it was last accepted
	Expiry    bool          // the list is the served one, without items that have expired since
	Same      time.Duration // how long the same list has been held; 0 for a new one
	Confirmed bool          // a person confirmed this list
}

// Anchor is a trust anchor, and the numbers of its items in a file before and now.
type Anchor struct {
	Name     string
	Had, Has int
}

// Held is the error of a list that isn't accepted yet.
type Held struct {
	What          string // the payloads of which too many would be withdrawn
	Withdrawn, Of int
	Rules         Rules
}

// Error returns a text with the number of withdrawn payloads, and how the list gets accepted.
func (h *Held) Error() string {
	return fmt.Sprintf("it would withdraw %d of %d %s, which is more than %d%%: held until %s",
		h.Withdrawn, h.Of, h.What, h.Rules.Guard, h.Rules.waits())
}

// waits returns the text about how a held list or clock gets accepted.
func (r Rules) waits() string {
	if r.Hold {
		return "SIGUSR1, or a start with --force"
	}
	return fmt.Sprintf("it has stayed the same for %v, SIGUSR1, or a start with --force", r.Quiet)
}

// Judge decides about a list: it returns a Held, or nil for a list that is accepted. A list is
// accepted if it withdraws no more than the share of all payloads, of those of each kind, and of
// the items of each trust anchor; if only time has passed since it was accepted; if a person
// confirmed it; or once it was held for the quiet time, unless Hold requires a person.
func (r Rules) Judge(offer Offer) error {
	held := r.excess(offer)
	quiet := !r.Hold && offer.Same >= r.Quiet && offer.Same > 0
	if held == nil || offer.Expiry || offer.Confirmed || quiet {
		return nil
	}
	return held
}

// excess returns a Held if a list withdraws more than the share: of all payloads, else of a kind,
// else of the items of a trust anchor.
func (r Rules) excess(offer Offer) *Held {
	had, withdrawn := offer.Had.Total(), offer.Withdrawn.Total()
	if withdrawn*100 > int(r.Guard)*had {
		return &Held{"payloads", withdrawn, had, r}
	}
	for _, kind := range Kinds {
		had, withdrawn := offer.Had[kind], offer.Withdrawn[kind]
		if withdrawn*100 > int(r.Guard)*had {
			return &Held{Plural(kind, had), withdrawn, had, r}
		}
	}
	for _, anchor := range offer.Anchors {
		if lost := anchor.Had - anchor.Has; lost*100 > int(r.Guard)*anchor.Had {
			return &Held{anchor.items(), lost, anchor.Had, r}
		}
	}
	return nil
}

// items returns the name of the anchor's items, quoted as needed, since it is from a file.
func (a Anchor) items() string {
	name := a.Name
	for _, letter := range name {
		if !strconv.IsPrint(letter) || letter == '"' {
			name = strconv.Quote(name)
			break
		}
	}
	if a.Had == 1 {
		return "item of trust anchor " + name
	}
	return "items of trust anchor " + name
}

// Plural returns the name of a kind for this many payloads.
func Plural(kind rtr.Kind, count int) string {
	name := kind.String()
	switch {
	case count == 1:
		return name
	case strings.HasSuffix(name, "prefix"):
		return name + "es"
	}
	return name + "s"
}
