package main

import (
	"encoding/json"
	"fmt"
	"time"

	"fishreef/rtr"
)

// stamp is the time of a line, and the data after its change: those of a cache, or none.
type stamp struct {
	Time    string  `json:"time"`
	Cache   string  `json:"cache"`
	Session *uint16 `json:"session_id"`
	Serial  *uint32 `json:"serial_number"`
}

// stampOf returns the stamp of data that are shown now.
func stampOf(cache string, data rtr.Data) stamp {
	s := stamp{Time: now(), Cache: cache}
	if !data.IsZero() {
		session, serial := data.Session(), data.Serial()
		s.Session, s.Serial = &session, &serial
	}
	return s
}

// now returns the time in UTC, to the second.
func now() string { return time.Now().UTC().Format(time.RFC3339) }

// json returns the start of an object, up to its next member.
func (s stamp) json() string {
	// It can't fail: there are only texts and numbers.
	text, _ := json.Marshal(s)
	return string(text[:len(text)-1]) + ","
}

// text returns the start of a line.
func (s stamp) text() string {
	if s.Session == nil {
		return fmt.Sprintf("%s %s no data: ", s.Time, s.Cache)
	}
	return fmt.Sprintf("%s %s session %d serial %d: ", s.Time, s.Cache, *s.Session, *s.Serial)
}
