//go:build cgo && linux

package rtr

// #include "rtr.h"
import "C"

import (
	"math"
	"time"
)

// settings are the settings of a link.
type settings = C.struct_rtr_settings

// settingsOf returns the settings of a client, with these limits and this random number.
func settingsOf(client *Client, limits ClientLimits, chance uint16) settings {
	s := usualSettings(client.highest())
	s.most_bytes = C.uint64_t(limits.Bytes)
	s.most_units = C.uint32_t(within32(limits.Units))
	s.pause = milliseconds(limits.Pause)
	s.connect_limit = milliseconds(limits.Dial)
	s.response_limit = milliseconds(limits.Response)
	s.refresh = milliseconds(client.Refresh)
	s.retry = milliseconds(client.Retry)
	s.expire = milliseconds(client.Expire)
	s.chance = C.uint16_t(chance)
	return s
}

// usualSettings returns the defaults for this version.
func usualSettings(version uint8) (usual settings) {
	C.rtr_settings_usual(&usual, C.uint8_t(version))
	return usual
}

// usualServerLimits returns the defaults.
func usualServerLimits() ServerLimits {
	usual := usualServerSettings()
	return ServerLimits{
		Connections: int(usual.most_connections),
		Refused:     int(usual.most_refused),
		First:       span(usual.cache.first_limit),
		Unit:        span(usual.unit_limit),
		Idle:        span(usual.cache.idle_limit),
		Write:       span(usual.write_limit),
		Response:    span(usual.response_limit),
		Report:      span(usual.report_limit),
		Behind:      int(usual.most_behind),
		Notify:      span(usual.cache.pause),
		Keep:        time.Duration(usual.keep) * time.Millisecond,
		KeepBytes:   int(usual.keep_bytes),
	}
}

// usualServerSettings returns the defaults of a server.
func usualServerSettings() (usual C.struct_rtr_server_settings) {
	C.rtr_server_settings_usual(&usual)
	return usual
}

// settings returns the settings of a server with these limits.
func (l ServerLimits) settings() (s C.struct_rtr_server_settings) {
	s.cache.first_limit = milliseconds(l.First)
	s.cache.idle_limit = milliseconds(l.Idle)
	s.cache.pause = milliseconds(l.Notify)
	s.cache.refuses = C.bool(l.Refuse)
	s.keep = C.uint64_t(atLeastZero(l.Keep.Milliseconds()))
	s.keep_bytes = C.size_t(atLeastZero(l.KeepBytes))
	s.unit_limit = milliseconds(l.Unit)
	s.write_limit = milliseconds(l.Write)
	s.response_limit = milliseconds(l.Response)
	s.report_limit = milliseconds(l.Report)
	s.most_connections = countOf(l.Connections)
	s.most_refused = countOf(l.Refused)
	s.most_behind = countOf(l.Behind)
	return s
}

// span converts C's milliseconds.
func span(milliseconds C.uint32_t) time.Duration {
	return time.Duration(milliseconds) * time.Millisecond
}

// milliseconds converts a duration for C. Less than a millisecond becomes 1, since 0 means unset; a
// negative duration becomes 0.
func milliseconds(span time.Duration) C.uint32_t {
	if span < 0 {
		return 0
	}
	if 0 < span && span < time.Millisecond {
		return 1
	}
	return C.uint32_t(within32(uint64(span.Milliseconds())))
}

// countOf converts a number for C: a negative one to 0, and one above 32 bits to the highest.
func countOf(number int) C.uint32_t {
	return C.uint32_t(within32(uint64(atLeastZero(number))))
}

// atLeastZero returns the number, or zero if it is negative.
func atLeastZero[T int | int64](number T) T {
	if number < 0 {
		return 0
	}
	return number
}

// within32 returns the number, or the highest one of 32 bits.
func within32(n uint64) uint32 {
	if n > math.MaxUint32 {
		return math.MaxUint32
	}
	return uint32(n)
}
