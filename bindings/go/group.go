//go:build cgo && linux

package rtr

// #include "calls.h"
import "C"

import (
	"fmt"
	"math"
	"time"
)

// Group decides which of several caches are asked, and whose data are shown, by preference (RFC
// 8210 section 10). Each member is a Client, or something else that follows a cache; member 0 is
// preferred most. A Group holds no data. Its caller, such as Follow, starts member 0, calls a
// method for each event of a member, calls Tick at the time of Wakes, and carries out the
// decisions. Events of a member that doesn't run are ignored. Times are those of a monotonic clock.
//
// A member is current from a complete answer until its next failure. The data of the most preferred
// current member are shown; while none is current, those of the member that had the last complete
// answer, until they expire. A member runs while each member before it has failed, or was silent
// for the patience, since it was started and since its last complete answer.
type Group struct{ group C.struct_rtr_group }

// GroupSettings are the settings of a Group.
type GroupSettings struct {
	// How long a member may have no complete answer before the next one is started too, while none
	// is current.
	Patience time.Duration
	// Whether a complete answer without payloads counts as data, instead of as a failure that drops
	// the former ones.
	EmptyIsData bool
}

// UsualGroupSettings returns the defaults: a patience of five seconds, and empty answers are
// failures.
func UsualGroupSettings() GroupSettings {
	var usual C.struct_rtr_group_settings
	C.rtr_group_usual(&usual)
	return GroupSettings{span(usual.patience), bool(usual.empty_is_data)}
}

// Decision has the actions for the caller of a Group, in this order.
type Decision struct {
	// Which data are shown now: the same (GroupSame), the present data of Member (GroupData), or
	// none (GroupNothing).
	Shown  Shown
	Member int
	// The first member to stop: it and all after it stop, if they run, and their data are dropped;
	// -1 for none.
	Stop int
	// The member to start, without data; -1 for none.
	Start int
}

// Shown is how the shown data of a Group change.
type Shown uint8

// MostMembers is the maximal number of members of a Group.
const MostMembers = mostMembers

// NewGroup returns a Group with this number of members without data; the caller starts the first
// one now.
//
// Errors: TooManyMembers, for more than MostMembers.
func NewGroup(members int, settings GroupSettings, now time.Duration) (*Group, error) {
	inC := C.struct_rtr_group_settings{
		patience:      milliseconds(settings.Patience),
		empty_is_data: C.bool(settings.EmptyIsData),
	}
	g := new(Group)
	if members < 0 {
		members = 0
	}
	status := Status(C.rtr_group_init(&g.group, &inC, C.size_t(members), clockTime(now)))
	if status != OK {
		return nil, status
	}
	return g, nil
}

// clockTime converts a time for C.
func clockTime(now time.Duration) C.uint64_t {
	if now < 0 {
		return 0
	}
	return C.uint64_t(now.Milliseconds())
}

// Wakes returns the time at which to call Tick if no event comes before, and whether there is one.
func (g *Group) Wakes() (at time.Duration, wakes bool) {
	milliseconds := uint64(C.rtr_group_wakes(&g.group))
	if milliseconds > math.MaxInt64/uint64(time.Millisecond) {
		return 0, false
	}
	return time.Duration(milliseconds) * time.Millisecond, true
}

// Tick tells the group the time: when the patience is over, the next member is started.
func (g *Group) Tick(now time.Duration) Decision {
	return decisionOf(C.group_tick(&g.group, clockTime(now)))
}

// Best returns the member whose data are shown, and whether there is one.
func (g *Group) Best() (member int, has bool) {
	best := C.group_best(g.group)
	return int(best.member), bool(best.result)
}

// Counts reports whether a complete answer with this number of payloads counts as data, instead of
// as a failure (ErrEmpty).
func (g *Group) Counts(payloads int) bool {
	return bool(C.rtr_group_counts(&g.group, C.size_t(payloads)))
}

// Shows reports to the group that a member has the data of a complete answer, with this number of
// payloads. They may be unchanged.
func (g *Group) Shows(now time.Duration, member, payloads int) Decision {
	return decisionOf(C.group_shows(&g.group, clockTime(now), C.size_t(member), C.size_t(payloads)))
}

// Drops reports to the group that a member dropped its data. This counts as a failure too: calling
// Fails for the same end of a connection changes nothing.
func (g *Group) Drops(now time.Duration, member int) Decision {
	return decisionOf(C.group_drops(&g.group, clockTime(now), C.size_t(member)))
}

// Fails reports to the group that a member failed, or that its cache has no data. The member keeps
// its data.
func (g *Group) Fails(now time.Duration, member int) Decision {
	return decisionOf(C.group_fails(&g.group, clockTime(now), C.size_t(member)))
}

// tell tells the group what a member's link returned, with the number of payloads of its data: at
// most one event.
func (g *Group) tell(now time.Duration, member int, t todo, payloads int) Decision {
	reply := C.group_tell(&g.group, clockTime(now), C.size_t(member), t, C.size_t(payloads))
	if reply.result != C.RTR_GROUP_TOLD {
		panic(fmt.Sprintf("rtr: a group refused a todo with status %d", reply.result))
	}
	return decisionOf(reply.answer)
}

func decisionOf(answer C.struct_rtr_group_answer) Decision {
	d := Decision{Shown: Shown(answer.shown), Member: int(answer.member), Stop: -1, Start: -1}
	if answer.stops {
		d.Stop = int(answer.stop)
	}
	if answer.starts {
		d.Start = int(answer.start)
	}
	return d
}
