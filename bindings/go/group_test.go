//go:build cgo && linux

package rtr

import (
	"math"
	"testing"
	"time"
)

// groupOf returns a group of this number of members at time 0.
func groupOf(t *testing.T, members int, settings GroupSettings) *Group {
	t.Helper()
	group, err := NewGroup(members, settings, 0)
	if err != nil {
		t.Fatal(err)
	}
	return group
}

// decisions compares the decisions of a group with the expected ones.
func decisions(t *testing.T, rows [][2]Decision) {
	t.Helper()
	for i, row := range rows {
		if row[0] != row[1] {
			t.Errorf("row %d: %+v, not %+v", i, row[0], row[1])
		}
	}
}

// The data of the current member are shown, or else those of the last complete answer.
func TestGroup(t *testing.T) {
	g := groupOf(t, 3, UsualGroupSettings())
	decisions(t, [][2]Decision{
		{g.Fails(0, 0), {GroupSame, 0, -1, 1}},
		{g.Shows(0, 1, 5), {GroupData, 1, -1, -1}},
		{g.Fails(0, 1), {GroupSame, 0, -1, 2}}, // its data stay
		{g.Shows(0, 2, 5), {GroupData, 2, -1, -1}},
		{g.Drops(0, 1), {GroupSame, 0, -1, -1}},
		{g.Shows(0, 0, 5), {GroupData, 0, 1, -1}}, // the others stop
		{g.Shows(0, 2, 5), {GroupSame, 0, -1, -1}},
		{g.Fails(0, 0), {GroupSame, 0, -1, 1}},
		{g.Shows(0, 0, 5), {GroupData, 0, 1, -1}},
		{g.Shows(0, -1, 5), {GroupSame, 0, -1, -1}},
		{g.Shows(0, 16, 5), {GroupSame, 0, -1, -1}},
	})
	if best, has := g.Best(); best != 0 || !has {
		t.Error(best, has)
	}
	if got := g.Drops(0, 0); got != (Decision{GroupNothing, 0, -1, 1}) {
		t.Errorf("%+v", got)
	}
	if best, has := g.Best(); best != 0 || has {
		t.Error(best, has)
	}
}

// A loss of data and the failure that caused it are one event, also if the next member fails or
// answers between them.
func TestGroupLoss(t *testing.T) {
	g := groupOf(t, 3, UsualGroupSettings())
	decisions(t, [][2]Decision{
		{g.Shows(0, 0, 5), {GroupData, 0, -1, -1}},
		{g.Drops(0, 0), {GroupNothing, 0, -1, 1}},
		{g.Fails(0, 0), {GroupSame, 0, -1, -1}},
		{g.Shows(0, 1, 5), {GroupData, 1, -1, -1}},
		{g.Drops(0, 1), {GroupNothing, 0, -1, 2}},
		{g.Shows(0, 2, 5), {GroupData, 2, -1, -1}},
		{g.Fails(0, 1), {GroupSame, 0, -1, -1}},
		{g.Drops(0, 2), {GroupNothing, 0, -1, -1}},
		{g.Fails(0, 2), {GroupSame, 0, -1, -1}},
	})
}

// An empty answer is a failure that drops data, or counts as data.
func TestGroupEmpty(t *testing.T) {
	g := groupOf(t, 2, UsualGroupSettings())
	decisions(t, [][2]Decision{
		{g.Shows(0, 0, 1), {GroupData, 0, -1, -1}},
		{g.Shows(0, 0, 0), {GroupNothing, 0, -1, 1}},
	})
	if g.Counts(0) || !g.Counts(1) {
		t.Error("empty answers count")
	}
	g = groupOf(t, 2, GroupSettings{EmptyIsData: true})
	if !g.Counts(0) {
		t.Error("empty answers don't count")
	}
	decisions(t, [][2]Decision{
		{g.Shows(0, 0, 0), {GroupData, 0, -1, -1}},
		{g.Fails(0, 0), {GroupSame, 0, -1, 1}},
	})
}

// The next member is started after the patience, while none is current.
func TestGroupPatience(t *testing.T) {
	if usual := UsualGroupSettings(); usual != (GroupSettings{5 * time.Second, false}) {
		t.Error(usual)
	}
	g := groupOf(t, 3, UsualGroupSettings())
	for i, row := range []struct {
		now   time.Duration
		start int
		wakes time.Duration
	}{
		{-time.Second, -1, 5 * time.Second},
		{5*time.Second - time.Millisecond, -1, 5 * time.Second},
		{5 * time.Second, 1, 10 * time.Second},
		{11 * time.Second, 2, 0},
		{time.Hour, -1, 0},
	} {
		start := g.Tick(row.now).Start
		if wakes, _ := g.Wakes(); start != row.start || wakes != row.wakes {
			t.Errorf("row %d: %d, %v", i, start, wakes)
		}
	}
	g = groupOf(t, 2, UsualGroupSettings())
	g.Shows(0, 0, 1)
	if wakes, ok := g.Wakes(); ok || g.Tick(time.Hour).Start != -1 {
		t.Error(wakes)
	}
}

// A group has at most 16 members; a negative number stands for none.
func TestGroupSizes(t *testing.T) {
	for _, members := range []int{MostMembers + 1, math.MaxInt} {
		if g, err := NewGroup(members, UsualGroupSettings(), 0); g != nil || err != TooManyMembers {
			t.Error(members, err)
		}
	}
	g := groupOf(t, 16, UsualGroupSettings())
	for member := 0; member < 16; member++ {
		start := g.Fails(0, member).Start
		if start != member+1 && (member != 15 || start != -1) {
			t.Error(member, start)
		}
	}
	none := groupOf(t, -1, UsualGroupSettings())
	if got := none.Shows(0, 0, 5); got != (Decision{GroupSame, 0, -1, -1}) {
		t.Errorf("%+v", got)
	}
	if TooManyMembers.Error() != "too many members" {
		t.Error(TooManyMembers)
	}
}
