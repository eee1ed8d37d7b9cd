package monitor

import "time"

// The time between two samples, for how long they are kept, and how many are.
const (
	sampled  = time.Minute
	lastDay  = 24 * time.Hour
	mostKept = int(lastDay/sampled) + 1
)

// absent stands for the number of payloads of a source without data.
const absent = -1

// sample has the numbers at one time.
type sample struct {
	at         time.Time
	payloads   []int // of each source; absent for none
	young, old int   // differences
}

// day has the samples of the last day.
type day struct{ samples []sample }

// newDay returns a day without samples.
func newDay() *day { return &day{} }

// add adds a sample, and drops those older than a day.
func (d *day) add(s sample) {
	d.samples = append(d.samples, s)
	drop := 0
	for drop < len(d.samples) &&
		(len(d.samples)-drop > mostKept || s.at.Sub(d.samples[drop].at) > lastDay) {
		drop++
	}
	if drop > 0 {
		d.samples = append([]sample{}, d.samples[drop:]...)
	}
}

// with returns the samples followed by another one.
func (d *day) with(now sample) []sample {
	return append(append([]sample{}, d.samples...), now)
}
