package monitor

import (
	"fmt"
	"html"
	"math"
	"strconv"
	"strings"
	"time"
)

// The measures of the picture, in pixels.
const (
	width, height = 1000, 470
	left, right   = 90, 985 // of both charts
	upperTop      = 30
	upperBottom   = 260
	lowerTop      = 310
	lowerBottom   = 430
	tickHeight    = 45 // the least distance between two lines of the scale
)

// colours are the colours of sources; people with colour blindness can distinguish them.
var colours = []string{
	"#0072b2", "#d55e00", "#009e73", "#cc79a7", "#e69f00", "#56b4e9", "#000000", "#8a7a00",
}

// colourOf returns the colour of a source.
func colourOf(source int) string { return colours[source%len(colours)] }

// dashOf returns the dashes of a source's line, once all colours are used.
func dashOf(source int) string {
	if source < len(colours) {
		return ""
	}
	return ` stroke-dasharray="6 3"`
}

// chart is a part of the picture, with a scale of its own.
type chart struct {
	top, bottom float64
	low, high   float64 // values at the bottom and the top
	from        time.Time
	span        time.Duration
	output      *strings.Builder
}

// x returns the x coordinate of a time.
func (c *chart) x(at time.Time) float64 {
	share := float64(at.Sub(c.from)) / float64(c.span)
	return left + (right-left)*math.Max(0, math.Min(1, share))
}

// y returns the position of a value.
func (c *chart) y(value float64) float64 {
	return c.bottom - (c.bottom-c.top)*(value-c.low)/(c.high-c.low)
}

// steps are round distances, to be multiplied by a power of ten.
var steps = []float64{1, 2, 5, 10}

// fit extends the scale to these values, with round ends, and returns the distance of its lines.
func (c *chart) fit(low, high float64) (step float64) {
	most := math.Floor((c.bottom - c.top) / tickHeight)
	rough := math.Max(1, (high-low)/most)
	power := math.Pow(10, math.Floor(math.Log10(rough)))
	for _, base := range steps {
		if step = base * power; step >= rough {
			break
		}
	}
	c.low, c.high = math.Floor(low/step)*step, math.Ceil(high/step)*step
	if c.high-c.low < 2*step {
		c.high += step
		c.low = math.Max(0, c.low-step)
	}
	return step
}

// grid draws the scale, and the hours.
func (c *chart) grid(step float64, title string) {
	fmt.Fprintf(c.output, `<text x="%d" y="%.0f" class="title">%s</text>`+"\n",
		left, c.top-10, html.EscapeString(title))
	for value := c.low; value <= c.high+step/2; value += step {
		y := c.y(value)
		fmt.Fprintf(c.output, `<path d="M%d %.1fH%d" class="grid"/>`, left, y, right)
		fmt.Fprintf(c.output, `<text x="%d" y="%.1f" class="scale">%s</text>`+"\n",
			left-8, y+4, thousands(int(value)))
	}
	first := c.from.UTC().Truncate(time.Hour).Add(time.Hour)
	for at := first; !at.After(c.from.Add(c.span)); at = at.Add(time.Hour) {
		x := c.x(at)
		if at.Hour()%3 == 0 {
			fmt.Fprintf(c.output, `<path d="M%.1f %.0fV%.0f" class="grid"/>`, x, c.top, c.bottom)
			fmt.Fprintf(c.output, `<text x="%.1f" y="%.0f" class="hour">%s</text>`+"\n",
				x, c.bottom+17, at.Format("15:04"))
		}
	}
}

// thousands returns a number with spaces between thousands.
func thousands(number int) string {
	text := strconv.Itoa(number)
	for at := len(text) - 3; at > 0 && text[at-1] != '-'; at -= 3 {
		text = text[:at] + "\u202f" + text[at:]
	}
	return text
}

// path returns the path of a line in steps, with gaps where there is no value.
func (c *chart) path(samples []sample, value func(sample) int) string {
	var path strings.Builder
	before := absent
	for i, s := range samples {
		now, x := value(s), c.x(s.at)
		isLast := i == len(samples)-1
		if before != absent && (now != before || isLast) {
			fmt.Fprintf(&path, "H%.1f", x)
		}
		switch {
		case now == before || now == absent:
		case before == absent:
			fmt.Fprintf(&path, "M%.1f %.1f", x, c.y(float64(now)))
			if isLast {
				fmt.Fprintf(&path, "H%.1f", x)
			}
		default:
			fmt.Fprintf(&path, "V%.1f", c.y(float64(now)))
		}
		before = now
	}
	return path.String()
}

// picture draws the number of payloads of each source, and the number of differences, over the last
// day.
func picture(names []string, samples []sample, grace time.Duration) string {
	var output strings.Builder
	now := samples[len(samples)-1].at
	fmt.Fprintf(&output, `<svg xmlns="http://www.w3.org/2000/svg" viewBox="0 0 %d %d" role="img" `+
		`aria-label="Payloads and differences of the last day">`+"\n", width, height)
	base := chart{from: now.Add(-lastDay), span: lastDay, output: &output}
	upper, lower := base, base
	upper.top, upper.bottom = upperTop, upperBottom
	lower.top, lower.bottom = lowerTop, lowerBottom
	upper.payloads(names, samples)
	lower.differences(samples, grace)
	fmt.Fprintf(&output, `<text x="%d" y="%d" class="hour">UTC</text>`+"\n", left-40, lowerBottom+17)
	return output.String() + "</svg>\n"
}

// payloads draws the line of each source: the first one widest, so that equal lines are all
// visible.
func (c *chart) payloads(names []string, samples []sample) {
	low, high := math.Inf(1), math.Inf(-1)
	for _, s := range samples {
		for _, count := range s.payloads {
			if count != absent {
				low, high = math.Min(low, float64(count)), math.Max(high, float64(count))
			}
		}
	}
	if low > high {
		low, high = 0, 1
	}
	c.grid(c.fit(low, high), "Payloads")
	for source := range names {
		path := c.path(samples, func(s sample) int { return s.payloads[source] })
		if path == "" {
			continue
		}
		fmt.Fprintf(c.output, `<path d="%s" class="line" stroke="%s" stroke-width="%.1f"%s/>`+"\n",
			path, colourOf(source), lineWidth(source, len(names)), dashOf(source))
	}
}

// lineWidth returns the width of a source's line.
func lineWidth(source, count int) float64 {
	return 1.5 + 4.5*float64(count-1-source)/float64(count)
}

// differences draws the number of differences, and above it that of old ones.
func (c *chart) differences(samples []sample, grace time.Duration) {
	high := 1.0
	for _, s := range samples {
		high = math.Max(high, float64(s.young+s.old))
	}
	c.grid(c.fit(0, high), "Differences (dark: for longer than "+shortTime(grace)+")")
	for _, area := range []struct {
		class string
		value func(sample) int
	}{
		{"young", func(s sample) int { return s.young + s.old }},
		{"old", func(s sample) int { return s.old }},
	} {
		path := c.path(samples, area.value)
		start := strings.Replace(path, "M", fmt.Sprintf("M%.1f %.1fL", c.x(samples[0].at), c.bottom), 1)
		fmt.Fprintf(c.output, `<path d="%sV%.1fZ" class="%s"/>`+"\n", start, c.bottom, area.class)
	}
}

// shortTime returns a duration without trailing parts that are zero.
func shortTime(time time.Duration) string {
	text := time.String()
	if strings.HasSuffix(text, "m0s") {
		text = strings.TrimSuffix(text, "0s")
	}
	if strings.HasSuffix(text, "h0m") {
		text = strings.TrimSuffix(text, "0m")
	}
	return text
}
