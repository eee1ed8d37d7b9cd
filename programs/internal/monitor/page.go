package monitor

import (
	"html/template"
	"net/http"
	"time"

	"fishreef/programs/internal/trust"
	"fishreef/programs/internal/words"
)

// mostRows is the maximal number of differences on the page.
const mostRows = 200

// row is a source on the page.
type row struct {
	Name, Colour, State, Session, Serial, Version string
	Good, Has                                     bool
	Kinds                                         []string
	Changed, Lacks, Old                           string
	Missing                                       numbers
}

// lacks is a difference on the page.
type lacks struct {
	Payload, Missing, Since, Lasts string
	Old                            bool
}

// shown is the content of the page.
type shown struct {
	Version, Now, Grace string
	Kinds               []string
	Rows                []row
	Picture             template.HTML
	Differences         []lacks
	All, Old            int
}

// page is the template of the page.
var page = template.Must(template.New("page").Parse(`<!DOCTYPE html>
<html lang="en">
<meta charset="utf-8">
<meta name="viewport" content="width=device-width">
<meta http-equiv="refresh" content="60">
<title>rtr-monitor: {{.Old}} old differences</title>
<style>
body { font: 15px/1.4 sans-serif; margin: 1.5em auto; max-width: 1280px; padding: 0 1em;
  color: #222; background: #fff; }
h1 { font-size: 1.4em; margin: 0; }
h2 { font-size: 1.1em; margin: 1.5em 0 .4em; }
p { margin: .3em 0; color: #555; }
table { border-collapse: collapse; width: 100%; }
td, th { padding: .25em .45em; text-align: right; border-bottom: 1px solid #ddd; }
th { font-weight: 600; color: #555; }
td:first-child, th:first-child, .text { text-align: left; }
.name { font-weight: 600; overflow-wrap: anywhere; min-width: 11em; }
.time { white-space: nowrap; }
.state { min-width: 11em; }
.wide { overflow-x: auto; font-size: .93em; }
.swatch { display: inline-block; width: 1.6em; height: .35em; margin-right: .5em;
  vertical-align: middle; }
.bad { color: #b00020; }
.good { color: #1b7f3b; }
tr.recent td { color: #777; }
svg { width: 100%; height: auto; display: block; }
svg text { font: 12px sans-serif; fill: #555; }
svg text.title { font-size: 14px; font-weight: 600; fill: #222; }
svg text.scale { text-anchor: end; }
svg text.hour { text-anchor: middle; }
svg .grid { stroke: #e4e4e4; fill: none; }
svg .line { fill: none; stroke-linejoin: round; stroke-linecap: round; }
svg .young { fill: #f2c9a1; stroke: none; }
svg .old { fill: #b00020; stroke: none; }
</style>
<h1>rtr-monitor</h1>
<p>{{.Now}} UTC. {{if .All}}{{.All}} {{if eq .All 1}}difference{{else}}differences{{end}},
{{.Old}} of them for longer than {{.Grace}}.{{else}}No differences.{{end}}
<h2>Sources</h2>
<div class="wide"><table>
<tr><th>Source<th class="text">State<th>Version<th>Session<th>Serial
{{- range .Kinds}}<th>{{.}}{{end}}<th>Changed (UTC)<th>Lacks<th>over {{.Grace}}</tr>
{{range .Rows -}}
<tr><td class="name"><span class="swatch" style="background: {{.Colour}}"></span>{{.Name -}}
<td class="text state {{if .Good}}good{{else}}bad{{end}}">{{.State}}<td>{{.Version -}}
<td>{{.Session}}<td>{{.Serial}}{{range .Kinds}}<td>{{.}}{{end}}<td class="time">{{.Changed}}<td>{{.Lacks -}}
<td{{if .Missing.Old}} class="bad"{{end}}>{{.Old}}</tr>
{{end -}}
</table></div>
<h2>The last day</h2>
{{.Picture}}
{{if .Differences -}}
<h2>Differences
{{- if lt (len .Differences) .All}}: the {{len .Differences}} that have lasted longest{{end}}</h2>
<table>
<tr><th>Payload<th class="text">Missing in<th>Since (UTC)<th>For</tr>
{{range .Differences -}}
<tr{{if not .Old}} class="recent"{{end}}><td>{{.Payload}}<td class="text">{{.Missing -}}
<td class="time">{{.Since}}<td class="time">{{.Lasts}}</tr>
{{end -}}
</table>
{{end -}}
<p><a href="diff.json">diff.json</a> · <a href="metrics">metrics</a> · <a href="health">health</a> ·
rtr-monitor {{.Version}}
</html>
`))

// stamped returns a time for a reader; "" for none.
func stamped(at time.Time) string {
	if at.IsZero() {
		return ""
	}
	return at.UTC().Format("2006-01-02 15:04:05")
}

// content returns the present content of the page.
func (m *Monitor) content(now time.Time) shown {
	m.lock.Lock()
	defer m.lock.Unlock()
	s := shown{
		Version: words.Version, Now: stamped(now), Grace: shortTime(m.settings.Grace),
	}
	for _, kind := range trust.Kinds {
		s.Kinds = append(s.Kinds, trust.Plural(kind, 2))
	}
	var names []string
	for index, numbers := range m.differences.counts {
		source := m.states[index]
		names = append(names, source.Name)
		r := source.row(now)
		r.Colour, r.Missing = colourOf(index), numbers
		if r.Has {
			r.Lacks, r.Old = thousands(numbers.All()), thousands(numbers.Old)
		}
		s.Rows = append(s.Rows, r)
		s.All += numbers.All()
		s.Old += numbers.Old
	}
	for _, d := range m.differences.list(mostRows, false) {
		s.Differences = append(s.Differences, lacks{
			d.Line(), m.states[d.source].Name, stamped(d.Since),
			now.Sub(d.Since).Round(time.Second).String(), d.old,
		})
	}
	s.Picture = template.HTML(picture(names, m.day.with(m.sample(now)), m.settings.Grace))
	return s
}

// row returns the row of a source on the page.
func (s *state) row(now time.Time) row {
	r := row{Name: s.Name, Changed: stamped(s.changed)}
	r.State, r.Good = s.stateText(now)
	for _, kind := range trust.Kinds {
		text := ""
		if !s.data.IsZero() && kind.In(s.version) {
			text = thousands(s.kinds[kind])
		}
		r.Kinds = append(r.Kinds, text)
	}
	if r.Has = !s.data.IsZero(); r.Has {
		r.Version = numeral(uint32(s.version))
	}
	if s.session != nil {
		r.Session, r.Serial = numeral(uint32(*s.session)), numeral(*s.serial)
	}
	return r
}

// servePage sends the page.
func (m *Monitor) servePage(answer http.ResponseWriter, ask *http.Request) {
	if ask.URL.Path != "/" {
		http.NotFound(answer, ask)
		return
	}
	answer.Header().Set("Content-Type", "text/html; charset=utf-8")
	page.Execute(answer, m.content(time.Now()))
}
