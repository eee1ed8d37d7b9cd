package clients

import (
	"encoding/json"
	"html/template"
	"net/http"
	"strings"
	"time"

	"github.com/prometheus/client_golang/prometheus"
)

// page is the template of the page for browsers.
var page = template.Must(template.New("clients").Funcs(template.FuncMap{
	"time": func(at *time.Time) string {
		if at == nil {
			return ""
		}
		return at.UTC().Format("2006-01-02 15:04:05")
	},
}).Parse(`<!DOCTYPE html>
<html lang="en">
<meta charset="utf-8">
<title>rtr-cache: routers</title>
<style>
body { font-family: sans-serif; }
td, th { padding: .2em .8em; text-align: right; border-bottom: 1px solid #ccc; }
td:first-child, th:first-child { text-align: left; }
</style>
<h1>Routers: {{len .}}</h1>
<table>
<tr><th>Address<th>Transport<th>Version<th>Session<th>Serial<th>Behind<th>Queries<th>Last query
(UTC)<th>Connected (UTC)<th>Bytes received<th>Bytes sent</tr>
{{range . -}}
<tr><td>{{.Address}}<td>{{.Transport}}<td>{{with .Version}}{{.}}{{end -}}
<td>{{with .Has}}{{.Session}}{{end}}<td>{{with .Has}}{{.Serial}}{{end -}}
<td>{{with .Behind}}{{.}}{{end -}}
<td>{{.Queries}}<td>{{time .Asked}}<td>{{time .Connected}}<td>{{.Received}}<td>{{.Sent}}</tr>
{{end -}}
</table>
</html>
`))

// Connected returns when the client connected, for the page.
func (c Client) Connected() *time.Time { return &c.Since }

// ServeHTTP lists the clients, as HTML for a browser, else as JSON.
func (c *Clients) ServeHTTP(answer http.ResponseWriter, ask *http.Request) {
	answer.Header().Set("Vary", "Accept")
	if strings.Contains(ask.Header.Get("Accept"), "text/html") {
		answer.Header().Set("Content-Type", "text/html; charset=utf-8")
		page.Execute(answer, c.List())
		return
	}
	answer.Header().Set("Content-Type", "application/json")
	lines := json.NewEncoder(answer)
	lines.SetIndent("", "  ")
	lines.Encode(map[string][]Client{"clients": c.List()})
}

// The maximal number of clients with metrics of their own: the ones that connected first.
const mostMeasured = 100

// The metrics of each client.
var (
	labels = []string{"client", "transport"}
	behind = prometheus.NewDesc("rtr_cache_client_behind",
		"By how many serial numbers the data of a router are behind.", labels, nil)
	since = prometheus.NewDesc("rtr_cache_client_connected_timestamp_seconds",
		"When a router connected.", labels, nil)
	sent = prometheus.NewDesc("rtr_cache_client_sent_bytes",
		"Bytes sent to a router.", labels, nil)
)

// Describe sends the descriptions of the clients' metrics.
func (c *Clients) Describe(all chan<- *prometheus.Desc) {
	for _, description := range []*prometheus.Desc{behind, since, sent} {
		all <- description
	}
}

// Collect sends the present values of the metrics.
func (c *Clients) Collect(all chan<- prometheus.Metric) {
	for i, client := range c.List() {
		if i == mostMeasured {
			return
		}
		give := func(what *prometheus.Desc, value float64) {
			all <- prometheus.MustNewConstMetric(what, prometheus.GaugeValue, value,
				client.Address, string(client.Transport))
		}
		if client.Behind != nil {
			give(behind, float64(*client.Behind))
		}
		give(since, float64(client.Since.UnixMilli())/1000)
		give(sent, float64(client.Sent))
	}
}
