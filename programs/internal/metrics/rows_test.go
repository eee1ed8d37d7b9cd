package metrics

import (
	"testing"

	"fishreef/programs/internal/clients"
	"fishreef/programs/internal/trial"
	"fishreef/programs/internal/trust"
)

// exported returns the metrics of a cache.
func exported() *trial.Exported {
	m := New()
	m.Judges(func() []trust.Fault { return nil })
	m.Collects(clients.New())
	return trial.NewExported("rtr_cache_", "RtrCache", m.registry)
}

// Each metric has a row on the page, with its labels, and each row has a metric.
func TestRows(t *testing.T) { exported().Rows(t, 20) }

// Each rule names existing metrics and labels, each metric has a rule, and the page names each rule
// and no others.
func TestRules(t *testing.T) { exported().Alerts(t, 15) }
