package monitor

import (
	"testing"

	"fishreef/programs/internal/trial"
)

// Each metric has a row on the page, with its labels, and each row has a metric; so have alert
// rules.
func TestRows(t *testing.T) {
	exported := trial.NewExported("rtr_monitor_", "RtrMonitor", new(Monitor))
	exported.Rows(t, 10)
	exported.Alerts(t, 5)
}
