package metrics

import (
	"context"
	"net"
	"net/http"

	"github.com/prometheus/client_golang/prometheus/promhttp"

	"fishreef/programs/internal/web"
)

// Serve serves /metrics, /health and, by the handler clients, /clients until the context ends.
func (m *Metrics) Serve(
	ctx context.Context, listener net.Listener, clients http.Handler,
) error {
	paths := http.NewServeMux()
	paths.Handle("/metrics", promhttp.HandlerFor(m.registry, promhttp.HandlerOpts{}))
	paths.HandleFunc("/health", m.health)
	paths.Handle("/clients", clients)
	return web.Serve(ctx, listener, paths)
}

// health serves /health: "good", or the faults.
func (m *Metrics) health(answer http.ResponseWriter, _ *http.Request) {
	web.Health(answer, m.faults())
}
