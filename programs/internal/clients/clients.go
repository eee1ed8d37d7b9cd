// Package clients tracks the routers that are connected to a cache: their queries, their data, and
// the bytes sent to them.
package clients

import (
	"sort"
	"sync"
	"time"

	"fishreef/programs/internal/transport"
	"fishreef/rtr"
)

// Serial identifies the data of a cache or a client.
type Serial struct {
	Session uint16 `json:"session"`
	Serial  uint32 `json:"serial"`
}

// Client is a router.
type Client struct {
	Address   string         `json:"address"`
	Transport transport.Kind `json:"transport"`
	Version   *uint8         `json:"version"` // of its first query; nil before that
	Since     time.Time      `json:"connected"`
	Asked     *time.Time     `json:"asked"`          // the time of its last query; nil for none
	Queries   int            `json:"queries"`        // the number of its queries
	Has       *Serial        `json:"has"`            // its data; nil if unknown
	Behind    *uint32        `json:"behind"`         // in serial numbers; nil if unknown
	Received  int64          `json:"bytes_received"` // by the cache
	Sent      int64          `json:"bytes_sent"`
}

// entry is what is known of a connected router, without pointers: at 10,000 routers the collector
// of garbage would follow them all.
type entry struct {
	since   time.Time
	asked   time.Time // of its last query
	queries int
	version uint8 // of its first query
	has     Serial
	holds   bool // has is known
}

// Clients are the connected routers. Safe for concurrent use.
type Clients struct {
	lock    sync.Mutex
	all     map[*transport.Peer]*entry
	present *Serial // the cache's data; nil before the first
}

// New returns an empty set of clients.
func New() *Clients {
	return &Clients{all: map[*transport.Peer]*entry{}}
}

// Serves records the cache's present data.
func (c *Clients) Serves(data rtr.Data) {
	c.lock.Lock()
	defer c.lock.Unlock()
	c.present = &Serial{data.Session(), data.Serial()}
}

// Connected adds a client.
func (c *Clients) Connected(peer *transport.Peer) {
	client := &entry{since: time.Now()}
	c.lock.Lock()
	defer c.lock.Unlock()
	c.all[peer] = client
}

// Left removes a client, and returns it.
func (c *Clients) Left(peer *transport.Peer) Client {
	c.lock.Lock()
	defer c.lock.Unlock()
	client, known := c.all[peer]
	if !known {
		client = &entry{since: time.Now()}
	}
	delete(c.all, peer)
	return c.shown(peer, client)
}

// Came records a unit of a client, and reports whether it is a query, and the first one.
func (c *Clients) Came(peer *transport.Peer, unit *rtr.Unit) (first, query bool) {
	if unit.Kind != rtr.SerialQuery && unit.Kind != rtr.ResetQuery {
		return false, false
	}
	now := time.Now()
	c.lock.Lock()
	defer c.lock.Unlock()
	client := c.all[peer]
	if client == nil {
		return false, false
	}
	if client.queries == 0 {
		client.version = unit.Version
	}
	client.asked = now
	client.queries++
	client.holds = unit.Kind == rtr.SerialQuery
	client.has = Serial{unit.Session, unit.Serial}
	return client.queries == 1, true
}

// Answered records the data that a client has now.
func (c *Clients) Answered(peer *transport.Peer, has Serial) {
	c.lock.Lock()
	defer c.lock.Unlock()
	if client := c.all[peer]; client != nil {
		client.has, client.holds = has, true
	}
}

// shown returns a client as it is listed, with Behind computed.
func (c *Clients) shown(peer *transport.Peer, client *entry) Client {
	shown := Client{
		Address: peer.String(), Transport: peer.Kind, Since: client.since, Queries: client.queries,
		Received: peer.Bytes(transport.Received), Sent: peer.Bytes(transport.Sent),
	}
	if client.queries > 0 {
		version, asked := client.version, client.asked
		shown.Version, shown.Asked = &version, &asked
	}
	if !client.holds {
		return shown
	}
	has := client.has
	shown.Has = &has
	if c.present != nil && has.Session == c.present.Session {
		behind := c.present.Serial - has.Serial
		shown.Behind = &behind
	}
	return shown
}

// List returns all clients, in the order in which they connected.
func (c *Clients) List() []Client {
	list := c.unsorted()
	sort.Slice(list, func(i, j int) bool {
		if list[i].Since.Equal(list[j].Since) {
			return list[i].Address < list[j].Address
		}
		return list[i].Since.Before(list[j].Since)
	})
	return list
}

// unsorted returns all clients.
func (c *Clients) unsorted() []Client {
	c.lock.Lock()
	defer c.lock.Unlock()
	list := make([]Client, 0, len(c.all))
	for peer, client := range c.all {
		list = append(list, c.shown(peer, client))
	}
	return list
}
