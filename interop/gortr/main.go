// Serves the origins in a file from the library gortr: lines of prefix, max length and AS. It reads
// the file again at each SIGHUP, and notifies its clients.
package main

import (
	"bufio"
	"flag"
	"fmt"
	"log"
	"net"
	"os"
	"os/signal"
	"syscall"

	rtr "github.com/cloudflare/gortr/lib"
)

// read reads the origins of a file.
func read(name string) ([]rtr.ROA, error) {
	file, err := os.Open(name)
	if err != nil {
		return nil, err
	}
	defer file.Close()
	var origins []rtr.ROA
	lines := bufio.NewScanner(file)
	for lines.Scan() {
		var prefix string
		origin := rtr.ROA{Flags: rtr.FLAG_ADDED}
		if _, err := fmt.Sscan(lines.Text(), &prefix, &origin.MaxLen, &origin.ASN); err != nil {
			return nil, err
		}
		_, network, err := net.ParseCIDR(prefix)
		if err != nil {
			return nil, err
		}
		origin.Prefix = *network
		origins = append(origins, origin)
	}
	return origins, lines.Err()
}

func main() {
	listen := flag.String("listen", "127.0.0.1:8282", "address to listen on")
	name := flag.String("file", "", "file of origins")
	version := flag.Uint("version", 1, "highest protocol version")
	flag.Parse()

	handler := &rtr.DefaultRTREventHandler{}
	server := rtr.NewServer(rtr.ServerConfiguration{
		ProtocolVersion: uint8(*version), KeepDifference: 3, SessId: -1,
	}, nil, handler)
	handler.SetROAManager(server)
	load := func() {
		origins, err := read(*name)
		if err != nil {
			log.Fatal(err)
		}
		server.AddROAs(origins)
		server.NotifyClientsLatest()
	}
	load()
	signals := make(chan os.Signal, 1)
	signal.Notify(signals, syscall.SIGHUP)
	go func() {
		for range signals {
			load()
		}
	}()
	log.Fatal(server.Start(*listen))
}
