// Command pnuts-http answers HTTP by what regions of pnuts have.
package main

import (
	"context"
	"crypto/tls"
	"encoding/json"
	"errors"
	"flag"
	"fmt"
	"io"
	"log"
	"net"
	"net/http"
	"os"
	"os/signal"
	"runtime/debug"
	"strings"
	"sync"
	"syscall"
	"time"
)

const version = "0.3.0"

// lastTime is how long what was asked is still answered once it is told to stop.
const lastTime = 10 * time.Second

const help = `Answers HTTP by what regions of pnuts have: records, pages of them, and their changes as they come.

  pnuts-http [OPTION ..] REGION[,REGION ..] ..

REGION is tcp://HOST:PORT, tls://HOST:PORT or unix:PATH. Regions with commas between them have the same streams, and any of them may fail.
With --bounds, each further word has the regions of a further range of keys.

Options:
`

// Words are what the program was started with: among them, of each range the control socket and the regions.
type words struct {
	listen, certificate, key, tokens        string
	sessions, connections, streams, seconds int
	isQuiet                                 bool
	bounds, controls                        []string
	regions                                 [][]string
}

// parsed reads the words. Where they ask for help or the version, that is told, and the error is flag.ErrHelp.
func parsed(given []string) (told words, err error) {
	isVersion, options := false, flag.NewFlagSet("pnuts-http", flag.ContinueOnError)
	options.SetOutput(io.Discard)
	options.StringVar(&told.listen, "listen", "127.0.0.1:8080", "`ADDRESS:PORT` to listen on")
	options.StringVar(&told.certificate, "certificate", "", "`FILE` of the certificates for HTTPS and HTTP/2, read again at SIGHUP")
	options.StringVar(&told.key, "key", "", "`FILE` of their private key")
	options.StringVar(&told.tokens, "tokens", "", "`FILE` of the tokens that clients need, read again at SIGHUP")
	options.Func("bounds", "`JSON` with the first key of each range but the first", func(text string) error {
		return json.Unmarshal([]byte(text), &told.bounds)
	})
	options.Func("control", "`REGION` whose control socket tells changes; once for each range, in order", func(text string) error {
		told.controls = append(told.controls, text)
		return nil
	})
	options.IntVar(&told.sessions, "sessions", 4, "`NUMBER` of sessions of each region")
	options.IntVar(&told.connections, "connections", 20_000, "`NUMBER` of clients at once. More of them wait")
	options.IntVar(&told.streams, "streams", 15_000, "`NUMBER` of streams of changes at once")
	options.IntVar(&told.seconds, "timeout", 10, "`SECONDS` that regions have for a request")
	options.BoolVar(&told.isQuiet, "quiet", false, "write no line for each request to standard output")
	options.BoolVar(&isVersion, "version", false, "print the version")
	if err = options.Parse(given); errors.Is(err, flag.ErrHelp) {
		fmt.Print(help)
		options.SetOutput(os.Stdout)
		options.PrintDefaults()
	}
	for _, word := range options.Args() {
		told.regions = append(told.regions, strings.Split(word, ","))
	}
	if err == nil && isVersion {
		fmt.Println("pnuts-http " + version)
		return told, flag.ErrHelp
	} else if err == nil {
		err = told.check()
	}
	return told, err
}

// check says what is wrong with the words together.
func (w *words) check() error {
	switch ranges := len(w.bounds) + 1; {
	case len(w.regions) != ranges:
		return fmt.Errorf("%d ranges take as many words of regions, not %d", ranges, len(w.regions))
	case len(w.controls) != 0 && len(w.controls) != ranges:
		return fmt.Errorf("--control is wanted once for each of %d ranges, or never, not %d times", ranges, len(w.controls))
	case (w.certificate == "") != (w.key == ""):
		return errors.New("--certificate and --key belong together")
	case w.sessions < 1 || w.connections < 1 || w.streams < 1 || w.seconds < 1 || w.sessions > 1000 || w.seconds > 600 || w.connections > 1e6 || w.streams > 1e6:
		return errors.New("numbers are 1 at least, and at most 1000 sessions, 600 seconds, 1000000 connections and streams")
	}
	return nil
}

func say(text string, of ...any) { fmt.Fprintf(os.Stderr, "pnuts-http: "+text+"\n", of...) }

func main() {
	// Where nobody reads what it says, that is lost, and no reason to end.
	signal.Ignore(syscall.SIGPIPE)
	// Streams that wait have much memory, of which little is garbage.
	debug.SetGCPercent(50)
	stopping, stop := signal.NotifyContext(context.Background(), syscall.SIGTERM, syscall.SIGINT)
	told, err := parsed(os.Args[1:])
	if errors.Is(err, flag.ErrHelp) {
		return
	}
	front, status := (*front)(nil), 2
	if err == nil {
		front, err = newFront(told, stopping)
	}
	if err == nil {
		status, err = 1, front.serve(stop)
	}
	if err != nil {
		say("%v", err)
		os.Exit(status)
	}
}

// serve answers until it is told to stop.
func (f *front) serve(stop func()) error {
	listener, err := net.Listen("tcp", f.words.listen)
	if err != nil {
		return err
	}
	listener = &places{listener, make(chan struct{}, f.words.connections), f.counts}
	server := &http.Server{Handler: f, ReadHeaderTimeout: patience, IdleTimeout: idle, MaxHeaderBytes: mostHeader,
		ConnContext: withConnection, ErrorLog: log.New(complaints{}, "", 0)}
	get := func(*tls.ClientHelloInfo) (*tls.Certificate, error) { return f.certificate.Load(), nil }
	serving := func() error { return server.Serve(listener) }
	if f.words.certificate != "" {
		server.TLSConfig = &tls.Config{MinVersion: tls.VersionTLS12, GetCertificate: get}
		serving = func() error { return server.ServeTLS(listener, "", "") }
	}
	again, ended := make(chan os.Signal, 1), make(chan error, 1)
	signal.Notify(again, syscall.SIGHUP)
	say("listening on %s", listener.Addr())
	go func() { ended <- serving() }()
	for {
		select {
		case err = <-ended:
			return err
		case <-again:
			say("tokens and certificates are read again, error %v", f.load())
		case <-f.stopping.Done():
			// Another signal ends it at once.
			stop()
			f.end(server)
			return nil
		}
	}
}

// Complaints are those of the library, of which those about clients are passed over: they would be as many as clients like.
type complaints struct{}

func (complaints) Write(text []byte) (int, error) {
	if it := string(text); strings.Contains(it, "panic") || strings.Contains(it, "Accept") {
		say("%s", strings.TrimSpace(it))
	}
	return len(text), nil
}

// end waits for what was asked, and for streams to end, but not for long.
func (f *front) end(server *http.Server) {
	last, done := context.WithTimeout(context.Background(), lastTime)
	defer done()
	err := server.Shutdown(last)
	for err == nil && len(f.places["streams"]) > 0 {
		time.Sleep(10 * time.Millisecond)
		err = last.Err()
	}
	if err != nil {
		say("some requests were not answered in %v", lastTime)
		server.Close()
	}
	f.write(entry{})
	select {
	case <-f.written:
	case <-time.After(time.Second):
	}
}

// Places are those of all connections that are open at once.
type places struct {
	net.Listener
	taken  chan struct{}
	counts *counts
}

// Accept waits for a client, and then for a place.
func (p *places) Accept() (net.Conn, error) {
	found, err := p.Listener.Accept()
	if err != nil {
		return nil, err
	}
	p.taken <- struct{}{}
	p.counts.add("connections_accepted_total", 1)
	return &connection{Conn: found, of: p}, nil
}

// A connection of a client, beneath TLS. It is ended where it takes nothing for as long as patience.
type connection struct {
	net.Conn
	of     *places
	ending sync.Once
}

// Close ends the connection, and gives its place to another.
func (c *connection) Close() error {
	c.ending.Do(func() { <-c.of.taken })
	return c.Conn.Close()
}

func (c *connection) Write(text []byte) (int, error) {
	_ = c.Conn.SetWriteDeadline(time.Now().Add(patience))
	size, err := c.Conn.Write(text)
	if errors.Is(err, os.ErrDeadlineExceeded) {
		c.of.counts.add("slow_total", 1)
	}
	return size, err
}

type connectionKey struct{}

// withConnection lets the connection of a request be found.
func withConnection(ctx context.Context, found net.Conn) context.Context {
	if within, is := found.(*tls.Conn); is {
		found = within.NetConn()
	}
	return context.WithValue(ctx, connectionKey{}, found)
}

func connectionOf(ctx context.Context) *connection { return ctx.Value(connectionKey{}).(*connection) }
