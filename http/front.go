package main

import (
	"context"
	"crypto/sha256"
	"crypto/tls"
	_ "embed" // for the description
	"fmt"
	"net/http"
	"net/url"
	"os"
	"regexp"
	"strings"
	"sync/atomic"
	"time"
	"unicode/utf8"

	"keqapwi.example/pnuts"
	"keqapwi.example/pnuts/control"
)

const (
	// patience is how long a client is waited for that sends no more of its request, or takes nothing of the answer.
	patience = 10 * time.Second
	// idle is how long a connection is kept without a request.
	idle = 75 * time.Second
	// mostHeader and mostBody are the most bytes of a request; piece is how many of an answer have to be taken within patience.
	mostHeader, mostBody, piece = 16 << 10, 64 << 10, 256 << 10
	// mostRequests and mostPages are how many are answered at once that ask for one record, and for many.
	mostRequests, mostPages = 4096, 64
)

//go:embed openapi.json
var description []byte

// A front answers requests by what regions have. It keeps nothing between them.
type front struct {
	words       words
	regions     *pnuts.Regions
	clients     []*pnuts.Client
	histories   []*control.History
	tokens      atomic.Pointer[tokens]
	certificate atomic.Pointer[tls.Certificate]
	counts      *counts
	// What is to be logged, and the end of what was.
	entries chan entry
	written chan struct{}
	// Places of those who are answered at once, by what they ask for.
	places map[string]chan struct{}
	// Done once it is told to stop.
	stopping context.Context
}

func newFront(told words, stopping context.Context) (f *front, err error) {
	f = &front{words: told, counts: &counts{values: map[string]float64{}}, entries: make(chan entry, mostWaiting),
		written: make(chan struct{}), places: map[string]chan struct{}{}, stopping: stopping}
	for name, most := range map[string]int{"requests": mostRequests, "pages": mostPages, "copies": 1, "streams": told.streams} {
		f.places[name] = make(chan struct{}, most)
	}
	go f.writeAll()
	options := pnuts.Options{Connections: told.sessions, Timeout: time.Duration(told.seconds) * time.Second}
	for _, addresses := range told.regions {
		client, err := pnuts.OpenAny(addresses, options)
		if err != nil {
			return nil, err
		}
		f.clients = append(f.clients, client)
	}
	for _, address := range told.controls {
		history, err := control.Follow(stopping, address, options)
		if err != nil {
			return nil, err
		}
		f.histories = append(f.histories, history)
	}
	if f.regions, err = pnuts.NewRegions(told.bounds, f.clients); err == nil {
		err = f.load()
	}
	return f, err
}

// load reads the files of tokens and certificates, as far as words name them. Where it fails, what was read before stays.
func (f *front) load() error {
	if f.words.tokens != "" {
		found, err := tokensOf(f.words.tokens)
		if err != nil {
			return err
		}
		f.tokens.Store(&found)
	}
	if f.words.certificate != "" {
		found, err := tls.LoadX509KeyPair(f.words.certificate, f.words.key)
		if err != nil {
			return fmt.Errorf("%s: %v", f.words.certificate, err)
		}
		f.certificate.Store(&found)
	}
	return nil
}

// A route is what is done for a path: by which method, with which right and members of the query, among which places, and how.
type route struct {
	name, method, right string
	members             []string
	among               string
	do                  func(*answer) error
}

var routes = map[string]route{
	"/records/":     {"record", "GET", "read", []string{"at-least"}, "requests", (*answer).record},
	"/records":      {"page", "GET", "read", []string{"from", "to", "after", "limit", "where"}, "pages", (*answer).page},
	"/get":          {"get", "POST", "read", nil, "requests", (*answer).get},
	"/copies/":      {"copy", "GET", "copy", []string{"range"}, "copies", (*answer).copy},
	"/changes":      {"changes", "GET", "changes", nil, "requests", (*answer).changes},
	"/healthz":      {"healthz", "GET", "", nil, "requests", (*answer).health},
	"/metrics":      {"metrics", "GET", "", nil, "requests", (*answer).metrics},
	"/openapi.json": {"openapi", "GET", "", nil, "requests", func(a *answer) error { return a.reply(http.StatusOK, asJSON, description) }},
}

// ServeHTTP answers a request.
func (f *front) ServeHTTP(writer http.ResponseWriter, request *http.Request) {
	a := &answer{front: f, writer: writer, request: request, ctx: request.Context(), route: "none", entry: entryOf(request)}
	defer func() { f.ended(a.route, a.entry) }()
	if request.ContentLength != 0 && request.ProtoMajor < 2 {
		// The library waits for a whole body, also where nobody reads it.
		_ = connectionOf(a.ctx).SetReadDeadline(a.entry.start.Add(patience))
	}
	if err := a.do(); err != nil {
		a.fail(err)
	}
}

// do finds what the path asks for, and does it where the request may.
func (a *answer) do() (err error) {
	path := a.request.URL.EscapedPath()
	chosen, isKnown := routes[path]
	if at := strings.LastIndexByte(path, '/') + 1; !isKnown && at > 1 {
		chosen, isKnown = routes[path[:at]]
		a.last, err = url.PathUnescape(path[at:])
	}
	if !isKnown || err != nil {
		return faulty(http.StatusNotFound, "not-found", "path", "there is no such path: /openapi.json has all")
	}
	a.route = chosen.name
	if method := a.request.Method; method != chosen.method && (method != http.MethodHead || chosen.method != http.MethodGet) {
		a.writer.Header().Set("Allow", chosen.method)
		return faulty(http.StatusMethodNotAllowed, "bad-method", "method", "this path has "+chosen.method)
	}
	if err = a.mayDo(chosen.right); err == nil {
		err = a.readQuery(chosen.members)
	}
	if err != nil {
		return err
	}
	leave, err := a.enter(chosen.among)
	if err != nil {
		return err
	}
	defer leave()
	return chosen.do(a)
}

// readQuery reads what follows `?`: members that are known, each at most once, but for `where`.
func (a *answer) readQuery(known []string) (err error) {
	if a.query, err = url.ParseQuery(a.request.URL.RawQuery); err != nil {
		return bad("query", err.Error())
	}
	for name, values := range a.query {
		isKnown := false
		for _, it := range known {
			isKnown = isKnown || it == name && (len(values) == 1 || it == "where")
		}
		if !isKnown || !utf8.ValidString(strings.Join(values, "")) {
			return bad(cut(name), fmt.Sprintf("there may be %q, once and in UTF-8", known))
		}
	}
	return nil
}

// enter takes a place, for which it waits a second where none is free, and gives what leaves it again.
func (a *answer) enter(among string) (leave func(), err error) {
	places := a.places[among]
	select {
	case places <- struct{}{}:
	default:
		select {
		case places <- struct{}{}:
		case <-time.After(time.Second):
			err = faulty(http.StatusServiceUnavailable, "busy", among, fmt.Sprintf("%d are answered already", cap(places)))
		}
	}
	return func() { <-places }, err
}

// Tokens are what clients show, by their digests, each with its rights.
type tokens map[[sha256.Size]byte]string

// tokenLine is a token with what it is for.
var tokenLine = regexp.MustCompile(`^([A-Za-z0-9._~+/-]{16,512}=*)[ \t]+((?:read|copy|changes)(?:,(?:read|copy|changes))*)$`)

// tokensOf reads a file of tokens. Empty lines, and those that begin with #, are none.
func tokensOf(path string) (tokens, error) {
	text, err := os.ReadFile(path)
	found := tokens{}
	for at, line := range strings.Split(string(text), "\n") {
		if line = strings.TrimSpace(line); line == "" || line[0] == '#' {
			continue
		}
		parts := tokenLine.FindStringSubmatch(line)
		if parts == nil {
			return nil, fmt.Errorf("%s: line %d is no token of 16 signs or more with its rights, as `TOKEN read,copy,changes`", path, at+1)
		}
		found[sha256.Sum256([]byte(parts[1]))] = parts[2]
	}
	if err == nil && len(found) == 0 {
		err = fmt.Errorf("%s has no token", path)
	}
	return found, err
}

// mayDo says why a request may not do something, where tokens are wanted for it.
func (a *answer) mayDo(right string) error {
	known := a.tokens.Load()
	if known == nil || right == "" {
		return nil
	}
	kind, given, _ := strings.Cut(a.request.Header.Get("Authorization"), " ")
	rights, isKnown := (*known)[sha256.Sum256([]byte(strings.TrimSpace(given)))]
	if !isKnown || !strings.EqualFold(kind, "bearer") {
		a.writer.Header().Set("WWW-Authenticate", "Bearer")
		return faulty(http.StatusUnauthorized, "unauthorized", "Authorization", "a bearer token is wanted that is known")
	}
	if !strings.Contains(","+rights+",", ","+right+",") {
		return faulty(http.StatusForbidden, "forbidden", "Authorization", "the token is not for "+right)
	}
	return nil
}
