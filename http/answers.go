package main

import (
	"bufio"
	"context"
	"encoding/json"
	"errors"
	"fmt"
	"io"
	"net/http"
	"net/url"
	"os"
	"sort"
	"strconv"
	"strings"
	"sync"
	"time"

	"keqapwi.example/pnuts"
)

const (
	asJSON = "application/json"
	// mostLogged is how many bytes of a path or a cause are logged, and mostWaiting how many lines wait for who reads them.
	mostLogged, mostWaiting = 1024, 1024
)

// An answer is what a request is answered with. The last part of its path may be a key.
type answer struct {
	*front
	writer  http.ResponseWriter
	request *http.Request
	ctx     context.Context
	route   string
	last    string
	query   url.Values
	entry   entry
}

// reply answers with a whole body.
func (a *answer) reply(status int, kind string, body []byte) error {
	header := a.writer.Header()
	header.Set("Content-Type", kind)
	header.Set("Content-Length", strconv.Itoa(len(body)))
	header.Set("X-Content-Type-Options", "nosniff")
	if header.Get("Cache-Control") == "" {
		header.Set("Cache-Control", "no-store")
	}
	a.entry.Status = status
	a.writer.WriteHeader(status)
	for isTaken := a.request.Method != http.MethodHead; isTaken && len(body) > 0; {
		size := len(body)
		if size > piece {
			size = piece
		}
		isTaken = a.write(body[:size]) == nil
		body = body[size:]
	}
	return nil
}

// write writes some bytes. In HTTP/1 the connection has a limit for that; in HTTP/2, which writes later, it is ended here.
func (a *answer) write(text []byte) error {
	a.entry.Bytes += int64(len(text))
	if a.request.ProtoMajor > 1 {
		late := time.AfterFunc(patience, func() {
			a.counts.add("slow_total", 1)
			connectionOf(a.ctx).Close()
		})
		defer late.Stop()
		defer a.writer.(http.Flusher).Flush()
	}
	_, err := a.writer.Write(text)
	return err
}

// body is what a request sends, which has to be there within patience.
func (a *answer) body() ([]byte, error) {
	if kind := a.request.Header.Get("Content-Type"); !strings.HasPrefix(strings.ToLower(kind), asJSON) {
		return nil, faulty(http.StatusUnsupportedMediaType, "bad-request", "Content-Type", "it has to be "+asJSON)
	}
	if a.request.ProtoMajor > 1 {
		defer time.AfterFunc(patience, func() { a.request.Body.Close() }).Stop()
	}
	found, err := io.ReadAll(http.MaxBytesReader(a.writer, a.request.Body, mostBody))
	if is[*http.MaxBytesError](err) {
		err = faulty(http.StatusRequestEntityTooLarge, "too-long", "body", fmt.Sprintf("it has more than %d bytes", mostBody))
	} else if err != nil {
		err = faulty(http.StatusRequestTimeout, "late", "body", "it did not come whole in time")
	} else if a.request.ProtoMajor < 2 {
		_ = connectionOf(a.ctx).SetReadDeadline(time.Time{})
	}
	return found, err
}

// A fault is why a request is not answered: what it is, where it lies, and why, in words.
type fault struct {
	status int
	What   string `json:"error"`
	Where  string `json:"where"`
	Why    string `json:"why"`
	// The version that the record has instead of the one that was asked for, and the row of one that is deleted.
	Has *pnuts.Version  `json:"has,omitempty"`
	Row json.RawMessage `json:"row,omitempty"`
	// What the log alone is told, as it names addresses.
	cause error
}

func (f *fault) Error() string { return fmt.Sprintf("%s: %s: %s", f.What, f.Where, f.Why) }

func faulty(status int, what, where, why string) error {
	return &fault{status: status, What: what, Where: where, Why: why}
}

func bad(where, why string) error { return faulty(http.StatusBadRequest, "bad-request", where, why) }

func is[E error](err error) bool { return errors.As(err, new(E)) }

func isAny[E, F error](err error) bool { return is[E](err) || is[F](err) }

// Kinds of faults of regions, by their errors, of which the first that fits is told.
var kinds = []struct {
	fits      func(error) bool
	status    int
	what, why string
}{
	{is[*pnuts.BadLine], http.StatusBadRequest, "bad-request", "regions refuse it"},
	{isAny[*pnuts.RecordBehind, *pnuts.CopyBehind], http.StatusServiceUnavailable, "behind", "no region that answers has all that was shown before"},
	{is[*pnuts.Recovering], http.StatusServiceUnavailable, "recovering", "the tablet was lost, and is not there again yet"},
	{isAny[*pnuts.NoEntry, *pnuts.OutOfMemory], http.StatusServiceUnavailable, "busy", "the region is short of readers or memory"},
	{is[*pnuts.ConnectionFailed], http.StatusServiceUnavailable, "away", "no region can be reached"},
	{func(err error) bool { return errors.Is(err, context.DeadlineExceeded) }, http.StatusGatewayTimeout, "late", "no region answered in time"},
	{func(err error) bool { return errors.Is(err, context.Canceled) }, http.StatusRequestTimeout, "gone", "the client did not wait"},
	{func(error) bool { return true }, http.StatusBadGateway, "failed", "what answers is no region, or one of another version"},
}

// ofRegions is the fault of what regions did not answer, by the error of the one that was asked last.
func ofRegions(err error, where string, asked *pnuts.Version) error {
	at := 0
	for !kinds[at].fits(err) {
		at++
	}
	found := &fault{status: kinds[at].status, What: kinds[at].what, Where: where, Why: kinds[at].why, cause: err}
	line, behind := (*pnuts.BadLine)(nil), (*pnuts.RecordBehind)(nil)
	if errors.As(err, &line) {
		found.Where, found.Why = strings.TrimSpace(where+" "+line.Member), found.Why+" as "+line.Reason
	} else if errors.As(err, &behind) {
		found.Has = behind.Has
		if asked != nil && (behind.Has == nil || behind.Has.Less(*asked)) {
			found.status, found.Why = http.StatusPreconditionFailed, "no region has the record in this version or a later one yet"
		}
	}
	return found
}

// fail answers with a fault.
func (a *answer) fail(err error) {
	found := &fault{status: http.StatusInternalServerError, What: "failed", Where: "pnuts-http", Why: err.Error()}
	errors.As(err, &found)
	if found.What == "behind" || found.status >= http.StatusServiceUnavailable {
		a.writer.Header().Set("Retry-After", "1")
	}
	a.entry.Fault = found
	body, _ := json.Marshal(found)
	_ = a.reply(found.status, asJSON, append(body, '\n'))
}

// ended counts what was answered, and has it logged; but for what was handed on, which is answered yet.
func (f *front) ended(route string, it entry) {
	if it.Status == 0 {
		return
	}
	it.Seconds = time.Since(it.start).Seconds()
	labels := `{route="` + route + `",status="` + strconv.Itoa(it.Status) + `"}`
	f.counts.add("requests_total"+labels, 1)
	f.counts.add("request_seconds_total"+labels, it.Seconds)
	if !f.words.isQuiet {
		f.write(it)
	}
}

// An entry is what is logged of a request.
type entry struct {
	start   time.Time
	Time    string  `json:"time"`
	Client  string  `json:"client"`
	Method  string  `json:"method"`
	Path    string  `json:"path"`
	Proto   string  `json:"proto"`
	Status  int     `json:"status"`
	Bytes   int64   `json:"bytes"`
	Seconds float64 `json:"seconds"`
	Fault   *fault  `json:"fault,omitempty"`
	Cause   string  `json:"cause,omitempty"`
}

func entryOf(request *http.Request) entry {
	return entry{start: time.Now(), Client: request.RemoteAddr, Method: cut(request.Method), Path: request.URL.EscapedPath(),
		Proto: request.Proto, Status: http.StatusOK}
}

func cut(text string) string {
	if len(text) > mostLogged {
		text = text[:mostLogged] + ".."
	}
	return text
}

// write hands an entry to those that are written. Where nobody takes them, it is dropped.
func (f *front) write(it entry) {
	select {
	case f.entries <- it:
	default:
		f.counts.add("log_dropped_total", 1)
	}
}

// writeAll writes entries as lines of JSON, those that are at hand together, until one of no request.
func (f *front) writeAll() {
	defer close(f.written)
	out := bufio.NewWriter(os.Stdout)
	for it := <-f.entries; it.Status != 0; it = <-f.entries {
		it.Time, it.Path = it.start.UTC().Format("2006-01-02T15:04:05.000Z"), cut(it.Path)
		if it.Fault != nil && it.Fault.cause != nil {
			it.Cause = cut(it.Fault.cause.Error())
		}
		if json.NewEncoder(out).Encode(it) != nil || len(f.entries) == 0 && out.Flush() != nil {
			f.counts.add("log_dropped_total", 1)
			out.Reset(os.Stdout)
		}
	}
	_ = out.Flush()
}

// Counts are what was done so far, by the names of metrics with their labels.
type counts struct {
	mutex  sync.Mutex
	values map[string]float64
}

func (c *counts) add(name string, more float64) {
	c.mutex.Lock()
	defer c.mutex.Unlock()
	c.values[name] += more
}

// metrics answers with counts, for Prometheus.
func (a *answer) metrics() error {
	unfollowed, sessions, lines := 0, int64(0), []string{}
	for _, client := range a.clients {
		sessions += client.Sessions()
	}
	for _, it := range a.histories {
		if it.Err() != nil {
			unfollowed++
		}
	}
	a.counts.mutex.Lock()
	for name, value := range a.counts.values {
		lines = append(lines, fmt.Sprintf("pnuts_http_%s %g\n", name, value))
	}
	a.counts.mutex.Unlock()
	lines = append(lines, fmt.Sprintf("pnuts_http_region_sessions_total %d\n", sessions), fmt.Sprintf("pnuts_http_ranges_not_followed %d\n", unfollowed))
	sort.Strings(lines)
	return a.reply(http.StatusOK, "text/plain; version=0.0.4; charset=utf-8", []byte(strings.Join(lines, "")))
}
