package main

import (
	"encoding/json"
	"fmt"
	"math/rand"
	"net"
	"net/http"
	"reflect"
	"strings"
	"time"

	"keqapwi.example/pnuts/control"
)

const (
	// beat is how often a stream without changes shows that it is there, and mostTold how many changes are written together.
	beat, mostTold = 15 * time.Second, 256
	// mostHeld is how many bytes the system keeps of a stream that the client did not take.
	mostHeld   = 64 << 10
	asEvents   = "text/event-stream"
	streamHead = "HTTP/1.1 200 OK\r\nContent-Type: " + asEvents + "\r\nCache-Control: no-store\r\nConnection: close\r\n\r\n"
)

// A stream tells a client what changes, from the marks of all ranges on.
type stream struct {
	*front
	marks []control.Mark
	write func([]byte) error
	gone  <-chan struct{}
}

// changes answers with a stream, which lasts until the client goes or takes nothing, or the front stops. While a region is away, it is silent:
// browsers give up where it is refused.
func (a *answer) changes() error {
	if len(a.histories) == 0 {
		return faulty(http.StatusNotFound, "not-found", "path", "no --control tells changes")
	}
	if a.request.Method == http.MethodHead {
		return a.reply(http.StatusOK, asEvents, nil)
	}
	leave, err := a.enter("streams")
	if err != nil {
		return err
	}
	a.counts.add("streams_open", 1)
	s := &stream{a.front, make([]control.Mark, len(a.histories)), a.write, a.ctx.Done()}
	if last := strings.Fields(a.request.Header.Get("Last-Event-ID")); len(last) == len(s.marks) {
		for at := range last {
			s.marks[at] = control.MarkOf(last[at])
		}
	}
	if hijacker, is := a.writer.(http.Hijacker); is {
		return s.handOn(a, hijacker, leave)
	}
	defer leave()
	defer a.counts.add("streams_open", -1)
	a.writer.Header().Set("Content-Type", asEvents)
	a.writer.Header().Set("Cache-Control", "no-store")
	s.run("")
	return nil
}

// handOn lets the stream go on without what the library keeps of a request.
func (s *stream) handOn(a *answer, hijacker http.Hijacker, leave func()) error {
	if socket, is := connectionOf(a.ctx).Conn.(*net.TCPConn); is {
		_ = socket.SetWriteBuffer(mostHeld)
	}
	connection, _, err := hijacker.Hijack()
	if err != nil {
		leave()
		return err
	}
	gone, route, entry := make(chan struct{}), a.route, a.entry
	s.gone, a.entry.Status = gone, 0
	s.write = func(text []byte) error {
		entry.Bytes += int64(len(text))
		_, err := connection.Write(text)
		return err
	}
	go func() {
		// A client has nothing more to send: whatever comes ends the stream.
		_, _ = connection.Read(make([]byte, 1))
		close(gone)
	}()
	go func() {
		s.run(streamHead)
		_ = connection.Close()
		s.ended(route, entry)
		s.counts.add("streams_open", -1)
		leave()
	}()
	return nil
}

func whenever(it any) reflect.SelectCase {
	return reflect.SelectCase{Dir: reflect.SelectRecv, Chan: reflect.ValueOf(it)}
}

// run tells changes as they come. Clients of a front that stops come again at different times.
func (s *stream) run(head string) {
	quiet := time.NewTicker(beat)
	defer quiet.Stop()
	text := fmt.Appendf([]byte(head), "retry: %d\n\n", 1000+rand.Intn(2000))
	waits := []reflect.SelectCase{whenever(s.gone), whenever(s.stopping.Done()), whenever(quiet.C)}
	for woken := len(waits); woken > 1; woken, _, _ = reflect.Select(waits) {
		waits = waits[:3]
		if woken == 2 {
			text = append(text, ":\n\n"...)
		}
		for at, it := range s.histories {
			found, to, news := it.After(s.marks[at], mostTold)
			text = s.told(text, at, found, to)
			waits = append(waits, whenever(news))
			if len(found.Changes) == mostTold {
				waits[len(waits)-1] = whenever(isOver)
			}
		}
		if len(text) > 0 && s.write(text) != nil {
			return
		}
		text = nil
	}
}

// isOver is a channel that has ended.
var isOver = func() <-chan struct{} { it := make(chan struct{}); close(it); return it }()

// told adds what a range tells.
func (s *stream) told(text []byte, at int, found control.Notices, to control.Mark) []byte {
	for _, it := range found.Changes {
		s.marks[at].Number = it.Number
		data, _ := json.Marshal(it)
		text = fmt.Appendf(text, "event: change\nid: %s\ndata: %s\n\n", s.id(), data)
	}
	s.counts.add("changes_told_total", float64(len(found.Changes)))
	if found.Missed {
		s.marks[at] = to
		text = fmt.Appendf(text, "event: missed\nid: %s\ndata: {\"range\":%d}\n\n", s.id(), at)
		s.counts.add("missed_total", 1)
	}
	return text
}

// id is that of an event: the marks of all ranges.
func (s *stream) id() string { return strings.Trim(fmt.Sprint(s.marks), "[]") }
