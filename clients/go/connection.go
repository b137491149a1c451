package pnuts

import (
	"bufio"
	"bytes"
	"context"
	"crypto/tls"
	"encoding/json"
	"fmt"
	"net"
	"net/url"
	"runtime"
	"strings"
	"sync"
	"sync/atomic"
	"time"
	"unicode/utf8"
)

// An address says where a region is, and what opens a connection to it.
type address struct {
	network, target string
	dialer          interface {
		DialContext(ctx context.Context, network, target string) (net.Conn, error)
	}
}

// addressOf reads tcp://HOST:PORT, tls://HOST:PORT or unix:PATH.
func addressOf(text string, configuration *tls.Config) (address, error) {
	if path := strings.TrimPrefix(strings.TrimPrefix(text, "unix:"), "//"); path != "" && strings.HasPrefix(text, "unix:") {
		return address{"unix", path, &net.Dialer{}}, nil
	}
	parts, err := url.Parse(text)
	if err != nil || parts.Hostname() == "" || parts.Path != "" || parts.Scheme != "tcp" && parts.Scheme != "tls" {
		return address{}, fmt.Errorf("pnuts: no address of a region: %q", text)
	}
	port := parts.Port()
	if port == "" {
		port = "7070"
	}
	target := net.JoinHostPort(parts.Hostname(), port)
	if parts.Scheme == "tls" {
		return address{"tcp", target, &tls.Dialer{Config: configuration}}, nil
	}
	return address{"tcp", target, &net.Dialer{}}, nil
}

const (
	// window is how many lines are in flight on a connection at most.
	window = 64
	// pieceSize is how many bytes are read or written at a time.
	pieceSize = 64 * 1024
	// maxLine is how many bytes a line has at most. A page of 1,000 rows has fewer.
	maxLine = 64 * 1024 * 1024
)

// A call is a line, whether lines of text follow its reply, and where both go.
type call struct {
	line     []byte
	hasLines bool
	replied  chan received
}

// What was received for a call: the line of the reply, and the text that follows it.
type received struct{ reply, text []byte }

// A connection is a session of the region. One goroutine writes its lines, and one reads their replies.
type connection struct {
	// Calls before and after their lines were written.
	unsent, sent chan *call
	// How many calls it has, and how many lines came.
	calls, lines atomic.Int64
	// Done once it has ended, because of the fault.
	ended  context.Context
	cancel context.CancelFunc
	ending sync.Once
	fault  error
}

func newConnection() *connection {
	ended, cancel := context.WithCancel(context.Background())
	return &connection{unsent: make(chan *call, window), sent: make(chan *call, window), ended: ended, cancel: cancel}
}

// run opens the connection, and returns once nothing of it is left.
func (c *connection) run(where address, timeout time.Duration) {
	opening, stop := context.WithTimeout(c.ended, timeout)
	defer stop()
	socket, err := where.dialer.DialContext(opening, where.network, where.target)
	if err != nil {
		c.end(&ConnectionFailed{err})
		return
	}
	read := make(chan bool)
	go func() { <-c.ended.Done(); socket.Close() }()
	go func() { c.end(c.read(socket)); close(read) }()
	c.end(&ConnectionFailed{c.write(socket)})
	<-read
}

// end ends the connection. Calls without a reply fail with the first fault.
func (c *connection) end(fault error) { c.ending.Do(func() { c.fault = fault; c.cancel() }) }

// ask sends a line, and waits for its reply. A call that gives up is still counted among those that wait, so that each later
// reply goes to its own call.
func (c *connection) ask(ctx context.Context, asked *call) (received, error) {
	c.calls.Add(1)
	defer c.calls.Add(-1)
	for unsent := c.unsent; ; {
		select {
		case unsent <- asked:
			unsent = nil
		case got := <-asked.replied:
			return got, nil
		case <-c.ended.Done():
			if len(asked.replied) > 0 {
				return <-asked.replied, nil
			}
			return received{}, c.fault
		case <-ctx.Done():
			return received{}, ctx.Err()
		}
	}
}

// write writes the lines of calls: those that are at hand together, and all of them before it waits.
func (c *connection) write(socket net.Conn) error {
	out := bufio.NewWriterSize(socket, pieceSize)
	for asked := (*call)(nil); ; {
		select {
		case asked = <-c.unsent:
		case <-c.ended.Done():
			return c.fault
		}
		select {
		case c.sent <- asked:
		case <-c.ended.Done():
			return c.fault
		}
		out.Write(asked.line)
		if len(c.unsent) == 0 {
			// Others may be about to send.
			runtime.Gosched()
		}
		if len(c.unsent) == 0 || len(c.sent) == window {
			if err := out.Flush(); err != nil {
				return err
			}
		}
	}
}

// read gives each call its reply, in order.
func (c *connection) read(socket net.Conn) error {
	lines := bufio.NewScanner(socket)
	lines.Buffer(make([]byte, pieceSize), maxLine)
	lines.Split(c.wholeLine)
	for lines.Scan() {
		got := received{reply: append([]byte{}, lines.Bytes()...)}
		if !json.Valid(got.reply) || !utf8.Valid(got.reply) {
			return &ProtocolError{fmt.Sprintf("a reply is none of a region: %.200q", got.reply)}
		}
		select {
		case asked := <-c.sent:
			if !asked.hasLines || got.readText(lines) {
				asked.replied <- got
			}
		default:
			return &ProtocolError{"a reply came to no line"}
		}
	}
	if lines.Err() == bufio.ErrTooLong {
		return &ProtocolError{"a reply does not end"}
	}
	return &ConnectionFailed{fmt.Errorf("it ended, error %v", lines.Err())}
}

// wholeLine finds a line with its newline, and counts it. What comes without one is none.
func (c *connection) wholeLine(data []byte, _ bool) (int, []byte, error) {
	size := bytes.IndexByte(data, '\n') + 1
	if size == 0 {
		return 0, nil, nil
	}
	c.lines.Add(1)
	return size, data[:size], nil
}

// readText reads the lines that follow a reply which says how many, and says whether all came.
func (r *received) readText(lines *bufio.Scanner) bool {
	var left struct{ Lines int64 }
	_ = json.Unmarshal(r.reply, &left)
	for ; left.Lines > 0 && lines.Scan(); left.Lines-- {
		r.text = append(r.text, lines.Bytes()...)
	}
	return left.Lines <= 0
}
