// Package pnuts reads records from regions of pnuts.
package pnuts

import (
	"bytes"
	"context"
	"crypto/tls"
	"encoding/json"
	"errors"
	"fmt"
	"math"
	"net"
	"sync"
	"sync/atomic"
	"time"
)

// Options of a client. A zero is what is said here.
type Options struct {
	// How many connections are open to each region at most, each a session of it: 1.
	Connections int
	// How long a line waits for its reply, beside what its context says: 10 seconds.
	Timeout time.Duration
	// How often a line is asked again where the connection breaks, or where no region can answer it: 3. Less than 0: never.
	Retries int
	// Of how many keys a client of several regions keeps the version that it saw: 10,000. Less than 0: of none.
	Remember int
	// The configuration of tls:// addresses: the machine's own certificates.
	TLS *tls.Config
}

// A Client reads from a region, or from several of the same streams. Its calls may be made from any goroutine; their lines are in flight
// together.
type Client struct {
	options  Options
	pools    []*pool
	order    *order
	seen     *seen
	isClosed atomic.Bool
}

// Open makes a client of the region at tcp://HOST:PORT, tls://HOST:PORT or unix:PATH. Connections are opened when they are
// needed, and anew where they broke.
func Open(address string, options Options) (*Client, error) {
	return OpenAny([]string{address}, options)
}

// OpenAny makes a client of regions of the same streams. The first that can answer does, and none shows an older version of a record
// than was seen of the last keys.
func OpenAny(addresses []string, options Options) (*Client, error) {
	if len(addresses) == 0 {
		return nil, errors.New("pnuts: there is no region")
	}
	if options.Timeout == 0 {
		options.Timeout = 10 * time.Second
	}
	if options.Retries == 0 {
		options.Retries = 3
	} else if options.Retries < 0 {
		options.Retries = 0
	}
	if options.Remember == 0 {
		options.Remember = 10_000
	}
	client := &Client{options: options, order: newOrder(addresses)}
	for _, text := range addresses {
		where, err := addressOf(text, options.TLS)
		if err != nil {
			return nil, err
		}
		client.pools = append(client.pools, newPool(where, options))
	}
	if len(addresses) > 1 {
		client.seen = newSeen(options.Remember)
	}
	return client, nil
}

// Sessions is how many it has begun. A session of another number may be of a region that began anew.
func (c *Client) Sessions() (count int64) {
	for _, pool := range c.pools {
		count += pool.sessions.Load()
	}
	return count
}

// Close ends all sessions. Calls that wait fail.
func (c *Client) Close() {
	c.isClosed.Store(true)
	for _, pool := range c.pools {
		pool.close()
	}
}

// A Command is what is asked of a region, by the members that its line has.
type Command map[string]any

// Ask gives the answer to any command that only reads, as one of the control socket: what its reply has, read into an answer
// that says what holds without it. A reply to something else is refused.
func Ask[A any](ctx context.Context, c *Client, command Command, answer A, isReply func(A) bool) (told A, err error) {
	err = c.ask(ctx, command, func(got received) error {
		found := answer
		if json.Unmarshal(got.reply, &found) != nil || !isReply(found) {
			return faultOf(command, got.reply)
		}
		told = found
		return nil
	})
	return told, err
}

// lineOf is the line of a command. A text that is no UTF-8 would be written as another one.
func lineOf(command Command) ([]byte, error) {
	var line bytes.Buffer
	writer := json.NewEncoder(&line)
	writer.SetEscapeHTML(false)
	err := writer.Encode(command)
	if bytes.Contains(bytes.ReplaceAll(line.Bytes(), []byte(`\\`), nil), []byte(`\ufffd`)) {
		err = fmt.Errorf("pnuts: no UTF-8: %q", command)
	}
	return line.Bytes(), err
}

// ask has what is received for a command taken, by as many tries as it takes: it only reads, so where the connection broke, and where a
// region cannot answer, it is asked again.
func (c *Client) ask(caller context.Context, command Command, take func(received) error) error {
	line, err := lineOf(command)
	if err != nil {
		return err
	}
	ctx, stop := context.WithTimeout(caller, c.options.Timeout)
	defer stop()
	deadline, _ := ctx.Deadline()
	for tries := newAttempts(c.order, c.options.Retries, deadline); ; {
		chosen, until := tries.next(time.Now())
		got, err := c.pools[chosen.region].ask(caller, until, &call{line, command["do"] == "copy", make(chan received, 1)})
		if err == nil {
			err = take(got)
		}
		if err == nil {
			c.order.answered(chosen)
			return nil
		}
		if c.isClosed.Load() {
			return err
		}
		wait, ended := tries.failed(chosen, err, time.Now())
		if ended != nil {
			return ended
		}
		select {
		case <-time.After(wait):
		case <-caller.Done():
			return caller.Err()
		}
	}
}

// pause is how long to wait before another try: 0.1 seconds, and twice as long each time, at most 1 second.
func pause(tries int) time.Duration {
	return time.Duration(math.Min(0.05*math.Exp2(float64(tries)), 1) * float64(time.Second))
}

// A pool has the connections to one region.
type pool struct {
	address address
	timeout time.Duration
	mutex   sync.Mutex
	// None once it is closed.
	connections []*connection
	running     sync.WaitGroup
	sessions    atomic.Int64
}

func newPool(where address, options Options) *pool {
	none := newConnection()
	none.cancel()
	made := &pool{address: where, timeout: options.Timeout, connections: []*connection{none}}
	for len(made.connections) < options.Connections {
		made.connections = append(made.connections, none)
	}
	return made
}

// close ends all connections, and waits until nothing of them is left.
func (p *pool) close() {
	p.mutex.Lock()
	for _, open := range p.connections {
		open.end(&ConnectionFailed{net.ErrClosed})
	}
	p.connections = nil
	p.mutex.Unlock()
	p.running.Wait()
}

// ask gives what is received for a call until a moment. Where nothing came meanwhile, the connection ends.
func (p *pool) ask(caller context.Context, until time.Time, asked *call) (received, error) {
	connection, err := p.connection()
	if err != nil {
		return received{}, err
	}
	ctx, stop := context.WithDeadline(caller, until)
	defer stop()
	before := connection.lines.Load()
	got, err := connection.ask(ctx, asked)
	if ctx.Err() != nil && caller.Err() == nil && connection.lines.Load() == before {
		connection.end(&ConnectionFailed{errors.New("nothing came for as long as a call waits")})
	}
	if errors.Is(err, context.DeadlineExceeded) {
		err = &TimedOut{}
	}
	return got, err
}

// connection is the one with the fewest calls, opened where it has ended.
func (p *pool) connection() (*connection, error) {
	p.mutex.Lock()
	defer p.mutex.Unlock()
	if p.connections == nil {
		return nil, &ConnectionFailed{net.ErrClosed}
	}
	least := 0
	for at, open := range p.connections {
		if open.calls.Load() < p.connections[least].calls.Load() {
			least = at
		}
	}
	if p.connections[least].ended.Err() != nil {
		opened := newConnection()
		p.connections[least] = opened
		p.sessions.Add(1)
		p.running.Add(1)
		go func() { defer p.running.Done(); opened.run(p.address, p.timeout) }()
	}
	return p.connections[least], nil
}
