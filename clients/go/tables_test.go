package pnuts

import (
	"bufio"
	"encoding/json"
	"errors"
	"fmt"
	"net"
	"sync"
	"testing"
)

// A table is what a region of the vectors replies to lines. Where there is none, it ends each connection.
type table []struct {
	Line, Reply json.RawMessage
	Text        []string
}

// A tabled region answers by a table that changes.
type tabled struct {
	t        *testing.T
	listener net.Listener
	mutex    sync.Mutex
	table    table
	// Those that it has not ended.
	sockets map[net.Conn]bool
}

func startTabled(t *testing.T) *tabled {
	made := &tabled{t: t, listener: listen(t), sockets: map[net.Conn]bool{}}
	go func() {
		for {
			socket, err := made.listener.Accept()
			if err != nil {
				return
			}
			go made.serve(socket)
		}
	}()
	t.Cleanup(func() { made.listener.Close(); made.become(nil) })
	return made
}

func (r *tabled) become(table table) {
	r.mutex.Lock()
	defer r.mutex.Unlock()
	r.table = table
	for socket := range r.sockets {
		if table == nil {
			socket.Close()
			delete(r.sockets, socket)
		}
	}
}

func (r *tabled) serve(socket net.Conn) {
	defer socket.Close()
	r.mutex.Lock()
	isOpen := r.table != nil
	if isOpen {
		r.sockets[socket] = true
	}
	r.mutex.Unlock()
	for lines := bufio.NewScanner(socket); isOpen && lines.Scan(); {
		fmt.Fprint(socket, r.reply(socket, lines.Bytes()))
	}
}

func (r *tabled) reply(socket net.Conn, line []byte) string {
	r.mutex.Lock()
	defer r.mutex.Unlock()
	if !r.sockets[socket] {
		socket.Close()
		return ""
	}
	for _, each := range r.table {
		if asText(r.t, saidBy(r.t, each.Line)) == asText(r.t, saidBy(r.t, line)) {
			reply := string(each.Reply) + "\n"
			for _, text := range each.Text {
				reply += text + "\n"
			}
			return reply
		}
	}
	r.t.Errorf("nobody was to be asked: %s", line)
	return `{"error":"unknown"}` + "\n"
}

// saidBy is what a line says, without what holds without it.
func saidBy(t *testing.T, line []byte) any { return withoutDefaults(asWritten(t, line)) }

type step struct {
	Call               json.RawMessage
	Regions            []table
	Answer, Error, Key any
	Others             []any
}

// check makes a call, and looks at what comes of it.
func (s *step) check(t *testing.T, about string, client *Client) {
	answer, err := answered(t, client, s.Call)
	if s.Error == nil {
		must(t, err)
		same(t, about, asText(t, answer), asText(t, s.Answer))
		return
	}
	same(t, about, asText(t, asTold(err)), asText(t, s.Error))
	same(t, about, asText(t, othersTold(err)), asText(t, append([]any{}, s.Others...)))
	behind := (*RecordBehind)(nil)
	if s.Key != nil && errors.As(err, &behind) {
		same(t, about, behind.Key, s.Key)
	}
}

// answered is what the client answers to a call, as vectors have it.
func answered(t *testing.T, client *Client, call json.RawMessage) (any, error) {
	answer, err := asked(t, client, call)
	switch answer := answer.(type) {
	case *Record:
		return asRow(answer), err
	case []*Record:
		return asReply(answer).(map[string]any)["rows"], err
	case Page:
		rows := asReply(answer.Records).(map[string]any)["rows"].([]any)
		for answer.Next != nil && err == nil {
			answer, err = client.Page(background, *answer.Next)
			rows = append(rows, asReply(answer.Records).(map[string]any)["rows"].([]any)...)
		}
		return rows, err
	}
	return answer, err
}

func TestVectorsOfSeveralRegions(t *testing.T) {
	var told struct {
		Calls []struct {
			About    string
			Remember int
			Steps    []step
		}
	}
	readVectors(t, "regions", &told)
	for _, each := range told.Calls {
		regions, addresses := []*tabled{}, []string{}
		for range each.Steps[0].Regions {
			regions = append(regions, startTabled(t))
			addresses = append(addresses, "tcp://"+regions[len(regions)-1].listener.Addr().String())
		}
		client, err := OpenAny(addresses, Options{Retries: -1, Remember: each.Remember})
		must(t, err)
		for _, step := range each.Steps {
			for at, region := range regions {
				region.become(step.Regions[at])
			}
			step.check(t, each.About, client)
		}
		client.Close()
	}
}
