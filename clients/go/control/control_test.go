package control

import (
	"bufio"
	"context"
	"encoding/json"
	"errors"
	"fmt"
	"net"
	"os"
	"os/exec"
	"path/filepath"
	"strings"
	"testing"
	"time"

	"keqapwi.example/pnuts"
)

var background = context.Background()

// A region is a program with a control socket, of which a stream comes over a socket. It is killed at the end of the test.
type region struct {
	folder  string
	process *exec.Cmd
}

func (r *region) path(name string) string { return filepath.Join(r.folder, name) }
func (r *region) address() string         { return "unix:" + r.path("control") }

func start(t *testing.T, folder string) *region {
	program := os.Getenv("PNUTS")
	if program == "" {
		t.Skip("PNUTS names no program")
	}
	started := &region{folder: folder}
	words := []string{"serve", "--stay", "--socket", started.path("clients"), "--control", started.path("control"), "--bounds", `["m"]`}
	started.process = exec.Command(program, append(words, "east=listen:"+started.path("east"))...)
	told, err := started.process.StdoutPipe()
	must(t, err)
	must(t, started.process.Start())
	t.Cleanup(started.kill)
	line, err := bufio.NewReader(told).ReadString('\n')
	must(t, err)
	same(t, "whether it listens", strings.HasPrefix(line, "listening on "), true)
	return started
}

func (r *region) kill() { _, _ = r.process.Process.Kill(), r.process.Wait() }

// write writes messages of keys from a position on, and waits until they are taken.
func (r *region) write(t *testing.T, first int, keys ...string) {
	writer, err := net.Dial("unix", r.path("east"))
	must(t, err)
	defer writer.Close()
	lines := bufio.NewReader(writer)
	line, err := lines.ReadString('\n')
	must(t, err)
	same(t, "after", line, fmt.Sprintf("{\"after\":%d}\n", first-1))
	for at, key := range keys {
		const message = "{\"at\":%d,\"image\":{\"fields\":{},\"key\":%q,\"master\":\"w\",\"version\":[1,%d]}}\n"
		fmt.Fprintf(writer, message, first+at, key, first+at)
	}
	for last := fmt.Sprintf("{\"taken\":%d}\n", first+len(keys)-1); line != last; {
		line, err = lines.ReadString('\n')
		must(t, err)
	}
}

func open(t *testing.T, region *region) *pnuts.Client {
	client, err := pnuts.Open(region.address(), pnuts.Options{})
	must(t, err)
	t.Cleanup(client.Close)
	return client
}

func must(t *testing.T, err error) {
	t.Helper()
	if err != nil {
		t.Fatal(err)
	}
}

func same(t *testing.T, what string, found, wanted any) {
	t.Helper()
	if one, other := fmt.Sprint(found), fmt.Sprint(wanted); one != other {
		t.Fatalf("%s: %s, wanted %s", what, one, other)
	}
}

// asked is what the package answers to a call, in the form of a reply.
func asked(client *pnuts.Client, text json.RawMessage) (any, error) {
	var call struct {
		Do          string
		Since, Wait int64
	}
	_ = json.Unmarshal(text, &call)
	switch call.Do {
	case "marks":
		marks, err := Marks(background, client)
		return map[string]any{"marks": marks}, err
	case "stats":
		return StatsOf(background, client)
	}
	return NoticesAfter(background, client, call.Since, call.Wait)
}

// lower is JSON with the names of members in small letters, without those that are null or false.
func lower(t *testing.T, text []byte) any {
	var value any
	must(t, json.Unmarshal(text, &value))
	var of func(any) any
	of = func(value any) any {
		switch value := value.(type) {
		case []any:
			for at := range value {
				value[at] = of(value[at])
			}
		case map[string]any:
			found := map[string]any{}
			for name, member := range value {
				if member != nil && member != false && name != "of-a-later-version" {
					found[strings.ToLower(name)] = of(member)
				}
			}
			return found
		}
		return value
	}
	return of(value)
}

// fake is a region that answers one line with a reply, and hands the line on.
func fake(t *testing.T, reply string) (*pnuts.Client, chan string) {
	listener, err := net.Listen("tcp", "127.0.0.1:0")
	must(t, err)
	lines := make(chan string, 1)
	go func() {
		if connection, err := listener.Accept(); err == nil {
			line, _ := bufio.NewReader(connection).ReadString('\n')
			fmt.Fprintln(connection, reply)
			lines <- line
		}
	}()
	client, err := pnuts.Open("tcp://"+listener.Addr().String(), pnuts.Options{Retries: -1})
	must(t, err)
	t.Cleanup(func() { client.Close(); listener.Close() })
	return client, lines
}

func TestVectors(t *testing.T) {
	var told struct {
		Exchanges, Broken []struct {
			Call        json.RawMessage
			Line, Reply string
		}
	}
	text, err := os.ReadFile(filepath.Join("..", "..", "vectors", "control.json"))
	must(t, err)
	must(t, json.Unmarshal(text, &told))
	for _, it := range told.Exchanges {
		client, lines := fake(t, it.Reply)
		answer, err := asked(client, it.Call)
		refusal := pnuts.Refusal(nil)
		if errors.As(err, &refusal) {
			answer, err = refusal.Members(), nil
		}
		must(t, err)
		made, err := json.Marshal(answer)
		must(t, err)
		same(t, it.Reply, lower(t, made), lower(t, []byte(it.Reply)))
		same(t, "line", lower(t, []byte(<-lines)), lower(t, []byte(it.Line)))
	}
	for _, it := range told.Broken {
		client, _ := fake(t, it.Reply)
		_, err := asked(client, it.Call)
		wrong := (*pnuts.ProtocolError)(nil)
		same(t, "whether it is no reply: "+it.Reply, errors.As(err, &wrong), true)
	}
}

func TestWords(t *testing.T) {
	running := start(t, t.TempDir())
	client := open(t, running)
	running.write(t, 1, "a", "z")
	marks, err := Marks(background, client)
	must(t, err)
	same(t, "marks", marks, map[string]int64{"east": 2})
	stats, err := StatsOf(background, client)
	must(t, err)
	same(t, "streams", len(stats.Streams), 1)
	east := stats.Streams[0]
	same(t, "east", []any{east.Name, east.Path, east.Position, east.Messages, east.Reason, east.Line}, []any{"east", running.path("east"), 2, 2, nil, nil})
	found, err := NoticesAfter(background, client, 0, 0)
	must(t, err)
	same(t, "changes", []any{found.Next, found.Missed, len(found.Changes)}, []any{2, false, 2})
	same(t, "the second", []any{found.Changes[1].Key, found.Changes[1].Before == nil, found.Changes[1].After}, []any{"z", true, "1.2"})
	_, err = NoticesAfter(background, client, 0, 61)
	same(t, "a long wait", strings.Contains(fmt.Sprint(err), "wait"), true)
}

func TestWatch(t *testing.T) {
	folder := t.TempDir()
	first := start(t, folder)
	ctx, cancel := context.WithCancel(background)
	watcher, err := Watch(ctx, first.address(), pnuts.Options{Retries: 50}, -1)
	must(t, err)
	same(t, "it begins", []any{watcher.Next(), watcher.Notices()}, []any{true, Notices{Next: 0, Missed: true}})
	written := make(chan bool)
	go func() { time.Sleep(200 * time.Millisecond); first.write(t, 1, "a"); close(written) }()
	same(t, "a change", []any{watcher.Next(), len(watcher.Notices().Changes), watcher.Notices().Next}, []any{true, 1, 1})
	<-written
	first.kill()
	second := start(t, folder)
	second.write(t, 1, "a", "b", "c")
	same(t, "another region", []any{watcher.Next(), watcher.Notices()}, []any{true, Notices{Next: 3, Missed: true}})
	time.AfterFunc(200*time.Millisecond, cancel)
	same(t, "its end", []any{watcher.Next(), watcher.Err()}, []any{false, context.Canceled})
}

func TestWatchOfNoRegion(t *testing.T) {
	watcher, err := Watch(background, "unix:/nowhere/control", pnuts.Options{Retries: 1}, 0)
	must(t, err)
	same(t, "next", watcher.Next(), false)
	same(t, "why", strings.Contains(fmt.Sprint(watcher.Err()), "connection failed"), true)
	_, err = Watch(background, "nowhere", pnuts.Options{}, 0)
	same(t, "an address", err == nil, false)
}

// until waits for what a history has after a mark.
func until(t *testing.T, history *History, from Mark, holds func(Notices) bool) (Notices, Mark) {
	t.Helper()
	for late := time.After(20 * time.Second); ; {
		found, to, news := history.After(from, 1<<20)
		if holds(found) {
			return found, to
		}
		select {
		case <-news:
		case <-late:
			t.Fatalf("after %v there is %v, error %v", from, found, history.Err())
		}
	}
}

func isMissed(found Notices) bool { return found.Missed }

func has(count int) func(Notices) bool {
	return func(found Notices) bool { return len(found.Changes) == count }
}

func TestHistory(t *testing.T) {
	folder := t.TempDir()
	first := start(t, folder)
	first.write(t, 1, "a", "b")
	ctx, cancel := context.WithCancel(background)
	defer cancel()
	history, err := Follow(ctx, first.address(), pnuts.Options{})
	must(t, err)
	_, last := until(t, history, Mark{}, isMissed)
	same(t, "the last number", last.Number, 2)
	same(t, "what is followed", history.Err(), nil)
	begin := Mark{last.Life, 0}
	found, to := until(t, history, begin, has(2))
	same(t, "what came before", []any{found.Changes[0].Key, found.Changes[1].Number, to}, []any{"a", 2, last})
	first.write(t, 3, "c")
	until(t, history, begin, has(3))
	found, to, _ = history.After(begin, 1)
	same(t, "the first alone", []any{len(found.Changes), to, MarkOf(to.String())}, []any{1, Mark{last.Life, 1}, to})
	other, err := Follow(ctx, first.address(), pnuts.Options{})
	must(t, err)
	until(t, other, begin, has(3))
	for _, wrong := range []Mark{{}, {"x", 1}, {last.Life, 4}, MarkOf("x"), MarkOf(last.Life + ".-1"), MarkOf(last.Life + ".1x")} {
		found, to, _ = history.After(wrong, 1)
		same(t, fmt.Sprint(wrong), []any{found.Missed, to}, []any{true, Mark{last.Life, 3}})
	}
	first.kill()
	second := start(t, folder)
	second.write(t, 1, "a", "b", "c", "d")
	_, to = until(t, history, Mark{last.Life, 3}, isMissed)
	same(t, "another life", to.Life != last.Life, true)
	until(t, history, Mark{to.Life, 0}, has(4))
}

// Changes beyond those that are kept are not known.
func TestHistoryThatIsFull(t *testing.T) {
	history := &History{news: make(chan struct{})}
	history.begin(Mark{"x", 10})
	for number := int64(11); number <= 10+2*kept+1; number++ {
		history.add([]Notice{{Number: number}})
	}
	for from, isKnown := range map[int64]bool{10: false, 10 + kept: false, 11 + kept: true, 11 + 2*kept: true, 12 + 2*kept: false} {
		found, to, _ := history.After(Mark{"x", from}, 5)
		same(t, fmt.Sprint(from), found.Missed, !isKnown)
		if isKnown && from < to.Number {
			same(t, "the first", found.Changes[0].Number, from+1)
		}
	}
}
