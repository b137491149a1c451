package main

import (
	"bufio"
	"context"
	"fmt"
	"io"
	"net"
	"net/http"
	"os"
	"os/exec"
	"path/filepath"
	"strings"
	"testing"
	"time"
)

var background = context.Background()

func must(t testing.TB, err error) {
	t.Helper()
	if err != nil {
		t.Fatal(err)
	}
}

func same(t testing.TB, what string, found, wanted any) {
	t.Helper()
	if one, other := fmt.Sprint(found), fmt.Sprint(wanted); one != other {
		t.Errorf("%s: %s, wanted %s", what, one, other)
	}
}

// told is several values as one text.
func told(values ...any) string { return strings.TrimSuffix(fmt.Sprintln(values...), "\n") }

func until(t testing.TB, what string, holds func() bool) {
	t.Helper()
	for tries := 0; tries < 3000; tries++ {
		if holds() {
			return
		}
		time.Sleep(10 * time.Millisecond)
	}
	t.Fatalf("%s: not in time", what)
}

// serving starts a front with these words, which ends with the test, and gives its address.
func serving(t testing.TB, given ...string) (*front, string) {
	words, err := parsed(append([]string{"--quiet"}, given...))
	must(t, err)
	stopping, stop := context.WithCancel(context.Background())
	front, err := newFront(words, stopping)
	must(t, err)
	listener, err := net.Listen("tcp", "127.0.0.1:0")
	must(t, err)
	server := &http.Server{Handler: front, ConnContext: withConnection, MaxHeaderBytes: mostHeader}
	go func() { _ = server.Serve(&places{listener, make(chan struct{}, words.connections), front.counts}) }()
	t.Cleanup(func() {
		stop()
		server.Close()
		for _, client := range front.clients {
			client.Close()
		}
		until(t, "streams end", func() bool { return len(front.places["streams"]) == 0 })
	})
	return front, "http://" + listener.Addr().String()
}

// asked is the answer to a request, which is one that is described. Headers are `NAME: VALUE`.
func asked(t testing.TB, method, url, body string, headers ...string) (*http.Response, string) {
	t.Helper()
	request, err := http.NewRequest(method, url, strings.NewReader(body))
	must(t, err)
	for _, line := range headers {
		name, value, _ := strings.Cut(line, ": ")
		request.Header.Set(name, value)
	}
	answer, err := http.DefaultClient.Do(request)
	must(t, err)
	defer answer.Body.Close()
	text, err := io.ReadAll(answer.Body)
	must(t, err)
	path := strings.TrimPrefix(url, "http://"+request.URL.Host)
	isDescribed(t, method, path, answer, text)
	return answer, string(text)
}

// fake is a server that answers each line with the next of the replies, again and again; one that is empty ends the connection, and one that
// is a time passes first.
func fake(t testing.TB, replies ...string) string {
	listener, err := net.Listen("tcp", "127.0.0.1:0")
	must(t, err)
	t.Cleanup(func() { listener.Close() })
	go func() {
		for {
			connection, err := listener.Accept()
			if err != nil {
				return
			}
			go answerLines(connection, replies)
		}
	}()
	return "tcp://" + listener.Addr().String()
}

func answerLines(connection net.Conn, replies []string) {
	defer connection.Close()
	lines := bufio.NewReader(connection)
	for at := 0; ; at++ {
		if _, err := lines.ReadString('\n'); err != nil {
			return
		}
		reply := replies[at%len(replies)]
		if pause, err := time.ParseDuration(reply); err == nil {
			time.Sleep(pause)
		}
		if reply == "" {
			return
		}
		fmt.Fprintln(connection, reply)
	}
}

// A region is a program that stays, with a control socket and a stream's socket. It is killed at the end of the test.
type region struct {
	folder  string
	process *exec.Cmd
}

func (r *region) path(name string) string { return filepath.Join(r.folder, name) }

func (r *region) address() string { return "unix:" + r.path("clients") }

func (r *region) control() string { return "unix:" + r.path("control") }

func startRegion(t testing.TB, folder string) *region {
	program := os.Getenv("PNUTS")
	if program == "" {
		t.Skip("PNUTS names no program")
	}
	made := &region{folder: folder}
	made.process = exec.Command(program, "serve", "--stay", "--socket", made.path("clients"), "--control", made.path("control"),
		"--bounds", `["m"]`, "east=listen:"+made.path("east"))
	said, err := made.process.StdoutPipe()
	must(t, err)
	must(t, made.process.Start())
	t.Cleanup(made.kill)
	line, err := bufio.NewReader(said).ReadString('\n')
	must(t, err)
	same(t, "whether it listens", strings.HasPrefix(line, "listening on "), true)
	return made
}

func (r *region) kill() {
	_ = r.process.Process.Kill()
	_ = r.process.Wait()
}

// image is a message of a record whose field v is a text.
func image(key, text string, number int) string {
	return fmt.Sprintf(`{"fields":{"v":%q},"key":%q,"master":"w","version":[1,%d]}`, text, key, number)
}

// write writes images from a position on, and waits until they are taken.
func (r *region) write(t testing.TB, first int, images ...string) {
	t.Helper()
	writer, err := net.Dial("unix", r.path("east"))
	must(t, err)
	defer writer.Close()
	lines := bufio.NewReader(writer)
	line, err := lines.ReadString('\n')
	must(t, err)
	same(t, "what it has", line, fmt.Sprintf("{\"after\":%d}\n", first-1))
	for at, image := range images {
		fmt.Fprintf(writer, "{\"at\":%d,\"image\":%s}\n", first+at, image)
	}
	for last := fmt.Sprintf("{\"taken\":%d}\n", first+len(images)-1); line != last; {
		line, err = lines.ReadString('\n')
		must(t, err)
	}
}

// told gives the reply of the control socket to a line.
func (r *region) told(t testing.TB, line string) string {
	socket, err := net.Dial("unix", r.path("control"))
	must(t, err)
	defer socket.Close()
	fmt.Fprintln(socket, line)
	reply, err := bufio.NewReader(socket).ReadString('\n')
	must(t, err)
	return reply
}
