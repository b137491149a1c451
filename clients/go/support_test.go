package pnuts

import (
	"bufio"
	"context"
	"encoding/json"
	"fmt"
	"net"
	"os"
	"os/exec"
	"path/filepath"
	"strings"
	"testing"
	"time"
)

var background = context.Background()

const none = `{"row":null}`

// An image of a record, of version 1.0 where none is said.
type image map[string]any

// images have a text in a field each.
func images(field, text string, keys ...string) []image {
	var made []image
	for _, key := range keys {
		made = append(made, image{"fields": map[string]any{field: text}, "key": key, "master": "w", "version": []int{1, 0}})
	}
	return made
}

// program is the built program, by PNUTS. Tests of it are skipped without.
func program(t testing.TB) string {
	path := os.Getenv("PNUTS")
	if path == "" {
		t.Skip("PNUTS names no program")
	}
	return path
}

// freePort is a port that nobody listens on.
func freePort(t testing.TB) int {
	listener, err := net.Listen("tcp", "127.0.0.1:0")
	must(t, err)
	defer listener.Close()
	return listener.Addr().(*net.TCPAddr).Port
}

// A region is a program that serves streams. It is killed at the end of the test, whatever it does.
type region struct {
	address string
	process *exec.Cmd
}

// serve starts a region with streams of any form that JSON has.
func serve(t testing.TB, port int, streams any, words ...string) *region {
	var images map[string][]json.RawMessage
	text, err := json.Marshal(streams)
	must(t, err)
	must(t, json.Unmarshal(text, &images))
	folder := t.TempDir()
	words = append([]string{"serve", fmt.Sprintf("--port=%d", port)}, words...)
	for name, stream := range images {
		var lines strings.Builder
		for at, image := range stream {
			fmt.Fprintf(&lines, "{\"at\":%d,\"image\":%s}\n", at+1, image)
		}
		path := filepath.Join(folder, name)
		must(t, os.WriteFile(path, []byte(lines.String()), 0o600))
		words = append(words, name+"="+path)
	}
	started := &region{fmt.Sprintf("tcp://127.0.0.1:%d", port), exec.Command(program(t), words...)}
	told, err := started.process.StdoutPipe()
	must(t, err)
	must(t, started.process.Start())
	t.Cleanup(started.kill)
	line, err := bufio.NewReader(told).ReadString('\n')
	if err != nil || !strings.HasPrefix(line, "listening on ") {
		t.Fatalf("the program says %q, %v", line, err)
	}
	return started
}

func (r *region) kill() {
	r.process.Process.Kill()
	r.process.Wait()
}

// fake is a server that answers each line of its connections, one after another, with the next of their replies. Then it
// waits for the client to end; after a reply without newline it ends the connection itself.
func fake(t testing.TB, listener net.Listener, connections ...[]string) string {
	t.Cleanup(func() { listener.Close() })
	go func() {
		for _, replies := range connections {
			connection, err := listener.Accept()
			if err != nil {
				return
			}
			answer(connection, replies)
			connection.Close()
		}
	}()
	return "tcp://" + listener.Addr().String()
}

func answer(connection net.Conn, replies []string) {
	lines := bufio.NewReader(connection)
	for _, reply := range replies {
		if _, err := lines.ReadString('\n'); err != nil {
			return
		}
		if pause, err := time.ParseDuration(reply); err == nil {
			time.Sleep(pause)
			continue
		}
		fmt.Fprint(connection, reply)
		if !strings.HasSuffix(reply, "\n") {
			return
		}
	}
	lines.ReadString('\n')
}

func listen(t testing.TB) net.Listener {
	listener, err := net.Listen("tcp", "127.0.0.1:0")
	must(t, err)
	return listener
}

// open makes a client that is closed at the end of the test.
func open(t testing.TB, address string, options Options) *Client {
	client, err := Open(address, options)
	must(t, err)
	t.Cleanup(client.Close)
	return client
}

// waitFor waits until a region has a record.
func waitFor(t testing.TB, client *Client, key string) {
	for tries := 0; tries < 1000; tries++ {
		record, err := client.Read(background, key)
		must(t, err)
		if record != nil {
			return
		}
		time.Sleep(10 * time.Millisecond)
	}
	t.Fatalf("%s did not come", key)
}

// keysOf are the keys of records, empty where there is none.
func keysOf(records []*Record) []string {
	keys := []string{}
	for _, record := range records {
		if record == nil {
			keys = append(keys, "")
		} else {
			keys = append(keys, record.Key)
		}
	}
	return keys
}

// scanned are the keys that a scanner gives.
func scanned(t testing.TB, scanner *Scanner) []string {
	var records []*Record
	for scanner.Next() {
		records = append(records, scanner.Record())
	}
	must(t, scanner.Err())
	return keysOf(records)
}

func must(t testing.TB, err error) {
	t.Helper()
	if err != nil {
		t.Fatal(err)
	}
}

func same(t testing.TB, what string, found, wanted any) {
	t.Helper()
	if one, other := fmt.Sprint(found), fmt.Sprint(wanted); one != other {
		t.Errorf("%s: %s, wanted %s", what, one, other)
	}
}
