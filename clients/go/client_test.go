package pnuts

import (
	"context"
	"encoding/json"
	"errors"
	"fmt"
	"os"
	"path/filepath"
	"runtime"
	"strings"
	"sync"
	"testing"
	"time"
)

const count = 250

// people are records of two cities in turn.
func people() (map[string][]image, []string) {
	var stream []image
	var keys []string
	for at := 0; at < count; at++ {
		key := fmt.Sprintf("k%03d", at)
		keys = append(keys, key)
		stream = append(stream, images("city", []string{"Oslo", "Rome"}[at%2], key)...)
	}
	return map[string][]image{"east": stream}, keys
}

// opened is a client of a region that has all people.
func opened(t testing.TB, options Options, words ...string) (*Client, []string) {
	streams, keys := people()
	client := open(t, serve(t, freePort(t), streams, words...).address, options)
	waitFor(t, client, keys[count-1])
	return client, keys
}

func TestLookups(t *testing.T) {
	client, keys := opened(t, Options{})
	record, err := client.ReadAtLeast(background, "k001", Version{1, 0})
	must(t, err)
	same(t, "record", *record, Record{"k001", Version{1, 0}, "one", []Content{{Fields: Fields{"city": "Rome"}, Master: "w"}}})
	same(t, "fields", record.Fields(), Fields{"city": "Rome"})
	record, err = client.Read(background, "z")
	must(t, err)
	same(t, "no record", record == nil, true)
	_, err = client.ReadAtLeast(background, "k001", Version{1, 1})
	behind := (*RecordBehind)(nil)
	same(t, "whether it is behind", errors.As(err, &behind), true)
	same(t, "what it has", behind.Has, Version{1, 0})
	records, err := client.Get(background, append(keys, "z", "k000"))
	must(t, err)
	same(t, "keys", keysOf(records), append(keys, "", "k000"))
}

func TestKeysWhoseLinesWouldBeTooLong(t *testing.T) {
	client, all := opened(t, Options{})
	last := all[count-1]
	for text, lines := range map[string]int{strings.Repeat("\u0436", 126): 1, strings.Repeat("\u0001", 254): 3} {
		keys, wanted := []string{}, []string{}
		for at := 0; at < 100; at++ {
			keys, wanted = append(keys, fmt.Sprintf("%s%02d", text, at)), append(wanted, "")
		}
		same(t, "lines", len(endsOf(keys))-1, lines)
		records, err := client.Get(background, append(keys, last))
		must(t, err)
		same(t, "keys", keysOf(records), append(wanted, last))
	}
}

func TestScans(t *testing.T) {
	client, keys := opened(t, Options{})
	same(t, "all keys", scanned(t, client.Scan(background, Query{Limit: 7})), keys)
	where := []Condition{Eq("city", "Rome"), Has("city")}
	found := scanned(t, client.Scan(background, Query{From: "k010", To: "k020", Where: where, Limit: 2}))
	same(t, "keys", found, "[k011 k013 k015 k017 k019]")
	scanner := client.Scan(background, Query{Limit: 1001})
	bad := (*BadLine)(nil)
	same(t, "whether the limit is refused", !scanner.Next() && errors.As(scanner.Err(), &bad), true)
	same(t, "the refusal", []string{bad.Reason, bad.Member}, "[out-of-range query]")
}

func TestCopies(t *testing.T) {
	client, _ := opened(t, Options{})
	folder := t.TempDir()
	path := filepath.Join(folder, "copy")
	must(t, client.Copy(background, 0, path, map[string]int64{"east": count}))
	text, err := os.ReadFile(path)
	must(t, err)
	same(t, "its begin", strings.HasPrefix(string(text), "{\"copy\":1,\"from\":null,\"to\":null}\n{\"at\":250,\"stream\":\"east\"}\n"), true)
	same(t, "its end", strings.HasSuffix(string(text), "\n{\"end\":251}\n"), true)
	err = client.Copy(background, 0, path+"2", map[string]int64{"east": count + 1})
	behind := (*CopyBehind)(nil)
	same(t, "whether it is behind", errors.As(err, &behind), true)
	same(t, "by what", []any{behind.Stream, behind.Has, behind.Wanted}, "[east 250 251]")
	files, err := os.ReadDir(folder)
	same(t, "files", len(files), 1)
}

func TestLinesInFlightOfManyGoroutines(t *testing.T) {
	client, keys := opened(t, Options{Connections: 2}, "--sessions=2")
	must(t, together(20*count, func(at int) error {
		record, err := client.Read(background, keys[at%count])
		if err == nil && record.Key != keys[at%count] {
			err = fmt.Errorf("%s in place of %s", record.Key, keys[at%count])
		}
		return err
	}))
}

func TestARegionThatIsKilledAndComesBack(t *testing.T) {
	streams, keys := people()
	port := freePort(t)
	killed := serve(t, port, streams)
	client := open(t, killed.address, Options{Retries: 20})
	waitFor(t, client, keys[count-1])
	killed.kill()
	serve(t, port, streams)
	waitFor(t, client, keys[count-1])
}

func TestNobodyListens(t *testing.T) {
	client := open(t, fmt.Sprintf("tcp://127.0.0.1:%d", freePort(t)), Options{Retries: -1})
	_, err := client.Read(background, "k")
	failed := (*ConnectionFailed)(nil)
	same(t, "whether it failed", errors.As(err, &failed), true)
}

func TestHalfAReplyAndAnotherSession(t *testing.T) {
	client := open(t, fake(t, listen(t), []string{`{"row":`}, []string{none + "\n"}), Options{})
	record, err := client.Read(background, "k")
	must(t, err)
	same(t, "no record", record == nil, true)
}

func TestHalfACopyAndAnotherSession(t *testing.T) {
	whole := "{\"lines\":2}\n{\"copy\":1,\"from\":null,\"to\":null}\n{\"end\":0}\n"
	client := open(t, fake(t, listen(t), []string{whole[:len(whole)-5]}, []string{whole}), Options{})
	path := filepath.Join(t.TempDir(), "copy")
	must(t, client.Copy(background, 0, path, nil))
	text, _ := os.ReadFile(path)
	same(t, "copy", string(text), whole[len("{\"lines\":2}\n"):])
}

func TestALateReplyIsNeverThatOfAnotherLine(t *testing.T) {
	late := `{"row":{"contents":[{"deleted":true,"master":"w"}],"key":"k","state":"deleted","version":[1,1]}}` + "\n"
	client := open(t, fake(t, listen(t), []string{"300ms", late + none + "\n"}, []string{none + "\n"}), Options{Timeout: time.Hour})
	ctx, stop := context.WithTimeout(background, 100*time.Millisecond)
	defer stop()
	_, err := client.Read(ctx, "k")
	timedOut := (*TimedOut)(nil)
	same(t, "whether it timed out", errors.As(err, &timedOut), true)
	record, err := client.Read(background, "z")
	must(t, err)
	same(t, "no record", record == nil, true)
}

func TestASilentConnectionIsGivenUp(t *testing.T) {
	client := open(t, fake(t, listen(t), []string{"500ms"}, []string{none + "\n"}), Options{Timeout: 200 * time.Millisecond})
	_, err := client.Read(background, "k")
	same(t, "whether it timed out", errors.Is(err, context.DeadlineExceeded), true)
	time.Sleep(400 * time.Millisecond)
	_, err = client.Read(background, "k")
	must(t, err)
}

func TestACallThatIsCancelled(t *testing.T) {
	client := open(t, fake(t, listen(t), []string{"100ms", none + "\n"}), Options{})
	ctx, cancel := context.WithCancel(background)
	go cancel()
	_, err := client.Read(ctx, "k")
	same(t, "why it ended", err, context.Canceled)
}

func TestNoRegion(t *testing.T) {
	client := open(t, fake(t, listen(t), []string{"HTTP/1.1 400 Bad Request\n"}), Options{})
	_, err := client.Read(background, "k")
	wrong := (*ProtocolError)(nil)
	same(t, "whether it is none", errors.As(err, &wrong), true)
}

func TestFewerRowsThanKeys(t *testing.T) {
	client := open(t, fake(t, listen(t), []string{"{\"rows\":[null]}\n"}), Options{})
	_, err := client.Get(background, []string{"a", "b"})
	wrong := (*ProtocolError)(nil)
	same(t, "whether it is none", errors.As(err, &wrong), true)
}

func TestARefusalKeepsTheSession(t *testing.T) {
	client := open(t, fake(t, listen(t), []string{"{\"error\":\"behind\",\"has\":null}\n", none + "\n"}), Options{})
	_, err := client.ReadAtLeast(background, "k", Version{1, 0})
	behind := (*RecordBehind)(nil)
	same(t, "whether it has none", errors.As(err, &behind) && behind.Has == nil, true)
	_, err = client.Read(background, "k")
	must(t, err)
}

func TestATextThatIsNoUTF8(t *testing.T) {
	client := open(t, fake(t, listen(t), []string{none + "\n"}), Options{})
	_, err := client.Read(background, "\xff")
	same(t, "whether it is refused", err != nil && strings.Contains(err.Error(), "no UTF-8"), true)
	_, err = client.Read(background, `\ufffd`+"\ufffd")
	must(t, err)
}

func TestNothingIsLeftRunning(t *testing.T) {
	before := runtime.NumGoroutine()
	var asking sync.WaitGroup
	client := open(t, fake(t, listen(t), []string{"100ms"}), Options{})
	asking.Add(1)
	go func() { defer asking.Done(); client.Read(background, "k") }()
	time.Sleep(50 * time.Millisecond)
	client.Close()
	asking.Wait()
	_, err := client.Read(background, "k")
	same(t, "whether it is closed", err != nil, true)
	time.Sleep(200 * time.Millisecond)
	same(t, "goroutines", runtime.NumGoroutine() <= before+1, true)
}

// rowAnswered is what a client makes of a reply to a read, as a row and as a record that is written again.
func rowAnswered(t *testing.T, reply string) (row *Row, again []byte, err error) {
	client := open(t, fake(t, listen(t), []string{reply + "\n", reply + "\n"}), Options{Retries: -1})
	row, err = client.ReadRow(background, "k", nil)
	record, other := client.Read(background, "k")
	same(t, "whether both fail", err == nil, other == nil)
	again, other = json.Marshal(record)
	must(t, other)
	return row, again, err
}

func TestRows(t *testing.T) {
	count := 0
	for _, told := range canBeAsked(t, vectorsOf(t, "lookups").Exchanges) {
		if reply := told.Replies[0]; strings.HasPrefix(reply, `{"row":`) {
			row, again, err := rowAnswered(t, reply)
			must(t, err)
			if text := reply[len(`{"row":`) : len(reply)-1]; row == nil {
				same(t, "no row", text, "null")
			} else {
				same(t, "a row", string(row.Text), text)
				same(t, "a record", asWritten(t, again), asWritten(t, row.Text))
			}
			count++
		}
	}
	same(t, "whether there are rows", count > 0, true)
	const head, tail = `{"row":{"contents":[{"fields":{"v":"],\"key\":\"x\""},"master":"w"}],`, `"key":"k","state":"one","version":[1,5]}}`
	for reply, isRow := range map[string]bool{head + tail: true, head + ` ` + tail: true, strings.Replace(head+tail, `,"version":[1,5]`, ``, 1): false,
		strings.Replace(head+tail, `}}`, `},"x":1}`, 1): true, strings.Replace(head+tail, "[1,5]", "[0,0]", 1): false, `{"row":{"contents":[{`: false} {
		row, _, err := rowAnswered(t, reply)
		wrong, broken := (*ProtocolError)(nil), (*ConnectionFailed)(nil)
		same(t, "whether it is a row: "+reply, []any{err == nil, errors.As(err, &wrong) || errors.As(err, &broken)}, []any{isRow, !isRow})
		if isRow {
			same(t, "its parts", []any{row.Key, row.Version, row.State, strings.Contains(string(row.Text), `],\"key\":\"x\"`)}, []any{"k", "1.5", "one", true})
		}
	}
}

// A row is not older than one that was shown before, by another region.
func TestRowsOfSeveralRegions(t *testing.T) {
	const row = `{"row":{"contents":[{"fields":{},"master":"w"}],"key":"k","state":"one","version":[1,5]}}` + "\n"
	first, second := fake(t, listen(t), []string{row, `{"error":"recovering","tablet":0}` + "\n"}), fake(t, listen(t), []string{`{"error":"behind","has":[1,4]}` + "\n"})
	client, err := OpenAny([]string{first, second}, Options{Retries: -1})
	must(t, err)
	defer client.Close()
	found, err := client.ReadRow(background, "k", nil)
	must(t, err)
	same(t, "the version", found.Version, "1.5")
	_, err = client.ReadRow(background, "k", nil)
	behind := (*RecordBehind)(nil)
	same(t, "whether the other is behind", errors.As(err, &behind), true)
	same(t, "what was asked for", client.seen.atLeast("k", nil), "1.5")
}
