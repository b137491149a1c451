package main

import (
	"bufio"
	"fmt"
	"net/http"
	"strings"
	"testing"
)

// An event is what a stream tells.
type event struct{ kind, id, data string }

// A reader reads the events of a stream.
type reader struct {
	answer *http.Response
	lines  *bufio.Scanner
}

func follow(t testing.TB, base, id string) *reader {
	t.Helper()
	request, err := http.NewRequest("GET", base+"/changes", nil)
	must(t, err)
	if id != "" {
		request.Header.Set("Last-Event-ID", id)
	}
	answer, err := http.DefaultClient.Do(request)
	must(t, err)
	t.Cleanup(func() { answer.Body.Close() })
	isDescribed(t, "GET", "/changes", answer, nil)
	return &reader{answer, bufio.NewScanner(answer.Body)}
}

// next is the next event with data.
func (r *reader) next(t testing.TB) (found event) {
	t.Helper()
	for r.lines.Scan() {
		switch name, value, _ := strings.Cut(r.lines.Text(), ": "); name {
		case "event":
			found.kind = value
		case "id":
			found.id = value
		case "data":
			found.data = value
		case "":
			if found.data != "" {
				if found.kind == "change" {
					fits(t, found.data, described().at("components", "schemas", "Change"), read(t, []byte(found.data)))
				}
				return found
			}
		}
	}
	t.Fatalf("the stream ended: %v", r.lines.Err())
	return found
}

// nextIs looks at the next event, and gives its id.
func (r *reader) nextIs(t testing.TB, kind, part string) string {
	t.Helper()
	found := r.next(t)
	if found.kind != kind || !strings.Contains(found.data, part) {
		t.Fatalf("%v, wanted %s with %s", found, kind, part)
	}
	return found.id
}

func isFollowed(t testing.TB, front *front) {
	t.Helper()
	until(t, "changes are followed", func() bool { return front.histories[0].Err() == nil })
}

func TestChanges(t *testing.T) {
	folder := t.TempDir()
	first := startRegion(t, folder)
	front, base := serving(t, "--control", first.control(), "--streams", "4", first.address())
	isFollowed(t, front)
	stream := follow(t, base, "")
	begin := stream.nextIs(t, "missed", `{"range":0}`)
	first.write(t, 1, image("a", "x", 0), image("b", "x", 0))
	stream.nextIs(t, "change", `{"number":1,"key":"a","before":null,"after":[1,0]}`)
	middle := stream.nextIs(t, "change", `"key":"b"`)
	first.write(t, 3, image("c", "x", 0))
	last := stream.nextIs(t, "change", `{"number":3,"key":"c","before":null,"after":[1,0]}`)
	again := follow(t, base, begin)
	again.nextIs(t, "change", `"key":"a"`)
	same(t, "the same event", again.nextIs(t, "change", `"key":"b"`), middle)
	again.nextIs(t, "change", `"key":"c"`)

	// A front that began anew goes on where another one was.
	other, there := serving(t, "--control", first.control(), first.address())
	isFollowed(t, other)
	same(t, "the last event at another front", follow(t, there, middle).nextIs(t, "change", `"key":"c"`), last)
	for _, id := range []string{"x", middle + " " + middle, "x" + middle, strings.Replace(last, ".3", ".4", 1), strings.Replace(last, ".3", ".-1", 1), strings.Repeat("9", 5_000)} {
		same(t, "the mark after "+id, follow(t, there, id).nextIs(t, "missed", ""), last)
	}

	// What a loss has changed is not known.
	first.told(t, `{"do":"lose","tablet":1}`)
	stream.nextIs(t, "missed", "")
	again.nextIs(t, "missed", "")

	// A region that began anew has other numbers.
	first.kill()
	until(t, "nobody is followed", func() bool { return front.histories[0].Err() != nil })
	waiting := follow(t, base, middle)
	second := startRegion(t, folder)
	waiting.nextIs(t, "missed", "")
	begin = stream.nextIs(t, "missed", "")
	second.write(t, 1, image("a", "x", 0))
	stream.nextIs(t, "change", `{"number":1,"key":"a"`)
	same(t, "the mark after one of another life", follow(t, base, middle).nextIs(t, "missed", "") != begin, true)
	answer, body := asked(t, "GET", base+"/changes", "")
	same(t, "with too many streams", told(answer.StatusCode, strings.Contains(body, "busy")), "503 true")
	_, text := asked(t, "GET", base+"/metrics", "")
	same(t, "how many are open", strings.Contains(text, "pnuts_http_streams_open 4\n"), true)
}

// More changes at once than a region keeps: all are told, or that some are not known.
func TestManyChanges(t *testing.T) {
	region := startRegion(t, t.TempDir())
	front, base := serving(t, "--control", region.control(), region.address())
	isFollowed(t, front)
	stream := follow(t, base, "")
	stream.nextIs(t, "missed", "")
	const parts, each = 10, 1000
	written := make(chan bool)
	go func() {
		defer close(written)
		for part := 0; part < parts; part++ {
			images := make([]string, each)
			for at := range images {
				images[at] = image(fmt.Sprintf("k%06d", part*each+at+1), "x", 0)
			}
			region.write(t, part*each+1, images...)
		}
	}()
	defer func() { <-written }()
	number, count := 0, parts*each
	for found := (event{}); !strings.HasSuffix(found.id, fmt.Sprintf(".%d", count)); {
		if found = stream.next(t); found.kind == "missed" {
			fmt.Sscanf(found.id[strings.IndexByte(found.id, '.')+1:], "%d", &number)
			continue
		}
		number++
		same(t, "the number", strings.HasPrefix(found.data, fmt.Sprintf(`{"number":%d,"key":"k%06d"`, number, number)), true)
	}
}

// Changes of two ranges come on one stream, whose marks are of both.
func TestChangesOfRanges(t *testing.T) {
	low, high := startRegion(t, t.TempDir()), startRegion(t, t.TempDir())
	front, base := serving(t, "--bounds", `["m"]`, "--control", low.control(), "--control", high.control(), low.address(), high.address())
	isFollowed(t, front)
	until(t, "both are followed", func() bool { return front.histories[1].Err() == nil })
	stream := follow(t, base, "")
	stream.nextIs(t, "missed", `{"range":0}`)
	stream.nextIs(t, "missed", `{"range":1}`)
	low.write(t, 1, image("a", "x", 0))
	id := stream.nextIs(t, "change", `"key":"a"`)
	high.write(t, 1, image("n", "x", 0))
	last := stream.nextIs(t, "change", `"key":"n"`)
	same(t, "the event after", follow(t, base, id).nextIs(t, "change", `"key":"n"`), last)
	high.told(t, `{"do":"lose","tablet":1}`)
	stream.nextIs(t, "missed", `{"range":1}`)
}
