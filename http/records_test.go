package main

import (
	"context"
	"fmt"
	"net/http"
	"net/url"
	"os"
	"strings"
	"testing"
	"time"
)

const row = `{"row":{"contents":[{"fields":{"v":"x"},"master":"w"}],"key":"k","state":"one","version":[1,5]}}`

func TestRecordsOfARegion(t *testing.T) {
	region := startRegion(t, t.TempDir())
	odd := "a/b?c%d+é \"\\\u2028"
	region.write(t, 1, image("k", "x", 5), image(odd, "y", 0), `{"deleted":true,"key":"gone","master":"w","version":[2,1]}`)
	_, base := serving(t, region.address())
	answer, body := asked(t, "GET", base+"/records/k", "")
	same(t, "a record", body, row[len(`{"row":`):len(row)-1]+"\n")
	same(t, "status", answer.StatusCode, 200)
	tag := answer.Header.Get("ETag")
	same(t, "its tag", strings.HasPrefix(tag, `"1.5-`), true)
	for given, status := range map[string]int{tag: 304, "W/" + tag: 304, `"x", ` + tag: 304, "*": 304, `"1.5-0"`: 200, "": 200} {
		answer, body = asked(t, "GET", base+"/records/k", "", "If-None-Match: "+given)
		same(t, "with "+given, told(answer.StatusCode, len(body) == 0), told(status, status == 304))
	}
	answer, body = asked(t, "HEAD", base+"/records/k", "")
	same(t, "its head", told(answer.StatusCode, answer.ContentLength, body), "200 89 ")
	_, body = asked(t, "GET", base+"/records/"+url.PathEscape(odd), "")
	same(t, "a key that is odd", strings.Contains(body, `"v":"y"`), true)
	answer, body = asked(t, "GET", base+"/records/gone", "")
	same(t, "a deleted one", told(answer.StatusCode, strings.Contains(body, `"deleted","where"`), strings.Contains(body, `[2,1]`)), "404 true true")
	answer, body = asked(t, "GET", base+"/records/none", "")
	same(t, "one that is not there", told(answer.StatusCode, body), `404 {"error":"not-found","where":"path","why":"there is no record of this key"}`+"\n")
	answer, _ = asked(t, "GET", base+"/records/k?at-least=1.5", "")
	same(t, "in its version", answer.StatusCode, 200)
	answer, body = asked(t, "GET", base+"/records/k?at-least=1.6", "")
	same(t, "in a later one", told(answer.StatusCode, answer.Header.Get("Retry-After"), strings.Contains(body, `"has":[1,5]`)), "412 1 true")
	region.told(t, `{"do":"lose","tablet":0}`)
	answer, body = asked(t, "GET", base+"/records/k", "")
	same(t, "of a lost tablet", told(answer.StatusCode, answer.Header.Get("Retry-After"), strings.Contains(body, "recovering")), "503 1 true")
	answer, _ = asked(t, "GET", base+"/healthz", "")
	same(t, "its health", answer.StatusCode, 200)
}

func TestPagesOfRanges(t *testing.T) {
	low, high := startRegion(t, t.TempDir()), startRegion(t, t.TempDir())
	low.write(t, 1, image("a", "x", 0), image("b", "y", 0), image("c", "x", 0))
	high.write(t, 1, image("n", "x", 0), image("o", "y", 0))
	_, base := serving(t, "--bounds", `["m"]`, low.address(), high.address())
	for query, wanted := range map[string]string{"": "a b c n o", "?limit=1": "a b c n o", "?limit=2": "a b c n o", "?limit=3": "a b c n o",
		"?from=b&to=o": "b c n", "?after=c": "n o", "?from=m&limit=1": "n o", "?to=m": "a b c", `?where=["eq","v","x"]&limit=2`: "a c n",
		`?where=["has","v"]&where=["gt","v","x"]`: "b o", "?from=z": "", "?to=a": ""} {
		keys := []string{}
		for path := "/records" + strings.ReplaceAll(query, `"`, "%22"); path != ""; {
			answer, body := asked(t, "GET", base+path, "")
			same(t, "status of "+path, answer.StatusCode, 200)
			for _, it := range list(read(t, []byte(body)).(map[string]any)["rows"]) {
				keys = append(keys, it.(map[string]any)["key"].(string))
			}
			path = strings.TrimSuffix(strings.TrimPrefix(answer.Header.Get("Link"), "<"), `>; rel="next"`)
		}
		same(t, "the keys of "+query, strings.Join(keys, " "), wanted)
	}
	_, body := asked(t, "POST", base+"/get", `{"keys":["n","z","a","n"]}`, "Content-Type: application/json; charset=utf-8")
	keys := []string{}
	for _, it := range list(read(t, []byte(body)).(map[string]any)["rows"]) {
		found, _ := it.(map[string]any)
		keys = append(keys, fmt.Sprint(found["key"]))
	}
	same(t, "records of keys", strings.Join(keys, " "), "n <nil> a n")
	answer, body := asked(t, "GET", base+"/copies/1?range=1", "")
	same(t, "a copy", told(answer.StatusCode, strings.HasSuffix(body, "{\"end\":3}\n")), "200 true")
	low.kill()
	answer, body = asked(t, "GET", base+"/healthz", "")
	same(t, "its health", told(answer.StatusCode, strings.Contains(body, "range 0")), "503 true")
	answer, _ = asked(t, "GET", base+"/records/n", "")
	same(t, "the other range", answer.StatusCode, 200)
}

// Each reply of a region has its status, whether it is asked again, and its word.
func TestFaultsOfRegions(t *testing.T) {
	for _, it := range []struct {
		reply  string
		status int
		what   string
	}{
		{`{"error":"recovering","tablet":1}`, 503, "recovering"}, {`{"error":"no-entry"}`, 503, "busy"}, {`{"error":"memory"}`, 503, "busy"},
		{`{"error":"behind","has":null}`, 412, "behind"}, {`{"error":"behind","has":[1,4]}`, 412, "behind"},
		{`{"error":"out-of-range","member":"key"}`, 400, "bad-request"}, {`{"error":"bad-shape","member":"query"}`, 400, "bad-request"},
		{`{"error":"new-one"}`, 502, "failed"}, {`garbage`, 502, "failed"}, {`{}`, 502, "failed"}, {`{"row":{}}`, 502, "failed"},
		{`{"row":{"contents":[{}],"key":"k","state":"one","version":[0]}}`, 502, "failed"}, {``, 503, "away"}, {`1100ms`, 504, "late"},
		{row, 200, ""}, {`{"row":null}`, 404, "not-found"},
		{`{"row":{"version":[1,5],"state":"one","key":"k","contents":[{"master":"w","fields":{"v":"x"}}]}}`, 200, ""},
	} {
		_, base := serving(t, "--timeout", "1", fake(t, it.reply))
		answer, body := asked(t, "GET", base+"/records/k?at-least=1.5", "")
		same(t, "the status for "+it.reply, answer.StatusCode, it.status)
		if it.what != "" {
			same(t, "the fault for "+it.reply, read(t, []byte(body)).(map[string]any)["error"], it.what)
			same(t, "whether it is asked again", answer.Header.Get("Retry-After") == "1", it.status > 502 || it.status == 412)
		} else {
			same(t, "the row", body, row[len(`{"row":`):len(row)-1]+"\n")
		}
	}
	_, base := serving(t, fake(t, `{"error":"recovering","tablet":1}`)+","+fake(t, row))
	answer, _ := asked(t, "GET", base+"/records/k", "")
	same(t, "where another region has it", answer.StatusCode, 200)
}

// What is wrong with a request is told, and no region is asked.
func TestFaultsOfRequests(t *testing.T) {
	_, base := serving(t, fake(t, `{"error":"out-of-range","member":"query"}`))
	long := strings.Repeat("k", mostKey+1)
	for line, status := range map[string]int{
		"GET /records/": 400, "GET /records/" + long: 400, "GET /records/%FF": 400, "GET /records/%E9": 400, "GET /records/k?x=1": 400,
		"GET /records/k?at-least=": 400, "GET /records/k?at-least=1": 400, "GET /records/k?at-least=1.-1": 400, "GET /records/k?at-least=1.1&at-least=1.1": 400,
		"GET /records/k?at-least=99999999999999999999.1": 400, "GET /records/k?%zz=1": 400, "GET /records/k?a;b": 400, "GET /records/a/b": 404,
		"GET /records?limit=0": 400, "GET /records?limit=1001": 400, "GET /records?limit=x": 400, "GET /records?limit=": 400, "GET /records?from=%FF": 400,
		"GET /records?where=": 400, "GET /records?where=[]": 400, "GET /records?where={}": 400, "GET /records?where=[1,2,3]": 400,
		"GET /records?where=[%22eq%22,%22v%22,1.5]": 400, "GET /records?where=[%22eq%22,%22v%22]%20x": 400, "GET /records?from=" + long: 400,
		"DELETE /records/k": 405, "POST /records": 405, "GET /get": 405, "PUT /get": 405, "POST /changes": 405, "GET /changes": 404, "GET /": 404,
		"GET //records/k": 404, "GET /records/k/": 404, "GET /../records/k": 404, "GET /copies/x": 400, "GET /copies/-1": 400,
		"GET /copies/0?range=1": 400, "GET /copies/99999999999999999999": 400, "GET /healthz?x": 400,
	} {
		method, path, _ := strings.Cut(line, " ")
		answer, body := asked(t, method, base+path, "")
		same(t, "the status of "+line, told(answer.StatusCode, answer.Header.Get("Content-Type")), told(status, asJSON))
		same(t, "whether it says why: "+body, len(read(t, []byte(body)).(map[string]any)), 3)
	}
	for body, status := range map[string]int{"": 400, "x": 400, "{}": 400, `{"keys":[]}`: 400, `{"keys":["a"],"more":1}`: 400, `{"keys":"a"}`: 400, `{"keys":[null]}`: 400,
		`{"keys":[1]}`: 400, `{"keys":[""]}`: 400, `{"keys":["a"]} x`: 400, "{\"keys\":[\"\xff\"]}": 400, `{"keys":["` + long + `"]}`: 400, "null": 400,
		`{"keys":["a"` + strings.Repeat(`,"a"`, mostKeys) + `]}`: 400, strings.Repeat(" ", mostBody+1): 413, strings.Repeat("[", 9_000): 400} {
		answer, _ := asked(t, "POST", base+"/get", body, "Content-Type: application/json")
		same(t, "the status of "+cut(body), answer.StatusCode, status)
	}
	answer, _ := asked(t, "POST", base+"/get", `{"keys":["a"]}`)
	same(t, "the status without a kind", answer.StatusCode, 415)
}

func TestTokens(t *testing.T) {
	path := t.TempDir() + "/tokens"
	must(t, os.WriteFile(path, []byte("# who\nreader-0123456789 read\n\n all+of~them/012345== \t changes,read,copy\n"), 0o600))
	front, base := serving(t, "--tokens", path, fake(t, row))
	for _, it := range []struct {
		token, path string
		status      int
	}{
		{"", "/records/k", 401}, {"Bearer x", "/records/k", 401}, {"Bearer", "/records/k", 401}, {"Basic reader-0123456789", "/records/k", 401},
		{"Bearer reader-0123456789", "/records/k", 200}, {"bearer  reader-0123456789 ", "/records/k", 200}, {"Bearer reader-0123456789", "/copies/0", 403},
		{"Bearer reader-0123456789", "/changes", 403}, {"Bearer all+of~them/012345==", "/changes", 404}, {"", "/healthz", 200}, {"", "/metrics", 200},
		{"", "/openapi.json", 200}, {"", "/none", 404},
	} {
		answer, _ := asked(t, "GET", base+it.path, "", "Authorization: "+it.token)
		same(t, it.path+" with "+it.token, answer.StatusCode, it.status)
	}
	for _, text := range []string{"", "# none", "short read", "reader-0123456789", "reader-0123456789 write", "reader-0123456789 read,", "r\x00eader-0123456789 read"} {
		must(t, os.WriteFile(path, []byte(text), 0o600))
		if err := front.load(); err == nil {
			t.Errorf("%q is a file of tokens", text)
		}
	}
	answer, _ := asked(t, "GET", base+"/records/k", "", "Authorization: Bearer reader-0123456789")
	same(t, "what was read before", answer.StatusCode, 200)
}

func TestWords(t *testing.T) {
	for _, it := range []string{"", "--bounds [\"m\"] unix:a", "--bounds x unix:a", "--control unix:a --control unix:b unix:c", "--key k unix:a", "--sessions 0 unix:a",
		"--sessions 1001 unix:a", "--timeout 601 unix:a", "--streams -1 unix:a", "--connections x unix:a", "--nothing unix:a", "unix:a unix:b"} {
		if told, err := parsed(strings.Fields(it)); err == nil {
			t.Errorf("%q is taken: %v", it, told)
		}
	}
	for _, it := range []string{"x", "unix:", "http://a", "unix:a,", "--tokens /nothing unix:a", "--certificate /nothing --key /nothing unix:a"} {
		told, err := parsed(strings.Fields(it))
		must(t, err)
		if _, err = newFront(told, background); err == nil {
			t.Errorf("%q is taken", it)
		}
	}
}

// As many as there are places are answered at once, and others are told so after a second.
func TestPlaces(t *testing.T) {
	front, base := serving(t, fake(t, `{"rows":[],"next":null}`))
	for at := 0; at < cap(front.places["pages"]); at++ {
		front.places["pages"] <- struct{}{}
	}
	begin := time.Now()
	answer, body := asked(t, "GET", base+"/records", "")
	same(t, "where all places are taken", told(answer.StatusCode, strings.Contains(body, "busy"), time.Since(begin) > time.Second), "503 true true")
	time.AfterFunc(100*time.Millisecond, func() { <-front.places["pages"] })
	answer, _ = asked(t, "GET", base+"/records", "")
	same(t, "where one is left", answer.StatusCode, http.StatusOK)
}

// A place that is free is given, however late: a machine that is busy may hold up anybody for longer than a second.
func TestPlacesOfThoseWhoAreLate(t *testing.T) {
	over, end := context.WithCancel(background)
	end()
	late := &answer{front: &front{places: map[string]chan struct{}{"copies": make(chan struct{}, 1)}}, ctx: over}
	for tries := 0; tries < 100; tries++ {
		leave, err := late.enter("copies")
		must(t, err)
		leave()
	}
}
