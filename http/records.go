package main

import (
	"bytes"
	"context"
	"crypto/sha256"
	"encoding/json"
	"errors"
	"fmt"
	"net/http"
	"regexp"
	"strconv"
	"strings"
	"time"
	"unicode/utf8"

	"keqapwi.example/pnuts"
)

const (
	// mostKeys is how many keys are asked for at once, and mostKey how many bytes one has.
	mostKeys, mostKey = 100, 256
	// mostRows and usualRows are how many records a page has at most, and where nothing is said.
	mostRows, usualRows = 1000, 100
)

// versionForm is that of a version. Regions say what is beyond their limits.
var versionForm = regexp.MustCompile(`^\d{1,16}\.\d{1,16}$`)

// checkKey says what is wrong with a key.
func checkKey(where, key string) error {
	if key == "" || len(key) > mostKey || !utf8.ValidString(key) {
		return bad(where, fmt.Sprintf("a key has 1 to %d bytes of UTF-8, and this one %d", mostKey, len(key)))
	}
	return nil
}

// record answers with the record of a key, and a tag of its version and all that is shown.
func (a *answer) record() error {
	if err := checkKey("path", a.last); err != nil {
		return err
	}
	var least *pnuts.Version
	if text := a.query.Get("at-least"); versionForm.MatchString(text) {
		least = &pnuts.Version{}
		_, _ = fmt.Sscanf(text, "%d.%d", &least[0], &least[1])
	} else if a.query.Has("at-least") {
		return bad("at-least", "a version is GENERATION.NUMBER")
	}
	row, err := a.regions.Of(a.last).ReadRow(a.ctx, a.last, least)
	switch {
	case err != nil:
		return ofRegions(err, "regions of the key", least)
	case row == nil:
		return faulty(http.StatusNotFound, "not-found", "path", "there is no record of this key")
	case row.State == "deleted":
		return &fault{status: http.StatusNotFound, What: "deleted", Where: "path", Why: "the record of this key is deleted", Row: row.Text}
	}
	sum := sha256.Sum256(row.Text)
	tag := fmt.Sprintf(`"%v-%x"`, row.Version, sum[:12])
	header := a.writer.Header()
	header.Set("ETag", tag)
	header.Set("Cache-Control", "no-cache")
	for _, it := range strings.Split(strings.Join(a.request.Header["If-None-Match"], ","), ",") {
		if it = strings.TrimPrefix(strings.TrimSpace(it), "W/"); it == tag || it == "*" {
			a.entry.Status = http.StatusNotModified
			a.writer.WriteHeader(a.entry.Status)
			return nil
		}
	}
	return a.reply(http.StatusOK, asJSON, append(row.Text, '\n'))
}

// rows answers with records.
func (a *answer) rows(records []*pnuts.Record) error {
	text, err := json.Marshal(map[string]any{"rows": append([]*pnuts.Record{}, records...)})
	if err == nil {
		err = a.reply(http.StatusOK, asJSON, append(text, '\n'))
	}
	return err
}

// decoded reads a text that is one JSON value.
func decoded(text []byte, into any) error {
	reader := json.NewDecoder(bytes.NewReader(text))
	reader.UseNumber()
	reader.DisallowUnknownFields()
	err := reader.Decode(into)
	if err == nil && (reader.More() || !utf8.Valid(text)) {
		err = errors.New("it is no UTF-8, or something follows it")
	}
	return err
}

// get answers with the records of keys, in their order.
func (a *answer) get() error {
	text, err := a.body()
	if err != nil {
		return err
	}
	var asked struct{ Keys []string }
	if err = decoded(text, &asked); err != nil || len(asked.Keys) == 0 || len(asked.Keys) > mostKeys {
		return bad("body", fmt.Sprintf(`{"keys":["K"]} is wanted, with 1 to %d keys, not %d: %v`, mostKeys, len(asked.Keys), err))
	}
	for _, key := range asked.Keys {
		if err = checkKey("keys", key); err != nil {
			return err
		}
	}
	// The body has come: who sends it slowly holds up nobody.
	leave, err := a.enter("pages")
	if err != nil {
		return err
	}
	defer leave()
	records, err := a.regions.Get(a.ctx, asked.Keys)
	if err != nil {
		return ofRegions(err, "regions of the keys", nil)
	}
	return a.rows(records)
}

// page answers with some records of a range in key order, and tells where the next ones are. Each `where` is a condition, of which regions
// say what is wrong.
func (a *answer) page() error {
	query := pnuts.Query{From: a.query.Get("from"), To: a.query.Get("to"), After: a.query.Get("after"), Limit: usualRows}
	if a.query.Has("limit") {
		limit, err := strconv.Atoi(a.query.Get("limit"))
		if err != nil || limit < 1 || limit > mostRows {
			return bad("limit", fmt.Sprintf("a page has 1 to %d records", mostRows))
		}
		query.Limit = limit
	}
	for _, text := range a.query["where"] {
		var condition pnuts.Condition
		if err := decoded([]byte(text), &condition); err != nil || len(condition) < 2 {
			return bad("where", `["has",F] is wanted, or ["eq",F,X], and so with lt, gt and prefix`)
		}
		query.Where = append(query.Where, condition)
	}
	found, err := a.regions.Page(a.ctx, query)
	if err != nil {
		return ofRegions(err, "regions of the page", nil)
	}
	if found.Next != nil {
		a.query.Set("after", found.Next.After)
		a.writer.Header().Set("Link", "</records?"+a.query.Encode()+`>; rel="next"`)
	}
	return a.rows(found.Records)
}

// copy answers with the copy of a tablet. Each has the size of one, so one is made at a time.
func (a *answer) copy() error {
	tablet, err := strconv.ParseUint(a.last, 10, 31)
	if err != nil {
		return bad("path", "a tablet is a number")
	}
	at, err := strconv.ParseUint("0"+a.query.Get("range"), 10, 31)
	if err != nil || at >= uint64(len(a.clients)) {
		return bad("range", fmt.Sprintf("a range is a number below %d", len(a.clients)))
	}
	text, err := a.clients[at].CopyText(a.ctx, int(tablet), nil)
	if err != nil {
		return ofRegions(err, "regions of the range", nil)
	}
	return a.reply(http.StatusOK, "application/jsonl", text)
}

// health says whether each range has a region that answers.
func (a *answer) health() error {
	ctx, stop := context.WithTimeout(a.ctx, 2*time.Second)
	defer stop()
	for at, client := range a.clients {
		if _, err := client.Read(ctx, "healthz"); err != nil && !is[*pnuts.Recovering](err) {
			return faulty(http.StatusServiceUnavailable, "away", fmt.Sprintf("range %d", at), "none of its regions answers")
		}
	}
	return a.reply(http.StatusOK, asJSON, []byte(`{"health":"well"}`+"\n"))
}
