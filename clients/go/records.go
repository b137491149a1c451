package pnuts

import (
	"bytes"
	"context"
	"encoding/json"
	"fmt"
	"strings"
)

// A Version of a record: its generation, and its number. Versions are ordered by the generation first.
type Version [2]int64

// Less says whether the version is older than another.
func (v Version) Less(w Version) bool { return v[0] < w[0] || v[0] == w[0] && v[1] < w[1] }

func (v Version) String() string { return fmt.Sprintf("%d.%d", v[0], v[1]) }

// UnmarshalJSON reads a list of both numbers.
func (v *Version) UnmarshalJSON(text []byte) error {
	var parts []int64
	if json.Unmarshal(text, &parts) != nil || len(parts) != len(v) {
		return fmt.Errorf("pnuts: no version: %s", text)
	}
	copy(v[:], parts)
	return nil
}

// Fields are values by their names, each a string or an int64.
type Fields map[string]any

// UnmarshalJSON reads values as encoding/json does, but for numbers: each is an int64, and one that is none is an error.
func (f *Fields) UnmarshalJSON(text []byte) error {
	decoder := json.NewDecoder(bytes.NewReader(text))
	decoder.UseNumber()
	var members map[string]any
	err := decoder.Decode(&members)
	*f, _ = whole(members, &err).(map[string]any)
	return err
}

// whole is a value with an int64 for each number. Of one that is none it leaves the error.
func whole(value any, fault *error) any {
	switch value := value.(type) {
	case json.Number:
		number, err := value.Int64()
		if err != nil {
			*fault = err
		}
		return number
	case []any:
		for at := range value {
			value[at] = whole(value[at], fault)
		}
	case map[string]any:
		for name := range value {
			value[name] = whole(value[name], fault)
		}
	}
	return value
}

// A Content of a record: its fields, or a deletion.
type Content struct {
	Deleted bool
	Fields  Fields
	Master  string
}

// A Record as a region holds it: its greatest version, with every content that came with it, at least one. State is "one",
// "deleted", or "conflict" where several contents have the version.
type Record struct {
	Key      string
	Version  Version
	State    string
	Contents []Content
}

// Fields are those of the one content with fields, nil of a deletion or a conflict: see State and Contents.
func (r *Record) Fields() Fields {
	if r.State != "one" {
		return nil
	}
	return r.Contents[0].Fields
}

// MarshalJSON writes the record as a region does.
func (r *Record) MarshalJSON() ([]byte, error) {
	type row struct {
		Contents []Content `json:"contents"`
		Key      string    `json:"key"`
		State    string    `json:"state"`
		Version  Version   `json:"version"`
	}
	return json.Marshal(row{r.Contents, r.Key, r.State, r.Version})
}

// MarshalJSON writes the content as a region does.
func (c Content) MarshalJSON() ([]byte, error) {
	type deletion struct {
		Deleted bool   `json:"deleted"`
		Master  string `json:"master"`
	}
	type fields struct {
		Fields Fields `json:"fields"`
		Master string `json:"master"`
	}
	if c.Deleted {
		return json.Marshal(deletion{true, c.Master})
	}
	return json.Marshal(fields{c.Fields, c.Master})
}

// isRow says whether a row has all that records have, or is null.
func (r *Record) isRow() bool {
	return r == nil || r.Version != Version{} && r.Key != "" && r.State != "" && len(r.Contents) > 0
}

// A Row is a record as a region wrote it, in Text, of which the contents are not read.
type Row struct {
	Key     string
	Version Version
	State   string
	Text    []byte `json:"-"`
}

// ReadRow gives the record of a key, in a version or a later one where one is said, to those who hand it on as it is: that costs less
// than to read its contents.
func (c *Client) ReadRow(ctx context.Context, key string, version *Version) (row *Row, err error) {
	command := c.readOf(key, version)
	err = c.ask(ctx, command, func(got received) (fault error) {
		row, fault = rowOf(command, got.reply)
		return fault
	})
	if err == nil {
		c.seen.older([]string{key}, []*Record{row.seen()})
	}
	return row, err
}

// seen is what is noted of a row.
func (r *Row) seen() *Record {
	if r == nil {
		return nil
	}
	return &Record{Key: r.Key, Version: r.Version, State: r.State}
}

// rowOf is the row of a reply, nil where it is null. Where the members come in the order of regions, only those after the contents are read.
func rowOf(command Command, text []byte) (*Row, error) {
	head, tail := []byte(`{"row":{"contents":[{`), []byte(`],"key":`)
	text = bytes.TrimRight(text, "\r\n")
	at, row := bytes.LastIndex(text, tail), &Row{}
	if bytes.HasPrefix(text, head) && at > 0 {
		reader := json.NewDecoder(bytes.NewReader(append([]byte("{"), text[at+2:len(text)-1]...)))
		reader.DisallowUnknownFields()
		if reader.Decode(row) == nil && !reader.More() && row.Key != "" && row.State != "" && row.Version != (Version{}) {
			row.Text = text[len(`{"row":`) : len(text)-1]
			return row, nil
		}
	}
	found := without()
	if json.Unmarshal(text, &found) != nil || !found.hasRow() {
		return nil, faultOf(command, text)
	}
	if found.Row == nil {
		return nil, nil
	}
	text, err := json.Marshal(found.Row)
	return &Row{found.Row.Key, found.Row.Version, found.Row.State, text}, err
}

// A Condition is what a field has to meet. A value is a string or an int64.
type Condition []any

// Has says that the field is there.
func Has(field string) Condition { return Condition{"has", field} }

// Eq says that the field is this value.
func Eq(field string, value any) Condition { return Condition{"eq", field, value} }

// Lt says that the field is a text less than this one, by bytes, or a number less than this one.
func Lt(field string, value any) Condition { return Condition{"lt", field, value} }

// Gt says that the field is a text greater than this one, by bytes, or a number greater than this one.
func Gt(field string, value any) Condition { return Condition{"gt", field, value} }

// Prefix says that the field is a text that begins with this one.
func Prefix(field, text string) Condition { return Condition{"prefix", field, text} }

// A Query asks for the records from From on, below To and above After, that meet all conditions of Where; Limit rows a
// page, 100 where it is 0. An end that is empty is open.
type Query struct {
	From  string      `json:"from,omitempty"`
	To    string      `json:"to,omitempty"`
	After string      `json:"after,omitempty"`
	Limit int         `json:"limit,omitempty"`
	Where []Condition `json:"where,omitempty"`
}

// covers says whether a key is in the range.
func (q Query) covers(key string) bool {
	return key >= q.From && key > q.After && (q.To == "" || key < q.To)
}

// shows says whether a record of its range is what the query asks for: a content with fields meets all conditions.
func (q Query) shows(record *Record) bool {
	for _, content := range record.Contents {
		if !content.Deleted && content.meets(q.Where) {
			return true
		}
	}
	return false
}

func (c Content) meets(where []Condition) bool {
	for _, condition := range where {
		if !condition.holds(c.Fields) {
			return false
		}
	}
	return true
}

// holds says whether fields meet a condition that a region has taken.
func (c Condition) holds(fields Fields) bool {
	found, isThere := fields[fmt.Sprint(c[1])]
	if len(c) == 2 {
		return isThere
	}
	sign := map[any]int{"lt": -1, "eq": 0, "gt": 1}
	switch wanted := asField(c[2]).(type) {
	case string:
		text, isText := found.(string)
		if c[0] == "prefix" {
			return isText && strings.HasPrefix(text, wanted)
		}
		return isText && strings.Compare(text, wanted) == sign[c[0]]
	case int64:
		number, isNumber := found.(int64)
		return isNumber && (number == wanted && sign[c[0]] == 0 || number < wanted && sign[c[0]] < 0 || number > wanted && sign[c[0]] > 0)
	}
	return false
}

// asField is a value as a reply has it: a string or an int64.
func asField(value any) any {
	var fields Fields
	text, _ := json.Marshal(map[string]any{"": value})
	_ = json.Unmarshal(text, &fields)
	return fields[""]
}

// within is the part of the query from low on and below high, and whether a key can be there.
func (q Query) within(low, high string) (Query, bool) {
	q.From = greater(q.From, low)
	if high != "" && (q.To == "" || high < q.To) {
		q.To = high
	}
	return q, q.To == "" || greater(q.From, q.After) < q.To
}

func greater(one, other string) string {
	if one < other {
		one = other
	}
	return one
}
