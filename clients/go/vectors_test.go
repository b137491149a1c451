package pnuts

import (
	"bufio"
	"bytes"
	"encoding/json"
	"errors"
	"fmt"
	"net"
	"os"
	"path/filepath"
	"strings"
	"testing"
	"time"
)

// An exchange is what is asked, the line that asks it, and the lines that come.
type exchange struct {
	Call, Line json.RawMessage
	Replies    []string
}

func (e *exchange) UnmarshalJSON(text []byte) error {
	var members struct {
		Call        json.RawMessage
		Line, Reply string
		Replies     []string
	}
	err := json.Unmarshal(text, &members)
	if members.Reply != "" || members.Replies == nil {
		members.Replies = []string{members.Reply}
	}
	*e = exchange{members.Call, json.RawMessage(members.Line), members.Replies}
	return err
}

type vectors struct {
	Bounds, Streams            json.RawMessage
	Exchanges, Refused, Broken []exchange
}

func vectorsOf(t *testing.T, name string) vectors {
	var found vectors
	text, err := os.ReadFile(filepath.Join("..", "vectors", name+".json"))
	must(t, err)
	must(t, json.Unmarshal(text, &found))
	return found
}

// asWritten is the value of JSON, its numbers as they are written.
func asWritten(t *testing.T, text []byte) any {
	decoder := json.NewDecoder(bytes.NewReader(text))
	decoder.UseNumber()
	var value any
	must(t, decoder.Decode(&value))
	return value
}

// withoutDefaults is a value without the members that say what holds without them.
func withoutDefaults(value any) any {
	members, isObject := value.(map[string]any)
	if !isObject {
		return value
	}
	for name, member := range members {
		members[name] = withoutDefaults(member)
		switch fmt.Sprint(name, " ", members[name]) {
		case name + " <nil>", "limit 100", "where []":
			delete(members, name)
		}
	}
	return members
}

// asked is what the client answers to a call.
func asked(t *testing.T, client *Client, text json.RawMessage) (answer any, err error) {
	var call struct {
		Do, Key string
		Version *Version
		Keys    []string
		Query   Query
		Tablet  int
		Need    map[string]int64
	}
	command := asWritten(t, text).(map[string]any)
	must(t, json.Unmarshal(text, &call))
	query, _ := command["query"].(map[string]any)
	if where, isThere := query["where"]; isThere {
		call.Query.Where = nil
		for _, condition := range where.([]any) {
			call.Query.Where = append(call.Query.Where, condition.([]any))
		}
	}
	switch {
	case call.Do == "read" && call.Version != nil:
		return client.ReadAtLeast(background, call.Key, *call.Version)
	case call.Do == "read":
		return client.Read(background, call.Key)
	case call.Do == "get" && len(call.Keys) > 0:
		return client.Get(background, call.Keys)
	case call.Do == "scan":
		return client.Page(background, call.Query)
	case call.Do == "copy":
		path := filepath.Join(t.TempDir(), "copy")
		err = client.Copy(background, call.Tablet, path, call.Need)
		copied, _ := os.ReadFile(path)
		return string(copied), err
	default:
		return Ask(background, client, command, Fields{}, func(Fields) bool { return false })
	}
}

// asRow is a record as a row has it.
func asRow(record *Record) any {
	if record == nil {
		return nil
	}
	contents := []any{}
	for _, content := range record.Contents {
		made := map[string]any{"master": content.Master}
		if content.Deleted {
			made["deleted"] = true
		} else {
			made["fields"] = content.Fields
		}
		contents = append(contents, made)
	}
	return map[string]any{"contents": contents, "key": record.Key, "state": record.State, "version": record.Version}
}

// asReply is what an answer says, in the form of a reply.
func asReply(answer any) any {
	switch answer := answer.(type) {
	case *Record:
		return map[string]any{"row": asRow(answer)}
	case []*Record:
		rows := []any{}
		for _, record := range answer {
			rows = append(rows, asRow(record))
		}
		return map[string]any{"rows": rows}
	case Page:
		page := asReply(answer.Records).(map[string]any)
		page["next"] = answer.Next
		return page
	}
	return answer
}

// isAnswered looks at what the client makes of an exchange.
func isAnswered(t *testing.T, client *Client, told exchange) {
	answer, err := asked(t, client, told.Call)
	wanted := withoutDefaults(asWritten(t, []byte(told.Replies[0])))
	refusal := Refusal(nil)
	found := asReply(answer)
	switch {
	case errors.As(err, &refusal):
		found = refusal.Members()
	case len(told.Replies) > 1:
		wanted = strings.Join(told.Replies[1:], "\n") + "\n"
	}
	made, err := json.Marshal(found)
	must(t, err)
	same(t, string(told.Line), withoutDefaults(asWritten(t, made)), wanted)
}

// replay gives each line its replies, a few bytes at a time, and looks at the lines.
func replay(t *testing.T, listener net.Listener, exchanges []exchange, step int) {
	connection, err := listener.Accept()
	must(t, err)
	defer connection.Close()
	lines := bufio.NewReader(connection)
	for _, told := range exchanges {
		line, err := lines.ReadBytes('\n')
		if err != nil {
			return
		}
		if told.Line != nil && len(told.Line) > 0 {
			same(t, "line", withoutDefaults(asWritten(t, line)), withoutDefaults(asWritten(t, told.Line)))
		}
		for text := strings.Join(told.Replies, "\n") + "\n"; text != ""; {
			size := len(text)
			if step < size {
				size = step
			}
			fmt.Fprint(connection, text[:size])
			text = text[size:]
		}
	}
}

// canBeAsked are the exchanges that the client's types have: all but that of a condition on a fraction.
func canBeAsked(t *testing.T, exchanges []exchange) []exchange {
	found := []exchange{}
	for _, told := range exchanges {
		if !strings.Contains(string(told.Line), "10.0") {
			found = append(found, told)
		}
	}
	same(t, "passed over", len(exchanges)-len(found), 1)
	return found
}

func TestVectors(t *testing.T) {
	exchanges := canBeAsked(t, vectorsOf(t, "lookups").Exchanges)
	for _, step := range []int{1, 7, 1 << 20} {
		listener := listen(t)
		go replay(t, listener, exchanges, step)
		client := open(t, "tcp://"+listener.Addr().String(), Options{})
		for _, told := range exchanges {
			isAnswered(t, client, told)
		}
	}
}

func TestVectorsOfFaults(t *testing.T) {
	faults := vectorsOf(t, "lookups")
	for _, told := range append(faults.Refused, faults.Broken...) {
		listener := listen(t)
		go replay(t, listener, []exchange{told}, 1<<20)
		client := open(t, "tcp://"+listener.Addr().String(), Options{Retries: -1})
		_, err := asked(t, client, told.Call)
		refusal, wrong := Refusal(nil), (*ProtocolError)(nil)
		if errors.As(err, &refusal) {
			same(t, "refusal", refusal.Members(), asWritten(t, []byte(told.Replies[0])))
		}
		same(t, "whether it is no reply: "+told.Replies[0], errors.As(err, &wrong), !strings.Contains(told.Replies[0], "error"))
	}
}

func TestVectorsOfARegion(t *testing.T) {
	told := vectorsOf(t, "lookups")
	client := open(t, serve(t, freePort(t), told.Streams, "--bounds="+string(told.Bounds)).address, Options{})
	waitFor(t, client, "c")
	waitFor(t, client, "b")
	path, need := filepath.Join(t.TempDir(), "copy"), map[string]int64{"east": 5, "west": 5}
	for tries := 0; client.Copy(background, 0, path, need) != nil || client.Copy(background, 1, path, need) != nil; tries++ {
		same(t, "whether the streams were taken", tries < 1000, true)
		time.Sleep(10 * time.Millisecond)
	}
	for _, exchange := range canBeAsked(t, told.Exchanges) {
		isAnswered(t, client, exchange)
	}
}

// fieldsOf are the fields of JSON, and whether they can be.
func fieldsOf(text string) (fields Fields, areFields bool) {
	err := json.Unmarshal([]byte(text), &fields)
	return fields, err == nil
}

func TestNumbersOf64Bits(t *testing.T) {
	for _, number := range []int64{-1 << 63, -1<<53 - 1, 0, 1<<53 + 1, 1<<63 - 1} {
		fields, areFields := fieldsOf(fmt.Sprintf(`{"a":%d}`, number))
		same(t, "fields", []any{fields["a"] == number, areFields}, []any{true, true})
	}
	fields, areFields := fieldsOf(`{ "a" : [ 1 , true , null , { "b" : 2 } , [ ] , "\u00e9 ,:" ] }`)
	same(t, "fields", []any{fields, areFields}, []any{Fields{"a": []any{1, true, nil, map[string]any{"b": 2}, []any{}, "\u00e9 ,:"}}, true})
	for _, text := range []string{"9223372036854775808", "1.5", "1e3", "", "-", "nul", "x", "[1.5]", `{"b":1e3}`} {
		_, areFields := fieldsOf(`{"a":` + text + `}`)
		same(t, text, areFields, false)
	}
}

func TestRepliesThatAreNone(t *testing.T) {
	const members = `"contents":[{"fields":{},"master":"w"}],"key":"k","state":"one"`
	for text, isReply := range map[string]bool{
		`{"a":{"b":[1,true,"x\\",{}]},"row":{` + members + `,"version":[1,0],"z":null},"z":[]}`: true,
		`{"row":{` + members + `}}`:                                       false,
		`{"row":{` + members + `,"version":[1]}}`:                         false,
		`{"row":{` + members + `,"version":{"a":1}}}`:                     false,
		`{"row":{"contents":[],"key":"k","state":"one","version":[1,0]}}`: false,
		`{"row":{"contents":7,"key":"k","state":"one","version":[1,0]}}`:  false,
		`{"row":null,"a":"` + "\xff" + `"}`:                               false,
		`{"row":null,}`:                                                   false,
		`{"row":null,"a":` + strings.Repeat("[", 1e6) + `}`:               false,
		`{"row":null,"a":` + strings.Repeat(`{"a":`, 1e6) + `}`:           false,
		`{"row":null,"a":"\x"}`:                                           false,
	} {
		_, err := open(t, fake(t, listen(t), []string{text + "\n"}), Options{}).Read(background, "k")
		same(t, text[:len(text)%1000], err == nil, isReply)
	}
}

func FuzzFields(f *testing.F) {
	f.Add(`{"a":[1,-9223372036854775808,"\u00e9\n",true,null]}`)
	f.Fuzz(func(t *testing.T, text string) {
		fields, areFields := fieldsOf(text)
		// -0 is the number 0, and cannot be told from a text here.
		if !areFields || strings.Contains(text, "-0") {
			return
		}
		made, err := json.Marshal(fields)
		must(t, err)
		again, err := json.Marshal(asWritten(t, []byte(text)))
		must(t, err)
		same(t, text, string(made), string(again))
	})
}

func BenchmarkReply(b *testing.B) {
	fields := []string{}
	for at := 0; at < 10; at++ {
		fields = append(fields, fmt.Sprintf(`"field-%d":"%036d"`, at, at))
	}
	const row = `{"row":{"contents":[{"fields":{%s},"master":"w"}],"key":"k","state":"one","version":[1,0]}}`
	line := []byte(fmt.Sprintf(row, strings.Join(fields, ",")))
	b.ResetTimer()
	for at := 0; at < b.N; at++ {
		found := without()
		if json.Unmarshal(line, &found) != nil || !found.hasRow() {
			b.Fatal("no row")
		}
	}
}
