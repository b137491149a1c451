package pnuts

import (
	"context"
	"encoding/json"
	"errors"
	"fmt"
	"net"
	"os"
	"path/filepath"
	"sort"
	"testing"
	"time"
)

// readVectors reads a file of vectors.
func readVectors(t *testing.T, name string, value any) {
	text, err := os.ReadFile(filepath.Join("..", "vectors", name+".json"))
	must(t, err)
	must(t, json.Unmarshal(text, value))
}

type choices struct {
	Backoffs struct{ Cases [][2]int }
	Orders   []struct {
		About   string
		Regions int
		Steps   []struct {
			At                    int
			Try, Failed, Answered string
			Region                *int
			Tried                 []int
		}
	}
	Attempts []struct {
		About                     string
		Regions, Retries, Timeout int
		Steps                     []struct {
			At, Region, Until int
			Fault             any
			Pause             *int
			Others            []any
		}
	}
	Seen []struct {
		About string
		Size  int
		Steps []sightStep
	}
}

// A sightStep asks for a key, or shows one or a page of them.
type sightStep struct {
	Asks, Shows         string
	Version, For, Later *Version
	Deleted             bool
	Page                *Query
	Rows                [][2]json.RawMessage
	Next                *string
	Older               []string
}

// check has what was seen take the step.
func (s *sightStep) check(t *testing.T, about string, seen *seen) {
	switch {
	case s.Asks != "":
		same(t, about, asText(t, seen.atLeast(s.Asks, s.Version)), asText(t, s.For))
	case s.Shows != "":
		found := seen.older([]string{s.Shows}, []*Record{recordOf(s.Shows, s.Version, s.Deleted)})
		same(t, about, len(found) > 0, s.Later != nil)
		if len(found) > 0 {
			same(t, about, found[0].version, s.Later)
		}
	default:
		page, keys := Page{}, []string{}
		for _, row := range s.Rows {
			var key string
			version := new(Version)
			must(t, json.Unmarshal(row[0], &key))
			must(t, json.Unmarshal(row[1], version))
			page.Records = append(page.Records, recordOf(key, version, false))
		}
		if s.Next != nil {
			page.Next = &Query{After: *s.Next}
		}
		for _, each := range seen.olderOf(*s.Page, page) {
			keys = append(keys, each.key)
		}
		sort.Strings(keys)
		same(t, about, keys, s.Older)
	}
}

// recordOf is a record of which nothing else is looked at, nil without a version.
func recordOf(key string, version *Version, deleted bool) *Record {
	if version == nil {
		return nil
	}
	return &Record{Key: key, Version: *version, State: map[bool]string{false: "one", true: "deleted"}[deleted]}
}

func TestVectorsOfWhatWasSeen(t *testing.T) {
	var told choices
	readVectors(t, "failover", &told)
	for _, each := range told.Seen {
		seen := newSeen(each.Size)
		for at, step := range each.Steps {
			step.check(t, fmt.Sprint(each.About, ", step ", at), seen)
		}
	}
}

// moment is that of a vector.
func moment(milliseconds int) time.Time {
	return time.Unix(1_000_000, 0).Add(time.Duration(milliseconds) * time.Millisecond)
}

// faultTold is the fault that vectors tell of.
func faultTold(told any) error {
	switch told {
	case "connection":
		return &ConnectionFailed{net.ErrClosed}
	case "timeout":
		return &TimedOut{}
	case "protocol":
		return &ProtocolError{}
	}
	reply, _ := json.Marshal(told)
	return faultOf(Command{}, reply)
}

// asTold is a fault as vectors tell of it.
func asTold(fault error) any {
	refusal, broken, late := Refusal(nil), (*ConnectionFailed)(nil), (*TimedOut)(nil)
	switch {
	case errors.As(fault, &refusal):
		return refusal.Members()
	case errors.As(fault, &broken):
		return "connection"
	case errors.As(fault, &late):
		return "timeout"
	}
	return "protocol"
}

// othersTold are the faults of other regions as vectors tell of them.
func othersTold(fault error) []any {
	several, others := (*RegionsFailed)(nil), []any{}
	if errors.As(fault, &several) {
		for _, other := range several.Others {
			others = append(others, asTold(other.Fault))
		}
	}
	return others
}

// asText is a value as JSON has it.
func asText(t *testing.T, value any) string {
	text, err := json.Marshal(value)
	must(t, err)
	return string(text)
}

func TestVectorsOfBackoffs(t *testing.T) {
	var told choices
	readVectors(t, "failover", &told)
	for _, each := range told.Backoffs.Cases {
		same(t, fmt.Sprint(each), backoff(each[0]).Milliseconds(), each[1])
	}
}

func TestVectorsOfOrders(t *testing.T) {
	var told choices
	readVectors(t, "failover", &told)
	for _, each := range told.Orders {
		order, tries := newOrder(make([]string, each.Regions)), map[string]try{}
		for _, step := range each.Steps {
			tried := make([]bool, each.Regions)
			for _, region := range step.Tried {
				tried[region] = true
			}
			switch {
			case step.Failed != "":
				order.failed(tries[step.Failed], moment(step.At))
			case step.Answered != "":
				order.answered(tries[step.Answered])
			default:
				found, isAny := order.next(moment(step.At), tried)
				same(t, each.About, isAny, step.Region != nil)
				if isAny {
					same(t, fmt.Sprint(each.About, step), found.region, *step.Region)
				}
				tries[step.Try] = found
			}
		}
	}
}

func TestVectorsOfAttempts(t *testing.T) {
	var told choices
	readVectors(t, "failover", &told)
	for _, each := range told.Attempts {
		tries := newAttempts(newOrder(make([]string, each.Regions)), each.Retries, moment(each.Timeout))
		for at := 0; at < len(each.Steps); at += 2 {
			asked, ended := each.Steps[at], each.Steps[at+1]
			done, until := tries.next(moment(asked.At))
			same(t, each.About, done.region, asked.Region)
			same(t, each.About, until, moment(asked.Until))
			wait, err := tries.failed(done, faultTold(ended.Fault), moment(ended.At))
			same(t, each.About, err != nil, ended.Pause == nil)
			if err == nil {
				same(t, each.About, wait.Milliseconds(), *ended.Pause)
			} else {
				same(t, each.About, asText(t, asTold(err)), asText(t, ended.Fault))
				same(t, each.About, asText(t, othersTold(err)), asText(t, ended.Others))
			}
		}
	}
}

func TestASilentRegionIsGivenUp(t *testing.T) {
	silent, other := fake(t, listen(t), []string{"1h"}), fake(t, listen(t), []string{none + "\n"})
	client, err := OpenAny([]string{silent, other}, Options{Timeout: 6 * time.Second})
	must(t, err)
	t.Cleanup(client.Close)
	_, err = client.Read(background, "k")
	must(t, err)
}

func TestALineEndsWhereAllSayNothing(t *testing.T) {
	addresses := []string{fake(t, listen(t), []string{"1h"}), fake(t, listen(t), []string{"1h"})}
	client, err := OpenAny(addresses, Options{Timeout: 2 * time.Second})
	must(t, err)
	t.Cleanup(client.Close)
	late, several := (*TimedOut)(nil), (*RegionsFailed)(nil)
	_, err = client.Read(background, "k")
	same(t, "whether it timed out", errors.As(err, &late) && errors.Is(err, context.DeadlineExceeded), true)
	same(t, "whether others are told", errors.As(err, &several) && several.Others[0].Address == addresses[0], true)
}
