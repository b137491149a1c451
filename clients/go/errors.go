package pnuts

import (
	"context"
	"encoding/json"
	"fmt"
	"strings"
)

// ConnectionFailed says that the region could not be reached, or that the connection ended before the reply.
type ConnectionFailed struct{ Cause error }

func (e *ConnectionFailed) Error() string { return "pnuts: the connection failed: " + e.Cause.Error() }

// Unwrap gives the cause.
func (e *ConnectionFailed) Unwrap() error { return e.Cause }

// TimedOut says that the reply did not come in time. Another try may get it.
type TimedOut struct{}

func (*TimedOut) Error() string { return "pnuts: no reply in time" }

// Unwrap makes it an error of a deadline.
func (*TimedOut) Unwrap() error { return context.DeadlineExceeded }

// ProtocolError says that what came is no reply to what was sent: the other side is no region, or one of another version.
type ProtocolError struct{ Text string }

func (e *ProtocolError) Error() string { return "pnuts: " + e.Text }

// RegionsFailed says why none of several regions gave an answer: the error of the last one, which errors.As finds, and those of others.
type RegionsFailed struct {
	Last   error
	Others []RegionFault
}

// A RegionFault is the error of a region, by its address.
type RegionFault struct {
	Address string
	Fault   error
}

func (e *RegionsFailed) Error() string {
	text := e.Last.Error()
	for _, other := range e.Others {
		text += "; " + other.Address + ": " + strings.TrimPrefix(other.Fault.Error(), "pnuts: ")
	}
	return text
}

// Unwrap gives the error of the last region.
func (e *RegionsFailed) Unwrap() error { return e.Last }

// A Refusal is any error that the region answered with.
type Refusal interface {
	error
	// Members of the region's reply.
	Members() map[string]any
}

// Refused is a refusal that no other type is for, and a part of each other.
type Refused struct {
	Reason  string `json:"error"`
	members Fields
}

func (e *Refused) Error() string { return fmt.Sprintf("pnuts: refused: %v", e.members) }

// Members are those of the region's reply.
func (e *Refused) Members() map[string]any { return e.members }

// BadLine says that the line was at fault: Reason is too-long, not-json, bad-shape, out-of-range or read-only. Member names
// the member at fault, where there is one.
type BadLine struct {
	Refused
	Member string
}

// Recovering says that a tablet that the answer needs was lost and has not adopted a copy yet.
type Recovering struct {
	Refused
	Tablet int64
}

// RecordBehind says that the record of Key is not there in the version that was required. Has is its version, nil where it is absent.
type RecordBehind struct {
	Refused
	Has *Version
	Key string `json:"-"`
}

// CopyBehind says that the copy does not reach what was asked for: of Stream it has Has, and Wanted was wanted.
type CopyBehind struct {
	Refused
	Stream      string
	Has, Wanted int64
}

// NoEntry says that the reader was not let into a tablet. Another try may be.
type NoEntry struct{ Refused }

// OutOfMemory says that the region had no memory for the answer. Another try may get it.
type OutOfMemory struct{ Refused }

// faultOf is the error of a reply that is no answer to a command: the refusal that it is, or that it is none.
func faultOf(command Command, reply []byte) (found error) {
	var base Refused
	_ = json.Unmarshal(reply, &base)
	_ = json.Unmarshal(reply, &base.members)
	switch base.Reason {
	case "":
		return &ProtocolError{fmt.Sprintf("no reply to %.80v: %.200q", command, reply)}
	case "too-long", "not-json", "bad-shape", "out-of-range", "read-only":
		found = &BadLine{Refused: base}
	case "recovering":
		found = &Recovering{Refused: base}
	case "no-entry":
		found = &NoEntry{base}
	case "memory":
		found = &OutOfMemory{base}
	case "behind":
		key, _ := command["key"].(string)
		found = &RecordBehind{Refused: base, Key: key}
		if base.members["stream"] != nil {
			found = &CopyBehind{Refused: base}
		}
	default:
		found = &base
	}
	// Its other members have the names of the reply's.
	_ = json.Unmarshal(reply, found)
	return found
}
