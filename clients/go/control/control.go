// Package control asks the control socket of a region how it goes, and what changes.
package control

import (
	"context"
	"errors"
	"time"

	"keqapwi.example/pnuts"
)

const (
	// longestWait is the most seconds that a line waits for changes.
	longestWait = 60
	// lastNumber is greater than that of any change. What came after it is never known, but for the last number.
	lastNumber = 1e18
	// pause is how long a watcher waits before it asks again where the connection broke.
	pause = 250 * time.Millisecond
)

// Stats say what a region has done so far: the seconds that it runs, bytes of memory, rounds, connections of clients and their lines.
type Stats struct {
	Version               string
	Uptime, Bytes, Rounds int64
	Connections           struct{ Accepted, Idle, Open, Refused int64 }
	Lines                 Lines
	Streams               []Stream
	// What each tablet holds; none where the region does not say it.
	Tablets []Tablet
	// What unread replies keep; nil where the region does not say it.
	Unread *Unread
	// How long lines took, from when they were found at hand until they had their replies, and how long rounds; nil where the region
	// does not say it.
	Times *Times
}

// Times says how long lines took, and how long rounds.
type Times struct{ Lines, Rounds TimeCounts }

// TimeCounts says how many there were, how many microseconds they took together, and how many took how long, up to the greatest Most.
type TimeCounts struct {
	Buckets      []TimeBucket
	Count, Total int64
}

// TimeBucket says how many took at most Most microseconds, but more than those of the bucket before.
type TimeBucket struct{ Count, Most int64 }

// Unread says how many bytes the records have that replies keep which clients have not taken, their limit, and how many clients were ended
// for it.
type Unread struct{ Bytes, Ended, Limit int64 }

// Lines of clients: how many were answered, and how many of these refused; and so for each kind of line, where the region says it.
type Lines struct {
	Answered, Refused int64
	Kinds             map[string]Lines
}

// A Tablet holds records, some of which are deletions.
type Tablet struct{ Records, Deleted int64 }

// A Stream of a region. State is "waiting" for a publisher, "open", "ended" or "failed"; Position is up to where it was taken; Messages
// and Bytes were read. Since is the seconds since the last message, nil before the first. Reason and Line are of the last fault,
// nil where there was none. Stream is whose stream a publisher said it is, and Newest the broker's newest position that one told, Heard seconds
// ago; nil where none did.
type Stream struct {
	Name, Path, State         string
	Position, Messages, Bytes int64
	Since, Line               *int64
	Reason, Stream            *string
	Newest, Heard             *int64
}

// A Notice is a change of a record: its number, and the record's version before it, nil where there was none, and after it.
type Notice struct {
	Number int64          `json:"number"`
	Key    string         `json:"key"`
	Before *pnuts.Version `json:"before"`
	After  pnuts.Version  `json:"after"`
}

// Notices are changes, and in Next the number to ask with next. Missed says that some are not known, so all is to be read anew.
type Notices struct {
	Next    int64
	Missed  bool
	Changes []Notice `json:"notices"`
}

// Marks says how far streams were taken.
func Marks(ctx context.Context, region *pnuts.Client) (map[string]int64, error) {
	type reply struct{ Marks map[string]int64 }
	found, err := pnuts.Ask(ctx, region, pnuts.Command{"do": "marks"}, reply{}, func(found reply) bool { return found.Marks != nil })
	return found.Marks, err
}

// StatsOf says what a region has done so far.
func StatsOf(ctx context.Context, region *pnuts.Client) (Stats, error) {
	return pnuts.Ask(ctx, region, pnuts.Command{"do": "stats"}, Stats{}, func(found Stats) bool { return found.Streams != nil })
}

// NoticesAfter gives what changed after a number. Where that is nothing, it waits for it for up to `wait` seconds, at most 60. Lines on the
// same connection wait too, and a client's timeout has to be longer.
func NoticesAfter(ctx context.Context, region *pnuts.Client, since, wait int64) (Notices, error) {
	command := pnuts.Command{"do": "notices", "since": since, "wait": wait}
	return pnuts.Ask(ctx, region, command, Notices{}, func(found Notices) bool { return found.Missed || found.Changes != nil })
}

// A Watcher goes over the changes of a region as they come, as long as Next says that there are some. Err says why not.
type Watcher struct {
	ctx      context.Context
	client   *pnuts.Client
	tries    int
	sessions int64
	found    Notices
	err      error
}

// Watch goes over the changes after a number of the region at an address, or from now on where that is less than 0. It has a session
// of its own until it ends, as it does with its context. Of the options it heeds Retries, at the connection's end, and TLS.
func Watch(ctx context.Context, address string, options pnuts.Options, since int64) (*Watcher, error) {
	own := pnuts.Options{Timeout: (longestWait + 10) * time.Second, Retries: -1, TLS: options.TLS}
	client, err := pnuts.Open(address, own)
	if since < 0 {
		since = lastNumber
	}
	if options.Retries == 0 {
		options.Retries = 3
	}
	return &Watcher{ctx: ctx, client: client, tries: options.Retries, found: Notices{Next: since}}, err
}

// Next waits for changes. What comes is Missed where there was no number to begin after, and where the connection broke, for the
// region may have begun anew.
func (w *Watcher) Next() bool {
	for tries := 0; w.err == nil; {
		found, err := NoticesAfter(w.ctx, w.client, w.found.Next, longestWait)
		if broken := (*pnuts.ConnectionFailed)(nil); errors.As(err, &broken) && tries < w.tries {
			tries++
			time.Sleep(pause)
			w.err = w.ctx.Err()
			continue
		}
		if w.err = err; err == nil && w.take(found) {
			return true
		}
	}
	w.client.Close()
	return false
}

// take keeps what was found, and says whether it tells of a change. In another session than the last one all may have changed.
func (w *Watcher) take(found Notices) bool {
	last := w.sessions
	if w.sessions = w.client.Sessions(); last != 0 && last != w.sessions {
		found = Notices{Next: found.Next, Missed: true}
	}
	w.found = found
	return found.Missed || len(found.Changes) > 0
}

// Notices are those that came.
func (w *Watcher) Notices() Notices { return w.found }

// Err is why it ended.
func (w *Watcher) Err() error { return w.err }
