package pnuts

import (
	"container/list"
	"errors"
	"math"
	"sort"
	"sync"
	"time"
)

// backoff is for how long a region is left alone after failures in a row: 0.1 seconds, then twice as long each time, at most 10.
func backoff(failures int) time.Duration {
	return time.Duration(math.Min(0.05*math.Exp2(float64(failures)), 10) * float64(time.Second))
}

// A try is a region, by its number, and how many of its failures were known when it was chosen.
type try struct{ region, known int }

// What is known of a region: all failures, those in a row, and until when it is left alone.
type regionState struct {
	known, failures int
	until           time.Time
}

// An order has regions as they are asked, one after another.
type order struct {
	names   []string
	mutex   sync.Mutex
	regions []regionState
}

func newOrder(names []string) *order {
	return &order{names: names, regions: make([]regionState, len(names))}
}

// next is the first region that was not tried and is not left alone, else the one whose time ends first, and whether
// there is one. Where it failed before, it is left alone by all others while this one finds out.
func (o *order) next(now time.Time, tried []bool) (try, bool) {
	o.mutex.Lock()
	defer o.mutex.Unlock()
	found, least := -1, time.Duration(0)
	for at, region := range o.regions {
		wait := region.until.Sub(now)
		if wait < 0 {
			wait = 0
		}
		if !tried[at] && (found < 0 || wait < least) {
			found, least = at, wait
		}
	}
	if found < 0 {
		return try{}, false
	}
	chosen := &o.regions[found]
	if chosen.failures > 0 && least == 0 {
		chosen.until = now.Add(backoff(chosen.failures))
	}
	return try{found, chosen.known}, true
}

// answered says that the region is well, unless it has failed since it was chosen.
func (o *order) answered(done try) {
	o.mutex.Lock()
	defer o.mutex.Unlock()
	if region := &o.regions[done.region]; region.known == done.known {
		region.failures, region.until = 0, time.Time{}
	}
}

// failed leaves the region alone from now on. Of tries at once the first failure counts.
func (o *order) failed(done try, now time.Time) {
	o.mutex.Lock()
	defer o.mutex.Unlock()
	if region := &o.regions[done.region]; region.known == done.known {
		region.known++
		region.failures++
		region.until = now.Add(backoff(region.failures))
	}
}

// Attempts are the tries of one line: each region once a round, and `retries` more rounds, before the deadline.
type attempts struct {
	order    *order
	retries  int
	deadline time.Time
	rounds   int
	tried    []bool
	left     int
	// What each region said last.
	said []error
}

func newAttempts(order *order, retries int, deadline time.Time) *attempts {
	count := len(order.names)
	return &attempts{order, retries, deadline, 0, make([]bool, count), count, make([]error, count)}
}

// next is the next try, and its deadline: the regions of a round that are left have equal shares of the time that is left.
func (a *attempts) next(now time.Time) (try, time.Time) {
	found, _ := a.order.next(now, a.tried)
	share := a.deadline.Sub(now) / time.Duration(a.left)
	a.tried[found.region] = true
	a.left--
	return found, now.Add(share)
}

// failed is how long to wait before the next try; or the fault, with what other regions said, where there is none.
func (a *attempts) failed(done try, fault error, now time.Time) (time.Duration, error) {
	a.said[done.region] = nil
	ended := a.withOthers(fault)
	if !isOfAnother(fault, len(a.tried) > 1) {
		return 0, ended
	}
	a.order.failed(done, now)
	a.said[done.region] = fault
	wait := time.Duration(0)
	if a.left == 0 {
		a.tried, a.left = make([]bool, len(a.tried)), len(a.tried)
		a.rounds++
		wait = pause(a.rounds)
	}
	if a.rounds > a.retries || !now.Add(wait).Before(a.deadline) {
		return 0, ended
	}
	return wait, nil
}

func (a *attempts) withOthers(fault error) error {
	var others []RegionFault
	for at, said := range a.said {
		if said != nil {
			others = append(others, RegionFault{a.order.names[at], said})
		}
	}
	if others == nil {
		return fault
	}
	return &RegionsFailed{fault, others}
}

// isOfAnother says whether a line is asked of another region after a fault, or, where there is no other, of the same one again.
func isOfAnother(fault error, isAnother bool) bool {
	if broken := (*ConnectionFailed)(nil); errors.As(fault, &broken) {
		return true
	}
	switch fault.(type) {
	case *TimedOut, *Recovering, *RecordBehind, *CopyBehind, *NoEntry, *OutOfMemory:
		return isAnother
	}
	return false
}

// What was seen of a key: its version, and whether that was a deletion.
type sight struct {
	key     string
	version Version
	deleted bool
}

// Seen are the versions of the keys that a client has shown last, at most `size`, so that no region shows it an older one. That of
// a client of one region is nil, and has none.
type seen struct {
	size  int
	mutex sync.Mutex
	// The sight of each key, and all of them, of which the last one is that of the key that was seen last.
	sights map[string]*list.Element
	order  *list.List
}

func newSeen(size int) *seen {
	return &seen{size: size, sights: map[string]*list.Element{}, order: list.New()}
}

// atLeast is the later of a version that is asked for and the one that was seen of a key, nil where there is none.
func (s *seen) atLeast(key string, asked *Version) *Version {
	if s == nil {
		return asked
	}
	s.mutex.Lock()
	defer s.mutex.Unlock()
	if found, isSeen := s.sights[key]; isSeen {
		if version := found.Value.(sight).version; asked == nil || asked.Less(version) {
			return &version
		}
	}
	return asked
}

// older notes the records that a region has of keys. Of those of which a later version was seen, it gives that.
func (s *seen) older(keys []string, records []*Record) (found []sight) {
	if s == nil {
		return nil
	}
	s.mutex.Lock()
	defer s.mutex.Unlock()
	for at, key := range keys {
		known, isSeen := s.sights[key]
		record := records[at]
		switch {
		case isSeen && (record == nil || record.Version.Less(known.Value.(sight).version)):
			found = append(found, known.Value.(sight))
		case record != nil:
			s.note(known, sight{key, record.Version, record.State == "deleted"})
		}
	}
	return found
}

func (s *seen) note(known *list.Element, found sight) {
	if known != nil {
		s.order.Remove(known)
	}
	s.sights[found.key] = s.order.PushBack(found)
	if len(s.sights) > s.size {
		delete(s.sights, s.order.Remove(s.order.Front()).(sight).key)
	}
}

// olderOf is what was seen of the keys of a page in a later version, and, where there are no conditions, of those that it lacks.
func (s *seen) olderOf(query Query, page Page) []sight {
	if s == nil {
		return nil
	}
	keys, shown := make([]string, len(page.Records)), map[string]bool{}
	for at, record := range page.Records {
		keys[at] = record.Key
		shown[record.Key] = true
	}
	found := s.older(keys, page.Records)
	if len(query.Where) > 0 {
		return found
	}
	s.mutex.Lock()
	defer s.mutex.Unlock()
	for key, each := range s.sights {
		isLacking := query.covers(key) && !shown[key] && !each.Value.(sight).deleted
		if isLacking && (page.Next == nil || key <= page.Next.After) {
			found = append(found, each.Value.(sight))
		}
	}
	return found
}

// withLater are the records of a page with later ones in their places, as far as these are what the query asks for.
func withLater(query Query, records, later []*Record) []*Record {
	shown := map[string]*Record{}
	for _, record := range records {
		shown[record.Key] = record
	}
	for _, record := range later {
		if record != nil {
			delete(shown, record.Key)
			if query.shows(record) {
				shown[record.Key] = record
			}
		}
	}
	found := make([]*Record, 0, len(shown))
	for _, record := range shown {
		found = append(found, record)
	}
	sort.Slice(found, func(one, other int) bool { return found[one].Key < found[other].Key })
	return found
}
