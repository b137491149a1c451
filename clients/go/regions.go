package pnuts

import (
	"context"
	"fmt"
	"sort"
)

// Regions are several regions that are read as one. Each has the keys of a range.
type Regions struct {
	// The first key of each region's range but the first, and the clients.
	bounds  []string
	clients []*Client
}

// NewRegions takes one client more than bounds: the first region has the keys below the first bound, each other those from
// its bound on. To close the clients is the caller's.
func NewRegions(bounds []string, clients []*Client) (*Regions, error) {
	if len(clients) != len(bounds)+1 {
		return nil, fmt.Errorf("pnuts: %d bounds take %d regions, not %d", len(bounds), len(bounds)+1, len(clients))
	}
	if !sort.SliceIsSorted(bounds, func(one, other int) bool { return bounds[one] <= bounds[other] }) {
		return nil, fmt.Errorf("pnuts: the bounds do not rise: %q", bounds)
	}
	return &Regions{bounds, clients}, nil
}

// Of is the client of the region that has a key.
func (r *Regions) Of(key string) *Client { return r.clients[r.indexOf(key)] }

func (r *Regions) indexOf(key string) int {
	return sort.Search(len(r.bounds), func(at int) bool { return r.bounds[at] > key })
}

// Get is as that of a client, of all regions that have some of the keys, at once.
func (r *Regions) Get(ctx context.Context, keys []string) ([]*Record, error) {
	found, indexes, shares := make([]*Record, len(keys)), make([][]int, len(r.clients)), make([][]string, len(r.clients))
	for index, key := range keys {
		region := r.indexOf(key)
		indexes[region] = append(indexes[region], index)
		shares[region] = append(shares[region], key)
	}
	return found, together(len(r.clients), func(region int) error {
		records, err := r.clients[region].Get(ctx, shares[region])
		for at, index := range indexes[region] {
			found[index] = records[at]
		}
		return err
	})
}

// Page gives a page of what a query asks for, of one region or of several that follow one another.
func (r *Regions) Page(ctx context.Context, query Query) (whole Page, err error) {
	limit := query.Limit
	if limit == 0 {
		limit = usualLimit
	}
	for _, it := range r.Scan(ctx, query).parts {
		next := query
		if count := len(whole.Records); count > 0 {
			next.After = whole.Records[count-1].Key
		}
		if it.query.Limit = limit - len(whole.Records); it.query.Limit <= 0 {
			whole.Next = &next
			return whole, nil
		}
		page, err := it.client.Page(ctx, it.query)
		if err != nil {
			return Page{}, err
		}
		whole.Records = append(whole.Records, page.Records...)
		if page.Next != nil {
			next.After = page.Next.After
			whole.Next = &next
			return whole, nil
		}
	}
	return whole, nil
}

// Scan is as that of a client, from one region on to the next.
func (r *Regions) Scan(ctx context.Context, query Query) *Scanner {
	scanner, low := &Scanner{ctx: ctx}, ""
	for at, high := range append(append([]string{}, r.bounds...), "") {
		if share, isAny := query.within(low, high); isAny {
			scanner.parts = append(scanner.parts, part{r.clients[at], share})
		}
		low = high
	}
	return scanner
}
