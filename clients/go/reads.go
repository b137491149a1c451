package pnuts

import (
	"context"
	"encoding/json"
	"os"
	"path/filepath"
)

const (
	// maxKeys is how many keys one line may have.
	maxKeys = 100
	// maxSize is how many bytes they may have in a line, each with a comma.
	maxSize = 65_536 - len(`{"do":"get","keys":[]}`)
	// usualLimit is how many rows a page has where a query does not say it.
	usualLimit = 100
)

// A Page has records in key order, and the query for those that follow, nil where these are the last.
type Page struct {
	Records []*Record
	Next    *Query
}

// Read gives the record of a key, a deleted one too; nil where there is none.
func (c *Client) Read(ctx context.Context, key string) (*Record, error) { return c.read(ctx, key, nil) }

// ReadAtLeast gives the record of a key in a version or a later one. It fails with RecordBehind where the region has not
// taken that version yet.
func (c *Client) ReadAtLeast(ctx context.Context, key string, version Version) (*Record, error) {
	return c.read(ctx, key, &version)
}

// read gives the record of a key, in a version that is asked for, and in the one that was seen.
func (c *Client) read(ctx context.Context, key string, version *Version) (*Record, error) {
	found, err := Ask(ctx, c, c.readOf(key, version), without(), reply.hasRow)
	if err == nil {
		c.seen.older([]string{key}, []*Record{found.Row})
	}
	return found.Row, err
}

// readOf asks for a key in a version, and in the one that was seen.
func (c *Client) readOf(key string, version *Version) Command {
	command := Command{"do": "read", "key": key}
	if version = c.seen.atLeast(key, version); version != nil {
		command["version"] = *version
	}
	return command
}

// readAll gives the records of keys in the versions that were seen of them, or later ones.
func (c *Client) readAll(ctx context.Context, wanted []sight) ([]*Record, error) {
	records := make([]*Record, len(wanted))
	return records, together(len(wanted), func(at int) (err error) {
		records[at], err = c.read(ctx, wanted[at].key, &wanted[at].version)
		return err
	})
}

// Get gives the records of keys, in their order. More than 100 keys are asked for in several lines.
func (c *Client) Get(ctx context.Context, keys []string) ([]*Record, error) {
	records, ends := make([]*Record, len(keys)), endsOf(keys)
	return records, together(len(ends)-1, func(at int) error {
		share, rows := keys[ends[at]:ends[at+1]], records[ends[at]:ends[at+1]]
		found, err := Ask(ctx, c, Command{"do": "get", "keys": share}, without(), func(found reply) bool {
			return found.hasRows() && len(found.Rows) == len(share)
		})
		if err != nil {
			return err
		}
		later, err := c.readAll(ctx, c.seen.older(share, found.Rows))
		if err != nil {
			return err
		}
		copy(rows, found.Rows)
		for _, record := range later {
			for index, key := range share {
				if record != nil && key == record.Key {
					rows[index] = record
				}
			}
		}
		return nil
	})
}

// endsOf are the indexes at which keys are cut, with both ends: for lines that have at most 100 keys and are not too long.
func endsOf(keys []string) []int {
	ends, size := []int{0}, 0
	for at, key := range keys {
		text, _ := json.Marshal(key)
		size += len(text) + 1
		if first := ends[len(ends)-1]; at > first && (at-first == maxKeys || size > maxSize) {
			ends, size = append(ends, at), len(text)+1
		}
	}
	if len(keys) > 0 {
		ends = append(ends, len(keys))
	}
	return ends
}

// Page gives a page of what a query asks for, without deleted records. Of several regions it may have more rows than the limit.
func (c *Client) Page(ctx context.Context, query Query) (Page, error) {
	found, err := Ask(ctx, c, Command{"do": "scan", "query": query}, without(), reply.isPage)
	if err != nil {
		return Page{}, err
	}
	page := Page{Records: found.Rows}
	if found.Next != nil {
		next := query
		next.After = found.Next.After
		page.Next = &next
	}
	if older := c.seen.olderOf(query, page); len(older) > 0 {
		later, err := c.readAll(ctx, older)
		if err != nil {
			return Page{}, err
		}
		page.Records = withLater(query, page.Records, later)
	}
	return page, nil
}

// Scan gives what a query asks for, page by page. While the region changes, each page is of its own moment.
func (c *Client) Scan(ctx context.Context, query Query) *Scanner {
	return &Scanner{ctx: ctx, parts: []part{{c, query}}}
}

// Copy writes a copy of a tablet to a file, which is there whole or not at all. With positions of streams as need it fails
// with CopyBehind where the tablet does not reach them.
func (c *Client) Copy(ctx context.Context, tablet int, path string, need map[string]int64) error {
	text, err := c.CopyText(ctx, tablet, need)
	if err != nil {
		return err
	}
	return writeWhole(path, text)
}

// CopyText gives the text of a copy, which Copy writes to a file.
func (c *Client) CopyText(ctx context.Context, tablet int, need map[string]int64) (text []byte, err error) {
	command := Command{"do": "copy", "tablet": tablet, "need": need}
	err = c.ask(ctx, command, func(got received) error {
		if text = got.text; text == nil {
			return faultOf(command, got.reply)
		}
		return nil
	})
	return text, err
}

// together does something with each number below a count at once, and gives an error of those that there are.
func together(count int, do func(int) error) error {
	faults := make(chan error, count)
	for at := 0; at < count; at++ {
		go func(at int) { faults <- do(at) }(at)
	}
	var fault error
	for at := 0; at < count; at++ {
		if err := <-faults; err != nil {
			fault = err
		}
	}
	return fault
}

// A Scanner goes over the records of a query in key order, as long as Next says that there is one. Err says why not.
type Scanner struct {
	ctx context.Context
	// What is still asked of regions.
	parts []part
	// The records of the page, from the one on that Next went to.
	records []*Record
	err     error
}

// A part is what a query asks of one region.
type part struct {
	client *Client
	query  Query
}

// Next goes to the next record, of the next page where need be, and says whether there is one.
func (s *Scanner) Next() bool {
	if len(s.records) > 0 {
		s.records = s.records[1:]
	}
	for len(s.records) == 0 && len(s.parts) > 0 && s.err == nil {
		page, err := s.parts[0].client.Page(s.ctx, s.parts[0].query)
		s.records, s.err = page.Records, err
		if page.Next != nil {
			s.parts[0].query = *page.Next
		} else {
			s.parts = s.parts[1:]
		}
	}
	return len(s.records) > 0
}

// Record is the record that Next went to.
func (s *Scanner) Record() *Record { return s.records[0] }

// Err is why there is no next record, nil after the last.
func (s *Scanner) Err() error { return s.err }

// A reply to one of the lookups, in whose members null is nil.
type reply struct {
	Row  *Record
	Rows []*Record
	Next *struct{ After string }
}

// without is a reply in which a row and a next page are missing. That is neither null nor a row or a page.
func without() reply { return reply{Row: &Record{}, Next: &struct{ After string }{}} }

func (r reply) hasRow() bool { return r.Row.isRow() }

func (r reply) hasRows() bool {
	for _, row := range r.Rows {
		if !row.isRow() {
			return false
		}
	}
	return r.Rows != nil
}

func (r reply) isPage() bool { return r.hasRows() && (r.Next == nil || r.Next.After != "") }

// writeWhole writes a file beside the path, and moves it there.
func writeWhole(path string, text []byte) error {
	file, err := os.CreateTemp(filepath.Dir(path), "."+filepath.Base(path)+".")
	if err != nil {
		return err
	}
	defer os.Remove(file.Name())
	file.Close()
	if err = os.WriteFile(file.Name(), text, 0o600); err != nil {
		return err
	}
	return os.Rename(file.Name(), path)
}
