package control

import (
	"context"
	"crypto/rand"
	"crypto/sha256"
	"encoding/hex"
	"errors"
	"fmt"
	"os"
	"strconv"
	"strings"
	"sync"
	"syscall"
	"time"

	"keqapwi.example/pnuts"
)

const (
	// kept is how many changes a history has at least, and at most twice, and given how many a region tells of.
	kept, given = 8192, 1024
)

// A Mark says up to which change all are known: by its number, in a life of the region. A region that began anew has other numbers.
type Mark struct {
	Life   string
	Number int64
}

func (m Mark) String() string { return m.Life + "." + strconv.FormatInt(m.Number, 10) }

// MarkOf reads a mark; of what is none, it is one that has never been.
func MarkOf(text string) Mark {
	life, number, _ := strings.Cut(text, ".")
	found, err := strconv.ParseInt(number, 10, 64)
	if err != nil || found < 0 {
		return Mark{}
	}
	return Mark{life, found}
}

// A History keeps the last changes of a region, for any number of those who follow them, each from a mark of its own on.
type History struct {
	address string
	options pnuts.Options
	mutex   sync.Mutex
	// All changes from one mark to another, and what ends at the next one.
	changes     []Notice
	first, last Mark
	news        chan struct{}
	err         error
}

// Follow keeps the changes of the region whose control socket is at an address, until the context is done. Where the region is away, it
// asks again. Of the options it heeds TLS.
func Follow(ctx context.Context, address string, options pnuts.Options) (*History, error) {
	made := &History{address: address, news: make(chan struct{}), err: errors.New("pnuts: the region was not asked yet"),
		options: pnuts.Options{Timeout: (longestWait + 10) * time.Second, Retries: -1, TLS: options.TLS}}
	client, err := pnuts.Open(address, made.options)
	if err != nil {
		return nil, err
	}
	go func() {
		defer client.Close()
		for ctx.Err() == nil {
			err := made.follow(ctx, client)
			made.change(func() { made.err = err })
			select {
			case <-time.After(pause):
			case <-ctx.Done():
			}
		}
	}()
	return made, nil
}

// Err is why changes are not followed now, nil where they are.
func (h *History) Err() error {
	h.mutex.Lock()
	defer h.mutex.Unlock()
	return h.err
}

// After gives at most this number of changes after a mark, the mark after them, and what ends once there is more. Missed says that some are not
// known, so that all is to be read anew.
func (h *History) After(from Mark, most int) (found Notices, to Mark, news <-chan struct{}) {
	h.mutex.Lock()
	defer h.mutex.Unlock()
	if from.Life != h.last.Life || from.Number < h.first.Number || from.Number > h.last.Number {
		// Where nothing is known yet, there is nothing to read anew either.
		return Notices{Next: h.last.Number, Missed: h.last.Life != ""}, h.last, h.news
	}
	// Numbers follow one another.
	changes := h.changes[from.Number-h.first.Number:]
	if len(changes) > most {
		changes = changes[:most]
	}
	to = Mark{from.Life, from.Number + int64(len(changes))}
	return Notices{Next: to.Number, Changes: changes}, to, h.news
}

// change changes what is kept, and tells who waits.
func (h *History) change(do func()) {
	h.mutex.Lock()
	defer h.mutex.Unlock()
	do()
	close(h.news)
	h.news = make(chan struct{})
}

// follow takes the changes that the region still has, and then all later ones, for as long as it is the same region.
func (h *History) follow(ctx context.Context, client *pnuts.Client) error {
	life, err := lifeOf(h.address)
	if err != nil {
		return err
	}
	found, err := NoticesAfter(ctx, client, lastNumber, 0)
	if err != nil {
		return err
	}
	sessions, since := client.Sessions(), found.Next-given
	if since < 0 {
		since = 0
	}
	for wait := int64(0); ; wait = longestWait {
		if found, err = NoticesAfter(ctx, client, since, wait); err != nil {
			return err
		}
		if client.Sessions() != sessions || !isSame(h.address, life) {
			return errors.New("pnuts: the region began anew")
		}
		h.change(func() {
			h.err = nil
			if found.Missed || wait == 0 {
				h.begin(Mark{life, found.Next - int64(len(found.Changes))})
			}
			h.add(found.Changes)
		})
		since = found.Next
	}
}

// begin keeps what comes after a mark. Those who are at one that is known go on.
func (h *History) begin(first Mark) { h.changes, h.first, h.last = nil, first, first }

func (h *History) add(found []Notice) {
	h.changes = append(h.changes, found...)
	h.last.Number += int64(len(found))
	if more := len(h.changes) - kept; more > kept {
		h.first.Number += int64(more)
		// Those who were given changes may still read them.
		h.changes = append([]Notice{}, h.changes[more:]...)
	}
}

// lifeOf tells lives of a region apart: by its socket, which each makes anew. One that has none on this machine has a new life for each
// session.
func lifeOf(address string) (string, error) {
	path := strings.TrimPrefix(strings.TrimPrefix(address, "unix:"), "//")
	if path == address {
		made := make([]byte, 6)
		_, err := rand.Read(made)
		return hex.EncodeToString(made), err
	}
	host, _ := os.Hostname()
	found, err := os.Stat(path)
	if err != nil {
		return "", err
	}
	told, _ := found.Sys().(*syscall.Stat_t)
	sum := sha256.Sum256([]byte(fmt.Sprint(host, path, told.Dev, told.Ino, told.Ctim)))
	return hex.EncodeToString(sum[:6]), nil
}

// isSame says whether the region that is at an address still has this life, as far as its socket tells.
func isSame(address, life string) bool {
	if !strings.HasPrefix(address, "unix:") {
		return true
	}
	now, err := lifeOf(address)
	return err == nil && now == life
}
