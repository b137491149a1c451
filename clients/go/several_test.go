package pnuts

import (
	"context"
	"errors"
	"fmt"
	"io"
	"math/rand"
	"net"
	"path/filepath"
	"sync"
	"sync/atomic"
	"testing"
	"time"
)

const (
	// mostBytes is how many bytes of replies a connection through a proxy gets at most.
	mostBytes   = 60_000
	manyKeys    = 200
	firstOfLast = "k100"
)

// A proxy gives connections on to a region, and cuts each one after at most `most` bytes of replies, if that is more than 0.
type proxy struct {
	listener   net.Listener
	target     string
	most, cuts atomic.Int64
	mutex      sync.Mutex
	isShut     bool
	sockets    []net.Conn
}

func startProxy(t testing.TB, address string) *proxy {
	made := &proxy{listener: listen(t), target: address[len("tcp://"):]}
	t.Cleanup(func() { made.listener.Close(); made.shut(true) })
	go func() {
		for {
			socket, err := made.listener.Accept()
			if err != nil {
				return
			}
			go made.pass(socket)
		}
	}()
	return made
}

func (p *proxy) address() string { return "tcp://" + p.listener.Addr().String() }

// shut cuts all connections, and lets nobody through, or somebody again.
func (p *proxy) shut(isShut bool) {
	p.mutex.Lock()
	defer p.mutex.Unlock()
	p.isShut = isShut
	for _, socket := range p.sockets {
		socket.Close()
	}
	p.sockets = nil
}

func (p *proxy) pass(socket net.Conn) {
	defer socket.Close()
	p.mutex.Lock()
	isShut := p.isShut
	p.sockets = append(p.sockets, socket)
	p.mutex.Unlock()
	if isShut {
		return
	}
	region, err := net.Dial("tcp", p.target)
	if err != nil {
		return
	}
	defer region.Close()
	go func() { io.Copy(region, socket); region.Close() }()
	most := p.most.Load()
	if most == 0 {
		io.Copy(socket, region)
	} else if _, err = io.CopyN(socket, region, 1+rand.Int63n(most)); err == nil {
		p.cuts.Add(1)
	}
}

// versioned are images of the keys in a version, and the keys.
func versioned(number int) (made []image, keys []string) {
	for at := 0; at < manyKeys; at++ {
		key := fmt.Sprintf("k%03d", at)
		keys = append(keys, key)
		made = append(made, image{"fields": map[string]any{"v": "x"}, "key": key, "master": "w", "version": []int{1, number}})
	}
	return made, keys
}

// three are regions with control sockets: the first and the last have all, and the second has older versions. A proxy is before each.
func three(t *testing.T) (controls []*Client, proxies []*proxy, addresses []string) {
	old, _ := versioned(0)
	newer, keys := versioned(1)
	folder := t.TempDir()
	for at, stream := range [][]image{append(old, newer...), old, append(old, newer...)} {
		path := filepath.Join(folder, fmt.Sprint(at))
		words := []string{"--stay", "--sessions=2", "--control=" + path, `--bounds=["` + firstOfLast + `"]`}
		started := serve(t, freePort(t), map[string][]image{"east": stream}, words...)
		control := open(t, "unix:"+path, Options{})
		wanted := Version{1, int64(1 - at%2)}
		for record, err := (*Record)(nil), error(nil); record == nil || record.Version.Less(wanted); time.Sleep(10 * time.Millisecond) {
			record, err = control.Read(background, keys[manyKeys-1])
			must(t, err)
		}
		proxies = append(proxies, startProxy(t, started.address))
		controls, addresses = append(controls, control), append(addresses, proxies[at].address())
	}
	return controls, proxies, addresses
}

// told has a region do what its control socket is told.
func told(t *testing.T, control *Client, command Command) {
	_, err := Ask(background, control, command, Fields{}, func(found Fields) bool { return found["error"] == nil })
	must(t, err)
}

// A reads is a client, or several for ranges of keys.
type reads interface {
	Get(context.Context, []string) ([]*Record, error)
	Scan(context.Context, Query) *Scanner
}

// A tally counts reads, and those that failed, or were of no record or an older one.
type tally struct{ reads, wrong atomic.Int64 }

func (y *tally) take(t *testing.T, key string, record *Record, err error) {
	y.reads.Add(1)
	if err != nil || record == nil || record.Key != key || record.Version != (Version{1, 1}) {
		y.wrong.Add(1)
		t.Log(key, record, err)
	}
}

// run reads all keys in each way.
func (y *tally) run(t *testing.T, region reads, read func(key string) (*Record, error)) {
	_, keys := versioned(1)
	_ = together(manyKeys, func(at int) error {
		record, err := read(keys[at])
		y.take(t, keys[at], record, err)
		return nil
	})
	records, err := region.Get(background, keys)
	for at, key := range keys {
		y.take(t, key, records[at], err)
	}
	scanner := region.Scan(background, Query{Limit: 30})
	for _, key := range keys {
		if isNext := scanner.Next(); isNext {
			y.take(t, key, scanner.Record(), nil)
		} else {
			y.take(t, key, nil, scanner.Err())
		}
	}
}

func TestNoReadFails(t *testing.T) {
	controls, proxies, addresses := three(t)
	client, err := OpenAny(addresses, Options{Connections: 2, Timeout: time.Minute, Retries: 10})
	must(t, err)
	t.Cleanup(client.Close)
	read := func(key string) (*Record, error) { return client.Read(background, key) }
	var counted tally
	counted.run(t, client, read)
	// All was seen: from now on the second region is of no use to it.
	for _, proxy := range proxies {
		proxy.most.Store(mostBytes)
	}
	isOver, reading := make(chan bool), sync.WaitGroup{}
	for at := 0; at < 3; at++ {
		reading.Add(1)
		go func() {
			defer reading.Done()
			for {
				select {
				case <-isOver:
					return
				default:
					counted.run(t, client, read)
				}
			}
		}()
	}
	told(t, controls[0], Command{"do": "lose", "tablet": 1})
	time.Sleep(time.Second)
	proxies[0].shut(true)
	time.Sleep(500 * time.Millisecond)
	proxies[0].shut(false)
	cuts := int64(0)
	for cuts < 4 && counted.wrong.Load() == 0 {
		time.Sleep(500 * time.Millisecond)
		cuts = proxies[0].cuts.Load() + proxies[1].cuts.Load() + proxies[2].cuts.Load()
	}
	close(isOver)
	reading.Wait()
	same(t, "reads that are wrong", counted.wrong.Load(), 0)
	t.Logf("%d reads, %d connections cut", counted.reads.Load(), cuts)
}

func TestARegionThatIsBehind(t *testing.T) {
	_, proxies, addresses := three(t)
	client, err := OpenAny(addresses[:2], Options{Retries: -1})
	must(t, err)
	t.Cleanup(client.Close)
	_, keys := versioned(1)
	_, err = client.Get(background, keys)
	must(t, err)
	proxies[0].shut(true)
	scanner := client.Scan(background, Query{})
	same(t, "whether a scan shows something", scanner.Next(), false)
	_, readErr := client.Read(background, keys[0])
	_, getErr := client.Get(background, keys[:1])
	for _, err := range []error{readErr, getErr, scanner.Err()} {
		said, several := []error{err}, (*RegionsFailed)(nil)
		if errors.As(err, &several) {
			said = append(said, several.Others[0].Fault)
		}
		behind := (*RecordBehind)(nil)
		same(t, "whether one is behind", errors.As(said[0], &behind) || errors.As(said[len(said)-1], &behind), true)
		same(t, "what it has", *behind.Has, Version{1, 0})
	}
	fresh, err := OpenAny(addresses[:2], Options{})
	must(t, err)
	t.Cleanup(fresh.Close)
	record, err := fresh.Read(background, keys[0])
	must(t, err)
	same(t, "what another client is shown", record.Version, Version{1, 0})
}

func TestRangesOfSeveralRegions(t *testing.T) {
	newer, keys := versioned(1)
	low := serve(t, freePort(t), map[string][]image{"east": newer[:90]}, "--sessions=2")
	high := serve(t, freePort(t), map[string][]image{"east": newer[90:]}, "--sessions=2")
	waitFor(t, open(t, low.address, Options{}), keys[89])
	waitFor(t, open(t, high.address, Options{}), keys[manyKeys-1])
	gone := startProxy(t, low.address)
	gone.shut(true)
	var clients []*Client
	for _, addresses := range [][]string{{gone.address(), low.address}, {high.address, gone.address()}} {
		client, err := OpenAny(addresses, Options{})
		must(t, err)
		t.Cleanup(client.Close)
		clients = append(clients, client)
	}
	regions, err := NewRegions([]string{keys[90]}, clients)
	must(t, err)
	var counted tally
	counted.run(t, regions, func(key string) (*Record, error) { return regions.Of(key).Read(background, key) })
	same(t, "reads, and those that are wrong", []int64{counted.reads.Load(), counted.wrong.Load()}, []int64{3 * manyKeys, 0})
}
