package pnuts

import (
	"crypto/ecdsa"
	"crypto/elliptic"
	cryptorand "crypto/rand"
	"crypto/tls"
	"crypto/x509"
	"errors"
	"fmt"
	"io"
	"math/big"
	"math/rand"
	"net"
	"path/filepath"
	"sync"
	"sync/atomic"
	"testing"
	"time"
)

func TestTheRegionOfAKey(t *testing.T) {
	clients := []*Client{{}, {}, {}}
	regions, err := NewRegions([]string{"g", "m"}, clients)
	must(t, err)
	for key, wanted := range map[string]int{"": 0, "fz": 0, "g": 1, "lz": 1, "m": 2, "\U0001f600": 2} {
		same(t, key, regions.Of(key) == clients[wanted], true)
	}
}

func TestThePartsOfAQuery(t *testing.T) {
	regions, err := NewRegions([]string{"g", "m"}, []*Client{{}, {}, {}})
	must(t, err)
	for query, wanted := range map[*Query]string{
		{}:                    "[-g g-m m-]",
		{From: "h", To: "k"}:  "[h-k]",
		{After: "g", To: "m"}: "[g-m]",
		{From: "m", To: "g"}:  "[]",
		{From: "a", To: "g"}:  "[a-g]",
	} {
		found := []string{}
		for _, part := range regions.Scan(background, *query).parts {
			found = append(found, part.query.From+"-"+part.query.To)
		}
		same(t, fmt.Sprint(*query), found, wanted)
	}
}

func TestTablesThatAreRefused(t *testing.T) {
	for _, bounds := range [][]string{{"m"}, {"m", "m"}, {"m", "g"}} {
		_, err := NewRegions(bounds, make([]*Client, 3))
		same(t, fmt.Sprint(bounds), err != nil, true)
	}
}

func TestTwoRegions(t *testing.T) {
	low := serve(t, freePort(t), map[string][]image{"east": images("v", "low", "a", "c", "l")})
	high := serve(t, freePort(t), map[string][]image{"east": images("v", "high", "m", "n", "\u00fc")})
	clients := []*Client{open(t, low.address, Options{}), open(t, high.address, Options{})}
	waitFor(t, clients[0], "l")
	waitFor(t, clients[1], "\u00fc")
	both, err := NewRegions([]string{"m"}, clients)
	must(t, err)
	same(t, "all keys", scanned(t, both.Scan(background, Query{Limit: 2})), "[a c l m n \u00fc]")
	same(t, "keys of both", scanned(t, both.Scan(background, Query{From: "c", To: "n", Limit: 1})), "[c l m]")
	for limit, wanted := range map[int]string{1: "[a][c][l][m][n][\u00fc]", 2: "[a c][l m][n \u00fc]", 3: "[a c l][m n \u00fc]", 4: "[a c l m][n \u00fc]", 0: "[a c l m n \u00fc]"} {
		found := ""
		for query := (&Query{Limit: limit}); query != nil; {
			page, err := both.Page(background, *query)
			must(t, err)
			found += fmt.Sprint(keysOf(page.Records))
			query = page.Next
		}
		same(t, fmt.Sprintf("pages of %d", limit), found, wanted)
	}
	records, err := both.Get(background, []string{"n", "z", "a", "n"})
	must(t, err)
	same(t, "records", keysOf(records), "[n  a n]")
	record, err := both.Of("m").Read(background, "m")
	must(t, err)
	same(t, "fields", record.Fields(), Fields{"v": "high"})
}

func TestAddresses(t *testing.T) {
	for text, wanted := range map[string]string{
		"tcp://127.0.0.1:7071":  "tcp 127.0.0.1:7071",
		"tcp://[::1]":           "tcp [::1]:7070",
		"tls://region.example":  "tcp region.example:7070",
		"unix:/run/pnuts.sock":  "unix /run/pnuts.sock",
		"unix:///run/a b":       "unix /run/a b",
		"unix:region":           "unix region",
		"":                      "",
		"7070":                  "",
		"http://a:1":            "",
		"tcp://":                "",
		"unix:":                 "",
		"/run/pnuts.sock":       "",
		"tcp://a:1/path":        "",
		"tcp://127.0.0.1:port/": "",
	} {
		where, err := addressOf(text, nil)
		same(t, text, err == nil, wanted != "")
		if err == nil {
			same(t, text, where.network+" "+where.target, wanted)
			_, isTLS := where.dialer.(*tls.Dialer)
			same(t, text, isTLS, text[:3] == "tls")
		}
	}
}

// certificate is one for localhost, and trust in it.
func certificate(t *testing.T) (tls.Certificate, *x509.CertPool) {
	key, err := ecdsa.GenerateKey(elliptic.P256(), cryptorand.Reader)
	must(t, err)
	template := &x509.Certificate{SerialNumber: big.NewInt(1), DNSNames: []string{"localhost"}, NotAfter: time.Now().Add(time.Hour),
		IsCA: true, BasicConstraintsValid: true, KeyUsage: x509.KeyUsageDigitalSignature | x509.KeyUsageCertSign}
	made, err := x509.CreateCertificate(cryptorand.Reader, template, template, key.Public(), key)
	must(t, err)
	public, err := x509.ParseCertificate(made)
	must(t, err)
	trust := x509.NewCertPool()
	trust.AddCert(public)
	return tls.Certificate{Certificate: [][]byte{made}, PrivateKey: key}, trust
}

func TestTLS(t *testing.T) {
	server, trust := certificate(t)
	for name, isRight := range map[string]bool{"": true, "other.example": false} {
		listener := tls.NewListener(listen(t), &tls.Config{Certificates: []tls.Certificate{server}})
		fake(t, listener, []string{none + "\n"})
		_, port, err := net.SplitHostPort(listener.Addr().String())
		must(t, err)
		client := open(t, "tls://localhost:"+port, Options{Retries: -1, TLS: &tls.Config{RootCAs: trust, ServerName: name}})
		_, err = client.Read(background, "k")
		failed := (*ConnectionFailed)(nil)
		same(t, "whether it failed", errors.As(err, &failed), !isRight)
	}
}

func TestUnixSockets(t *testing.T) {
	path := filepath.Join(t.TempDir(), "region")
	listener, err := net.Listen("unix", path)
	must(t, err)
	fake(t, listener, []string{none + "\n"})
	_, err = open(t, "unix:"+path, Options{}).Read(background, "k")
	must(t, err)
}

const (
	// How many changes there are a second, of how many keys in turn, and how many in all.
	changesASecond = 1000
	changedKeys    = 40
	changes        = 4 * changesASecond
)

// changedKey is the key that a message changes.
func changedKey(at int) string { return fmt.Sprintf("k%02d", at%changedKeys) }

// feed gives a region the messages of a stream, each at its moment.
func feed(t *testing.T, path string, begin time.Time) {
	stream, err := net.Dial("unix", path)
	if err != nil {
		t.Error(err)
		return
	}
	defer stream.Close()
	for at := 1; at <= changes; at++ {
		if at%10 == 0 {
			time.Sleep(time.Until(begin.Add(time.Duration(at) * time.Second / changesASecond)))
		}
		const message = `{"at":%d,"image":{"fields":{"v":"x"},"key":%q,"master":"w","version":[1,%d]}}` + "\n"
		fmt.Fprintf(stream, message, at, changedKey(at), at/changedKeys)
	}
	stream.(*net.UnixConn).CloseWrite()
	io.Copy(io.Discard, stream)
}

// Shown is the latest version that any call has shown of each key, and what was shown that is older.
type shown struct {
	mutex    sync.Mutex
	versions map[string]Version
	calls    int
	wrong    []string
}

// now is what was shown so far.
func (s *shown) now() map[string]Version {
	s.mutex.Lock()
	defer s.mutex.Unlock()
	copied := map[string]Version{}
	for key, version := range s.versions {
		copied[key] = version
	}
	return copied
}

// take compares what a call shows of keys with what was shown before it began.
func (s *shown) take(before map[string]Version, what string, keys []string, records []*Record, err error) {
	s.mutex.Lock()
	defer s.mutex.Unlock()
	s.calls++
	if err != nil {
		s.wrong = append(s.wrong, err.Error())
		return
	}
	found := map[string]*Record{}
	for _, record := range records {
		if record != nil {
			found[record.Key] = record
		}
	}
	for _, key := range keys {
		least, wasShown := before[key]
		record := found[key]
		if wasShown && (record == nil || record.Version.Less(least)) {
			s.wrong = append(s.wrong, fmt.Sprint(what, " ", key, " ", record, ", before ", least))
		}
		if record != nil && s.versions[key].Less(record.Version) {
			s.versions[key] = record.Version
		}
	}
}

// call reads one key or all in some way.
func (s *shown) call(client *Client, keys []string) {
	before := s.now()
	switch rand.Intn(3) {
	case 0:
		key := keys[rand.Intn(len(keys))]
		record, err := client.Read(background, key)
		s.take(before, "read", []string{key}, []*Record{record}, err)
	case 1:
		records, err := client.Get(background, keys)
		s.take(before, "get", keys, records, err)
	default:
		var records []*Record
		scanner := client.Scan(background, Query{Limit: 15})
		for scanner.Next() {
			records = append(records, scanner.Record())
		}
		s.take(before, "scan", keys, records, scanner.Err())
	}
}

func TestNoReaderOfRegionsThatLagIsShownAnOlderVersion(t *testing.T) {
	folder, addresses, proxies, keys := t.TempDir(), []string{}, []*proxy{}, []string{}
	for at := 0; at < changedKeys; at++ {
		keys = append(keys, changedKey(at))
	}
	var feeding, reading sync.WaitGroup
	begin, isOver := time.Now().Add(500*time.Millisecond), atomic.Bool{}
	for at, lag := range []time.Duration{0, 150 * time.Millisecond, 300 * time.Millisecond} {
		path := filepath.Join(folder, fmt.Sprint(at))
		words := []string{"--stay", "--sessions=2", "--control=" + path + "-control", `--bounds=["k20"]`, "east=listen:" + path}
		proxies = append(proxies, startProxy(t, serve(t, freePort(t), map[string][]image{}, words...).address))
		proxies[at].most.Store(40_000)
		addresses = append(addresses, proxies[at].address())
		feeding.Add(1)
		go func(begin time.Time) { defer feeding.Done(); feed(t, path, begin) }(begin.Add(lag))
	}
	client, err := OpenAny(addresses, Options{Connections: 2, Timeout: time.Minute, Retries: 10})
	must(t, err)
	t.Cleanup(client.Close)
	all := shown{versions: map[string]Version{}}
	for at := 0; at < 4; at++ {
		reading.Add(1)
		go func() {
			defer reading.Done()
			for !isOver.Load() {
				all.call(client, keys)
			}
		}()
	}
	feeding.Wait()
	isOver.Store(true)
	reading.Wait()
	same(t, "how many are wrong", len(all.wrong), 0)
	for at := 0; at < 5 && at < len(all.wrong); at++ {
		t.Log(all.wrong[at])
	}
	cuts := proxies[0].cuts.Load() + proxies[1].cuts.Load() + proxies[2].cuts.Load()
	same(t, "whether enough was called, and cut", all.calls > 10 && cuts > 0, true)
	t.Logf("%d calls, %d connections cut", all.calls, cuts)
}
