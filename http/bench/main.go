// Reads records over HTTP by 64 connections, each with one request at a time, and prints how many a second; the best of three.
//
//	go run ./bench ADDRESS:PORT READS
package main

import (
	"bufio"
	"fmt"
	"io"
	"log"
	"net"
	"os"
	"strconv"
	"strings"
	"sync"
	"sync/atomic"
	"time"
)

const (
	connections = 64
	records     = 1000
)

func main() {
	log.SetFlags(0)
	if len(os.Args) != 3 {
		log.Fatal("usage: bench ADDRESS:PORT READS")
	}
	reads, err := strconv.Atoi(os.Args[2])
	if err != nil {
		log.Fatal(err)
	}
	best := 0.0
	for turn := 0; turn < 3; turn++ {
		if rate := rate(os.Args[1], reads); rate > best {
			best = rate
		}
	}
	fmt.Printf("%.0f\n", best)
}

// rate is how many records a second all connections read.
func rate(address string, reads int) float64 {
	var reading sync.WaitGroup
	var next atomic.Int64
	begin := time.Now()
	for at := 0; at < connections; at++ {
		reading.Add(1)
		go func() {
			defer reading.Done()
			if err := read(address, func() int64 { return next.Add(1) }, int64(reads)); err != nil {
				log.Fatal(err)
			}
		}()
	}
	reading.Wait()
	return float64(reads) / time.Since(begin).Seconds()
}

// read asks for records one after another.
func read(address string, next func() int64, reads int64) error {
	socket, err := net.Dial("tcp", address)
	if err != nil {
		return err
	}
	defer socket.Close()
	replies := bufio.NewReader(socket)
	for at := next(); at <= reads; at = next() {
		key := fmt.Sprintf("key-%06d", at*7919%records)
		if _, err = fmt.Fprintf(socket, "GET /records/%s HTTP/1.1\r\nHost: %s\r\n\r\n", key, address); err != nil {
			return err
		}
		body, err := reply(replies)
		if err != nil || !strings.Contains(body, key) {
			return fmt.Errorf("%s: %.200q, %v", key, body, err)
		}
	}
	return nil
}

// reply is the body of the next reply.
func reply(replies *bufio.Reader) (string, error) {
	size := 0
	for {
		line, err := replies.ReadString('\n')
		if err != nil {
			return "", err
		}
		if line == "\r\n" {
			break
		}
		if name, value, _ := strings.Cut(line, ":"); strings.EqualFold(name, "Content-Length") {
			size, _ = strconv.Atoi(strings.TrimSpace(value))
		}
	}
	body := make([]byte, size)
	_, err := io.ReadFull(replies, body)
	return string(body), err
}
