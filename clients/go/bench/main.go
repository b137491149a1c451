// Reads from a region with 64 lines in flight on one connection, and prints how many records a second; the best of three.
//
//	go run ./bench ADDRESS READS
package main

import (
	"context"
	"fmt"
	"log"
	"os"
	"strconv"
	"sync"
	"sync/atomic"
	"time"

	"keqapwi.example/pnuts"
)

const (
	inFlight = 64
	records  = 1000
)

func main() {
	log.SetFlags(0)
	if len(os.Args) != 3 {
		log.Fatal("usage: bench ADDRESS READS")
	}
	reads, err := strconv.Atoi(os.Args[2])
	if err != nil {
		log.Fatal(err)
	}
	client, err := pnuts.Open(os.Args[1], pnuts.Options{})
	if err != nil {
		log.Fatal(err)
	}
	defer client.Close()
	best := 0.0
	for turn := 0; turn < 3; turn++ {
		if rate := rate(client, reads); rate > best {
			best = rate
		}
	}
	fmt.Printf("%.0f\n", best)
}

// rate is how many records a second many goroutines read.
func rate(client *pnuts.Client, reads int) float64 {
	var reading sync.WaitGroup
	var next atomic.Int64
	begin := time.Now()
	for at := 0; at < inFlight; at++ {
		reading.Add(1)
		go func() {
			defer reading.Done()
			for at := next.Add(1); at <= int64(reads); at = next.Add(1) {
				key := fmt.Sprintf("key-%06d", at*7919%records)
				if record, err := client.Read(context.Background(), key); err != nil || record.Key != key {
					log.Fatalf("%s: %v, %v", key, record, err)
				}
			}
		}()
	}
	reading.Wait()
	return float64(reads) / time.Since(begin).Seconds()
}
