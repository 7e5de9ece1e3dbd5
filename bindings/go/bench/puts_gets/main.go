// Command puts_gets measures puts and gets of one goroutine, for bench/bindings.
//
// The arguments are the number of keys, 100000 by default, and the format, 1 by default. Keys and values equal those in
// bench/puts_gets.c, and are prepared first. It prints a line of JSON: calls per second of elapsed time, and the
// processor time of a call in nanoseconds, including the garbage collector's.
package main

import (
	"bytes"
	"encoding/binary"
	"fmt"
	"os"
	"strconv"
	"syscall"
	"time"

	antientropy "example.org/antientropy/go"
)

// An item is a key with its value.
type item struct {
	key, value []byte
}

func makeItems(keys int) []item {
	items := make([]item, keys)
	for n := range items {
		var number [8]byte
		binary.BigEndian.PutUint64(number[:], uint64(n))
		items[n] = item{key: []byte(fmt.Sprintf("key-%06d", n)), value: bytes.Repeat(number[:], 4)}
	}
	return items
}

// processorTime returns the processor time of the process.
func processorTime() time.Duration {
	var usage syscall.Rusage
	if err := syscall.Getrusage(syscall.RUSAGE_SELF, &usage); err != nil {
		panic(err)
	}
	return time.Duration(usage.Utime.Nano() + usage.Stime.Nano())
}

// measure calls a function for each item. It returns the calls per second, and the processor time of one call in
// nanoseconds.
func measure(items []item, call func(item)) (perSecond, nanoseconds int) {
	start, before := time.Now(), processorTime()
	for _, item := range items {
		call(item)
	}
	used, took := processorTime()-before, time.Since(start)
	return int(float64(len(items)) / took.Seconds()), int(used) / len(items)
}

func must[T any](result T, err error) T {
	if err != nil {
		fmt.Fprintln(os.Stderr, err)
		os.Exit(1)
	}
	return result
}

// word returns a number of the command line.
func word(place, otherwise int) int {
	if len(os.Args) > place {
		return must(strconv.Atoi(os.Args[place]))
	}
	return otherwise
}

func main() {
	items, format := makeItems(word(1, 100_000)), uint8(word(2, 1))
	replica := must(antientropy.NewReplica(antientropy.Config{Format: format, Limit: antientropy.EntriesMax}))
	puts, putTime := measure(items, func(i item) { must(replica.Put(1, i.key, i.value, nil)) })
	gets, getTime := measure(items, func(i item) { must(replica.Get(i.key)) })
	fmt.Printf("{\"keys\":%d,\"puts_per_s\":%d,\"put_ns\":%d,\"gets_per_s\":%d,\"get_ns\":%d}\n", len(items), puts,
		putTime, gets, getTime)
}
