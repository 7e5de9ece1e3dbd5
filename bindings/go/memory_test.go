package antientropy_test

import (
	"bytes"
	"context"
	"fmt"
	"os"
	"os/exec"
	"runtime"
	"runtime/debug"
	"strconv"
	"strings"
	"testing"

	antientropy "example.org/antientropy/go"
)

const mebibyte = 1 << 20

// resident returns the memory of the process, in bytes.
func resident() int {
	var size, pages int
	must(fmt.Sscan(string(must(os.ReadFile("/proc/self/statm"))), &size, &pages))
	return pages * os.Getpagesize()
}

// A maker makes handles that hold a number of bytes, and closes them or leaves them to the collector.
type maker struct {
	bytes int
	make  func(close bool)
}

var makers = map[string]maker{
	"replicas, snapshots and exchanges": {64 * antientropy.ValueMax2, func(close bool) {
		r, value := newReplica(), bytes.Repeat([]byte("v"), antientropy.ValueMax2)
		for n := 0; n < 64; n++ {
			must(r.Put(1, []byte{byte(n)}, value, nil))
		}
		snapshot, renewed := must(r.Snapshot()), must(r.Renew(64))
		shared := must(snapshot.Share())
		check(r.RenewInPlace(context.Background(), 65))
		put(r, "later", "")
		exchange := opened(r, must(snapshot.Offer(7)))
		if close {
			check(exchange.Close())
			check(r.Close())
			must(snapshot.Root())
			check(snapshot.Close())
			must(shared.Root())
			check(shared.Close())
			must(renewed.Stats())
			check(renewed.Close())
		}
	}},
	"hints": {antientropy.ValueMax2, func(close bool) {
		hints := must(antientropy.NewHints())
		must(hints.Keep(1, []byte("key"), live(1, 1, strings.Repeat("v", antientropy.ValueMax2))))
		if close {
			check(hints.Close())
		}
	}},
	"slots": {20 << 10, func(close bool) {
		slots := must(antientropy.NewSlots(1, 4, 1))
		for n := uint64(0); n < 1024; n++ {
			check(slots.Sample(n, 1))
		}
		if close {
			check(slots.Close())
		}
	}},
}

// collect waits until the objects that were dropped are freed.
func collect() {
	for n := 0; n < 2; n++ { // finalizers of the first collection run in any order
		done := make(chan bool)
		runtime.SetFinalizer(new([64]byte), func(*[64]byte) { close(done) })
		runtime.GC()
		<-done
	}
	antientropy.AwaitFreed()
}

// freed makes 128 MiB of handles, and checks that the process grows by less than 64 MiB. All are made by one thread,
// since malloc keeps free memory separately for each.
func freed(t *testing.T, m maker, close bool) {
	if testing.Short() {
		t.Skip("it takes seconds")
	}
	runtime.LockOSThread()
	defer runtime.UnlockOSThread()
	collect()
	before, step := resident(), 1+8*mebibyte/m.bytes
	for n := 0; n*m.bytes < 128*mebibyte; n++ {
		if m.make(close); n%step == 0 {
			collect()
		}
	}
	if grown := resident() - before; grown > 64*mebibyte {
		t.Errorf("the process has grown by %d MiB", grown/mebibyte)
	}
}

func TestCloseFrees(t *testing.T) {
	for name, m := range makers {
		t.Run(name, func(t *testing.T) { freed(t, m, true) })
	}
}

func TestTheCollectorFrees(t *testing.T) {
	for name, m := range makers {
		t.Run(name, func(t *testing.T) { freed(t, m, false) })
	}
}

// smallReplicas makes replicas of 100 values of 1,000 bytes, drops them, and waits for collections that have begun. It
// returns the greatest memory of the process meanwhile.
func smallReplicas(replicas int) (most int) {
	value := bytes.Repeat([]byte("v"), 1_000)
	for n := 0; n < replicas; n++ {
		r := newReplica()
		for key := 0; key < 100; key++ {
			must(r.Put(1, []byte{byte(key)}, value, nil))
		}
		if now := resident(); now > most {
			most = now
		}
		if n%100 == 0 {
			antientropy.AwaitFreed()
		}
	}
	return most
}

// The collector finds replicas that were dropped, though they have no Go memory. If kept, 2,000 have 680 MB.
func TestDroppedReplicasAreCollected(t *testing.T) {
	collect()
	before := resident()
	grown := smallReplicas(2_000) - before
	t.Logf("the process has grown by at most %d MiB", grown/mebibyte)
	if grown > 400_000_000 {
		t.Error("replicas that were dropped aren't collected")
	}
}

// handled makes a number of replicas, each with four snapshots and an exchange, and closes them or has them collected.
// It returns the memory of the process when nothing of them is left.
func handled(t *testing.T, number int, close bool) int {
	snapshot := must(must(antientropy.NewReplica(antientropy.Config{Format: 1, Limit: 10})).Snapshot())
	offer, value := must(snapshot.Offer(7)), strings.Repeat("v", antientropy.ValueMax1)
	collect()
	before := forced()
	for n := 0; n < number; n++ {
		r := must(antientropy.NewReplica(antientropy.Config{Format: 1, Limit: 10}))
		put(r, "key", value)
		taken, exchange := must(r.Snapshot()), opened(r, offer)
		shares := []*antientropy.Snapshot{taken, must(taken.Share()), must(taken.Share()), must(taken.Share())}
		if close {
			check(exchange.Close())
			for _, share := range shares {
				check(share.Close())
			}
			check(r.Close())
		} else if n%100 == 99 {
			collect()
		}
	}
	if close {
		equal(t, forced(), before)
	}
	check(snapshot.Close())
	collect()
	debug.FreeOSMemory()
	return resident()
}

// forced returns the number of collections that were forced.
func forced() uint32 {
	var stats runtime.MemStats
	runtime.ReadMemStats(&stats)
	return stats.NumForcedGC
}

// A thousand replicas with their snapshots and exchanges leave as much memory as those that follow: as many as
// MEMORY_ROUNDS says, 10,000, or 1,000 in the gate. A program that closes them causes no collection. The test has a
// process of its own: memory that other tests have left would hide what is lost.
func TestManyHandles(t *testing.T) {
	if os.Getenv("MEMORY_ALONE") == "" {
		command := exec.Command(os.Args[0], "-test.run=^TestManyHandles$", "-test.v")
		command.Env = append(os.Environ(), "MEMORY_ALONE=1")
		if output, err := command.CombinedOutput(); err != nil {
			t.Errorf("%v\n%s", err, output)
		}
		return
	}
	number, err := strconv.Atoi(os.Getenv("MEMORY_ROUNDS"))
	if err != nil {
		number = 1_000
	}
	runtime.LockOSThread()
	defer runtime.UnlockOSThread()
	for _, close := range []bool{true, false} {
		first, later := handled(t, 1_000, close), handled(t, number, close)
		t.Logf("closed: %v: the process has %d KiB at first, and %d later", close, first>>10, later>>10)
		if 10*later > 11*first {
			t.Error("the process grows")
		}
	}
}
