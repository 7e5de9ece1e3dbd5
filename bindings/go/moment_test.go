package antientropy_test

import (
	"context"
	"fmt"
	"math/rand"
	"testing"

	antientropy "example.org/antientropy/go"
)

// copyOf returns a replica with the first entries of another one.
func copyOf(r *antientropy.Replica, entries uint64) *antientropy.Replica {
	copied := must(antientropy.NewReplica(r.Config()))
	for scanner := r.Entries(0); must(copied.Stats()).Entries < entries && scanner.Next(); {
		must(copied.Accept(scanner.Item().Key, scanner.Item().Version))
	}
	return copied
}

func TestAMoment(t *testing.T) {
	r := filled(20)
	check(r.Hold())
	put(r, "later", "value")
	equal(t, must(r.Stats()).Front, uint64(0))
	for left := must(r.HashMoment(0)); left > 0; {
		before := left
		left = must(r.HashMoment(5))
		equal(t, left < before && left+5 >= before, true)
	}
	equal(t, must(r.Stats()).Front, uint64(20))
	moment := must(r.Moment())
	equal(t, []any{moment.Entries(), moment.Config()}, []any{uint64(20), antientropy.Config{Format: 2, Limit: 20_000}})
	equal(t, must(moment.Root()), must(copyOf(r, 20).Root()))
	check(r.DropMoment())
	equal(t, must(r.Stats()).Front, uint64(20))
}

// A call that holds a moment drops it, also if it is refused.
func TestNoMomentIsLeft(t *testing.T) {
	r := filled(20)
	noMoment := func(front uint64) {
		t.Helper()
		unchanged(t, r, antientropy.ErrDirty, func() error { _, err := r.Moment(); return err })
		equal(t, []uint64{must(r.HashMoment(0)), must(r.Stats()).Front}, []uint64{0, front})
	}
	snapshot := must(r.Snapshot())
	noMoment(20)
	offer := must(snapshot.Offer(7))
	equal(t, must(r.Sync(context.Background(), 2, offer, reachOf(snapshot, 7))).Asks, uint64(0))
	noMoment(20)
	put(r, "later", "value")
	_, err := r.Exchange(2, nil, antientropy.DefaultBounds())
	refused(t, err, antientropy.ErrBadMessage)
	noMoment(21)
	put(r, "last", "value")
	opened(r, offer)
	noMoment(22)
}

func TestNoWholeMoment(t *testing.T) {
	r := filled(20)
	dirty := func() {
		t.Helper()
		unchanged(t, r, antientropy.ErrDirty, func() error { _, err := r.Moment(); return err })
	}
	check(r.Rehash())
	equal(t, must(r.HashMoment(1)), uint64(0))
	dirty()
	put(r, "later", "value")
	check(r.Hold())
	dirty()
}

// putUntil puts random keys of a number of keys without pause, until a channel is closed.
func putUntil(stop chan bool, r *antientropy.Replica, keys int) {
	random, clocks := rand.New(rand.NewSource(1)), make([]antientropy.Clock, keys)
	for {
		select {
		case <-stop:
			return
		default:
			key := random.Intn(keys)
			receipt := must(r.Put(1, []byte(fmt.Sprint(key)), []byte("value"), clocks[key]))
			clocks[key] = clock(1, receipt.Counter)
		}
	}
}

// syncBothWays syncs a busy replica from another one that has put a version, and the other one from a snapshot of the
// busy one, which it returns.
func syncBothWays(t *testing.T, busy, other *antientropy.Replica, node antientropy.Node, n int) *antientropy.Snapshot {
	must(other.Put(node, []byte(fmt.Sprintf("%d of %d", n, node)), nil, nil))
	equal(t, must(syncFrom(busy, other)).Accepted, uint64(1))
	offered := must(busy.Snapshot())
	equal(t, must(other.Sync(context.Background(), 1, must(offered.Offer(1)), reachOf(offered, 1))).Finished(), true)
	return offered
}

// Two goroutines take snapshots and sync, while a third one puts without pause.
func TestSnapshotsAndSyncsBesidePuts(t *testing.T) {
	const keys, rounds = 500, 4
	config := antientropy.Config{Format: 1, Limit: antientropy.EntriesMax}
	busy, stop, ended := must(antientropy.NewReplica(config)), make(chan bool), make(chan bool)
	others := []*antientropy.Replica{must(antientropy.NewReplica(config)), must(antientropy.NewReplica(config))}
	taken := make([]*antientropy.Snapshot, len(others))
	for i := range others {
		go func(i int) {
			for n := 1; n <= rounds; n++ {
				for must(busy.Stats()).Entries < uint64(n*keys) {
				}
				taken[i] = syncBothWays(t, busy, others[i], antientropy.Node(2+i), n)
			}
			ended <- true
		}(i)
	}
	go func() {
		putUntil(stop, busy, keys)
		ended <- true
	}()
	<-ended
	<-ended
	close(stop)
	<-ended
	for i, other := range others {
		root := must(taken[i].Root())
		want := []antientropy.Root{must(other.Root()), must(copyOf(busy, taken[i].Entries()).Root())}
		equal(t, []antientropy.Root{root, root}, want)
		must(syncFrom(other, busy))
		equal(t, must(other.Root()), must(busy.Root()))
	}
}
