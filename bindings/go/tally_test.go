package antientropy

import (
	"context"
	"runtime"
	"testing"
	"time"
)

// eventually waits until a condition holds.
func eventually(t *testing.T, what string, holds func() bool) {
	t.Helper()
	for end := time.Now().Add(2 * time.Minute); !holds(); time.Sleep(time.Millisecond) {
		if time.Now().After(end) {
			t.Fatalf("%s", what)
		}
	}
}

// forced returns the number of collections that a program has forced.
func forced() uint32 {
	var stats runtime.MemStats
	runtime.ReadMemStats(&stats)
	return stats.NumForcedGC
}

// The collector runs once there are more than 32 MiB and twice the bytes that were left.
func TestWhenTheCollectorRuns(t *testing.T) {
	for _, test := range []struct{ left, most int64 }{{0, 32 << 20}, {1 << 20, 34 << 20}, {1 << 30, 2<<30 + 32<<20}} {
		var tally tally
		tally.left.Store(test.left)
		AwaitFreed()
		before := forced()
		tally.add(test.most)
		if forced() != before || tally.isCollecting.Load() {
			t.Errorf("at %d bytes the collector runs", test.most)
		}
		tally.add(1)
		eventually(t, "the collector doesn't run", func() bool { return forced() > before && !tally.isCollecting.Load() })
		if left := tally.left.Load(); left != test.most+1 {
			t.Errorf("%d bytes are left", left)
		}
	}
}

// A running collection starts no other one.
func TestOneCollectionAtOnce(t *testing.T) {
	var tally tally
	tally.isCollecting.Store(true)
	AwaitFreed()
	before := forced()
	tally.add(1 << 40)
	time.Sleep(10 * time.Millisecond)
	if forced() != before {
		t.Error("the collector runs twice at once")
	}
}

// Closing a handle doesn't change the bytes that were left after a collection; collecting one lowers them.
func TestBytesLeft(t *testing.T) {
	var tally tally
	tally.bytes.Store(100)
	tally.left.Store(80)
	tally.lower()
	if left := tally.left.Load(); left != 80 {
		t.Errorf("%d bytes are left of more", left)
	}
	tally.add(-70)
	if left := tally.left.Load(); left != 80 {
		t.Errorf("after a close %d bytes are left", left)
	}
	tally.lower()
	if left := tally.left.Load(); left != 30 {
		t.Errorf("after a collection %d bytes are left", left)
	}
}

// weighed checks that a weight has grown, or has fallen, by at least a number of bytes. It returns the new one.
func weighed(t *testing.T, what string, before int64, weight *weight, change int64) int64 {
	t.Helper()
	grown := weight.bytes - before
	if change > 0 && (grown < change || grown > change+3*entryWeight) || change < 0 && grown > change {
		t.Errorf("after %s the weight changes by %d bytes, and not by some %d", what, grown, change)
	}
	if weight.bytes-weight.counted >= tallyStep || weight.counted > weight.bytes {
		t.Errorf("after %s the tally has %d of %d bytes", what, weight.counted, weight.bytes)
	}
	return weight.bytes
}

// A call that adds or drops entries changes the weight of the replica.
func TestWeightsOfReplicas(t *testing.T) {
	must := func(err error) {
		t.Helper()
		if err != nil {
			t.Fatal(err)
		}
	}
	r, err := NewReplica(Config{Format: 1, Limit: 1000})
	must(err)
	weight, value := &r.at.weight, make([]byte, 4000)
	bytes := weighed(t, "NewReplica", 0, weight, treeWeight1)
	_, err = r.Put(1, []byte("key"), value, nil)
	must(err)
	bytes = weighed(t, "Put", bytes, weight, 4000)
	_, err = r.PutUnread(1, []byte("key"), value, Clock{{Node: 1, Counter: 1}})
	must(err)
	bytes = weighed(t, "PutUnread", bytes, weight, 4000)
	if _, err = r.Put(1, []byte("key"), value, nil); err == nil {
		t.Error("a put isn't refused")
	}
	version := Version{Clock: Clock{{Node: 2, Counter: 1}}, Value: value}
	for range [2]bool{} {
		_, err = r.Accept([]byte("key"), version)
		must(err)
	}
	bytes = weighed(t, "Accept, and one of a known version", bytes, weight, 4000)
	must(r.Migrate())
	bytes = weighed(t, "Migrate", bytes, weight, treeWeight2-treeWeight1)
	row, _, err := r.Row([]byte("key"))
	must(err)
	other, err := NewReplica(Config{Format: 2, Limit: 1000})
	must(err)
	_, err = other.LoadRows(row)
	must(err)
	loaded := weighed(t, "LoadRows", treeWeight2, &other.at.weight, 8000)
	_, err = other.LoadFormat(2, row)
	must(err)
	if other.at.weight.bytes != loaded {
		t.Error("a load of known versions changes the weight")
	}
	renewed, err := r.Renew(1000)
	must(err)
	weighed(t, "Renew", bytes, &renewed.at.weight, -4000)
	snapshot, err := r.Snapshot()
	must(err)
	shared, err := snapshot.Share()
	must(err)
	if snapshot.at.weight.bytes != bytes || shared.at.weight.bytes != bytes {
		t.Errorf("snapshots of %d bytes have %d and %d", bytes, snapshot.at.weight.bytes, shared.at.weight.bytes)
	}
	must(r.RenewInPlace(context.Background(), 1000))
	weighed(t, "RenewInPlace", bytes, weight, -4000)
	if weight.bytes != renewed.at.weight.bytes {
		t.Errorf("renewed replicas have %d and %d bytes", weight.bytes, renewed.at.weight.bytes)
	}
}

// An answer adds to the weight of the replica that takes it.
func TestWeightsOfExchanges(t *testing.T) {
	partner, r := filledJournal(t, 10, 1), filledJournal(t, 10, 0)
	defer partner.Close()
	defer r.Close()
	if _, err := partner.Put(2, []byte("long"), make([]byte, 4000), nil); err != nil {
		t.Fatal(err)
	}
	snapshot, err := partner.Snapshot()
	if err != nil {
		t.Fatal(err)
	}
	defer snapshot.Close()
	before, offer := r.at.weight.bytes, must(snapshot.Offer(1))
	exchange := must(r.Exchange(2, offer, DefaultBounds()))
	weighed(t, "Exchange", 0, &exchange.at.session.weight, treeWeight2)
	for asks := must(exchange.Asks()); len(asks) > 0; asks = must(exchange.Asks()) {
		for _, ask := range asks {
			must(exchange.Take(must(snapshot.Serve(1, ask))))
		}
	}
	weighed(t, "Take", before, &r.at.weight, 4000+entryWeight)
	if exchange.Close(); exchange.at.session.weight != (weight{}) {
		t.Error("a closed exchange has a weight")
	}
}

func TestWeightsOfHintsAndSlots(t *testing.T) {
	hints, version := must(NewHints()), Version{Clock: Clock{{Node: 1, Counter: 1}}, Value: make([]byte, 4000)}
	must(hints.Keep(2, []byte("key"), version))
	bytes := weighed(t, "Keep", 0, &hints.at.weight, 4000)
	must(hints.Keep(2, []byte("key"), version))
	bytes = weighed(t, "Keep", bytes, &hints.at.weight, 4000)
	if err := hints.Confirm(1, false); err != nil {
		t.Fatal(err)
	}
	if err := hints.Renew(); err != nil {
		t.Fatal(err)
	}
	weighed(t, "Renew", bytes, &hints.at.weight, -4000)
	slots := must(NewSlots(1, 1, 1))
	weighed(t, "NewSlots", 0, &slots.at.weight, slotsWeight)
	hints.Close()
	slots.Close()
	if hints.at.weight != (weight{}) || slots.at.weight != (weight{}) {
		t.Error("closed handles have a weight")
	}
}

// Handles that were all closed or dropped leave nothing in the tally.
func TestTheTallyOfNoHandle(t *testing.T) {
	r := filledJournal(t, 1_000, 500)
	snapshot := must(r.Snapshot())
	must(snapshot.Share())
	must(r.Renew(1_000))
	must(r.Exchange(2, must(snapshot.Offer(1)), DefaultBounds()))
	must(NewSlots(1, 1, 1))
	if snapshot.Close(); cMemory.bytes.Load() < 3*treeWeight2 {
		t.Errorf("the tally has %d bytes", cMemory.bytes.Load())
	}
	eventually(t, "the tally has bytes of no handle", func() bool {
		runtime.GC()
		return cMemory.bytes.Load() == 0
	})
	if cMemory.left.Load() != 0 {
		t.Errorf("%d bytes are left", cMemory.left.Load())
	}
}
