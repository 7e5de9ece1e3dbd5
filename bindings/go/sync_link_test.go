package antientropy_test

import (
	"bytes"
	"context"
	"fmt"
	"testing"
	"time"

	antientropy "example.org/antientropy/go"
)

// A sync needs few round trips, since it sends many asks at a time: over a link with a delay of 50 ms, 20 of them take
// a second.
func TestASyncOverALongLink(t *testing.T) {
	asker, partner := largePair(1_000)
	snapshot := must(partner.Snapshot())
	offer := must(snapshot.Offer(1))
	reach, reached := reachOf(snapshot, 1), 0
	synced := must(asker.Sync(context.Background(), 2, offer, func(ctx context.Context, asks [][]byte) ([][]byte, error) {
		reached++
		return reach(ctx, asks)
	}))
	equal(t, []any{synced.Report, synced.Accepted}, []any{antientropy.ReportFinished, uint64(1_000)})
	if reached > 20 {
		t.Errorf("the sync reached its partner %d times", reached)
	}
}

// largeLeaves returns a replica that has 220 keys with values of 64 KiB in each of ten leaves.
func largeLeaves() *antientropy.Replica {
	const leaves, keys, step = 10, 220, 410
	r, value, counts := newReplica(), bytes.Repeat([]byte("v"), antientropy.ValueMax2), map[uint16]int{}
	for n, left := 0, leaves*keys; left > 0; n++ {
		key := []byte(fmt.Sprint("key ", n))
		if leaf := must(antientropy.Place(2, 0, key)).Leaf; leaf%step == 0 && counts[leaf] < keys {
			must(r.Put(1, key, value, nil))
			counts[leaf]++
			left--
		}
	}
	return r
}

// A slowLink carries answers in sequence, at 10 MB per second of simulated time.
type slowLink struct {
	exchange *antientropy.Exchange
	snapshot *antientropy.Snapshot
	asks     map[string]int // number of times each was sent
	queue    [][]byte       // asks that wait for their answers
	now      time.Duration
}

// timeOf returns the time of a number of bytes.
func timeOf(bytes uint64) time.Duration {
	return time.Duration(bytes) * time.Second / 10_000_000
}

// send sends the asks that the bounds allow.
func (l *slowLink) send() {
	for _, ask := range must(l.exchange.Asks()) {
		l.asks[string(ask)]++
		l.queue = append(l.queue, ask)
	}
}

// receive brings the next answer, in pieces. An ask would be lost if no piece arrived in the time of the answers in
// flight plus a second. (The estimate of the first leaves is 0, so that time restarts with each piece.)
func (l *slowLink) receive(t *testing.T) {
	const piece = 1 << 20
	answer := must(l.snapshot.Serve(7, l.queue[0]))
	for rest := uint64(len(answer)); rest > 0; {
		size := rest
		if size > piece {
			size = piece
		}
		if timeOf(size) > timeOf(must(l.exchange.Progress()).BytesInFlight)+time.Second {
			t.Fatal("an ask is lost")
		}
		rest -= size
		l.now += timeOf(size)
	}
	must(l.exchange.Take(answer))
	l.queue = l.queue[1:]
}

// An empty replica takes leaves of 14 MB over a slow link, and asks for nothing twice.
func TestASyncOverASlowLink(t *testing.T) {
	asker, partner := newReplica(), largeLeaves()
	defer asker.Close()
	defer partner.Close()
	snapshot := must(partner.Snapshot())
	defer snapshot.Close()
	l := slowLink{exchange: opened(asker, must(snapshot.Offer(7))), snapshot: snapshot, asks: map[string]int{}}
	for l.send(); len(l.queue) > 0; l.send() {
		l.receive(t)
	}
	progress := must(l.exchange.Progress())
	equal(t, []any{progress.Report, progress.Leaves}, []any{antientropy.ReportFinished, uint64(10)})
	equal(t, []uint64{progress.Accepted, progress.Asks, progress.Lost}, []uint64{2_200, uint64(len(l.asks)), 0})
	if l.now > 15*time.Second {
		t.Errorf("the sync took %v of the link's clock", l.now)
	}
	check(l.exchange.Close())
}
