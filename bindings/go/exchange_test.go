package antientropy_test

import (
	"bytes"
	"fmt"
	"runtime"
	"testing"
	"time"

	antientropy "example.org/antientropy/go"
)

// askFor returns the ask for a node of an offer.
func askFor(offer, depth byte, index uint16) []byte {
	return []byte{2, 0, 0, 0, offer, depth, byte(index >> 8), byte(index)}
}

// opened returns an exchange with a partner's offer of number 7, within the default bounds.
func opened(r *antientropy.Replica, offer []byte) *antientropy.Exchange {
	return must(r.Exchange(9, offer, antientropy.DefaultBounds()))
}

// takeAll takes the answers to all asks of an exchange with the offer of number 7, in reverse order. It calls between
// after each batch, and returns the number of bytes of asks and answers.
func takeAll(exchange *antientropy.Exchange, snapshot *antientropy.Snapshot, between func()) (sent int) {
	for asks := must(exchange.Asks()); len(asks) > 0; asks = must(exchange.Asks()) {
		for i := len(asks) - 1; i >= 0; i-- {
			answer := must(snapshot.Serve(7, asks[i]))
			sent += len(asks[i]) + len(answer)
			must(exchange.Take(answer))
		}
		between()
	}
	return sent
}

// Answers arrive in any order, one is bad, an ask is lost, and the replica makes other calls, even a sync, in between.
func TestAPolledExchange(t *testing.T) {
	snapshot, offer := offered()
	r := newReplica()
	exchange := opened(r, offer)
	root := must(exchange.Asks())
	equal(t, root, [][]byte{askFor(7, 0, 0)})
	equal(t, len(must(exchange.Asks())), 0)
	bad := antientropy.Verdict{Kind: antientropy.VerdictBad, Cause: antientropy.ErrNotAsked}
	equal(t, must(exchange.Take(must(snapshot.Serve(7, askFor(7, 3, 5))))), bad)
	check(exchange.Lose(root[0]))
	refused(t, exchange.Lose(nil), antientropy.ErrBadMessage)
	put(r, "own", "")
	takeAll(exchange, snapshot, func() { equal(t, must(syncFrom(r, filled(1))).Finished(), true) })
	progress := must(exchange.Progress())
	equal(t, []any{progress.Report, progress.Cause, progress.InFlight}, []any{antientropy.ReportFinished, nil, uint64(0)})
	equal(t, []uint64{progress.Accepted, progress.Known, progress.Bad, progress.Lost}, []uint64{49, 1, 1, 1})
	check(exchange.Close())
	noSession(t, r)
	_, err := exchange.Progress()
	refused(t, err, antientropy.ErrEmpty)
}

// A session keeps the leaf of a key that is put again, until it has ended and is dropped.
func TestBytesOfSessions(t *testing.T) {
	_, offer := offered()
	r := filled(49)
	before := must(r.Snapshot())
	exchange := opened(r, offer)
	equal(t, must(r.Bytes()).Sessions, uint64(0))
	must(r.Put(1, []byte("key 3"), []byte("a longer value"), clock(1, 1)))
	check(r.Rehash())
	leaf := must(before.Rows(must(antientropy.Place(2, 0, []byte("key 3"))).Leaf))
	size := must(r.Bytes())
	equal(t, []any{size.Sessions, len(leaf) > 0}, []any{uint64(len(leaf)), true})
	equal(t, size.Rows, must(before.Bytes())+uint64(len("a longer value")-len("value")))
	check(r.DropSessions())
	equal(t, must(r.Bytes()), size)
	check(exchange.Close())
	size.Sessions = 0
	equal(t, must(r.Bytes()), size)
}

// A partner's number has the limits of a node's.
func TestAnExchangeWithNoNode(t *testing.T) {
	_, offer := offered()
	r := newReplica()
	for _, partner := range []antientropy.Node{antientropy.NodeMax + 1, 1 << 63} {
		_, err := r.Exchange(partner, offer, antientropy.DefaultBounds())
		refused(t, err, antientropy.ErrBadClock)
	}
	noSession(t, r)
}

// The collector changes no replica: the next exchange of a replica closes those that were collected.
func TestCollectedExchanges(t *testing.T) {
	_, offer := offered()
	r := newReplica()
	for n := 0; n < 100; n++ {
		opened(r, offer)
		for must(r.Stats()).OpenSessions > 32 { // at most 64 may be open
			runtime.GC()
			time.Sleep(time.Millisecond)
			check(r.DropSessions())
		}
	}
}

// crowdedPair returns a replica without 20 keys of its partner, and the leaf of another key, which is crowded between
// the two. The leaf is asked for before the others.
func crowdedPair() (asker, partner *antientropy.Replica, leaf uint16) {
	asker, partner = newReplica(), newReplica()
	var crowded []byte
	leaf = antientropy.Leaves2
	for n := 0; n <= 20; n++ {
		key := []byte(fmt.Sprint("key ", n))
		if at := must(antientropy.Place(2, 0, key)).Leaf; at < leaf {
			leaf, crowded = at, key
		}
		must(partner.Put(100, key, nil, nil))
	}
	crowd(asker, string(crowded))
	return asker, partner, leaf
}

// A partner that returns the true text of the crowded leaf for each ask for a leaf: no other leaf is left.
func TestACrowdedLeafInPlaceOfEach(t *testing.T) {
	b, a, leaf := crowdedPair()
	l := link{}
	l.change = func(asks, answers [][]byte) ([][]byte, error) {
		for i, ask := range asks {
			if ask[5] == 3 {
				answers[i] = must(l.snapshot.Serve(1, askFor(1, 3, leaf)))
			}
		}
		return answers, nil
	}
	synced := must(l.sync(b, a, antientropy.DefaultBounds()))
	equal(t, []any{synced.Report, synced.Left}, []any{antientropy.ReportTooManyLost, []uint16{leaf}})
	equal(t, []uint64{synced.Accepted, synced.Bad, synced.Lost}, []uint64{0, 0, 257})
}

func TestACrowdedLeafIsLeft(t *testing.T) {
	b, a, leaf := crowdedPair()
	l := link{change: reversed}
	synced := must(l.sync(b, a, antientropy.DefaultBounds()))
	equal(t, []any{synced.Report, synced.Left}, []any{antientropy.ReportLeft, []uint16{leaf}})
	equal(t, []uint64{synced.Accepted, synced.Bad, synced.Lost}, []uint64{20, 0, 0})
	noSession(t, b)
}

// largePair returns two replicas of 100,000 keys with values of 100 bytes. The partner has put some of the keys again.
func largePair(differing int) (asker, partner *antientropy.Replica) {
	key := func(n int) []byte { return []byte(fmt.Sprint("key ", n)) }
	asker = withLimit(antientropy.EntriesMax)
	value := bytes.Repeat([]byte("v"), 100)
	for n := 0; n < 100_000; n++ {
		must(asker.Put(1, key(n), value, nil))
	}
	must(asker.Root())
	partner = must(asker.Renew(antientropy.EntriesMax))
	for n := 0; n < differing; n++ {
		must(partner.Put(1, key(n*(100_000/differing)), value, clock(1, 1)))
	}
	return asker, partner
}

// A deadline passes after each batch of asks. The replica is changed, and the exchange continues later, in one session.
func TestAnExchangeUnderDeadlines(t *testing.T) {
	asker, partner := largePair(1_100)
	snapshot := must(partner.Snapshot())
	offer := must(snapshot.Offer(7))
	exchange, puts := opened(asker, offer), 0
	sent := len(offer) + takeAll(exchange, snapshot, func() {
		puts++
		put(asker, fmt.Sprint("own ", puts), "value")
	})
	progress := must(exchange.Progress())
	equal(t, []any{progress.Report, progress.Accepted}, []any{antientropy.ReportFinished, uint64(1_100)})
	equal(t, []any{must(asker.Stats()).Sessions, puts > 1}, []any{uint64(1), true})
	if sent > 4_000_000 {
		t.Errorf("offer, asks and answers have %d bytes", sent)
	}
	check(exchange.Close())
	noSession(t, asker)
}
