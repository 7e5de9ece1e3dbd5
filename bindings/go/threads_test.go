package antientropy_test

import (
	"context"
	"fmt"
	"runtime"
	"strings"
	"sync"
	"testing"

	antientropy "example.org/antientropy/go"
)

const (
	writers = 4
	puts    = 300
)

// putAll puts keys at a node, and reads each back.
func putAll(t *testing.T, r *antientropy.Replica, node antientropy.Node) {
	for n := 0; n < puts; n++ {
		key := fmt.Sprintf("%d of %d", n, node)
		must(r.Put(node, []byte(key), []byte(key), nil))
		equal(t, must(r.Get([]byte(key))), []antientropy.Version{live(uint64(node), 1, key)})
	}
}

func TestGoroutinesShareAReplica(t *testing.T) {
	r, other := newReplica(), newReplica()
	var group sync.WaitGroup
	for node := antientropy.Node(1); node <= writers; node++ {
		node := node
		group.Add(1)
		go func() {
			defer group.Done()
			putAll(t, r, node)
		}()
	}
	for must(r.Stats()).Entries < writers*puts {
		equal(t, must(syncFrom(other, r)).Finished(), true)
	}
	group.Wait()
	must(syncFrom(other, r))
	equal(t, []any{must(other.Stats()).Entries, must(other.Root())}, []any{uint64(writers * puts), must(r.Root())})
}

// read returns the versions held for a key, by calls that must agree, while other goroutines read too.
func read(t *testing.T, r *antientropy.Replica, key []byte) []antientropy.Version {
	versions := must(r.Get(key))
	for _, version := range versions {
		row, found, err := r.Row(key)
		equal(t, []any{strings.Contains(string(row), string(key)), found, err}, []any{true, true, nil})
		equal(t, string(version.Value), string(key))
	}
	return versions
}

// Goroutines read a replica concurrently while another one puts, and then one snapshot of it.
func TestGoroutinesReadAtOnce(t *testing.T) {
	const readers = 4
	r := newReplica()
	var group sync.WaitGroup
	start := func(reader func()) {
		group.Add(1)
		go func() {
			defer group.Done()
			reader()
		}()
	}
	for n := 0; n < readers; n++ {
		start(func() {
			for found := 0; found < puts; {
				found = 0
				for n := 0; n < puts; n++ {
					found += len(read(t, r, []byte(fmt.Sprintf("%d of 1", n))))
				}
			}
		})
	}
	putAll(t, r, 1)
	group.Wait()
	s := must(r.Snapshot())
	want := rowsOf(t, s)
	for n := 0; n < readers; n++ {
		start(func() {
			equal(t, rowsOf(t, s), want)
			shared := must(s.Share())
			equal(t, must(shared.Root()), must(s.Root()))
			check(shared.Close())
		})
	}
	group.Wait()
	equal(t, len(want), 2*puts)
}

func TestAGoroutineServesASnapshotWhileAnotherPuts(t *testing.T) {
	a, b := filled(puts), newReplica()
	snapshot := must(a.Snapshot())
	offer := must(snapshot.Offer(1))
	asks, answers, done := make(chan []byte), make(chan []byte, puts), make(chan bool)
	go func() {
		for ask := range asks {
			answers <- must(snapshot.Serve(1, ask))
		}
	}()
	go func() {
		putAll(t, a, 2)
		close(done)
	}()
	reach := func(_ context.Context, some [][]byte) (answered [][]byte, err error) {
		for _, ask := range some {
			asks <- ask
			answered = append(answered, <-answers)
		}
		return answered, nil
	}
	synced := must(b.Sync(context.Background(), 1, offer, reach))
	close(asks)
	<-done
	equal(t, []any{synced.Accepted, must(b.Root())}, []any{uint64(puts), must(snapshot.Root())})
}

// rowsOf returns the keys of a snapshot with their rows.
func rowsOf(t *testing.T, s *antientropy.Snapshot) [][]byte {
	rows := must(s.Keys().All())
	for _, key := range rows {
		row, found, err := s.Row(key)
		equal(t, []any{found, err}, []any{true, nil})
		rows = append(rows, row)
	}
	return rows
}

func TestGoroutinesReadTheRowsOfASnapshot(t *testing.T) {
	r := filled(puts)
	first := must(r.Snapshot())
	root, leaf := must(first.Root()), must(antientropy.Place(2, 0, []byte("key 7"))).Leaf
	want := must(r.Keys().All())
	for _, key := range want {
		row, _, err := r.Row(key)
		check(err)
		want = append(want, row)
	}
	var group sync.WaitGroup
	shares := []*antientropy.Snapshot{must(first.Share()), must(first.Share())}
	check(first.Close())
	put(r, "later", "value")
	for _, share := range shares {
		share := share
		group.Add(1)
		go func() {
			defer group.Done()
			equal(t, rowsOf(t, share), want)
		}()
	}
	group.Wait()
	check(shares[0].Close())
	s := shares[1]
	equal(t, []any{s.Entries(), s.Config(), must(s.Root())}, []any{uint64(puts), r.Config(), root})
	equal(t, must(s.Digest(0, 0)), root)
	equal(t, must(s.Digest(3, leaf)) == must(s.Digest(3, leaf^1)), false)
	equal(t, must(s.KeysOf(leaf).All()), must(r.KeysOf(leaf).All()))
	_, found, err := s.Row([]byte("later"))
	equal(t, []any{found, err}, []any{false, nil})
	_, _, err = s.Row(nil)
	refused(t, err, antientropy.ErrBadKey)
	_, err = s.KeysOf(antientropy.Leaves2).All()
	refused(t, err, antientropy.ErrBadMessage)
	for _, node := range [][]int{{3, antientropy.Leaves2}, {4, 0}} {
		_, err = s.Digest(uint8(node[0]), uint16(node[1]))
		refused(t, err, antientropy.ErrBadMessage)
	}
	_, err = shares[0].Share()
	refused(t, err, antientropy.ErrEmpty)
}

// A handle without a reference is in use until its method has returned.
func TestTheCollectorClosesNoHandleInUse(t *testing.T) {
	done := make(chan bool)
	go func() {
		defer close(done)
		for n := 0; n < 50; n++ {
			equal(t, must(newReplica().Root()), must(newReplica().Root()))
			exchange := opened(newReplica(), must(must(filled(1).Snapshot()).Offer(7)))
			equal(t, len(must(exchange.Asks())), 1)
		}
	}()
	for {
		select {
		case <-done:
			return
		default:
			runtime.GC()
		}
	}
}
