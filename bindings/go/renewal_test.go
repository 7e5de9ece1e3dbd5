package antientropy_test

import (
	"context"
	"errors"
	"fmt"
	"runtime"
	"testing"

	antientropy "example.org/antientropy/go"
)

// A writer puts keys in turn, each after its last put, and logs the entries after each put.
type writer struct {
	r        *antientropy.Replica
	counters []uint64
	puts     uint64
	log      map[uint64]antientropy.Entry
	position uint64
}

func newWriter(r *antientropy.Replica, keys int) *writer {
	return &writer{r: r, counters: make([]uint64, keys), log: map[uint64]antientropy.Entry{}}
}

// key returns the key of an index.
func (w *writer) key(index uint64) []byte {
	return []byte(fmt.Sprint("key ", index))
}

// put puts the next key, and again if the journal is full.
func (w *writer) put(t *testing.T) {
	index := w.puts % uint64(len(w.counters))
	var context antientropy.Clock
	if w.counters[index] > 0 {
		context = clock(1, w.counters[index])
	}
	receipt, err := w.r.Put(1, w.key(index), []byte(fmt.Sprint(w.puts)), context)
	for errors.Is(err, antientropy.ErrJournalFull) {
		runtime.Gosched()
		receipt, err = w.r.Put(1, w.key(index), []byte(fmt.Sprint(w.puts)), context)
	}
	w.counters[index]++
	if wanted := (antientropy.Receipt{Number: w.puts, Counter: w.counters[index]}); receipt != wanted || err != nil {
		t.Fatalf("a put returns %v and the error %v", receipt, err)
	}
	w.puts++
}

// read logs the entries from the position on, or the whole journal if some before a renewal weren't logged.
func (w *writer) read() {
	entries, err := w.r.Entries(w.position).All()
	if errors.Is(err, antientropy.ErrBadPosition) {
		entries = must(w.r.Entries(must(w.r.Stats()).First).All())
	}
	for _, entry := range entries {
		w.log[entry.Number] = entry
		w.position = entry.Number + 1
	}
}

// check checks that each key has the version of its last put, also in a replica that is restored from the log.
func (w *writer) check(t *testing.T) {
	restored := newReplica()
	for number := uint64(0); number < w.puts; number++ {
		if entry, found := w.log[number]; found {
			must(restored.Accept(entry.Key, entry.Version))
		}
	}
	for index, counter := range w.counters {
		versions := must(w.r.Get(w.key(uint64(index))))
		equal(t, []any{len(versions), versions[0].Clock}, []any{1, clock(1, counter)})
	}
	equal(t, []any{must(w.r.Stats()).Entries, must(restored.Root())}, []any{w.puts, must(w.r.Root())})
}

func TestRenewInPlace(t *testing.T) {
	r := withLimit(10)
	first := put(r, "cart", "milk")
	must(r.Put(1, []byte("cart"), []byte("eggs"), clock(1, first.Counter)))
	versions, root := must(r.Get([]byte("cart"))), must(r.Root())
	check(r.RenewInPlace(context.Background(), 5))
	counts := must(r.Stats())
	equal(t, []uint64{counts.Entries, counts.Limit, counts.First}, []uint64{2, 5, 1})
	equal(t, []any{must(r.Get([]byte("cart"))), must(r.Root())}, []any{versions, root})
	equal(t, must(r.Entries(2).All()), []antientropy.Entry(nil))
	equal(t, put(r, "gift", "toys").Number, uint64(2))
	equal(t, string(must(r.Entries(2).All())[0].Key), "gift")
	refused(t, r.RenewInPlace(context.Background(), 0), antientropy.ErrBadRing)
	refused(t, r.RenewInPlace(context.Background(), 1), antientropy.ErrJournalFull)
	_, err := r.Moment()
	refused(t, err, antientropy.ErrDirty)
	equal(t, must(r.Stats()).Entries, uint64(3))
}

// A renewal ends an exchange in progress.
func TestRenewInPlaceEndsSessions(t *testing.T) {
	r, partner := newReplica(), filled(3)
	exchange := opened(r, must(must(partner.Snapshot()).Offer(7)))
	check(r.RenewInPlace(context.Background(), 100))
	equal(t, must(exchange.Progress()).Report, antientropy.ReportGone)
	equal(t, must(syncFrom(r, partner)).Accepted, uint64(3))
}

func TestRenewalsBesidePuts(t *testing.T) {
	const renewals, keys = 5, 200
	w, stop, ended := newWriter(withLimit(antientropy.EntriesMax), keys), make(chan bool), make(chan bool)
	go func() {
		defer close(ended)
		for {
			select {
			case <-stop:
				return
			default:
				w.put(t)
				w.read()
			}
		}
	}()
	for n := uint64(1); n <= renewals; n++ {
		for must(w.r.Stats()).Entries < n*2*keys {
			runtime.Gosched()
		}
		check(w.r.RenewInPlace(context.Background(), antientropy.EntriesMax))
	}
	close(stop)
	<-ended
	equal(t, must(w.r.Stats()).First > keys, true)
	w.check(t)
}

// Goroutines renew a replica concurrently: one is refused, or both succeed, and nothing is lost.
func TestRenewalsAtOnce(t *testing.T) {
	w := newWriter(newReplica(), 20)
	errs := make(chan error)
	for n := 0; n < 10; n++ {
		for i := 0; i < 2; i++ {
			go func() { errs <- w.r.RenewInPlace(context.Background(), 20_000) }()
		}
		for i := 0; i < 40; i++ {
			w.put(t)
		}
		for i := 0; i < 2; i++ {
			if err := <-errs; err != nil {
				refused(t, err, antientropy.ErrStale)
			}
		}
		w.read()
	}
	w.check(t)
}

// One key is put fifty times as often as the journal has entries, without any other call.
func TestAKeptReplica(t *testing.T) {
	const limit = 2_000
	w := newWriter(withLimit(limit), 1)
	check(w.r.KeepRenewed())
	for w.puts < 50*limit {
		w.put(t)
	}
	w.read()
	w.check(t)
	equal(t, must(w.r.Stats()).First > 48*limit, true)
}

// Copies count as puts.
func TestAKeptReplicaThatAccepts(t *testing.T) {
	r := withLimit(100)
	check(r.KeepRenewed())
	for n := uint64(1); n <= 1_000; n++ {
		_, err := r.Accept([]byte("key"), live(1, n, ""))
		for errors.Is(err, antientropy.ErrJournalFull) {
			runtime.Gosched()
			_, err = r.Accept([]byte("key"), live(1, n, ""))
		}
		check(err)
	}
	equal(t, must(r.Get([]byte("key"))), []antientropy.Version{live(1, 1_000, "")})
}

func ExampleReplica_KeepRenewed() {
	replica := must(antientropy.NewReplica(antientropy.Config{Format: 2, Limit: 1_000}))
	check(replica.KeepRenewed())
	var context antientropy.Clock
	for n := 0; n < 950; n++ {
		context = antientropy.Clock{{Node: 1, Counter: must(replica.Put(1, []byte("cart"), nil, context)).Counter}}
	}
	for must(replica.Stats()).First == 0 {
		runtime.Gosched() // a goroutine renews
	}
	fmt.Println(must(replica.Stats()).Entries, context)
	// Output: 950 [{1 950}]
}
