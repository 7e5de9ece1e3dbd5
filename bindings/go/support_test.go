package antientropy_test

import (
	"context"
	"errors"
	"fmt"
	"reflect"
	"testing"

	antientropy "example.org/antientropy/go"
)

// must returns the result of a call that mustn't fail.
func must[T any](result T, err error) T {
	check(err)
	return result
}

// check panics if a call that mustn't fail has failed.
func check(err error) {
	if err != nil {
		panic(err)
	}
}

// equal checks that two values are equal, with all that they point to.
func equal(t *testing.T, got, want any) {
	t.Helper()
	if !reflect.DeepEqual(got, want) {
		t.Errorf("got %v, want %v", got, want)
	}
}

// refused checks the cause of an error.
func refused(t *testing.T, err, cause error) {
	t.Helper()
	if !errors.Is(err, cause) {
		t.Errorf("got the error %v, want %v", err, cause)
	}
}

// newReplica returns an empty replica of the one range of a ring of 0 bits, in format 2.
func newReplica() *antientropy.Replica {
	return withLimit(20_000)
}

// withLimit returns an empty replica with a journal of at most limit entries.
func withLimit(limit uint64) *antientropy.Replica {
	return must(antientropy.NewReplica(antientropy.Config{Format: 2, Limit: limit}))
}

// filled returns a replica with a number of keys, put at node 1.
func filled(keys int) *antientropy.Replica {
	r := newReplica()
	for n := 0; n < keys; n++ {
		put(r, fmt.Sprint("key ", n), "value")
	}
	return r
}

// put puts a value at node 1 for a client that has read nothing.
func put(r *antientropy.Replica, key, value string) antientropy.Receipt {
	return must(r.Put(1, []byte(key), []byte(value), nil))
}

// live returns a live version whose clock has one pair.
func live(node, counter uint64, value string) antientropy.Version {
	return antientropy.Version{Clock: clock(node, counter), Value: []byte(value)}
}

// clock returns the clock of nodes, each followed by its counter.
func clock(numbers ...uint64) antientropy.Clock {
	pairs := antientropy.Clock{}
	for i := 0; i < len(numbers); i += 2 {
		pairs = append(pairs, antientropy.Pair{Node: antientropy.Node(numbers[i]), Counter: numbers[i+1]})
	}
	return pairs
}

// clockOfNodes returns a clock of the nodes from 1 on.
func clockOfNodes(nodes uint64) antientropy.Clock {
	pairs := antientropy.Clock{}
	for node := uint64(1); node <= nodes; node++ {
		pairs = append(pairs, antientropy.Pair{Node: antientropy.Node(node), Counter: 1})
	}
	return pairs
}

// crowd fills a key with 64 concurrent versions.
func crowd(r *antientropy.Replica, key string) {
	for node := uint64(1); node <= antientropy.VersionsMax; node++ {
		must(r.Accept([]byte(key), live(node, 1, "crowd")))
	}
}

// reachOf returns the link to a partner that is called directly.
func reachOf(snapshot *antientropy.Snapshot, number uint32) antientropy.Reach {
	return func(_ context.Context, asks [][]byte) ([][]byte, error) {
		answers := make([][]byte, len(asks))
		for i, ask := range asks {
			answers[i], _ = snapshot.Serve(number, ask)
		}
		return answers, nil
	}
}

// held is all that a replica holds.
type held struct {
	counts  antientropy.Stats
	entries []antientropy.Entry
	rows    []string
}

// stateOf returns all that a replica holds.
func stateOf(r *antientropy.Replica) held {
	counts := must(r.Stats())
	state := held{counts: counts, entries: must(r.Entries(counts.First).All())}
	for _, key := range must(r.Keys().All()) {
		row, _, err := r.Row(key)
		check(err)
		state.rows = append(state.rows, string(row))
	}
	return state
}

// unchanged checks that a call is refused for a cause, and leaves the replica unchanged.
func unchanged(t *testing.T, r *antientropy.Replica, cause error, call func() error) {
	t.Helper()
	before := stateOf(r)
	refused(t, call(), cause)
	equal(t, stateOf(r), before)
}
