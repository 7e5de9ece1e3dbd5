package antientropy

import (
	"context"
	"errors"
	"testing"
)

// filledJournal returns a replica of one key that was put a number of times.
func filledJournal(t *testing.T, limit uint64, puts int) *Replica {
	r, err := NewReplica(Config{Format: 2, Limit: limit})
	for n := 0; n < puts && err == nil; n++ {
		_, err = r.PutUnread(1, []byte("key"), nil, Clock{{Node: 1, Counter: uint64(n + 1)}})
	}
	if err != nil {
		t.Fatal(err)
	}
	return r
}

// begun returns a renewal that has begun.
func begun(r *Replica, limit uint64) (*renewal, error) {
	begin := func(held *replica) (*renewal, error) { return held.beginRenewal(limit) }
	return atMoment(context.Background(), r.at, begin)
}

// A renewal that began before another one is refused, and leaves the replica unchanged.
func TestStaleRenewal(t *testing.T) {
	r := filledJournal(t, 10, 5)
	made, err := begun(r, 10)
	if err == nil {
		err = made.build()
	}
	if err == nil {
		err = r.RenewInPlace(context.Background(), 9)
	}
	if err != nil {
		t.Fatal(err)
	}
	defer made.free()
	before, _ := r.Stats()
	if err := made.catchUp(context.Background(), r.at); !errors.Is(err, ErrStale) {
		t.Errorf("to catch up returns the error %v", err)
	}
	if err := made.finish(r.at); !errors.Is(err, ErrStale) {
		t.Errorf("the finish returns the error %v", err)
	}
	if after, err := r.Stats(); after != before || after.Limit != 9 || err != nil {
		t.Errorf("the counts are %v and %v, with the error %v", before, after, err)
	}
}

// A renewal that finds many entries catches up.
func TestCatchUp(t *testing.T) {
	r := filledJournal(t, 10_000, 10)
	made, err := begun(r, 10_000)
	if err == nil {
		err = made.build()
	}
	for n := uint64(0); n < 2_000 && err == nil; n++ {
		_, err = r.Put(1, []byte("key"), nil, Clock{{Node: 1, Counter: 11 + n}})
	}
	if err == nil {
		err = made.catchUp(context.Background(), r.at)
	}
	if err == nil {
		err = made.finish(r.at)
	}
	if err != nil {
		t.Fatal(err)
	}
	made.free()
	if counts, err := r.Stats(); counts.Entries != 2_010 || counts.First != 9 || err != nil {
		t.Errorf("the counts are %v, with the error %v", counts, err)
	}
}

func TestWhenARenewalIsDue(t *testing.T) {
	for _, test := range []struct {
		keeper keeper
		due    uint64 // the least count of entries
	}{
		{keeper{limit: 100}, 90},
		{keeper{limit: 101}, 91},
		{keeper{limit: 100, first: 50, held: 80}, 140},
		{keeper{limit: 100, first: 50, held: 90}, 145},
		{keeper{limit: 100, held: 99}, 100},
		{keeper{limit: 1}, 1},
	} {
		if test.keeper.isDue(test.due-1) || !test.keeper.isDue(test.due) {
			t.Errorf("%v isn't due first at %d", test.keeper, test.due)
		}
	}
	full := keeper{limit: 100, held: 100}
	if full.isDue(100) {
		t.Error("a journal is due that rows alone fill")
	}
}

// A journal that its rows fill is renewed a few times, and then refuses puts.
func TestAJournalThatRowsFill(t *testing.T) {
	r, err := NewReplica(Config{Format: 2, Limit: 100})
	if err == nil {
		err = r.KeepRenewed()
	}
	if err != nil {
		t.Fatal(err)
	}
	for n := 0; n < 100; n++ {
		if _, err := r.Put(1, []byte{byte(n)}, nil, nil); err != nil {
			t.Fatal(err)
		}
	}
	for isAtWork := true; isAtWork; {
		held := r.at.reading()
		isAtWork = held.keeper.isAtWork
		held.lock.RUnlock()
	}
	if _, err := r.Put(1, []byte("last"), nil, nil); !errors.Is(err, ErrJournalFull) {
		t.Errorf("the error is %v", err)
	}
}
