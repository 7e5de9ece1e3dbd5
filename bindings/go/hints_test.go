package antientropy_test

import (
	"math"
	"strings"
	"testing"

	antientropy "example.org/antientropy/go"
)

func TestKeptAndConfirmed(t *testing.T) {
	hints, key := must(antientropy.NewHints()), []byte("cart")
	tea := live(1, 1, "tea")
	tombstone := antientropy.Version{Clock: clock(3, 1, 1, 2), Kind: antientropy.Tombstone}
	equal(t, must(hints.Keep(2, key, tea)), uint64(1))
	equal(t, must(hints.Keep(3, key, tea)), uint64(2))
	equal(t, must(hints.Keep(2, []byte("list"), tombstone)), uint64(3))
	kept := antientropy.Version{Clock: clock(1, 2, 3, 1), Value: []byte{}, Kind: antientropy.Tombstone}
	first := antientropy.Hint{Number: 1, Owner: 2, Key: key, Version: tea}
	third := antientropy.Hint{Number: 3, Owner: 2, Key: []byte("list"), Version: kept}
	hint, found, err := hints.Hint(1)
	equal(t, []any{hint, found, err}, []any{first, true, nil})
	hint, found, err = hints.NextPending(2, 1)
	equal(t, []any{hint, found, err}, []any{third, true, nil})
	equal(t, must(hints.Pending(2).All()), []antientropy.Hint{first, third})
	check(hints.Confirm(1, false))
	equal(t, must(hints.Stats()), antientropy.HintStats{Pending: 2, Delivered: 1})
	hint, found, err = hints.Hint(1)
	equal(t, []any{hint, found, err}, []any{first, true, nil})
	check(hints.Renew())
	equal(t, must(hints.Stats()), antientropy.HintStats{Pending: 2, Delivered: 0})
	third.Number = 5
	equal(t, must(hints.Pending(2).All()), []antientropy.Hint{third})
}

// Delivered hints count until a renewal.
func TestBytesOfHints(t *testing.T) {
	hints := must(antientropy.NewHints())
	equal(t, must(hints.Bytes()), uint64(0))
	must(hints.Keep(2, []byte("cart"), antientropy.Version{Clock: clock(1, 2, 3, 4), Value: []byte("milk")}))
	must(hints.Keep(3, []byte("gift list"), antientropy.Version{Clock: clock(1, 3), Kind: antientropy.Tombstone}))
	equal(t, must(hints.Bytes()), uint64(8+20+9+10))
	check(hints.Confirm(1, false))
	equal(t, must(hints.Bytes()), uint64(47))
	check(hints.Renew())
	equal(t, must(hints.Bytes()), uint64(19))
}

func TestDelivered(t *testing.T) {
	hints, owner := must(antientropy.NewHints()), newReplica()
	must(hints.Keep(2, []byte("cart"), live(1, 1, "milk")))
	must(hints.Keep(2, []byte("list"), live(1, 1, strings.Repeat("long", 10_000))))
	must(owner.Accept([]byte("cart"), live(1, 1, "milk")))
	pending := hints.Pending(2)
	for pending.Next() {
		hint := pending.Item()
		accepted := must(owner.Accept(hint.Key, hint.Version))
		equal(t, accepted, hint.Number == 2)
		check(hints.Confirm(hint.Number, !accepted))
	}
	check(pending.Err())
	equal(t, must(hints.Stats()), antientropy.HintStats{Pending: 0, Delivered: 2})
	equal(t, must(owner.Get([]byte("list"))), []antientropy.Version{live(1, 1, strings.Repeat("long", 10_000))})
}

func TestNoHints(t *testing.T) {
	hints := must(antientropy.NewHints())
	for _, number := range []uint64{0, 1, 1<<32 + 1} {
		_, found, err := hints.Hint(number)
		equal(t, []any{found, err}, []any{false, nil})
	}
	_, found, err := hints.NextPending(2, 0)
	equal(t, []any{found, err}, []any{false, nil})
	equal(t, len(must(hints.Pending(2).All())), 0)
}

func TestRefusedHints(t *testing.T) {
	hints := must(antientropy.NewHints())
	for _, kept := range []struct {
		cause   antientropy.Refusal
		owner   antientropy.Node
		key     string
		version antientropy.Version
	}{
		{antientropy.ErrBadClock, 0, "cart", live(1, 1, "")},
		{antientropy.ErrBadClock, antientropy.NodeMax + 1, "cart", live(1, 1, "")},
		{antientropy.ErrBadClock, 2, "cart", live(0, 1, "")},
		{antientropy.ErrClockFull, 2, "cart", antientropy.Version{Clock: clockOfNodes(33)}},
		{antientropy.ErrBadKey, 2, "", live(1, 1, "")},
		{antientropy.ErrBadValue, 2, "cart", live(1, 1, strings.Repeat("v", 65_537))},
		{antientropy.ErrBadValue, 2, "cart", antientropy.Version{Clock: clock(1, 1), Kind: 2}},
	} {
		_, err := hints.Keep(kept.owner, []byte(kept.key), kept.version)
		refused(t, err, kept.cause)
	}
	refused(t, hints.Confirm(1, true), antientropy.ErrUnknownHint)
	equal(t, must(hints.Stats()), antientropy.HintStats{})
	must(hints.Keep(2, []byte("cart"), live(1, 1, "")))
	check(hints.Confirm(1, true))
	refused(t, hints.Confirm(1, true), antientropy.ErrUnknownHint)
}

// The number of a hint before a renewal names no other hint, and neither does a logged number after a restart.
func TestNumbersOfHints(t *testing.T) {
	hints := must(antientropy.NewHints())
	must(hints.Keep(2, []byte("cart"), live(1, 1, "")))
	must(hints.Keep(2, []byte("order"), live(1, 1, "")))
	check(hints.Confirm(1, false))
	check(hints.Renew())
	payment := must(hints.Keep(2, []byte("payment"), live(1, 1, "")))
	refused(t, hints.Confirm(2, false), antientropy.ErrUnknownHint)
	_, found, err := hints.Hint(2)
	equal(t, []any{found, err}, []any{false, nil})
	hint, found, err := hints.Hint(payment)
	equal(t, []any{string(hint.Key), found, err}, []any{"payment", true, nil})
	equal(t, must(hints.Stats()), antientropy.HintStats{Pending: 2})

	restored := must(antientropy.RestoreHints(math.MaxUint64))
	equal(t, must(restored.Keep(2, []byte("cart"), live(1, 1, ""))), uint64(math.MaxUint64))
	_, err = restored.Keep(2, []byte("order"), live(1, 1, ""))
	refused(t, err, antientropy.ErrHintsFull)
	refused(t, restored.Renew(), antientropy.ErrHintsFull)
	_, err = antientropy.RestoreHints(0)
	refused(t, err, antientropy.ErrUnknownHint)
}

func TestHintsFull(t *testing.T) {
	hints := must(antientropy.NewHints())
	for n := 0; n < antientropy.HintsMax; n++ {
		must(hints.Keep(2, []byte("cart"), live(1, 1, "")))
	}
	_, err := hints.Keep(2, []byte("cart"), live(1, 1, ""))
	refused(t, err, antientropy.ErrHintsFull)
}
