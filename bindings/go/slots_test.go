package antientropy_test

import (
	"testing"

	antientropy "example.org/antientropy/go"
)

func TestLentAndGivenBack(t *testing.T) {
	slots := must(antientropy.NewSlots(1, 2, 10_000))
	refused(t, slots.GiveBack(), antientropy.ErrNoSlot)
	check(slots.Lend())
	check(slots.Lend())
	refused(t, slots.Lend(), antientropy.ErrNoSlot)
	equal(t, must(slots.Stats()), antientropy.SlotStats{Target: 2, Lent: 2, Free: 0})
	check(slots.GiveBack())
	equal(t, must(slots.Stats()), antientropy.SlotStats{Target: 2, Lent: 1, Free: 1})
}

func TestAdjusted(t *testing.T) {
	slots := must(antientropy.NewSlots(1, 8, 10_000))
	micros, found, err := slots.Adjust(1_000)
	equal(t, []any{micros, found, err}, []any{uint64(0), false, nil})
	check(slots.Sample(2_000, 20_000))
	micros, found, err = slots.Adjust(2_000)
	equal(t, []any{micros, found, err}, []any{uint64(20_000), true, nil})
	equal(t, must(slots.Stats()).Target, uint64(4))
	refused(t, slots.Sample(1_999, 1), antientropy.ErrClockBack)
	_, _, err = slots.Adjust(1_999)
	refused(t, err, antientropy.ErrClockBack)
	check(slots.SetTarget(8))
	equal(t, must(slots.Stats()).Target, uint64(8))
	refused(t, slots.SetTarget(9), antientropy.ErrBadRing)
}

func TestBadSlots(t *testing.T) {
	_, err := antientropy.NewSlots(0, 4, 1)
	refused(t, err, antientropy.ErrBadRing)
	_, err = antientropy.NewSlots(1, antientropy.SlotsMax+1, 1)
	refused(t, err, antientropy.ErrBadRing)
}
