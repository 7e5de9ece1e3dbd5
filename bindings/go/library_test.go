package antientropy_test

import (
	"errors"
	"fmt"
	"testing"

	antientropy "example.org/antientropy/go"
)

func TestPlaces(t *testing.T) {
	equal(t, must(antientropy.Place(1, 0, []byte("a"))), antientropy.Spot{Range: 0, Leaf: 12})
	equal(t, must(antientropy.Place(1, 4, []byte("message digest"))), antientropy.Spot{Range: 15, Leaf: 150})
	equal(t, must(antientropy.Place(2, 4, []byte("message digest"))), antientropy.Spot{Range: 15, Leaf: 2411})
	for _, bad := range []struct {
		format, bits uint8
		key          string
		cause        antientropy.Refusal
	}{
		{3, 0, "key", antientropy.ErrBadRing},
		{2, 9, "key", antientropy.ErrBadRing},
		{2, 0, "", antientropy.ErrBadKey},
	} {
		_, err := antientropy.Place(bad.format, bad.bits, []byte(bad.key))
		refused(t, err, bad.cause)
	}
}

func TestOrders(t *testing.T) {
	first, second := clock(1, 1), clock(2, 1, 1, 1)
	equal(t, must(antientropy.Compare(first, second)), antientropy.Before)
	equal(t, must(antientropy.Compare(second, first)), antientropy.After)
	equal(t, must(antientropy.Compare(first, first)), antientropy.Equal)
	equal(t, must(antientropy.Compare(first, clock(2, 1))), antientropy.Apart)
	equal(t, must(antientropy.Compare(nil, nil)), antientropy.Equal)
	_, err := antientropy.Compare(first, clock(0, 1))
	refused(t, err, antientropy.ErrBadClock)
	_, err = antientropy.Compare(first, clockOfNodes(33))
	refused(t, err, antientropy.ErrClockFull)
}

func TestMergedClocks(t *testing.T) {
	equal(t, must(antientropy.Merge(clock(3, 1, 1, 2), clock(1, 5), clock(2, 7))), clock(1, 5, 2, 7, 3, 1))
	equal(t, must(antientropy.Merge()), antientropy.Clock{})
	equal(t, must(antientropy.Merge(clockOfNodes(32))), clockOfNodes(32))
	_, err := antientropy.Merge(clockOfNodes(32), clock(33, 1))
	refused(t, err, antientropy.ErrClockFull)
	_, err = antientropy.Merge(clock(65_536, 1))
	refused(t, err, antientropy.ErrBadClock)
	_, err = antientropy.Merge(clock(1, 1, 1, 2))
	refused(t, err, antientropy.ErrBadClock)
	equal(t, must(antientropy.MergeVersions([]antientropy.Version{live(1, 1, ""), live(2, 3, "")})), clock(1, 1, 2, 3))
}

func TestCounters(t *testing.T) {
	pairs := clock(1, 7, 3, 2)
	equal(t, []uint64{pairs.Counter(3), pairs.Counter(2)}, []uint64{2, 0})
}

func TestNoOffer(t *testing.T) {
	for _, offer := range []string{"", "?"} {
		_, err := antientropy.ReadOffer([]byte(offer))
		refused(t, err, antientropy.ErrBadMessage)
	}
}

func TestRefusals(t *testing.T) {
	equal(t, antientropy.ErrCrowded.Error(), "antientropy: Crowded")
	equal(t, antientropy.Refusal(99).Error(), "antientropy: refusal 99")
	equal(t, antientropy.Refusal(99).Name(), "")
	wrapped := fmt.Errorf("put: %w", antientropy.ErrStaleContext)
	equal(t, errors.Is(wrapped, antientropy.ErrStaleContext), true)
	equal(t, errors.Is(wrapped, antientropy.ErrCrowded), false)
	var refusal antientropy.Refusal
	equal(t, errors.As(wrapped, &refusal) && refusal == 6, true)
}

func TestNamesOfNumbers(t *testing.T) {
	equal(t, fmt.Sprint(antientropy.Live, antientropy.Tombstone, antientropy.Kind(2)), "Live Tombstone 2")
	equal(t, fmt.Sprint(antientropy.SourcePut, antientropy.SourcePartner), "Put Partner")
	equal(t, fmt.Sprint(antientropy.Before, antientropy.Apart), "Before Apart")
}
