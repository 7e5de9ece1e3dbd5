package antientropy

// #include <antientropy.h>
import "C"

// A Node is the number of a node, 1 to [NodeMax]. Calls refuse other numbers as [ErrBadClock].
type Node uint64

// A Pair is a pair of a clock: a node and its counter.
type Pair struct {
	Node    Node   // number of the node
	Counter uint64 // number of puts at the node that the clock has seen
}

// A Clock is the list of pairs of nodes and counters of a version or of a context. Nil is the empty clock.
//
// A call takes the pairs in any order, and returns them by rising node.
type Clock []Pair

// An Order is the order of two clocks.
type Order uint64

// Orders of two clocks.
const (
	Before Order = C.ANTIENTROPY_BEFORE // the second has seen everything the first has, and more
	After  Order = C.ANTIENTROPY_AFTER  // the first has seen everything the second has, and more
	Equal  Order = C.ANTIENTROPY_EQUAL  // both have seen the same
	Apart  Order = C.ANTIENTROPY_APART  // each has seen something the other hasn't: versions under them are concurrent
)

// String returns the name of the order.
func (o Order) String() string {
	return nameOf(uint64(o), "Before", "After", "Equal", "Apart")
}

// Counter returns the counter of a node: 0 if the clock has no pair of it.
func (c Clock) Counter(node Node) uint64 {
	for _, pair := range c {
		if pair.Node == node {
			return pair.Counter
		}
	}
	return 0
}

// Compare compares two clocks. Refused as [ErrBadClock] or [ErrClockFull].
func Compare(first, second Clock) (Order, error) {
	var order C.uint64_t
	err := check(C.antientropy_compare(pairsAt(first), C.size_t(len(first)), pairsAt(second), C.size_t(len(second)),
		&order))
	return Order(order), err
}

// Merge merges clocks, for the context of a put that replaces the versions of all these clocks. Refused as
// [ErrBadClock] or [ErrClockFull].
func Merge(clocks ...Clock) (Clock, error) {
	merged := Clock{}
	for _, clock := range clocks {
		var err error
		if merged, err = mergeTwo(merged, clock); err != nil {
			return nil, err
		}
	}
	return merged, nil
}

// MergeVersions merges the clocks of versions, for the context of a put that replaces them all.
func MergeVersions(versions []Version) (Clock, error) {
	clocks := make([]Clock, len(versions))
	for i, version := range versions {
		clocks[i] = version.Clock
	}
	return Merge(clocks...)
}

func mergeTwo(first, second Clock) (Clock, error) {
	var pairs [ClockMax]C.struct_antientropy_pair
	var need C.uint64_t
	err := check(C.antientropy_merge(pairsAt(first), C.size_t(len(first)), pairsAt(second), C.size_t(len(second)),
		&pairs[0], ClockMax, &need))
	return clockOf(pairs[:need]), err
}
