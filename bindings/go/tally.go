package antientropy

import (
	"runtime"
	"sync/atomic"
)

// Estimates of the memory of C, in bytes.
const (
	entryWeight = 1000      // an entry and its row without contents: 400 in a large replica, 1,700 in a small one
	pairWeight  = 10        // a pair of a clock
	treeWeight1 = 12 << 10  // an empty replica of format 1
	treeWeight2 = 150 << 10 // an empty replica of format 2
	slotsWeight = 20 << 10  // slots
)

const (
	// tallyStep is the minimum growth of a handle that the tally counts, in bytes.
	tallyStep = 16 << 10
	// tallyFloor is the number of bytes that handles may always hold before the package calls the collector.
	tallyFloor = 32 << 20
)

// cMemory is the tally of all handles of the package.
var cMemory tally

// A tally counts the estimated memory of C that handles hold. Go's collector doesn't see it, so the tally runs the
// collector, once at a time, when the bytes exceed 32 MiB and twice the bytes that were left after the last collection.
//
// It knows of the collections that it starts, and each handle that the collector found lowers the bytes that were left.
// A closed handle doesn't, so a program that closes its handles causes few collections.
type tally struct {
	bytes        atomic.Int64 // current bytes of the handles
	left         atomic.Int64 // bytes that were left after the last collection
	isCollecting atomic.Bool  // a goroutine runs the collector
}

// add counts the growth of a handle in bytes: below 0 if it shrinks.
func (t *tally) add(bytes int64) {
	if t.bytes.Add(bytes) > 2*t.left.Load()+tallyFloor && t.isCollecting.CompareAndSwap(false, true) {
		go t.collect()
	}
}

// collect runs the collector. The handles that it finds are freed later.
func (t *tally) collect() {
	runtime.GC()
	t.left.Store(t.bytes.Load())
	t.isCollecting.Store(false)
}

// lower records that a handle found by the collector was freed.
func (t *tally) lower() {
	for {
		left, bytes := t.left.Load(), t.bytes.Load()
		if bytes >= left || t.left.CompareAndSwap(left, bytes) {
			return
		}
	}
}

// A weight is an estimate of the memory of C that a handle holds. The lock of the handle guards it.
type weight struct {
	bytes   int64 // the estimate
	counted int64 // the part that the tally includes
}

// add adds bytes. The tally is updated in steps, since all goroutines share it.
func (w *weight) add(bytes int) {
	w.bytes += int64(bytes)
	if w.bytes-w.counted >= tallyStep {
		w.set(w.bytes)
	}
}

// addVersions adds a number of accepted versions with the bytes of their contents.
func (w *weight) addVersions(versions, contents int) {
	if versions > 0 {
		w.add(versions*entryWeight + contents)
	}
}

// set replaces the estimate: 0 for an empty handle.
func (w *weight) set(bytes int64) {
	cMemory.add(bytes - w.counted)
	w.bytes, w.counted = bytes, bytes
}

// contentsOf returns the number of bytes of the contents of a version.
func contentsOf(key, value []byte, clock Clock) int {
	return len(key) + len(value) + len(clock)*pairWeight
}

// treeWeight returns the weight of an empty replica.
func treeWeight(format uint8) int64 {
	if format == 1 {
		return treeWeight1
	}
	return treeWeight2
}
