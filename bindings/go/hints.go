package antientropy

// #include "calls.h"
import "C"

import (
	"runtime"
	"sync"
)

// Hints are the versions that a node carries in memory for replicas that are down. A hint doesn't belong to a range,
// and its number never names another one. Goroutines may share hints. A copy is the same hints.
type Hints struct {
	at *hints
}

// A hints is the state that [Hints] and their copies share.
type hints struct {
	lock   sync.Mutex
	handle C.struct_antientropy_hints
	weight weight
}

// A Hint is a version that is kept for its owner, a node that is down.
type Hint struct {
	Number  uint64 // number of the hint, which is never reused
	Owner   Node   // node for which the version is kept
	Key     []byte // key of the version
	Version Version
}

// HintStats has the counts of hints.
type HintStats struct {
	Pending   uint64 // hints that wait for their owners: at 10,000 no other can be kept
	Delivered uint64 // hints that were delivered: they are kept until a renewal
}

// NewHints makes an empty store of hints. The first hint gets the number 1.
func NewHints() (*Hints, error) {
	made := new(hints)
	if err := check(C.antientropy_hints_new(&made.handle)); err != nil {
		return nil, err
	}
	return made.owned(), nil
}

// RestoreHints makes an empty store of hints, after a restart. The first hint gets the number first, which must be
// above all numbers in the program's log: hints that are kept again get new numbers to log, and no old number names
// another hint. Refused as [ErrUnknownHint] if first is 0.
func RestoreHints(first uint64) (*Hints, error) {
	made := new(hints)
	if err := check(C.antientropy_hints_restore(&made.handle, C.uint64_t(first))); err != nil {
		return nil, err
	}
	return made.owned(), nil
}

// Close frees the memory. Later calls are refused as [ErrEmpty], also on copies; another Close does nothing. The error
// is nil.
func (h *Hints) Close() error {
	h.at.close()
	return nil
}

// locked takes the lock, which the caller releases. Zero hints are empty.
func (h *hints) locked() *hints {
	if h == nil {
		h = new(hints)
	}
	h.lock.Lock()
	return h
}

// owned returns hints that were made. The freer closes them, once no copy is used.
func (h *hints) owned() *Hints {
	runtime.SetFinalizer(h, func(h *hints) { collected.add(h.close) })
	return &Hints{h}
}

// close frees the memory.
func (h *hints) close() {
	held := h.locked()
	defer held.lock.Unlock()
	C.antientropy_hints_free(&held.handle)
	held.weight.set(0)
}

// Keep keeps a version for its owner. It returns the number of the hint: one more than the last.
//
// Refused as [ErrBadClock] (also if the owner is 0), [ErrClockFull], [ErrBadKey], [ErrBadValue] or [ErrHintsFull].
func (h *Hints) Keep(owner Node, key []byte, version Version) (number uint64, err error) {
	var id C.uint64_t
	clock, value := version.Clock, version.Value
	held := h.at.locked()
	defer held.lock.Unlock()
	err = check(C.antientropy_hint_keep(&held.handle, C.uint64_t(owner), bytesAt(key), C.size_t(len(key)), pairsAt(clock),
		C.size_t(len(clock)), C.uint8_t(version.Kind), bytesAt(value), C.size_t(len(value)), &id))
	if err == nil {
		held.weight.addVersions(1, contentsOf(key, value, clock))
	}
	return uint64(id), err
}

// NextPending returns the owner's pending hint with the least number over `after`, which is 0 for the first.
func (h *Hints) NextPending(owner Node, after uint64) (hint Hint, found bool, err error) {
	held := h.at.locked()
	defer held.lock.Unlock()
	return held.read(func(out *C.uint8_t, outLen C.size_t, need *C.uint64_t) C.uint32_t {
		return C.antientropy_go_hint_next(&held.handle, C.uint64_t(owner), C.uint64_t(after), out, outLen, need)
	})
}

// Pending returns a scanner of the pending hints of an owner, in order. Confirm them during the scan. A renewal during
// the scan gives the pending ones new numbers, so they are scanned again.
func (h *Hints) Pending(owner Node) *Scanner[Hint] {
	var after uint64
	return scan(func() (Hint, bool, error) {
		hint, found, err := h.NextPending(owner, after)
		after = hint.Number
		return hint, found, err
	})
}

// Hint returns a hint, pending or delivered.
func (h *Hints) Hint(number uint64) (hint Hint, found bool, err error) {
	held := h.at.locked()
	defer held.lock.Unlock()
	return held.read(func(out *C.uint8_t, outLen C.size_t, need *C.uint64_t) C.uint32_t {
		return C.antientropy_go_hint(&held.handle, C.uint64_t(number), out, outLen, need)
	})
}

// read returns the hint that a call writes as a record. The caller holds the lock.
func (h *hints) read(call roomCall) (hint Hint, found bool, err error) {
	room := takeRoom()
	defer room.giveBack()
	bytes, number := room.fill(call)
	if found, err = isFound(number); !found {
		return Hint{}, false, err
	}
	read, _ := firstRecord(bytes)
	return Hint{
		Number:  uint64(read.head.number),
		Owner:   Node(read.head.origin),
		Key:     clone(read.key),
		Version: read.version(),
	}, true, nil
}

// Confirm marks a pending hint as delivered, once its owner has the version on its disk. Known is true if the owner
// knew the version. Refused as [ErrUnknownHint].
func (h *Hints) Confirm(number uint64, known bool) error {
	held := h.at.locked()
	defer held.lock.Unlock()
	return check(C.antientropy_hint_confirm(&held.handle, C.uint64_t(number), C.bool(known)))
}

// Renew drops the delivered hints. The pending ones get new numbers in order, above every number that was used, so an
// old number names no hint. Refused as [ErrHintsFull] if a number would be over 2^64 - 1.
func (h *Hints) Renew() error {
	held := h.at.locked()
	defer held.lock.Unlock()
	if err := check(C.antientropy_hints_renew(&held.handle)); err != nil {
		return err
	}
	return held.weigh()
}

// weigh sets the weight by the sizes of all hints. The caller holds the lock.
func (h *hints) weigh() error {
	counts, err := h.stats()
	if err != nil {
		return err
	}
	bytes, err := h.bytes()
	h.weight.set(int64(bytes + (counts.Pending+counts.Delivered)*entryWeight))
	return err
}

// Stats returns the counts of pending and of delivered hints.
func (h *Hints) Stats() (HintStats, error) {
	held := h.at.locked()
	defer held.lock.Unlock()
	return held.stats()
}

// stats returns the counts. The caller holds the lock.
func (h *hints) stats() (HintStats, error) {
	var counts C.struct_antientropy_hint_counts
	err := check(C.antientropy_hints_count(&h.handle, &counts))
	return HintStats{Pending: uint64(counts.pending), Delivered: uint64(counts.delivered)}, err
}

// Bytes returns the size of all hints in bytes, including delivered ones: their keys, values and clocks, 10 bytes for
// each pair of a clock.
func (h *Hints) Bytes() (uint64, error) {
	held := h.at.locked()
	defer held.lock.Unlock()
	return held.bytes()
}

// bytes returns the size of all hints. The caller holds the lock.
func (h *hints) bytes() (uint64, error) {
	var bytes C.uint64_t
	err := check(C.antientropy_hints_bytes(&h.handle, &bytes))
	return uint64(bytes), err
}
