package antientropy

// #include <antientropy.h>
import "C"

import (
	"runtime"
	"sync"
)

// Slots are slots for background work, which backs off when the foreground is slow.
//
// Their target stays between the floor and the ceiling, and starts at the ceiling. It falls if the latency of the
// foreground is above the threshold. Goroutines may share slots. A copy is the same slots.
type Slots struct {
	at *slots
}

// A slots is the state that [Slots] and their copies share.
type slots struct {
	lock   sync.Mutex
	handle C.struct_antientropy_slots
	weight weight
}

// SlotStats has the counts of slots.
type SlotStats struct {
	Target uint64 // maximum number of slots that are lent
	Lent   uint64 // slots lent
	Free   uint64 // slots that could be lent now
}

// NewSlots makes slots. None is lent. The threshold is in microseconds. Refused as [ErrBadRing] if the floor or the
// ceiling is outside its limits.
func NewSlots(floor, ceiling, threshold uint32) (*Slots, error) {
	made := new(slots)
	err := check(C.antientropy_slots_new(&made.handle, C.uint32_t(floor), C.uint32_t(ceiling), C.uint32_t(threshold)))
	if err != nil {
		return nil, err
	}
	made.weight.set(slotsWeight)
	runtime.SetFinalizer(made, func(made *slots) { collected.add(made.close) })
	return &Slots{made}, nil
}

// Close frees the memory. Later calls are refused as [ErrEmpty], also on copies; another Close does nothing. The error
// is nil.
func (s *Slots) Close() error {
	s.at.close()
	return nil
}

// locked takes the lock, which the caller releases. Zero slots are empty.
func (s *slots) locked() *slots {
	if s == nil {
		s = new(slots)
	}
	s.lock.Lock()
	return s
}

// close frees the memory.
func (s *slots) close() {
	held := s.locked()
	defer held.lock.Unlock()
	C.antientropy_slots_free(&held.handle)
	held.weight.set(0)
}

// Lend lends a slot, before background work. Refused as [ErrNoSlot] if the slots lent reach the target.
func (s *Slots) Lend() error {
	held := s.at.locked()
	defer held.lock.Unlock()
	return check(C.antientropy_slot_lend(&held.handle))
}

// GiveBack gives a slot back, after background work. Refused as [ErrNoSlot] if none is lent.
func (s *Slots) GiveBack() error {
	held := s.at.locked()
	defer held.lock.Unlock()
	return check(C.antientropy_slot_give_back(&held.handle))
}

// Sample records the latency of a reply in microseconds, with its time in milliseconds. Refused as [ErrClockBack] if a
// later time was recorded before.
func (s *Slots) Sample(moment uint64, micros uint32) error {
	held := s.at.locked()
	defer held.lock.Unlock()
	return check(C.antientropy_slots_sample(&held.handle, C.uint64_t(moment), C.uint32_t(micros)))
}

// Adjust sets the target by the samples of the last minute. It returns their 99th percentile in microseconds. Without
// samples it returns false, and the target is unchanged. Refused as [ErrClockBack].
func (s *Slots) Adjust(now uint64) (micros uint64, found bool, err error) {
	var p99 C.struct_antientropy_percentile
	held := s.at.locked()
	defer held.lock.Unlock()
	err = check(C.antientropy_slots_adjust(&held.handle, C.uint64_t(now), &p99))
	return uint64(p99.micros), p99.found != 0, err
}

// SetTarget sets the target. Slots that are lent stay lent. Refused as [ErrBadRing] if the target is below the floor or
// above the ceiling.
func (s *Slots) SetTarget(target uint32) error {
	held := s.at.locked()
	defer held.lock.Unlock()
	return check(C.antientropy_slots_set_target(&held.handle, C.uint32_t(target)))
}

// Stats returns the target, and the counts of slots that are lent and free.
func (s *Slots) Stats() (SlotStats, error) {
	var counts C.struct_antientropy_slot_counts
	held := s.at.locked()
	defer held.lock.Unlock()
	err := check(C.antientropy_slots_count(&held.handle, &counts))
	return SlotStats{Target: uint64(counts.target), Lent: uint64(counts.lent), Free: uint64(counts.free)}, err
}
