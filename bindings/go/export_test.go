package antientropy

import "time"

// AwaitFreed waits until no collection that the tally began is in progress, and all handles that were found are freed.
func AwaitFreed() {
	for cMemory.isCollecting.Load() || !collected.isIdle() {
		time.Sleep(time.Millisecond)
	}
}

// isIdle returns true if there is no handle to free.
func (f *freer) isIdle() bool {
	f.lock.Lock()
	defer f.lock.Unlock()
	return !f.isAtWork && len(f.frees) == 0
}
