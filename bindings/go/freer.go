package antientropy

import "sync"

// collected frees the handles that the collector found.
var collected freer

// A freer frees handles in a goroutine, which ends when there are no more. A large replica takes seconds, and the
// finalizers of the whole program share one goroutine, so no finalizer frees a handle.
type freer struct {
	lock     sync.Mutex
	frees    []func()
	isAtWork bool
}

// add takes the call that frees a handle, and returns at once.
func (f *freer) add(free func()) {
	f.lock.Lock()
	defer f.lock.Unlock()
	f.frees = append(f.frees, free)
	if !f.isAtWork {
		f.isAtWork = true
		go f.work()
	}
}

// work frees handles until there are no more.
func (f *freer) work() {
	for frees := f.take(); len(frees) > 0; frees = f.take() {
		for i, free := range frees {
			free()
			cMemory.lower()
			frees[i] = nil // so that its Go memory can be collected too
		}
	}
}

// take removes and returns all calls. Without any, the goroutine ends.
func (f *freer) take() []func() {
	f.lock.Lock()
	defer f.lock.Unlock()
	frees := f.frees
	f.frees = nil
	f.isAtWork = len(frees) > 0
	return frees
}
