package antientropy

import (
	"runtime"
	"testing"
)

// must returns the result of a call that mustn't fail.
func must[T any](result T, err error) T {
	if err != nil {
		panic(err)
	}
	return result
}

// finalized returns a channel that is closed when the finalizer of an object runs, which no one has.
func finalized() chan bool {
	ran := make(chan bool)
	runtime.SetFinalizer(new([64]byte), func(*[64]byte) { close(ran) })
	return ran
}

// While the freer is busy, finalizers append dropped handles to its list, and wait for nothing.
func TestNoFinalizerFrees(t *testing.T) {
	busy, isBusy := make(chan bool), make(chan bool)
	collected.add(func() {
		close(isBusy)
		<-busy
	})
	<-isBusy
	func() {
		r := filledJournal(t, 10, 5)
		must(r.Snapshot())
		must(NewHints())
		must(NewSlots(1, 1, 1))
	}()
	eventually(t, "the freer isn't handed four handles", func() bool {
		runtime.GC()
		collected.lock.Lock()
		defer collected.lock.Unlock()
		return len(collected.frees) >= 4
	})
	ran := finalized()
	runtime.GC()
	<-ran
	close(busy)
	eventually(t, "the freer doesn't end", collected.isIdle)
}

// An exchange and its replica are collected at once, and an exchange that outlives its replica is freed too.
func TestAnExchangeIsCollectedWithItsReplica(t *testing.T) {
	for _, isClosed := range []bool{false, true} {
		r := filledJournal(t, 10, 5)
		exchange := must(r.Exchange(2, must(must(filledJournal(t, 10, 0).Snapshot()).Offer(1)), DefaultBounds()))
		if isClosed {
			r.Close()
		}
		session := exchange.at.session.orphans
		r, exchange = nil, nil
		eventually(t, "an exchange isn't freed", func() bool {
			runtime.GC()
			session.lock.Lock()
			defer session.lock.Unlock()
			return session.isClosed && len(session.sessions) == 0
		})
	}
}
