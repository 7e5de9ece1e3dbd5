package antientropy

import (
	"context"
	"errors"
	"fmt"
	"io"
	"reflect"
	"runtime"
	"sync"
	"testing"
	"time"
)

// Methods that read no handle: their results are fixed when the object is made.
var fixed = map[string]bool{
	"Snapshot.Config": true, "Snapshot.Entries": true,
}

// Methods of a replica, a snapshot or an exchange that change it: all others may run concurrently.
var changes = map[string]bool{
	"Replica.Accept": true, "Replica.Close": true, "Replica.DropMoment": true, "Replica.DropSessions": true,
	"Replica.Exchange": true, "Replica.HashMoment": true, "Replica.Hold": true, "Replica.KeepRenewed": true,
	"Replica.LoadFormat": true, "Replica.LoadRows": true, "Replica.Migrate": true, "Replica.Put": true,
	"Replica.PutTombstone": true, "Replica.PutTombstoneUnread": true, "Replica.PutUnread": true,
	"Replica.Rehash": true, "Replica.RehashSome": true, "Replica.RenewInPlace": true, "Replica.Root": true,
	"Replica.Save": true, "Replica.Snapshot": true, "Replica.Sync": true, "Replica.SyncWithin": true,
	"Snapshot.Close": true, "Exchange.Asks": true, "Exchange.Close": true, "Exchange.GoOn": true,
	"Exchange.Left": true, "Exchange.Lose": true, "Exchange.Progress": true, "Exchange.Take": true,
}

// A locker is the lock of a handle.
type locker interface {
	sync.Locker
	TryLock() bool
}

// A handle is an empty object, with the lock that its methods take.
type handle struct {
	object any
	lock   locker
}

// emptyHandles returns an object of each type with methods that call the library.
func emptyHandles() []handle {
	r, s, h, l := new(replica), new(snapshot), new(hints), new(slots)
	return []handle{
		{&Replica{r}, &r.lock},
		{&Snapshot{at: s}, &s.lock},
		{&Hints{h}, &h.lock},
		{&Slots{l}, &l.lock},
		{&Exchange{&exchange{replica: r, session: new(session)}}, &r.lock},
	}
}

// zeroHandles returns the zero value of each type.
func zeroHandles() []handle {
	return []handle{{object: new(Replica)}, {object: new(Snapshot)}, {object: new(Hints)}, {object: new(Slots)},
		{object: new(Exchange)}}
}

// callMethod calls a method with arguments that are 0, except that bytes are an offer, and that a reach returns no
// answers. It returns the error of the method, or of the scanner that the method returns.
func callMethod(method reflect.Value) error {
	var arguments []reflect.Value
	for i := 0; i < method.Type().NumIn(); i++ {
		argument := reflect.Zero(method.Type().In(i))
		switch argument.Type() {
		case reflect.TypeOf([]byte{}):
			argument = reflect.ValueOf(append([]byte{1}, make([]byte, OfferLen-1)...))
		case reflect.TypeOf(Reach(nil)):
			argument = reflect.ValueOf(Reach(func(context.Context, [][]byte) ([][]byte, error) { return nil, nil }))
		case reflect.TypeOf((*context.Context)(nil)).Elem():
			argument = reflect.ValueOf(context.Background())
		}
		arguments = append(arguments, argument)
	}
	results := method.Call(arguments)
	last := results[len(results)-1]
	if next := last.MethodByName("Next"); next.IsValid() {
		next.Call(nil)
		last = last.MethodByName("Err").Call(nil)[0]
	}
	err, _ := last.Interface().(error)
	return err
}

// eachMethod calls a function with each method that reads one of the handles.
func eachMethod(handles []handle, call func(name string, method reflect.Value, lock locker)) {
	for _, handle := range handles {
		object := reflect.ValueOf(handle.object)
		for i := 0; i < object.NumMethod(); i++ {
			name := fmt.Sprint(object.Type().Elem().Name(), ".", object.Type().Method(i).Name)
			if !fixed[name] {
				call(name, object.Method(i), handle.lock)
			}
		}
	}
}

func TestEachMethodOfAHandleThatHoldsNothing(t *testing.T) {
	count := 0
	eachMethod(append(emptyHandles(), zeroHandles()...), func(name string, method reflect.Value, _ locker) {
		err := callMethod(method)
		isFree := method.Type().NumIn() == 0 && method.Type().NumOut() == 1 && err == nil
		if !errors.Is(err, ErrEmpty) && !isFree {
			t.Errorf("%s returns the error %v", name, err)
		}
		count++
	})
	if count < 100 {
		t.Errorf("there are %d methods", count)
	}
}

// started calls a method in another goroutine. It returns a channel that is closed when the method has returned.
func started(method reflect.Value) (done chan bool) {
	done = make(chan bool)
	go func() {
		callMethod(method)
		close(done)
	}()
	return done
}

// endsWithin returns true if a channel is closed within a time.
func endsWithin(limit time.Duration, done chan bool) bool {
	select {
	case <-done:
		return true
	case <-time.After(limit):
		return false
	}
}

// Each method waits for the lock, and releases it.
func TestEachMethodTakesTheLock(t *testing.T) {
	eachMethod(emptyHandles(), func(name string, method reflect.Value, lock locker) {
		lock.Lock()
		done := started(method)
		if endsWithin(5*time.Millisecond, done) {
			t.Errorf("%s doesn't take the lock", name)
		}
		lock.Unlock()
		<-done
		if !lock.TryLock() {
			t.Fatalf("%s keeps the lock", name)
		}
		lock.Unlock()
	})
}

// A method that reads waits for no other read, and one that changes something waits for all.
func TestReadsAreMadeAtOnce(t *testing.T) {
	count := 0
	eachMethod(emptyHandles(), func(name string, method reflect.Value, lock locker) {
		shared, isShared := lock.(*sync.RWMutex)
		if !isShared {
			return
		}
		shared.RLock()
		done := started(method)
		if !changes[name] && !endsWithin(2*time.Minute, done) {
			t.Errorf("%s waits for a read", name)
		}
		if changes[name] && endsWithin(5*time.Millisecond, done) {
			t.Errorf("%s waits for no read", name)
		}
		shared.RUnlock()
		<-done
		if changes[name] {
			count++
		}
	})
	if count != len(changes) {
		t.Errorf("there are %d methods that change something", count)
	}
}

func TestCloseTwice(t *testing.T) {
	r, err := NewReplica(Config{Format: 2, Limit: 1})
	if err != nil {
		t.Fatal(err)
	}
	for n := 0; n < 2; n++ {
		if err := r.Close(); err != nil {
			t.Error(err)
		}
	}
	if _, err := r.Stats(); !errors.Is(err, ErrEmpty) {
		t.Error(err)
	}
}

// A copy of an object is the same one: it stays usable without the original, and after a Close both are refused.
func TestCopiesShareAHandle(t *testing.T) {
	r, err := NewReplica(Config{Format: 2, Limit: 1})
	if err != nil {
		t.Fatal(err)
	}
	s, err := r.Snapshot()
	if err != nil {
		t.Fatal(err)
	}
	h, err := NewHints()
	if err != nil {
		t.Fatal(err)
	}
	l, err := NewSlots(1, 1, 1)
	if err != nil {
		t.Fatal(err)
	}
	offer, err := s.Offer(1)
	if err != nil {
		t.Fatal(err)
	}
	e, err := r.Exchange(1, offer, Bounds{})
	if err != nil {
		t.Fatal(err)
	}
	replicas, snapshots, hints, slots, exchanges := *r, *s, *h, *l, *e
	calls := []func() error{
		func() error { _, err := replicas.Stats(); return err },
		func() error { _, err := snapshots.Root(); return err },
		func() error { _, err := hints.Stats(); return err },
		func() error { _, err := slots.Stats(); return err },
		func() error { _, err := exchanges.Progress(); return err },
	}
	r, s, h, l, e = nil, nil, nil, nil, nil
	for _, call := range calls {
		runtime.GC()
		if err := call(); err != nil {
			t.Error(err)
		}
	}
	first, second, third, fourth, fifth := replicas, snapshots, hints, slots, exchanges
	for _, closer := range []io.Closer{&fifth, &first, &second, &third, &fourth, &first, &fifth} {
		if err := closer.Close(); err != nil {
			t.Error(err)
		}
	}
	for _, call := range calls {
		if err := call(); !errors.Is(err, ErrEmpty) {
			t.Errorf("after Close of a copy the error is %v", err)
		}
	}
	calls, replicas, snapshots, hints, slots, exchanges = nil, Replica{}, Snapshot{}, Hints{}, Slots{}, Exchange{}
	first, second, third, fourth, fifth = replicas, snapshots, hints, slots, exchanges
	runtime.GC() // the finalizers free nothing twice
	runtime.GC()
}

// Locks are independent: a replica in use doesn't block its snapshots, or other replicas, and a snapshot doesn't block
// those that share its rows.
func TestALockForEachHandle(t *testing.T) {
	r, err := NewReplica(Config{Format: 2, Limit: 1})
	if err != nil {
		t.Fatal(err)
	}
	snapshot, err := r.Snapshot()
	if err != nil {
		t.Fatal(err)
	}
	shared, err := snapshot.Share()
	if err != nil {
		t.Fatal(err)
	}
	defer r.at.locked().lock.Unlock()
	if _, err := snapshot.Offer(1); err != nil {
		t.Error(err)
	}
	defer snapshot.at.locked().lock.Unlock()
	if _, err := shared.Offer(1); err != nil {
		t.Error(err)
	}
}
