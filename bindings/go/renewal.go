package antientropy

// #include <antientropy.h>
import "C"

import (
	"context"
	"time"
)

const (
	// catchUpEntries is the initial number of entries that a renewal accepts under the read lock at a time.
	catchUpEntries = 64
	// fewEntries is the maximum number of entries that a renewal leaves to its finish.
	fewEntries = 64
)

// A renewal holds the new replica, which is built while the old one is in use, and after its finish the old one.
type renewal struct {
	handle C.struct_antientropy_renewal
}

// RenewInPlace renews the replica like [Replica.Renew], but in place, while other goroutines put.
//
// It holds the current rows as a moment, like [Replica.Snapshot], builds the new journal from them without the lock,
// and accepts the entries put meanwhile. Puts wait only for its steps under the lock: the last one accepts a few
// entries. It drops the sessions and the moment, so an exchange ends as [ReportGone]. Entry numbers continue: entries
// since the moment keep theirs, and a log that has all earlier entries reads on.
//
// Refused as [ErrBadRing] (the limit), [ErrJournalFull] (more versions are held than the limit, or accepted meanwhile)
// or [ErrStale] (another goroutine has renewed or migrated the replica meanwhile). A context that is done ends the
// renewal at its next step, except the last one: the error wraps the context's. After a refusal or an error the replica
// is unchanged.
func (r *Replica) RenewInPlace(ctx context.Context, limit uint64) error {
	return r.at.renewInPlace(ctx, limit)
}

func (r *replica) renewInPlace(ctx context.Context, limit uint64) error {
	made, err := atMoment(ctx, r, func(held *replica) (*renewal, error) { return held.beginRenewal(limit) })
	if err != nil {
		return err
	}
	defer made.free()
	if err := made.build(); err != nil {
		return err
	}
	if err := made.catchUp(ctx, r); err != nil {
		return err
	}
	return made.finish(r)
}

// beginRenewal begins a renewal with the rows of the moment. The caller holds the lock.
func (r *replica) beginRenewal(limit uint64) (*renewal, error) {
	made := new(renewal)
	return made, check(C.antientropy_renewal_begin(&r.handle, C.uint64_t(limit), &made.handle))
}

// build builds the new replica from the rows of the moment.
func (n *renewal) build() error {
	return check(C.antientropy_renewal_build(&n.handle))
}

// catchUp accepts entries until few are left. After each step the lock is free for the same time, so that all waiting
// puts are made. If they still outrun it, it accepts more at a time without waiting, so it ends.
func (n *renewal) catchUp(ctx context.Context, r *replica) error {
	most, outrun := uint64(catchUpEntries), false
	left, took, err := n.catchUpSome(r, most)
	for err == nil && left > fewEntries {
		if !outrun {
			time.Sleep(took)
		}
		if err := isDone(ctx); err != nil {
			return err
		}
		before := left
		if left, took, err = n.catchUpSome(r, most); left >= before {
			most, outrun = 2*most, true
		}
	}
	if err == nil {
		err = isDone(ctx)
	}
	return err
}

// catchUpSome accepts the next entries. It returns the number of entries left, and the time for which it held the lock.
func (n *renewal) catchUpSome(r *replica, most uint64) (left uint64, took time.Duration, err error) {
	var count C.uint64_t
	held := r.reading()
	defer held.lock.RUnlock()
	begin := time.Now()
	err = check(C.antientropy_renewal_catch_up(&n.handle, &held.handle, C.uint64_t(most), &count))
	return uint64(count), time.Since(begin), err
}

// finish accepts the remaining entries, and replaces the old replica by the new one.
func (n *renewal) finish(r *replica) error {
	held := r.locked()
	defer held.lock.Unlock()
	before, err := held.stats()
	if err != nil {
		return err
	}
	if err := check(C.antientropy_renewal_finish(&n.handle, &held.handle)); err != nil {
		return err
	}
	after, err := held.noteRenewed()
	held.weight.set(held.tree + held.rowsLeft(before, after))
	return err
}

// free frees the memory.
func (n *renewal) free() {
	C.antientropy_renewal_free(&n.handle)
}
