package antientropy

// #include <antientropy.h>
import "C"

import (
	"context"
	"errors"
)

// portionNodes is the maximum number of nodes of a portion.
const portionNodes = 64

// A portion has nodes of a replica's moment, which are hashed while other calls use the replica.
type portion struct {
	handle C.struct_antientropy_portion
}

// Hold keeps the current rows as the replica's moment, in place of the previous one. No later call changes it.
//
// While a moment is kept, the first change in a block of rows copies the block. The next hold frees the blocks that
// only this moment has, and other goroutines wait meanwhile. To avoid that, call [Replica.DropMoment] before its
// snapshot is closed.
//
// [Replica.Snapshot], [Replica.Root], [Replica.Save], [Replica.Exchange] and [Replica.Sync] hold a moment in place of
// the previous one, and drop it before they return. They end even if puts never pause.
func (r *Replica) Hold() error {
	held := r.at.locked()
	defer held.lock.Unlock()
	return held.hold()
}

// hold keeps the current rows as the moment. The caller holds the lock.
func (r *replica) hold() error {
	return check(C.antientropy_hold(&r.handle))
}

// DropMoment drops the moment, if any. Its snapshots stay valid. A [Replica.Snapshot] or a [Replica.Sync] that hashes
// the moment in another goroutine holds another one.
func (r *Replica) DropMoment() error {
	held := r.at.locked()
	defer held.lock.Unlock()
	return check(C.antientropy_drop_moment(&held.handle))
}

// HashMoment hashes at most `most` of the moment's nodes that have no digest though all their children have one. It
// returns the number of its nodes still without one: 0 if the moment is whole or doesn't exist.
func (r *Replica) HashMoment(most uint64) (left uint64, err error) {
	var nodes C.uint64_t
	held := r.at.locked()
	defer held.lock.Unlock()
	err = check(C.antientropy_hash_moment(&held.handle, C.uint64_t(most), &nodes))
	return uint64(nodes), err
}

// Moment returns a snapshot of the moment. Refused as [ErrDirty] if the moment isn't whole or doesn't exist.
func (r *Replica) Moment() (*Snapshot, error) {
	held := r.at.reading()
	defer held.lock.RUnlock()
	return held.moment()
}

// atMoment holds the current rows as a moment, hashes them, and returns the result of use.
//
// It calls use with the lock held, as soon as the moment is whole. The lock is free while nodes are hashed, so another
// goroutine may hold a later moment meanwhile, which use then finds. After use the moment is dropped: its rows stay
// with the result, and no later hold frees them under the lock.
//
// If the context is done before the moment is whole, the error wraps the context's, and the moment is dropped.
func atMoment[T any](ctx context.Context, r *replica, use func(held *replica) (T, error)) (result T, err error) {
	if err = isDone(ctx); err != nil {
		return result, err
	}
	nodes := new(portion)
	defer nodes.free()
	err = r.beginMoment(nodes)
	for isWhole := false; err == nil && !isWhole; {
		if err = nodes.hash(); err == nil {
			isWhole, result, err = afterPortion(r, nodes, use)
		}
		if done := isDone(ctx); done != nil && err == nil && !isWhole {
			return result, r.leaveMoment(done)
		}
	}
	return result, err
}

// leaveMoment drops the moment, and returns the error that prevented its use.
func (r *replica) leaveMoment(cause error) error {
	held := r.locked()
	defer held.lock.Unlock()
	C.antientropy_drop_moment(&held.handle)
	return cause
}

// beginMoment holds the current rows as a moment, and takes its first portion.
func (r *replica) beginMoment(nodes *portion) error {
	held := r.locked()
	defer held.lock.Unlock()
	if err := held.hold(); err != nil {
		return err
	}
	return held.takePortion(nodes)
}

// afterPortion installs a portion. If the moment is whole, it calls use. Otherwise it takes the next portion.
func afterPortion[T any](r *replica, nodes *portion, use func(*replica) (T, error)) (whole bool, result T, err error) {
	held := r.locked()
	defer held.lock.Unlock()
	left, err := held.installPortion(nodes)
	if err == nil && left == 0 {
		if result, err = use(held); !errors.Is(err, ErrDirty) {
			C.antientropy_drop_moment(&held.handle)
			return true, result, err
		}
		// (another goroutine dropped the moment)
		err = held.hold()
	}
	if err == nil {
		err = held.takePortion(nodes)
	}
	return false, result, err
}

// takePortion takes a portion of the moment's nodes. The caller holds the lock.
func (r *replica) takePortion(nodes *portion) error {
	return check(C.antientropy_take_portion(&r.handle, portionNodes, &nodes.handle))
}

// installPortion installs the digests of a portion, and returns the number of the moment's nodes still without one. The
// caller holds the lock.
func (r *replica) installPortion(nodes *portion) (left uint64, err error) {
	var count C.uint64_t
	err = check(C.antientropy_install_portion(&r.handle, &nodes.handle, &count))
	return uint64(count), err
}

// hash hashes the nodes.
func (p *portion) hash() error {
	return check(C.antientropy_hash_portion(&p.handle))
}

// free frees the memory.
func (p *portion) free() {
	C.antientropy_portion_free(&p.handle)
}
