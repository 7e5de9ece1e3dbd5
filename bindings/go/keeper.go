package antientropy

import "context"

// A keeper decides when a replica is to be renewed. The lock of the replica guards it.
type keeper struct {
	isOn     bool   // [Replica.KeepRenewed] was called
	isAtWork bool   // a goroutine renews
	limit    uint64 // maximum number of the journal's entries
	first    uint64 // number of the journal's first entry
	held     uint64 // number of entries that the last renewal left: 0 before the first one
}

// isDue returns true if a renewal is due at a count of entries: at nine tenths of the limit, once half of the space
// that the last renewal left is used.
func (k *keeper) isDue(entries uint64) bool {
	used := entries - k.first
	return used*10 >= k.limit*9 && used > k.held && (used-k.held)*2 >= k.limit-k.held
}

// KeepRenewed makes the replica renew itself in place, with its limit, from now on: a put, an acceptance, a load or the
// end of an exchange that finds a renewal due starts one in a goroutine, one at a time.
//
// It is due when nine tenths of the limit are used, and half of the space that the last renewal left. This keeps a
// journal that its rows fill from being renewed again and again. Puts wait for a renewal only as [Replica.RenewInPlace]
// says. A put is refused as [ErrJournalFull] only if the last tenth of the limit is used before the renewal has ended,
// or if the rows fill the journal.
//
// A log that missed entries before a renewal gets [ErrBadPosition]: it then reads from First of the Stats on.
func (r *Replica) KeepRenewed() error {
	held := r.at.locked()
	defer held.lock.Unlock()
	counts, err := held.stats()
	if err != nil {
		return err
	}
	held.keeper.isOn, held.keeper.limit, held.keeper.first = true, counts.Limit, counts.First
	held.renewIfDue(counts.Entries)
	return nil
}

// noteRenewed records the journal's length after a renewal, and returns its counts. The caller holds the lock.
func (r *replica) noteRenewed() (Stats, error) {
	counts, err := r.stats()
	r.keeper.limit, r.keeper.first, r.keeper.held = counts.Limit, counts.First, counts.journal()
	return counts, err
}

// renewIfDue starts a goroutine that renews the replica if it is due at a count of entries. The caller holds the lock.
func (r *replica) renewIfDue(entries uint64) {
	if r.keeper.isOn && !r.keeper.isAtWork && r.keeper.isDue(entries) {
		r.keeper.isAtWork = true
		go r.keepRenewed(r.keeper.limit)
	}
}

// countAndRenewIfDue calls renewIfDue with the current count of entries. The caller holds the lock.
func (r *replica) countAndRenewIfDue() {
	if !r.keeper.isOn {
		return
	}
	if counts, err := r.stats(); err == nil {
		r.renewIfDue(counts.Entries)
	}
}

// keepRenewed renews the replica. A failed renewal counts as one that has dropped no entry: the next one is due when
// half of the remaining space is used.
func (r *replica) keepRenewed(limit uint64) {
	err := r.renewInPlace(context.Background(), limit)
	held := r.locked()
	defer held.lock.Unlock()
	held.keeper.isAtWork = false
	if err != nil {
		held.noteRenewed()
	}
}
