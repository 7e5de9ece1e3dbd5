package antientropy

// #include "calls.h"
import "C"

import (
	"runtime"
	"sync"
	"unsafe"
)

// A Config has the numbers of a replica.
type Config struct {
	Format uint8  // format of the tree: 1 (256 leaves, no tombstones) or 2 (4,096 leaves)
	Bits   uint8  // bits of the ring, which has 2^Bits ranges: 0 to 8
	Range  uint16 // number of the range, from 0
	Limit  uint64 // maximum number of the journal's entries, 1 to EntriesMax
}

// A Replica is a replica of one range of a ring. Goroutines may share it, and read it concurrently. A copy is the same
// replica.
type Replica struct {
	at *replica // a copy shares the handle, which is freed once
}

// A replica is the state that a [Replica] and its copies share.
type replica struct {
	lock    sync.RWMutex // goroutines read concurrently
	handle  C.struct_antientropy_replica
	orphans *orphans
	keeper  keeper
	weight  weight
	tree    int64 // weight of an empty replica of its format
}

// Stats has the counts of a replica.
type Stats struct {
	Entries      uint64 // entries, including those before renewals: the number of the next entry
	Limit        uint64 // maximum of Entries minus First, at which the journal is full
	Dirty        uint64 // nodes of the tree that have no digest
	Sessions     uint64 // sessions that are kept: at 1,024 no other can be opened until ended ones are dropped
	OpenSessions uint64 // open sessions: at 64 no other can be opened until one has ended
	First        uint64 // number of the journal's first entry: 0 before the first renewal
	Front        uint64 // Entries at the last moment that was whole; First without one since a renewal
}

// Bytes is the size of a replica: lengths of contents in bytes. Its memory differs.
type Bytes struct {
	Rows     uint64 // the rows, as [Snapshot.Rows] returns them
	Journal  uint64 // the keys, values and clocks of the entries from First on: 10 bytes for each pair of a clock
	Sessions uint64 // additional contents of sessions: texts that they took, and leaves of their rows that have changed
}

// About is the identity to store in a checkpoint or a log: the range of a replica or a snapshot, and its position.
type About struct {
	Format  uint8  // format of the tree: 1 or 2
	Bits    uint8  // bits of the ring
	Range   uint16 // number of the range
	Entries uint64 // number of the next entry, as in the counts
}

// journal returns the number of the journal's entries.
func (c Stats) journal() uint64 {
	return c.Entries - c.First
}

// A Receipt is the result of a put.
type Receipt struct {
	Number  uint64 // number of the entry, for [Replica.Entry]; after a renewal it may name another version
	Counter uint64 // the node's counter in the new version's clock: Merge it with the context for a copy
}

// NewReplica makes an empty replica. Refused as [ErrBadRing] if a number is outside its limits.
func NewReplica(config Config) (*Replica, error) {
	made := new(replica)
	bits, number, limit := C.uint64_t(config.Bits), C.uint64_t(config.Range), C.uint64_t(config.Limit)
	if err := check(C.antientropy_new(&made.handle, C.uint64_t(config.Format), bits, number, limit)); err != nil {
		return nil, err
	}
	return made.owned(config.Format, 0), nil
}

// NewSeededReplica makes an empty replica with a seed of two words for the hash of keys. Random words make it hard for
// clients to choose keys with equal hashes, which are slow to find. Refused as [ErrBadRing] if a number is outside its
// limits.
func NewSeededReplica(config Config, first, second uint64) (*Replica, error) {
	made := new(replica)
	format, bits, number := C.uint64_t(config.Format), C.uint64_t(config.Bits), C.uint64_t(config.Range)
	limit, low, high := C.uint64_t(config.Limit), C.uint64_t(first), C.uint64_t(second)
	if err := check(C.antientropy_new_seeded(&made.handle, format, bits, number, limit, low, high)); err != nil {
		return nil, err
	}
	return made.owned(config.Format, 0), nil
}

// Close frees the memory. Later calls are refused as [ErrEmpty], also on copies; another Close does nothing. The error
// is nil.
//
// Each method holds the lock to its end, so the garbage collector doesn't close a replica that is in use.
func (r *Replica) Close() error {
	r.at.close()
	return nil
}

// locked takes the lock, which the caller releases. A zero replica is empty.
func (r *replica) locked() *replica {
	if r == nil {
		r = new(replica)
	}
	r.lock.Lock()
	return r
}

// reading takes the lock for calls that only read. The caller releases it.
func (r *replica) reading() *replica {
	if r == nil {
		r = new(replica)
	}
	r.lock.RLock()
	return r
}

// owned returns a new replica, with the weight of its rows. The freer closes it, once no copy is used.
func (r *replica) owned(format uint8, rows int64) *Replica {
	r.tree = treeWeight(format)
	r.weight.set(r.tree + rows)
	runtime.SetFinalizer(r, func(r *replica) { collected.add(r.close) })
	return &Replica{r}
}

// close frees the memory.
func (r *replica) close() {
	held := r.locked()
	defer held.lock.Unlock()
	held.closeOrphans(true)
	C.antientropy_free(&held.handle)
	held.weight.set(0)
}

// Renew returns a new replica with the held versions: one entry for each, and no sessions.
//
// This replica is unchanged: close it, and use the new one under the same node number. Entry numbers continue: both
// replicas have the same entry count, and the next entry gets a number that was never used. The new journal begins at
// First of the Stats. Renew takes time in proportion to the rows, and puts wait meanwhile.
//
// Refused as [ErrBadRing] (the limit) or [ErrJournalFull] (more versions are held than the limit).
func (r *Replica) Renew(limit uint64) (*Replica, error) {
	held := r.at.reading()
	defer held.lock.RUnlock()
	config, before, err := held.describe()
	if err != nil {
		return nil, err
	}
	renewed := new(replica)
	if err := check(C.antientropy_renew(&held.handle, &renewed.handle, C.uint64_t(limit))); err != nil {
		return nil, err
	}
	after, err := renewed.stats()
	return renewed.owned(config.Format, held.rowsLeft(before, after)), err
}

// rowsLeft returns the weight of the rows that a renewal leaves, by the counts of both journals. The caller holds the
// lock.
func (r *replica) rowsLeft(before, after Stats) int64 {
	if before.journal() == 0 {
		return 0
	}
	return int64(float64(r.weight.bytes-r.tree) / float64(before.journal()) * float64(after.journal()))
}

// memory returns the memory of the handle, for the most frequent calls.
func (r *replica) memory() *C.antientropy_go_handle {
	return (*C.antientropy_go_handle)(unsafe.Pointer(&r.handle))
}

// Migrate converts a replica of format 1 to format 2. All nodes become dirty, open sessions are cancelled, and the
// moment is dropped.
func (r *Replica) Migrate() error {
	held := r.at.locked()
	defer held.lock.Unlock()
	if err := check(C.antientropy_migrate(&held.handle)); err != nil {
		return err
	}
	held.weight.add(treeWeight2 - treeWeight1)
	held.tree = treeWeight2
	return nil
}

// DropSessions drops the sessions that have ended, and the rows that they keep. Sessions of exchanges in progress stay.
// Entries of the source [SourcePartner] get the source [SourceCopy].
func (r *Replica) DropSessions() error {
	held := r.at.locked()
	defer held.lock.Unlock()
	held.closeOrphans(false)
	return check(C.antientropy_drop_sessions(&held.handle))
}

// Config returns the numbers of the replica: zeros after [Replica.Close]. Its format is 2 after [Replica.Migrate].
func (r *Replica) Config() Config {
	held := r.at.reading()
	defer held.lock.RUnlock()
	config, _, _ := held.describe()
	return config
}

// About returns the range of the replica, and the number of its next entry.
func (r *Replica) About() (About, error) {
	held := r.at.reading()
	defer held.lock.RUnlock()
	return held.about()
}

// about returns the range of the replica. The caller holds the lock.
func (r *replica) about() (About, error) {
	var about C.struct_antientropy_about
	return aboutOf(C.antientropy_about(&r.handle, &about), &about)
}

// aboutOf returns the result of a call that names a range.
func aboutOf(number C.uint32_t, about *C.struct_antientropy_about) (About, error) {
	return About{
		Format:  uint8(about.format),
		Bits:    uint8(about.bits),
		Range:   uint16(about._range),
		Entries: uint64(about.entries),
	}, check(number)
}

// describe returns the numbers and the counts of the replica. The caller holds the lock.
func (r *replica) describe() (Config, Stats, error) {
	about, err := r.about()
	if err != nil {
		return Config{}, Stats{}, err
	}
	counts, err := r.stats()
	return Config{Format: about.Format, Bits: about.Bits, Range: about.Range, Limit: counts.Limit}, counts, err
}

// Stats returns the counts of entries, dirty nodes and sessions, and of the entries at the last whole moment.
func (r *Replica) Stats() (Stats, error) {
	held := r.at.reading()
	defer held.lock.RUnlock()
	return held.stats()
}

// stats returns the counts. The caller holds the lock.
func (r *replica) stats() (Stats, error) {
	var counts C.struct_antientropy_counts
	err := check(C.antientropy_count(&r.handle, &counts))
	return Stats{
		Entries:      uint64(counts.entries),
		Limit:        uint64(counts.limit),
		Dirty:        uint64(counts.dirty),
		Sessions:     uint64(counts.sessions),
		OpenSessions: uint64(counts.open_sessions),
		First:        uint64(counts.first),
		Front:        uint64(counts.front),
	}, err
}

// Bytes returns the size of the replica. It visits each chunk of 15 rows and the digests of each session's leaves: call
// it every few seconds, not at each put.
func (r *Replica) Bytes() (Bytes, error) {
	var bytes C.struct_antientropy_bytes
	held := r.at.reading()
	defer held.lock.RUnlock()
	err := check(C.antientropy_bytes(&held.handle, &bytes))
	return Bytes{Rows: uint64(bytes.rows), Journal: uint64(bytes.journal), Sessions: uint64(bytes.sessions)}, err
}

// Put puts a value for a key at a node, after a read: the context is the merged clock of all versions that were read.
//
// The new version replaces each held version whose clock is at most its clock. The client has read each of these:
// [ErrStaleContext] means that a held version has a greater counter of the node than the context, so another client has
// put in between; read again.
//
// Refused as [ErrBadClock], [ErrClockFull], [ErrBadKey], [ErrBadValue], [ErrOtherRange], [ErrCounterFull],
// [ErrStaleContext], [ErrCrowded] or [ErrJournalFull].
func (r *Replica) Put(node Node, key, value []byte, context Clock) (Receipt, error) {
	return r.put(node, key, context, Live, value)
}

// PutTombstone puts a tombstone, which marks the key as removed. Refused as [Replica.Put], and as [ErrBadValue] in
// format 1.
func (r *Replica) PutTombstone(node Node, key []byte, context Clock) (Receipt, error) {
	return r.put(node, key, context, Tombstone, nil)
}

func (r *Replica) put(node Node, key []byte, context Clock, kind Kind, value []byte) (Receipt, error) {
	held := r.at.locked()
	defer held.lock.Unlock()
	got := C.antientropy_go_put_read(held.memory(), C.uint64_t(node), bytesAt(key), C.size_t(len(key)), pairsAt(context),
		C.size_t(len(context)), C.uint8_t(kind), bytesAt(value), C.size_t(len(value)))
	return held.receipt(got, contentsOf(key, value, context))
}

// PutUnread puts like [Replica.Put], without its check, which the caller must make: the new version replaces even a
// held version that the client hasn't read. Refused as [Replica.Put], but as [ErrStaleContext] only if a held version's
// clock includes the new version's.
func (r *Replica) PutUnread(node Node, key, value []byte, context Clock) (Receipt, error) {
	return r.putUnread(node, key, context, Live, value)
}

// PutTombstoneUnread puts a tombstone like [Replica.PutUnread]. Refused as [Replica.PutUnread], and as [ErrBadValue] in
// format 1.
func (r *Replica) PutTombstoneUnread(node Node, key []byte, context Clock) (Receipt, error) {
	return r.putUnread(node, key, context, Tombstone, nil)
}

func (r *Replica) putUnread(node Node, key []byte, context Clock, kind Kind, value []byte) (Receipt, error) {
	held := r.at.locked()
	defer held.lock.Unlock()
	got := C.antientropy_go_put(held.memory(), C.uint64_t(node), bytesAt(key), C.size_t(len(key)), pairsAt(context),
		C.size_t(len(context)), C.uint8_t(kind), bytesAt(value), C.size_t(len(value)))
	return held.receipt(got, contentsOf(key, value, context))
}

// receipt returns the result of a put with the length of its contents in bytes. It starts a renewal if one is due. The
// caller holds the lock.
func (r *replica) receipt(got C.struct_antientropy_go_receipt, contents int) (Receipt, error) {
	if err := check(got.number); err != nil {
		r.countAndRenewIfDue()
		return Receipt{}, err
	}
	r.weight.addVersions(1, contents)
	receipt := Receipt{Number: uint64(got.receipt.number), Counter: uint64(got.receipt.counter)}
	r.renewIfDue(receipt.Number + 1)
	return receipt, nil
}

// Accept accepts a version of another replica, as a copy. It returns false if the version was known.
//
// Refused as [ErrBadClock], [ErrClockFull], [ErrBadKey], [ErrBadValue], [ErrOtherRange], [ErrCrowded] or
// [ErrJournalFull].
func (r *Replica) Accept(key []byte, version Version) (bool, error) {
	var taken C.uint64_t
	clock, value := version.Clock, version.Value
	held := r.at.locked()
	defer held.lock.Unlock()
	number := C.antientropy_accept(&held.handle, bytesAt(key), C.size_t(len(key)), pairsAt(clock), C.size_t(len(clock)),
		C.uint8_t(version.Kind), bytesAt(value), C.size_t(len(value)), &taken)
	held.weight.addVersions(int(taken), contentsOf(key, value, clock))
	held.countAndRenewIfDue()
	return taken != 0, check(number)
}
