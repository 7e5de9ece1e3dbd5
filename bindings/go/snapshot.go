package antientropy

// #include <antientropy.h>
import "C"

import (
	"context"
	"runtime"
	"sync"
)

// A Snapshot has the rows of a replica at one moment.
//
// It serves a partner's asks while the replica changes, and may outlive the replica. Goroutines may share it, and read
// it concurrently; [Snapshot.Share] makes another one to close separately. A copy is the same snapshot.
type Snapshot struct {
	at      *snapshot
	config  Config
	entries uint64
}

// A snapshot is the state that a [Snapshot] and its copies share.
type snapshot struct {
	lock   sync.RWMutex // goroutines read concurrently
	handle C.struct_antientropy_snapshot
	weight weight
}

// Snapshot returns a snapshot of the current rows, which are held as a moment and hashed while other goroutines put.
// The moment is dropped at the end.
func (r *Replica) Snapshot() (*Snapshot, error) {
	return atMoment(context.Background(), r.at, (*replica).moment)
}

// SnapshotIfClean returns a snapshot of the current rows. Refused as [ErrDirty] if a node of the tree has no digest.
func (r *Replica) SnapshotIfClean() (*Snapshot, error) {
	held := r.at.reading()
	defer held.lock.RUnlock()
	config, counts, err := held.describe()
	if err != nil {
		return nil, err
	}
	made := new(snapshot)
	return made.owned(config, counts.Entries, held.weight.bytes, C.antientropy_snapshot(&held.handle, &made.handle))
}

// moment returns a snapshot of the moment. The caller holds the lock.
func (r *replica) moment() (*Snapshot, error) {
	config, counts, err := r.describe()
	if err != nil {
		return nil, err
	}
	made := new(snapshot)
	return made.owned(config, counts.Front, r.weight.bytes, C.antientropy_moment(&r.handle, &made.handle))
}

// owned returns the snapshot, unless the call that makes it was refused. The freer closes it, once no copy is used. It
// weighs as much as its replica, since it may be the last one to hold the rows.
func (s *snapshot) owned(config Config, entries uint64, weight int64, number C.uint32_t) (*Snapshot, error) {
	if err := check(number); err != nil {
		return nil, err
	}
	s.weight.set(weight)
	runtime.SetFinalizer(s, func(s *snapshot) { collected.add(s.close) })
	return &Snapshot{at: s, config: config, entries: entries}, nil
}

// Share returns another snapshot of the same rows, with a separate lock. It copies no row. The last one frees the rows.
func (s *Snapshot) Share() (*Snapshot, error) {
	held := s.at.reading()
	defer held.lock.RUnlock()
	made := new(snapshot)
	number := C.antientropy_snapshot_share(&held.handle, &made.handle)
	return made.owned(s.config, s.entries, held.weight.bytes, number)
}

// Close frees the memory, unless another snapshot shares the rows. Later calls are refused as [ErrEmpty], also on
// copies; another Close does nothing. The error is nil.
func (s *Snapshot) Close() error {
	s.at.close()
	return nil
}

// locked takes the lock, which the caller releases. A zero snapshot is empty.
func (s *snapshot) locked() *snapshot {
	if s == nil {
		s = new(snapshot)
	}
	s.lock.Lock()
	return s
}

// reading takes the lock for calls that only read. The caller releases it.
func (s *snapshot) reading() *snapshot {
	if s == nil {
		s = new(snapshot)
	}
	s.lock.RLock()
	return s
}

// close frees the memory.
func (s *snapshot) close() {
	held := s.locked()
	defer held.lock.Unlock()
	C.antientropy_snapshot_free(&held.handle)
	held.weight.set(0)
}

// Config returns the numbers of the replica at the moment of the snapshot.
func (s *Snapshot) Config() Config {
	return s.config
}

// About returns the range of the rows, and the number of the next entry at the moment of the snapshot.
func (s *Snapshot) About() (About, error) {
	var about C.struct_antientropy_about
	held := s.at.reading()
	defer held.lock.RUnlock()
	return aboutOf(C.antientropy_snapshot_about(&held.handle, &about), &about)
}

// Bytes returns the size of the rows in bytes, as [Snapshot.Rows] returns them.
func (s *Snapshot) Bytes() (uint64, error) {
	var bytes C.uint64_t
	held := s.at.reading()
	defer held.lock.RUnlock()
	err := check(C.antientropy_snapshot_bytes(&held.handle, &bytes))
	return uint64(bytes), err
}

// Entries returns the number of the next entry at the moment of the snapshot: a log continues there.
func (s *Snapshot) Entries() uint64 {
	return s.entries
}

// Root returns the digest of the root.
func (s *Snapshot) Root() (Root, error) {
	var root Root
	var need C.uint64_t
	held := s.at.reading()
	defer held.lock.RUnlock()
	err := check(C.antientropy_root(&held.handle, bytesAt(root[:]), RootLen, &need))
	return root, err
}

// Digest returns the digest of a node of the tree. The root is node 0 at depth 0; the leaves are at depth 2, or at 3 in
// format 2. Refused as [ErrBadMessage] if the tree has no such node.
func (s *Snapshot) Digest(depth uint8, index uint16) (Root, error) {
	var digest Root
	var need C.uint64_t
	held := s.at.reading()
	defer held.lock.RUnlock()
	err := check(C.antientropy_digest(&held.handle, C.uint64_t(depth), C.uint64_t(index), bytesAt(digest[:]), RootLen,
		&need))
	return digest, err
}

// Offer returns the message that offers the snapshot. The caller numbers its offers.
func (s *Snapshot) Offer(number uint32) ([]byte, error) {
	held := s.at.reading()
	defer held.lock.RUnlock()
	return bytesOf(func(out *C.uint8_t, outLen C.size_t, need *C.uint64_t) C.uint32_t {
		return C.antientropy_offer(&held.handle, C.uint32_t(number), out, outLen, need)
	})
}

// Serve returns the answer to a partner's ask for the offer of that number. Refused as [ErrBadMessage] or [ErrGone].
func (s *Snapshot) Serve(number uint32, ask []byte) ([]byte, error) {
	held := s.at.reading()
	defer held.lock.RUnlock()
	return bytesOf(func(out *C.uint8_t, outLen C.size_t, need *C.uint64_t) C.uint32_t {
		return C.antientropy_serve(&held.handle, C.uint32_t(number), bytesAt(ask), C.size_t(len(ask)), out, outLen, need)
	})
}

// Rows returns the texts of the rows of a leaf. Refused as [ErrBadMessage] if the tree has no such leaf.
func (s *Snapshot) Rows(leaf uint16) ([]byte, error) {
	held := s.at.reading()
	defer held.lock.RUnlock()
	return bytesOf(func(out *C.uint8_t, outLen C.size_t, need *C.uint64_t) C.uint32_t {
		return C.antientropy_rows(&held.handle, C.uint64_t(leaf), out, outLen, need)
	})
}

// Row returns the text of the row of a key (docs/FORMATS.md). Refused as [ErrBadKey].
func (s *Snapshot) Row(key []byte) (row []byte, found bool, err error) {
	held := s.at.reading()
	defer held.lock.RUnlock()
	return bytesIfAny(func(out *C.uint8_t, outLen C.size_t, need *C.uint64_t) C.uint32_t {
		return C.antientropy_snapshot_get(&held.handle, bytesAt(key), C.size_t(len(key)), out, outLen, need)
	})
}
