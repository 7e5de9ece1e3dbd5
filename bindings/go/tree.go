package antientropy

// #include <antientropy.h>
import "C"

// A Root is the digest of a root, or of another node of a tree. Replicas of a range with equal roots hold the same
// versions.
type Root [RootLen]byte

// A Spot has the range and the leaf of a key.
type Spot struct {
	Range uint16 // number of the range in the ring, from 0
	Leaf  uint16 // number of the leaf in the range's tree, from 0
}

// Place returns the range and the leaf of a key, in a ring of 2^bits ranges of format 1 or 2. Refused as [ErrBadRing]
// or [ErrBadKey].
func Place(format, bits uint8, key []byte) (Spot, error) {
	var spot C.struct_antientropy_spot
	err := check(C.antientropy_place(C.uint64_t(format), C.uint64_t(bits), bytesAt(key), C.size_t(len(key)), &spot))
	return Spot{Range: uint16(spot._range), Leaf: uint16(spot.leaf)}, err
}

// Rehash hashes all nodes of the tree that have no digest. Other goroutines wait meanwhile. Only
// [Replica.SnapshotIfClean] requires it.
func (r *Replica) Rehash() error {
	held := r.at.locked()
	defer held.lock.Unlock()
	return check(C.antientropy_rehash(&held.handle))
}

// RehashSome hashes at most `most` of the nodes that have no digest though all their children have one. It returns the
// number of nodes still without one. Repeat it until it returns 0; other goroutines make their calls in between.
func (r *Replica) RehashSome(most uint64) (left uint64, err error) {
	var nodes C.uint64_t
	held := r.at.locked()
	defer held.lock.Unlock()
	err = check(C.antientropy_rehash_some(&held.handle, C.uint64_t(most), &nodes))
	return uint64(nodes), err
}

// Root returns the digest of the current root. The rows are held as a moment, and hashed while other goroutines put.
func (r *Replica) Root() (Root, error) {
	snapshot, err := r.Snapshot()
	if err != nil {
		return Root{}, err
	}
	defer snapshot.Close()
	return snapshot.Root()
}
