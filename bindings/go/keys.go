package antientropy

// #include <antientropy.h>
import "C"

import "errors"

// KeyAfter returns the least key of a leaf above a key, or the first one for a key of no bytes.
//
// Refused as [ErrBadMessage] if the tree has no such leaf.
func (r *Replica) KeyAfter(leaf uint16, key []byte) (next []byte, found bool, err error) {
	held := r.at.reading()
	defer held.lock.RUnlock()
	return bytesIfFound(func(out *C.uint8_t, outLen C.size_t, need *C.uint64_t) C.uint32_t {
		return C.antientropy_key_after(&held.handle, C.uint64_t(leaf), bytesAt(key), C.size_t(len(key)), out, outLen, need)
	})
}

// A seenKey is the last key of a leaf that a scanner has read.
type seenKey struct {
	leaf C.uint64_t
	key  [KeyMax]byte
	len  C.uint64_t
}

// A keyNext returns the key of a leaf after the seen one, and marks it as seen.
type keyNext func(seen *seenKey) (next []byte, found bool, err error)

// read returns the key that a call has written, unless the call was refused.
func (s *seenKey) read(number C.uint32_t) (key []byte, found bool, err error) {
	if found, err = isFound(number); !found {
		return nil, false, err
	}
	return clone(s.key[:s.len]), true, nil
}

// scanKeys returns a scanner of the keys, leaf by leaf.
func scanKeys(next keyNext) *Scanner[[]byte] {
	var seen seenKey
	return scan(func() ([]byte, bool, error) {
		for {
			key, found, err := next(&seen)
			if errors.Is(err, ErrBadMessage) {
				return nil, false, nil // there are no more leaves
			}
			if found || err != nil {
				return key, found, err
			}
			seen = seenKey{leaf: seen.leaf + 1}
		}
	})
}

// scanKeysOf returns a scanner of the keys of a leaf.
func scanKeysOf(leaf uint16, next keyNext) *Scanner[[]byte] {
	seen := seenKey{leaf: C.uint64_t(leaf)}
	return scan(func() ([]byte, bool, error) {
		return next(&seen)
	})
}

func (r *Replica) keyNext(seen *seenKey) (next []byte, found bool, err error) {
	held := r.at.reading()
	defer held.lock.RUnlock()
	return seen.read(C.antientropy_key_next(&held.handle, seen.leaf, bytesAt(seen.key[:]), KeyMax, &seen.len))
}

// Keys returns a scanner of the keys, leaf by leaf. Keys put meanwhile are included if the scan hasn't passed them.
func (r *Replica) Keys() *Scanner[[]byte] {
	return scanKeys(r.keyNext)
}

// KeysOf returns a scanner of the keys of a leaf, in ascending order. Its error is [ErrBadMessage] if the tree has no
// such leaf.
func (r *Replica) KeysOf(leaf uint16) *Scanner[[]byte] {
	return scanKeysOf(leaf, r.keyNext)
}

func (s *Snapshot) keyNext(seen *seenKey) (next []byte, found bool, err error) {
	held := s.at.reading()
	defer held.lock.RUnlock()
	return seen.read(C.antientropy_snapshot_key_next(&held.handle, seen.leaf, bytesAt(seen.key[:]), KeyMax, &seen.len))
}

// Keys returns a scanner of the keys, leaf by leaf.
func (s *Snapshot) Keys() *Scanner[[]byte] {
	return scanKeys(s.keyNext)
}

// KeysOf returns a scanner of the keys of a leaf, in ascending order. Its error is [ErrBadMessage] if the tree has no
// such leaf.
func (s *Snapshot) KeysOf(leaf uint16) *Scanner[[]byte] {
	return scanKeysOf(leaf, s.keyNext)
}
