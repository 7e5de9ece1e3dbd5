package antientropy

// #include "calls.h"
import "C"

// Get returns all versions held for a key at one moment. Several versions are concurrent. A tombstone's value has no
// bytes.
func (r *Replica) Get(key []byte) ([]Version, error) {
	held := r.at.reading()
	defer held.lock.RUnlock()
	room := takeRoom()
	defer room.giveBack()
	bytes, number := room.fill(func(out *C.uint8_t, outLen C.size_t, need *C.uint64_t) C.uint32_t {
		return C.antientropy_go_read(held.memory(), bytesAt(key), C.size_t(len(key)), out, outLen, need)
	})
	if len(bytes) == 0 {
		return nil, check(number)
	}
	versions := make([]Version, 0, 1)
	for len(bytes) > 0 {
		var first record
		first, bytes = firstRecord(bytes)
		versions = append(versions, first.version())
	}
	return versions, nil
}

// Row returns the text of the row of a key (docs/FORMATS.md). Refused as [ErrBadKey].
func (r *Replica) Row(key []byte) (row []byte, found bool, err error) {
	held := r.at.reading()
	defer held.lock.RUnlock()
	return bytesIfAny(func(out *C.uint8_t, outLen C.size_t, need *C.uint64_t) C.uint32_t {
		return C.antientropy_get(&held.handle, bytesAt(key), C.size_t(len(key)), out, outLen, need)
	})
}
