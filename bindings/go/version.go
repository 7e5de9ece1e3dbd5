package antientropy

// #include <antientropy.h>
import "C"

// A Kind is a kind of versions.
type Kind uint8

// Kinds of versions.
const (
	Live      Kind = C.ANTIENTROPY_LIVE      // the version has a value
	Tombstone Kind = C.ANTIENTROPY_TOMBSTONE // the version marks the key as removed
)

// String returns the name of the kind.
func (k Kind) String() string {
	return nameOf(uint64(k), "Live", "Tombstone")
}

// A Version is a version of a key.
type Version struct {
	Clock Clock  // clock of the version
	Value []byte // value of the version: no bytes for a tombstone
	Kind  Kind   // Live or Tombstone
}
