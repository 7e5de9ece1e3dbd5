package antientropy

// #include <antientropy.h>
import "C"

import (
	"errors"
	"fmt"
)

// Loaded is the result of loading rows.
type Loaded struct {
	Taken uint64 // number of new versions: they are now entries of the journal
	Known uint64 // number of known versions
}

// A RowError is a refusal of rows as [ErrRowBroken], with the offset of the damage.
type RowError struct {
	Offset uint64 // offset of the broken field, in bytes
}

// Error returns the name of the refusal, and the offset.
func (e *RowError) Error() string {
	return fmt.Sprintf("%v at byte %d", ErrRowBroken, e.Offset)
}

// Unwrap returns [ErrRowBroken].
func (e *RowError) Unwrap() error {
	return ErrRowBroken
}

// LoadRows accepts all versions in rows of one leaf as copies, or none of them. [Snapshot.Rows] and [Replica.Row]
// return such rows.
//
// Refused as [ErrRowBroken] by a [RowError], and as [ErrOtherRange], [ErrCrowded] or [ErrJournalFull].
func (r *Replica) LoadRows(rows []byte) (Loaded, error) {
	var loaded C.struct_antientropy_loaded
	held := r.at.locked()
	defer held.lock.Unlock()
	number := C.antientropy_load(&held.handle, bytesAt(rows), C.size_t(len(rows)), &loaded)
	held.weight.addVersions(int(loaded.taken), len(rows))
	held.countAndRenewIfDue()
	return loadedOf(number, &loaded)
}

// LoadFormat accepts all versions in rows of a format and of any leaves, in ascending order of key, as copies, or none
// of them. A replica of format 2 loads rows of format 1 too.
//
// Refused as [ErrBadRing] (the format is neither 1 nor 2) and [ErrOtherFormat] (rows of format 2, replica of format 1),
// as [ErrRowBroken] by a [RowError], and as [ErrOtherRange], [ErrCrowded] or [ErrJournalFull].
func (r *Replica) LoadFormat(format uint8, rows []byte) (Loaded, error) {
	var loaded C.struct_antientropy_loaded
	held := r.at.locked()
	defer held.lock.Unlock()
	number := C.antientropy_load_format(&held.handle, C.uint64_t(format), bytesAt(rows), C.size_t(len(rows)), &loaded)
	held.weight.addVersions(int(loaded.taken), len(rows))
	held.countAndRenewIfDue()
	return loadedOf(number, &loaded)
}

// loadedOf returns the result of a call that loads rows.
func loadedOf(number C.uint32_t, loaded *C.struct_antientropy_loaded) (Loaded, error) {
	err := check(number)
	if errors.Is(err, ErrRowBroken) {
		err = &RowError{Offset: uint64(loaded.offset)}
	}
	return Loaded{Taken: uint64(loaded.taken), Known: uint64(loaded.known)}, err
}
