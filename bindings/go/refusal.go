package antientropy

// #include <antientropy.h>
import "C"

import "strconv"

// A Refusal is the reason why the library refused a call: the number that the call returned.
//
// Except as antientropy.h says, a refused call changes nothing. The page docs/FORMATS.md has the remedy for each cause.
type Refusal uint32

// Causes of refusal.
const (
	// A node is 0, over 65,535 or repeated, or a counter is 0.
	ErrBadClock Refusal = C.ANTIENTROPY_BAD_CLOCK
	// The clock would have more than 32 pairs.
	ErrClockFull Refusal = C.ANTIENTROPY_CLOCK_FULL
	// The counter to raise is 2^64 - 1.
	ErrCounterFull Refusal = C.ANTIENTROPY_COUNTER_FULL
	// The key has no byte, or over 255.
	ErrBadKey Refusal = C.ANTIENTROPY_BAD_KEY
	// Too long; a tombstone with a value, or in format 1; or an unknown kind.
	ErrBadValue Refusal = C.ANTIENTROPY_BAD_VALUE
	// A held version has seen all of the new clock, or more of the node's puts than the context.
	ErrStaleContext Refusal = C.ANTIENTROPY_STALE_CONTEXT
	// The key would have over 64 versions.
	ErrCrowded Refusal = C.ANTIENTROPY_CROWDED
	// The entries don't fit into the journal, or a renewal has no numbers left.
	ErrJournalFull Refusal = C.ANTIENTROPY_JOURNAL_FULL
	// A key or an offer belongs to another range, or the rows to two leaves.
	ErrOtherRange Refusal = C.ANTIENTROPY_OTHER_RANGE
	// Some node has no digest, or the replica has no moment.
	ErrDirty Refusal = C.ANTIENTROPY_DIRTY
	// The replica isn't the renewal's: it was renewed or migrated meanwhile.
	ErrStale Refusal = C.ANTIENTROPY_STALE
	// No session has this number: no method returns it.
	ErrUnknownSession Refusal = C.ANTIENTROPY_UNKNOWN_SESSION
	// The node isn't outstanding.
	ErrNotAsked Refusal = C.ANTIENTROPY_NOT_ASKED
	// The text's digest isn't the expected one.
	ErrWrongDigest Refusal = C.ANTIENTROPY_WRONG_DIGEST
	// The digest matches, but the text isn't a node's: the session has failed.
	ErrNotCanonical Refusal = C.ANTIENTROPY_NOT_CANONICAL
	// The offer or the rows have another format.
	ErrOtherFormat Refusal = C.ANTIENTROPY_OTHER_FORMAT
	// 64 sessions are open, or 1,024 are kept: drop the ended ones.
	ErrSessionsFull Refusal = C.ANTIENTROPY_SESSIONS_FULL
	// No slot is free, or none is lent.
	ErrNoSlot Refusal = C.ANTIENTROPY_NO_SLOT
	// The time is before the latest one accepted.
	ErrClockBack Refusal = C.ANTIENTROPY_CLOCK_BACK
	// No pending hint has this number, or no hint can have it.
	ErrUnknownHint Refusal = C.ANTIENTROPY_UNKNOWN_HINT
	// 10,000 hints are pending, or the last number was used.
	ErrHintsFull Refusal = C.ANTIENTROPY_HINTS_FULL
	// The ask is for another offer.
	ErrGone Refusal = C.ANTIENTROPY_GONE
	// A format, or the numbers of a range or of slots, are outside the limits.
	ErrBadRing Refusal = C.ANTIENTROPY_BAD_RING
	// The bytes aren't texts of rows.
	ErrRowBroken Refusal = C.ANTIENTROPY_ROW_BROKEN
	// Not a message, not the expected kind, or a node that isn't in the tree.
	ErrBadMessage Refusal = C.ANTIENTROPY_BAD_MESSAGE
	// Malloc or realloc failed.
	ErrNoMemory Refusal = C.ANTIENTROPY_NO_MEMORY
	// The buffer is too small: no method returns it.
	ErrSmall Refusal = C.ANTIENTROPY_SMALL
	// The handle is empty: it was closed.
	ErrEmpty Refusal = C.ANTIENTROPY_EMPTY
	// The handle isn't empty: no method returns it.
	ErrHeld Refusal = C.ANTIENTROPY_HELD
	// No such version, entry, hint or leaf, or none follows: methods return false instead.
	ErrNoVersion Refusal = C.ANTIENTROPY_NO_VERSION
	// Entries can't be read from this number on.
	ErrBadPosition Refusal = C.ANTIENTROPY_BAD_POSITION
)

// Name returns the library's name of the cause, such as "StaleContext": the empty string for an unknown cause.
func (r Refusal) Name() string {
	var name [C.ANTIENTROPY_NAME_MAX]byte
	var need C.uint64_t
	if C.antientropy_name(C.uint32_t(r), bytesAt(name[:]), C.ANTIENTROPY_NAME_MAX, &need) != C.ANTIENTROPY_OK {
		return ""
	}
	return string(name[:need])
}

// Error returns the name of the cause, after the name of the package.
func (r Refusal) Error() string {
	name := r.Name()
	if name == "" {
		name = "refusal " + strconv.FormatUint(uint64(r), 10)
	}
	return "antientropy: " + name
}

// check returns the error of a call that returned a number.
func check(number C.uint32_t) error {
	if number == C.ANTIENTROPY_OK {
		return nil
	}
	return Refusal(number)
}

// isFound returns true if a call found something, and the error of the call. Absence isn't an error.
func isFound(number C.uint32_t) (bool, error) {
	if number == C.ANTIENTROPY_NO_VERSION {
		return false, nil
	}
	return number == C.ANTIENTROPY_OK, check(number)
}
