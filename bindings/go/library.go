// Package antientropy has replicas of a range of a Dynamo-style store, over the proved C library antientropy.
//
// A [Replica] holds versions of keys. [Replica.Sync] fetches missing versions from a partner by messages that the
// program carries. [Hints] and [Slots] are independent of it.
//
// A call that the library refuses returns a [Refusal] as its error, and changes nothing: compare it by [errors.Is] with
// [ErrStaleContext], [ErrCrowded] and so on. Absence isn't an error: the result named found is false.
//
// Goroutines may share all objects, since each handle has a lock. Reads of a replica or a snapshot run concurrently; a
// call that changes it is exclusive.
//
// Close frees the memory. Calls after Close are refused as [ErrEmpty]. The garbage collector doesn't see the memory of
// C, so the package estimates it, and runs the collector when handles hold over twice the bytes that were left after
// the last collection, and 32 MiB. A goroutine of the package frees the handles that the collector finds, so no other
// finalizer waits for a large replica. Programs that close their handles cause few collections.
//
// The page docs/EMBEDDING_C.md has the duties of the program, above all that counters don't go back when it restarts.
package antientropy

// #cgo CFLAGS: -O2
// #cgo !antientropy_shared LDFLAGS: -l:libantientropy.a
// #cgo antientropy_shared LDFLAGS: -lantientropy
// #include <antientropy.h>
import "C"

// Limits, in bytes unless noted otherwise.
const (
	KeyMax          = C.ANTIENTROPY_KEY_MAX
	ValueMax1       = C.ANTIENTROPY_VALUE_MAX_1       // a value in format 1
	ValueMax2       = C.ANTIENTROPY_VALUE_MAX_2       // a value in format 2
	ClockMax        = C.ANTIENTROPY_CLOCK_MAX         // pairs of a clock
	VersionsMax     = C.ANTIENTROPY_VERSIONS_MAX      // versions of a key
	NodeMax         = C.ANTIENTROPY_NODE_MAX          // the greatest node number
	BitsMax         = C.ANTIENTROPY_BITS_MAX          // bits of a range's number
	EntriesMax      = C.ANTIENTROPY_ENTRIES_MAX       // entries of a journal
	SessionsMax     = C.ANTIENTROPY_SESSIONS_MAX      // sessions that a replica keeps
	OpenSessionsMax = C.ANTIENTROPY_OPEN_SESSIONS_MAX // open sessions of a replica
	Leaves1         = C.ANTIENTROPY_LEAVES_1          // leaves of a tree of format 1
	Leaves2         = C.ANTIENTROPY_LEAVES_2          // leaves of a tree of format 2
	Nodes1          = C.ANTIENTROPY_NODES_1           // nodes of a tree of format 1: maximum number of a session's asks
	Nodes2          = C.ANTIENTROPY_NODES_2           // nodes of a tree of format 2
	RootLen         = C.ANTIENTROPY_ROOT_LEN
	OfferLen        = C.ANTIENTROPY_OFFER_LEN
	AskLen          = C.ANTIENTROPY_ASK_LEN
	AskRoom         = C.ANTIENTROPY_ASK_ROOM  // the outline of a leaf of 1,361 rows
	RowMax          = C.ANTIENTROPY_ROW_MAX   // the text of a row
	EntryMax        = C.ANTIENTROPY_ENTRY_MAX // the text of an entry
	HintsMax        = C.ANTIENTROPY_HINTS_MAX // pending hints of a carrier
	SlotsMax        = C.ANTIENTROPY_SLOTS_MAX // the greatest ceiling of slots
)

// LibraryVersion returns the major, the minor and the patch number of the library's version.
func LibraryVersion() (major, minor, patch int) {
	version := int(C.antientropy_version())
	return version / 10_000, version / 100 % 100, version % 100
}
