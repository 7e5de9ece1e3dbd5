package antientropy

// #include "calls.h"
import "C"

// A Source is the source of an entry's version.
type Source uint64

// Sources of an entry's version.
const (
	SourcePut     Source = C.ANTIENTROPY_PUT     // a put at this replica
	SourceCopy    Source = C.ANTIENTROPY_COPY    // accepted or loaded here, or carried over by a renewal
	SourceHint    Source = C.ANTIENTROPY_HINT    // a hint that was delivered: the library takes it as a copy
	SourcePartner Source = C.ANTIENTROPY_PARTNER // a partner's, in a session
)

// String returns the name of the source.
func (s Source) String() string {
	return nameOf(uint64(s), "Put", "Copy", "Hint", "Partner")
}

// An Entry is an entry of a journal: an accepted version, with its key and its source.
type Entry struct {
	Number  uint64 // number of the entry; numbering continues over renewals
	Key     []byte // key of the version
	Version Version
	Source  Source // source of the version
}

// Entry returns an entry of the journal, by its number.
func (r *Replica) Entry(number uint64) (entry Entry, found bool, err error) {
	held := r.at.reading()
	defer held.lock.RUnlock()
	room := takeRoom()
	defer room.giveBack()
	bytes, got := room.fill(func(out *C.uint8_t, outLen C.size_t, need *C.uint64_t) C.uint32_t {
		return C.antientropy_go_entry(&held.handle, C.uint64_t(number), out, outLen, need)
	})
	if found, err = isFound(got); !found {
		return Entry{}, false, err
	}
	read, _ := firstRecord(bytes)
	entry = Entry{Number: number, Key: clone(read.key), Version: read.version(), Source: Source(read.head.origin)}
	return entry, true, nil
}

// Entries returns a scanner of the journal's entries, from a number on. The whole journal begins at First of the Stats.
// A log reads on from the number of its next entry. A renewal skips no entry for a log that had all of them.
//
// Its error is [ErrBadPosition] if entries were missed, or if the number isn't one of this journal: it is over the
// count of entries, or below the count at the last renewal and not First of the Stats. After that error, read the whole
// journal.
func (r *Replica) Entries(start uint64) *Scanner[Entry] {
	packed, texts := Packed{Next: start}, new(unpacker)
	return scan(func() (Entry, bool, error) {
		if len(texts.rest) == 0 {
			var err error
			if packed, err = r.pack(packed.Next, packed.Bytes[:cap(packed.Bytes)]); err != nil {
				return Entry{}, false, err
			}
			texts = packed.unpacker()
		}
		return texts.next()
	})
}

// TopCounter returns the greatest counter of a node in the clocks of a key's versions, or 0. It looks at the journal's
// entries of numbers below `entries`, or at all if there are fewer. Refused as [ErrBadClock] if the node is 0.
func (r *Replica) TopCounter(node Node, key []byte, entries uint64) (uint64, error) {
	var counter C.uint64_t
	held := r.at.reading()
	defer held.lock.RUnlock()
	err := check(C.antientropy_top_counter(&held.handle, C.uint64_t(node), bytesAt(key), C.size_t(len(key)),
		C.uint64_t(entries), &counter))
	return uint64(counter), err
}
