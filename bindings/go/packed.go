package antientropy

// #include <antientropy.h>
import "C"

// packedRoom is the number of bytes of packed entries to read at a time.
const packedRoom = 1 << 20

// Packed has the concatenated texts of journal entries (docs/FORMATS.md, "Row texts").
type Packed struct {
	Bytes  []byte // texts of the entries: none if no entry follows
	First  uint64 // number of the first entry
	Next   uint64 // number after the last entry: continue there
	Format uint8  // format of the texts
}

// PackedEntries returns the texts of entries from a number on, up to 1 MiB, for a log that stores them unchanged.
// Refused as [Replica.Entries].
func (r *Replica) PackedEntries(start uint64) (Packed, error) {
	return r.pack(start, nil)
}

// pack returns packed entries in a buffer: in a new one if room is nil or too small for an entry.
func (r *Replica) pack(start uint64, room []byte) (Packed, error) {
	held := r.at.reading()
	defer held.lock.RUnlock()
	return held.pack(start, room)
}

// pack returns packed entries in a buffer. The caller holds the lock.
func (r *replica) pack(start uint64, room []byte) (Packed, error) {
	about, err := r.about()
	if err != nil {
		return Packed{}, err
	}
	if len(room) == 0 {
		room = make([]byte, packedLen(about.Entries-start))
	}
	var need, next C.uint64_t
	call := func() C.uint32_t {
		return C.antientropy_entries(&r.handle, C.uint64_t(start), bytesAt(room), C.size_t(len(room)), &need, &next)
	}
	number := call()
	if number == C.ANTIENTROPY_SMALL {
		room = make([]byte, need)
		number = call()
	}
	if err := check(number); err != nil {
		return Packed{}, err
	}
	return Packed{Bytes: room[:need], First: start, Next: uint64(next), Format: about.Format}, nil
}

// packedLen returns the size of a buffer for a number of entries: it fits at least one.
func packedLen(entries uint64) int {
	if entries < packedRoom/EntryMax {
		return int(entries) * EntryMax
	}
	return packedRoom
}

// Entries returns a scanner of the entries. Its error is [ErrRowBroken] if the bytes aren't whole entries of the
// format. That detects little damage of a log, which needs checksums.
func (p Packed) Entries() *Scanner[Entry] {
	return scan(p.unpacker().next)
}

func (p Packed) unpacker() *unpacker {
	return &unpacker{rest: p.Bytes, number: p.First, hasKind: p.Format != 1}
}

// An unpacker iterates over packed entries.
type unpacker struct {
	rest    []byte // entries that remain
	number  uint64 // number of the first of them
	hasKind bool   // true if the texts have a byte for the kind
	isCut   bool   // true if bytes were missing
}

// next returns a copy of the first remaining entry, or false at the end.
func (u *unpacker) next() (Entry, bool, error) {
	if len(u.rest) == 0 {
		return Entry{}, false, nil
	}
	entry := Entry{Number: u.number, Source: Source(u.takeNumber(1))}
	entry.Key = clone(u.take(u.takeNumber(2)))
	u.take(2) // the number of versions: one
	entry.Version = u.takeVersion()
	if u.isCut {
		return Entry{}, false, ErrRowBroken
	}
	u.number++
	return entry, true, nil
}

// takeVersion returns a copy of the first remaining version.
func (u *unpacker) takeVersion() (version Version) {
	if u.hasKind {
		version.Kind = Kind(u.takeNumber(1))
	}
	version.Clock = make(Clock, u.takeNumber(1))
	for i := range version.Clock {
		version.Clock[i] = Pair{Node: Node(u.takeNumber(2)), Counter: u.takeNumber(8)}
	}
	version.Value = clone(u.take(u.takeNumber(4)))
	return version
}

// takeNumber returns the number in the next bytes, most significant byte first.
func (u *unpacker) takeNumber(bytes uint64) (number uint64) {
	for _, digit := range u.take(bytes) {
		number = number<<8 | uint64(digit)
	}
	return number
}

// take returns a number of bytes: none if there are fewer.
func (u *unpacker) take(count uint64) []byte {
	if count > uint64(len(u.rest)) {
		u.isCut = true
		return nil
	}
	taken := u.rest[:count]
	u.rest = u.rest[count:]
	return taken
}
