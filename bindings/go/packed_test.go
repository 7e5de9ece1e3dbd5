package antientropy_test

import (
	"encoding/hex"
	"fmt"
	"strings"
	"testing"

	antientropy "example.org/antientropy/go"
)

// journalOf returns a replica of a format with entries of all sources and shapes that the format has.
func journalOf(format uint8) *antientropy.Replica {
	config := antientropy.Config{Format: format, Limit: 100}
	r, partner := must(antientropy.NewReplica(config)), must(antientropy.NewReplica(config))
	put(r, "cart", "")
	must(r.Put(1, []byte("cart"), []byte("milk"), clock(1, 1)))
	must(r.Accept([]byte(strings.Repeat("k", antientropy.KeyMax)), antientropy.Version{Clock: clockOfNodes(32)}))
	must(r.Accept([]byte("none"), antientropy.Version{Value: []byte("of an empty clock")}))
	put(partner, "tea", "green")
	snapshot := must(partner.Snapshot())
	takeAll(opened(r, must(snapshot.Offer(7))), snapshot, func() {})
	if format == 2 {
		must(r.PutTombstone(2, []byte("cart"), clock(1, 2)))
		must(r.Put(2, []byte("great"), []byte(strings.Repeat("v", antientropy.ValueMax2)), nil))
	}
	return r
}

// entriesOf returns the entries of a journal, read one by one.
func entriesOf(r *antientropy.Replica) []antientropy.Entry {
	var entries []antientropy.Entry
	for number, found := uint64(0), true; found; number++ {
		var entry antientropy.Entry
		var err error
		if entry, found, err = r.Entry(number); found {
			entries = append(entries, entry)
		}
		check(err)
	}
	return entries
}

// The entry of docs/FORMATS.md, and its form in format 1, which has no byte for the kind.
func TestPackedEntryOfThePage(t *testing.T) {
	for format, text := range map[uint8]string{
		1: "00" + "000161" + "0001" + "01" + "0001" + "0000000000000001" + "00000001" + "78",
		2: "00" + "000161" + "0001" + "00" + "01" + "0001" + "0000000000000001" + "00000001" + "78",
	} {
		r := must(antientropy.NewReplica(antientropy.Config{Format: format, Limit: 1}))
		put(r, "a", "x")
		want := antientropy.Packed{Bytes: must(hex.DecodeString(text)), Next: 1, Format: format}
		equal(t, must(r.PackedEntries(0)), want)
		equal(t, must(r.PackedEntries(1)), antientropy.Packed{Bytes: []byte{}, First: 1, Next: 1, Format: format})
	}
}

func TestEntriesOfAllKinds(t *testing.T) {
	for format := uint8(1); format <= 2; format++ {
		r := journalOf(format)
		entries := entriesOf(r)
		equal(t, uint64(len(entries)), must(r.Stats()).Entries)
		for start := range entries {
			equal(t, must(r.Entries(uint64(start)).All()), entries[start:])
		}
		equal(t, must(must(r.PackedEntries(2)).Entries().All()), entries[2:])
	}
}

// A journal of more bytes than one read returns, and an entry that is accepted during the scan. Entries are copies,
// which later reads leave unchanged.
func TestEntriesOfSeveralRooms(t *testing.T) {
	r := newReplica()
	value := func(n int) string { return strings.Repeat(string(rune('a'+n)), antientropy.ValueMax2) }
	for n := 0; n < 20; n++ {
		put(r, fmt.Sprint(n), value(n))
	}
	first := must(r.PackedEntries(0))
	equal(t, []bool{len(first.Bytes) <= 1<<20, first.Next > 10, first.Next < 20}, []bool{true, true, true})
	scanner, entries := r.Entries(0), []antientropy.Entry(nil)
	for scanner.Next() {
		if entries = append(entries, scanner.Item()); len(entries) == 20 {
			put(r, "20", value(20))
		}
	}
	for n, entry := range entries {
		got := []any{entry.Number, string(entry.Key), string(entry.Version.Value) == value(n)}
		equal(t, got, []any{uint64(n), fmt.Sprint(n), true})
	}
	equal(t, []any{len(entries), scanner.Err()}, []any{21, nil})
}

func TestAMigrationWhileEntriesAreScanned(t *testing.T) {
	r := must(antientropy.NewReplica(antientropy.Config{Format: 1, Limit: 2}))
	put(r, "a", "x")
	scanner := r.Entries(0)
	equal(t, []any{scanner.Next(), scanner.Item().Version}, []any{true, live(1, 1, "x")})
	check(r.Migrate())
	must(r.PutTombstone(1, []byte("b"), nil))
	gone := antientropy.Version{Clock: clock(1, 1), Value: []byte{}, Kind: antientropy.Tombstone}
	equal(t, []any{scanner.Next(), scanner.Item().Version, scanner.Next()}, []any{true, gone, false})
}

func TestBytesThatAreNoEntries(t *testing.T) {
	for format := uint8(1); format <= 2; format++ {
		packed := must(journalOf(format).PackedEntries(0))
		whole, ends := len(must(packed.Entries().All())), 0
		for length := 0; length < 700; length++ {
			cut := antientropy.Packed{Bytes: packed.Bytes[:length], Format: format}
			if entries, err := cut.Entries().All(); err == nil {
				equal(t, len(entries), ends)
				ends++
			} else {
				refused(t, err, antientropy.ErrRowBroken)
			}
		}
		equal(t, ends > 4 && ends <= whole+1, true)
	}
}

// use replaces versions of three keys, and takes a version of a partner: seven entries.
func use(t *testing.T, r *antientropy.Replica, n int) {
	for _, key := range []string{"a", "b", "c", "a", "b", "c"} {
		context := must(antientropy.MergeVersions(must(r.Get([]byte(key)))))
		must(r.Put(1, []byte(key), []byte(fmt.Sprint(n)), context))
	}
	partner := newReplica()
	must(partner.Put(2, []byte(fmt.Sprint(n)), []byte("of the partner"), nil))
	equal(t, must(syncFrom(r, partner)).Accepted, uint64(1))
}

// restores checks that entries of a log make a replica.
func restores(t *testing.T, r *antientropy.Replica, log []antientropy.Entry) {
	t.Helper()
	restored := newReplica()
	for _, entry := range log {
		must(restored.Accept(entry.Key, entry.Version))
	}
	equal(t, must(restored.Root()), must(r.Root()))
}

// The position of a log is never touched at a renewal: the log has each entry once, and restores everything.
func TestALogOverRenewals(t *testing.T) {
	r, log, position := withLimit(60), []antientropy.Entry(nil), uint64(0)
	for n := 0; n < 3; n++ {
		use(t, r, n)
		log = append(log, must(r.Entries(position).All())...)
		position = uint64(len(log))
		r = must(r.Renew(60))
		equal(t, len(must(r.Entries(position).All())), 0)
	}
	for number, entry := range log {
		equal(t, entry.Number, uint64(number))
	}
	equal(t, must(r.About()).Entries, position)
	restores(t, r, log)
}

func TestALogOfPackedEntriesOverRenewals(t *testing.T) {
	r, log, position := withLimit(60), []byte(nil), uint64(0)
	for n := 0; n < 3; n++ {
		use(t, r, n)
		packed := must(r.PackedEntries(position))
		log, position = append(log, packed.Bytes...), packed.Next
		r = must(r.Renew(60))
	}
	equal(t, position, uint64(21))
	restores(t, r, must(antientropy.Packed{Bytes: log, Format: 2}.Entries().All()))
}

// A reader that has missed entries is refused. From the journal's first number on, it reads everything that it has
// missed.
func TestPositionsOfNoEntry(t *testing.T) {
	r := withLimit(60)
	for n := 0; n < 2; n++ {
		use(t, r, n)
		r = must(r.Renew(60))
	}
	counts := must(r.Stats())
	equal(t, []uint64{counts.First, counts.Entries}, []uint64{9, 14})
	for position := uint64(0); position <= 15; position++ {
		if position == 9 || position == 14 {
			continue
		}
		unchanged(t, r, antientropy.ErrBadPosition, func() error { _, err := r.Entries(position).All(); return err })
		unchanged(t, r, antientropy.ErrBadPosition, func() error { _, err := r.PackedEntries(position); return err })
	}
	journal := must(r.Entries(9).All())
	for i, entry := range journal {
		equal(t, []any{entry.Number, entry.Source}, []any{uint64(9 + i), antientropy.SourceCopy})
	}
	restores(t, r, journal)
	use(t, r, 2)
	equal(t, must(r.Entries(14).All())[0].Number, uint64(14))
	equal(t, len(must(r.Entries(9).All())), 12)
}
