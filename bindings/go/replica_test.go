package antientropy_test

import (
	"errors"
	"fmt"
	"math"
	"sort"
	"strings"
	"testing"

	antientropy "example.org/antientropy/go"
)

func TestPutAndRead(t *testing.T) {
	r, key := newReplica(), []byte("cart")
	equal(t, put(r, "cart", "milk"), antientropy.Receipt{Number: 0, Counter: 1})
	equal(t, must(r.Accept(key, live(2, 4, "eggs"))), true)
	equal(t, must(r.Accept(key, live(2, 4, "eggs"))), false)
	both := []antientropy.Version{live(1, 1, "milk"), live(2, 4, "eggs")}
	equal(t, must(r.Get(key)), both)
	row, found, err := r.Row(key)
	equal(t, []any{strings.HasPrefix(string(row), "\x00\x04cart\x00\x02"), found, err}, []any{true, true, nil})
}

func TestNothingIsHeld(t *testing.T) {
	r, key := newReplica(), []byte("cart")
	equal(t, must(r.Get(key)), []antientropy.Version(nil))
	_, found, err := r.Row(key)
	equal(t, []any{found, err}, []any{false, nil})
	_, found, err = r.Entry(0)
	equal(t, []any{found, err}, []any{false, nil})
	_, found, err = r.KeyAfter(0, nil)
	equal(t, []any{found, err}, []any{false, nil})
	equal(t, len(must(r.Keys().All())), 0)
}

func TestTombstonesAndEmptyValues(t *testing.T) {
	r := newReplica()
	must(r.PutTombstone(1, []byte("gone"), nil))
	put(r, "empty", "")
	gone := antientropy.Version{Clock: clock(1, 1), Value: []byte{}, Kind: antientropy.Tombstone}
	equal(t, must(r.Get([]byte("gone"))), []antientropy.Version{gone})
	equal(t, must(r.Get([]byte("empty"))), []antientropy.Version{live(1, 1, "")})
	entry, _, err := r.Entry(0)
	equal(t, []any{entry.Version, err}, []any{gone, nil})
}

// Values around the lengths of buffers, in one version and in several.
func TestLongValues(t *testing.T) {
	for _, length := range []int{3500, 3536, 3537, 4096, 60_000, antientropy.ValueMax2} {
		r, key, value := newReplica(), []byte("long"), strings.Repeat("value", 1+length/5)[:length]
		put(r, "long", value)
		must(r.Accept(key, live(2, 1, "short")))
		must(r.Accept(key, live(3, 1, value)))
		equal(t, must(r.Get(key)), []antientropy.Version{live(1, 1, value), live(2, 1, "short"), live(3, 1, value)})
		equal(t, must(r.Get(key))[1], live(2, 1, "short"))
		entry, _, err := r.Entry(2)
		equal(t, []any{entry.Version, err}, []any{live(3, 1, value), nil})
	}
}

func TestVersionsOfTheGreatestSize(t *testing.T) {
	r, key, value := newReplica(), []byte("key"), strings.Repeat("v", antientropy.ValueMax2)
	for node := uint64(1); node <= antientropy.VersionsMax; node++ {
		version := live(100+node, 1, value)
		for counter := uint64(1); counter < antientropy.ClockMax; counter++ {
			version.Clock = append(version.Clock, clock(1000*node+counter, counter)...)
		}
		must(r.Accept(key, version))
	}
	versions := must(r.Get(key))
	equal(t, len(versions), antientropy.VersionsMax)
	for i, version := range versions {
		equal(t, string(version.Value) == value && len(version.Clock) == antientropy.ClockMax, true)
		equal(t, version.Clock.Counter(antientropy.Node(101+i)), uint64(1))
	}
}

// A result is a copy, which later calls leave unchanged.
func TestResultsAreCopies(t *testing.T) {
	r := newReplica()
	put(r, "cart", "milk")
	put(r, "gift", "toys")
	cart, entry := must(r.Get([]byte("cart"))), must(r.Entries(0).All())[0]
	must(r.Get([]byte("gift")))
	must(r.Entries(0).All())
	equal(t, cart, []antientropy.Version{live(1, 1, "milk")})
	equal(t, []any{string(entry.Key), entry.Version}, []any{"cart", live(1, 1, "milk")})
}

func TestKeysAndEntries(t *testing.T) {
	r := filled(300)
	var keys, entries []string
	for _, key := range must(r.Keys().All()) {
		keys = append(keys, string(key))
	}
	for _, entry := range must(r.Entries(0).All()) {
		entries = append(entries, string(entry.Key))
	}
	sort.Strings(keys)
	sort.Strings(entries)
	equal(t, len(keys), 300)
	equal(t, keys, entries)
	leaf := must(antientropy.Place(2, 0, []byte("key 7"))).Leaf
	of := must(r.KeysOf(leaf).All())
	first, found, err := r.KeyAfter(leaf, nil)
	equal(t, []any{first, found, err}, []any{of[0], true, nil})
	last := must(r.Entries(299).All())
	want := antientropy.Entry{Number: 299, Key: []byte("key 299"), Version: live(1, 1, "value")}
	equal(t, last, []antientropy.Entry{want})
}

// Of two clients that read the same versions, the second to put is refused, or replaces the version of the first.
func TestTwoClients(t *testing.T) {
	r, key, both := newReplica(), []byte("cart"), clock(1, 1, 2, 1)
	put(r, "cart", "milk")
	must(r.Accept(key, live(2, 1, "eggs")))
	must(r.Put(1, key, []byte("bread"), clock(1, 1)))
	unchanged(t, r, antientropy.ErrStaleContext, func() error { _, err := r.Put(1, key, []byte("tea"), both); return err })
	unchanged(t, r, antientropy.ErrStaleContext, func() error { _, err := r.PutTombstone(1, key, both); return err })
	equal(t, []uint64{must(r.TopCounter(1, key, math.MaxUint64)), must(r.TopCounter(1, key, 2))}, []uint64{2, 1})
	_, err := r.TopCounter(0, key, 1)
	refused(t, err, antientropy.ErrBadClock)
	must(r.PutUnread(1, key, []byte("tea"), both))
	equal(t, must(r.Get(key)), []antientropy.Version{{Clock: clock(1, 2, 2, 1), Value: []byte("tea")}})
	must(r.PutTombstoneUnread(1, key, clock(1, 2, 2, 1)))
	equal(t, must(r.Get(key))[0].Kind, antientropy.Tombstone)
}

// Changing a scanned key doesn't change the scan.
func TestScannedKeysAreTheCallers(t *testing.T) {
	r, count := filled(300), 0
	keys := r.Keys()
	for ; keys.Next(); count++ {
		for i := range keys.Item() {
			keys.Item()[i] = 0xff
		}
	}
	equal(t, []any{count, keys.Err(), keys.Next()}, []any{300, nil, false})
}

func TestKeysOfNoLeaf(t *testing.T) {
	r := filled(3)
	_, _, err := r.KeyAfter(antientropy.Leaves2, nil)
	refused(t, err, antientropy.ErrBadMessage)
	_, err = r.KeysOf(antientropy.Leaves2).All()
	refused(t, err, antientropy.ErrBadMessage)
}

func TestCountsAndRenewal(t *testing.T) {
	r := withLimit(10)
	first := put(r, "cart", "milk")
	must(r.Put(1, []byte("cart"), []byte("eggs"), clock(1, first.Counter)))
	check(r.Rehash())
	equal(t, must(r.Stats()), antientropy.Stats{Entries: 2, Limit: 10})
	renewed := must(r.Renew(5))
	equal(t, must(renewed.Stats()), antientropy.Stats{Entries: 2, Limit: 5, First: 1, Front: 1})
	equal(t, renewed.Config(), antientropy.Config{Format: 2, Limit: 5})
	equal(t, must(renewed.Get([]byte("cart"))), must(r.Get([]byte("cart"))))
	_, err := r.Renew(0)
	refused(t, err, antientropy.ErrBadRing)
}

// lengthOfRows returns the total length of the rows that a replica holds.
func lengthOfRows(r *antientropy.Replica) (length uint64) {
	for _, row := range stateOf(r).rows {
		length += uint64(len(row))
	}
	return length
}

// lengthOfEntries returns the total length of the entries of a journal, with 10 bytes for each pair of a clock.
func lengthOfEntries(r *antientropy.Replica) (length uint64) {
	for _, entry := range stateOf(r).entries {
		length += uint64(len(entry.Key) + len(entry.Version.Value) + 10*len(entry.Version.Clock))
	}
	return length
}

func TestBytes(t *testing.T) {
	r := newReplica()
	equal(t, must(r.Bytes()), antientropy.Bytes{})
	put(r, "cart", "milk")
	must(r.Put(1, []byte("cart"), []byte("milk, eggs"), clock(1, 1, 7, 3)))
	must(r.Accept([]byte("list"), antientropy.Version{Clock: clock(2, 5), Kind: antientropy.Tombstone}))
	snapshot, rows, journal := must(r.Snapshot()), lengthOfRows(r), lengthOfEntries(r)
	equal(t, []any{journal, rows != journal}, []any{uint64(8 + 10 + 14 + 20 + 4 + 10), true})
	equal(t, must(r.Bytes()), antientropy.Bytes{Rows: rows, Journal: journal})
	put(r, "gift", "tea")
	equal(t, must(r.Bytes()), antientropy.Bytes{Rows: lengthOfRows(r), Journal: journal + 17})
	equal(t, []any{must(snapshot.Bytes()), must(r.Bytes()).Rows > rows}, []any{rows, true})
	renewed := must(r.Renew(10))
	equal(t, must(renewed.Bytes()), antientropy.Bytes{Rows: lengthOfRows(r), Journal: lengthOfEntries(renewed)})
	equal(t, must(renewed.Bytes()).Journal, journal-1)
}

func TestAbout(t *testing.T) {
	config := antientropy.Config{Format: 1, Bits: 4, Range: 9, Limit: 10}
	r := must(antientropy.NewReplica(config))
	equal(t, must(r.About()), antientropy.About{Format: 1, Bits: 4, Range: 9})
	put(r, "abc", "x")
	check(r.Migrate())
	about := antientropy.About{Format: 2, Bits: 4, Range: 9, Entries: 1}
	equal(t, []any{must(r.About()), must(must(r.Renew(10)).About())}, []any{about, about})
	seeded := must(antientropy.NewSeededReplica(config, 1, 2))
	equal(t, must(seeded.About()), antientropy.About{Format: 1, Bits: 4, Range: 9})
	equal(t, r.Config(), antientropy.Config{Format: 2, Bits: 4, Range: 9, Limit: 10})
	check(r.Close())
	equal(t, r.Config(), antientropy.Config{})
}

func TestMigration(t *testing.T) {
	r := must(antientropy.NewReplica(antientropy.Config{Format: 1, Limit: 10}))
	put(r, "cart", "milk")
	tombstone := func() error { _, err := r.PutTombstone(1, []byte("cart"), clock(1, 1)); return err }
	unchanged(t, r, antientropy.ErrBadValue, tombstone)
	check(r.Migrate())
	equal(t, []any{r.Config().Format, must(r.Snapshot()).Config().Format}, []any{uint8(2), uint8(2)})
	check(tombstone())
}

func TestBadRings(t *testing.T) {
	for _, config := range []antientropy.Config{
		{Format: 0, Limit: 1},
		{Format: 3, Limit: 1},
		{Format: 2, Bits: 9, Limit: 1},
		{Format: 2, Range: 1, Limit: 1},
		{Format: 2, Limit: 0},
		{Format: 2, Limit: antientropy.EntriesMax + 1},
	} {
		_, err := antientropy.NewReplica(config)
		refused(t, err, antientropy.ErrBadRing)
		_, err = antientropy.NewSeededReplica(config, 1, 2)
		refused(t, err, antientropy.ErrBadRing)
	}
}

func TestRefusedPuts(t *testing.T) {
	r := filled(1)
	for _, put := range []struct {
		cause      antientropy.Refusal
		node       antientropy.Node
		key, value string
		context    antientropy.Clock
	}{
		{antientropy.ErrBadClock, 0, "key", "", nil},
		{antientropy.ErrBadClock, antientropy.NodeMax + 1, "key", "", nil},
		{antientropy.ErrBadClock, 1, "key", "", clock(1, 0)},
		{antientropy.ErrBadClock, 1, "key", "", clock(65_536, 1)},
		{antientropy.ErrBadClock, 1, "key", "", clock(2, 1, 2, 3)},
		{antientropy.ErrClockFull, 1, "key", "", clockOfNodes(33)},
		{antientropy.ErrClockFull, 33, "key", "", clockOfNodes(32)},
		{antientropy.ErrCounterFull, 1, "key", "", clock(1, math.MaxUint64)},
		{antientropy.ErrBadKey, 1, "", "", nil},
		{antientropy.ErrBadKey, 1, strings.Repeat("k", 256), "", nil},
		{antientropy.ErrBadValue, 1, "key", strings.Repeat("v", 65_537), nil},
		{antientropy.ErrStaleContext, 1, "key 0", "", nil},
	} {
		unchanged(t, r, put.cause, func() error {
			_, err := r.Put(put.node, []byte(put.key), []byte(put.value), put.context)
			return err
		})
	}
}

func TestRefusedKinds(t *testing.T) {
	r := newReplica()
	for _, version := range []antientropy.Version{
		{Clock: clock(1, 1), Value: []byte("value"), Kind: antientropy.Tombstone},
		{Clock: clock(1, 1), Kind: 2},
	} {
		accept := func() error { _, err := r.Accept([]byte("key"), version); return err }
		unchanged(t, r, antientropy.ErrBadValue, accept)
	}
}

func TestOtherRange(t *testing.T) {
	other := 1 - must(antientropy.Place(2, 1, []byte("key"))).Range
	r := must(antientropy.NewReplica(antientropy.Config{Format: 2, Bits: 1, Range: other, Limit: 10}))
	unchanged(t, r, antientropy.ErrOtherRange, func() error { _, err := r.Put(1, []byte("key"), nil, nil); return err })
	unchanged(t, r, antientropy.ErrOtherRange, func() error {
		_, err := r.Accept([]byte("key"), live(1, 1, ""))
		return err
	})
}

func TestCrowded(t *testing.T) {
	r := newReplica()
	crowd(r, "key")
	equal(t, len(must(r.Get([]byte("key")))), antientropy.VersionsMax)
	unchanged(t, r, antientropy.ErrCrowded, func() error {
		_, err := r.Accept([]byte("key"), live(65, 1, ""))
		return err
	})
}

func TestJournalFull(t *testing.T) {
	r := withLimit(1)
	put(r, "key", "")
	unchanged(t, r, antientropy.ErrJournalFull, func() error {
		_, err := r.Put(1, []byte("other"), nil, nil)
		return err
	})
}

func TestRowsAreLoaded(t *testing.T) {
	from, to := filled(3), newReplica()
	row, _, err := from.Row([]byte("key 1"))
	check(err)
	equal(t, must(to.LoadRows(row)), antientropy.Loaded{Taken: 1})
	equal(t, must(to.LoadRows(row)), antientropy.Loaded{Known: 1})
	equal(t, must(to.Entries(0).All())[0].Source, antientropy.SourceCopy)
	_, _, err = from.Row(nil)
	refused(t, err, antientropy.ErrBadKey)
}

func TestRowsOfBeforeAMigration(t *testing.T) {
	config := antientropy.Config{Format: 1, Limit: 100}
	r, again, to := must(antientropy.NewReplica(config)), must(antientropy.NewReplica(config)), newReplica()
	var rows []byte
	for n := 0; n < 10; n++ {
		key := fmt.Sprint("key ", n)
		put(r, key, "value")
		row, _, err := r.Row([]byte(key))
		check(err)
		rows = append(rows, row...)
	}
	equal(t, must(to.LoadFormat(1, rows)), antientropy.Loaded{Taken: 10})
	equal(t, must(again.LoadFormat(1, rows)), antientropy.Loaded{Taken: 10})
	equal(t, must(again.Root()), must(r.Root()))
	check(r.Migrate())
	equal(t, must(to.Root()), must(r.Root()))
	unchanged(t, to, antientropy.ErrBadRing, func() error { _, err := to.LoadFormat(3, rows); return err })
	unchanged(t, again, antientropy.ErrOtherFormat, func() error { _, err := again.LoadFormat(2, rows); return err })
	_, err := to.LoadFormat(1, rows[:len(rows)-1])
	var broken *antientropy.RowError
	equal(t, errors.As(err, &broken) && broken.Offset > 0, true)
}

func TestBrokenRows(t *testing.T) {
	r := filled(3)
	row, _, err := r.Row([]byte("key 1"))
	check(err)
	_, err = r.LoadRows(row[:len(row)-1])
	var broken *antientropy.RowError
	equal(t, errors.As(err, &broken) && broken.Offset > 0 && broken.Offset < uint64(len(row)), true)
	equal(t, strings.HasPrefix(err.Error(), "antientropy: RowBroken at byte "), true)
	unchanged(t, r, antientropy.ErrRowBroken, func() error { _, err := r.LoadRows([]byte("?")); return err })
}

func TestRowsOfTwoLeaves(t *testing.T) {
	r, rows := filled(2), []byte(nil)
	for _, key := range must(r.Keys().All()) {
		row, _, err := r.Row(key)
		check(err)
		rows = append(rows, row...)
	}
	unchanged(t, r, antientropy.ErrOtherRange, func() error { _, err := r.LoadRows(rows); return err })
}

func TestRehashSome(t *testing.T) {
	r, steps := filled(50), 0
	all := must(r.Stats()).Dirty
	equal(t, must(r.RehashSome(0)), all)
	for last := all; last > 0; steps++ {
		left := must(r.RehashSome(100))
		equal(t, left < last && left+100 >= last, true)
		last = left
	}
	equal(t, []any{must(r.Stats()).Dirty, steps > 1}, []any{uint64(0), true})
	check(must(r.SnapshotIfClean()).Close())
}
