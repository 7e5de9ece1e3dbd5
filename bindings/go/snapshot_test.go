package antientropy_test

import (
	"testing"

	antientropy "example.org/antientropy/go"
)

// offered returns a snapshot of 50 keys, with its offer of number 7.
func offered() (*antientropy.Snapshot, []byte) {
	snapshot := must(filled(50).Snapshot())
	return snapshot, must(snapshot.Offer(7))
}

func TestSnapshots(t *testing.T) {
	r := filled(50)
	snapshot := must(r.Snapshot())
	root := must(snapshot.Root())
	config := antientropy.Config{Format: 2, Limit: 20_000}
	equal(t, []any{snapshot.Config(), snapshot.Entries()}, []any{config, uint64(50)})
	equal(t, must(snapshot.About()), antientropy.About{Format: 2, Entries: 50})
	put(r, "later", "")
	equal(t, must(r.Root()) == root, false)
	check(r.Close())
	parts := must(antientropy.ReadOffer(must(snapshot.Offer(8))))
	equal(t, parts, antientropy.OfferParts{Number: 8, Format: 2, Root: root})
}

func TestRowsOfALeaf(t *testing.T) {
	snapshot, _ := offered()
	leaf := must(antientropy.Place(2, 0, []byte("key 3"))).Leaf
	rows := must(snapshot.Rows(leaf))
	equal(t, must(newReplica().LoadRows(rows)).Taken > 0, true)
	_, err := snapshot.Rows(antientropy.Leaves2)
	refused(t, err, antientropy.ErrBadMessage)
}

func TestDirty(t *testing.T) {
	r := filled(1)
	unchanged(t, r, antientropy.ErrDirty, func() error { _, err := r.SnapshotIfClean(); return err })
	check(r.Rehash())
	must(r.SnapshotIfClean())
}

func TestRefusedAsks(t *testing.T) {
	snapshot, _ := offered()
	ask := askFor(7, 0, 0)
	must(snapshot.Serve(7, ask))
	_, err := snapshot.Serve(8, ask)
	refused(t, err, antientropy.ErrGone)
	_, err = snapshot.Serve(7, ask[1:])
	refused(t, err, antientropy.ErrBadMessage)
	_, err = snapshot.Serve(7, nil)
	refused(t, err, antientropy.ErrBadMessage)
}
