package antientropy_test

import (
	"bytes"
	"crypto/sha256"
	"encoding/hex"
	"errors"
	"fmt"
	"io"
	"os"
	"strings"
	"testing"
	"testing/iotest"

	antientropy "example.org/antientropy/go"
)

const pageSum = "99be10254f4ab645598e1e0a737076963aef242486a714888e11e6a6324b77a0" // docs/FORMATS.md, "Checkpoints"

// A fullDisk is a file that takes no bytes.
type fullDisk struct{}

func (fullDisk) Write([]byte) (int, error) {
	return 0, os.ErrPermission
}

func shopping() *antientropy.Replica {
	r := withLimit(1000)
	put(r, "cart", strings.Repeat("milk", 1000))
	must(r.Accept([]byte("cart"), live(2, 1, "eggs")))
	must(r.PutTombstone(1, []byte("list"), nil))
	return r
}

// saved returns the bytes of a checkpoint.
func saved(r *antientropy.Replica) []byte {
	var file bytes.Buffer
	must(r.Save(&file))
	return file.Bytes()
}

func load(file []byte) (*antientropy.Replica, error) {
	return antientropy.Load(bytes.NewReader(file), 1000)
}

// isDamaged checks that a load reports a kind of damage. It returns the damage.
func isDamaged(t *testing.T, file []byte, kind antientropy.DamageKind, how string) (damage *antientropy.Damage) {
	t.Helper()
	_, err := load(file)
	refused(t, err, antientropy.ErrDamaged)
	if !errors.As(err, &damage) {
		t.Fatalf("the error is %v", err)
	}
	equal(t, damage.Kind, kind)
	if !strings.Contains(err.Error(), how) {
		t.Errorf("the error is %q", err)
	}
	return damage
}

// changed returns the file with another byte at a place.
func changed(file []byte, place int) []byte {
	file = append([]byte{}, file...)
	file[place] ^= 0x10
	return file
}

func TestCheckpointOfThePage(t *testing.T) {
	r := must(antientropy.NewReplica(antientropy.Config{Format: 1, Limit: 10}))
	put(r, "a", "x")
	sum := sha256.Sum256(saved(r))
	equal(t, hex.EncodeToString(sum[:]), pageSum)
}

func TestSaveAndLoad(t *testing.T) {
	r := shopping()
	loaded := must(load(saved(r)))
	equal(t, must(loaded.Root()), must(r.Root()))
	equal(t, must(loaded.Get([]byte("cart"))), must(r.Get([]byte("cart"))))
	equal(t, must(loaded.Stats()), antientropy.Stats{Entries: 3, Limit: 1000, Front: 3})
}

func TestRangeOfTheFile(t *testing.T) {
	config := antientropy.Config{Format: 2, Bits: 4, Range: 9, Limit: 1000}
	equal(t, must(load(saved(must(antientropy.NewReplica(config))))).Config(), config)
}

func TestLogAfterTheCheckpoint(t *testing.T) {
	r := shopping()
	logged := must(r.Save(io.Discard))
	put(r, "later", "")
	entries := must(r.Entries(logged).All())
	equal(t, []any{logged, len(entries), string(entries[0].Key)}, []any{uint64(3), 1, "later"})
}

func TestFileThatReadsOneByteAtOnce(t *testing.T) {
	r := shopping()
	loaded := must(antientropy.Load(iotest.OneByteReader(bytes.NewReader(saved(r))), 1000))
	equal(t, must(loaded.Root()), must(r.Root()))
}

func TestBrokenFile(t *testing.T) {
	_, err := shopping().Save(fullDisk{})
	refused(t, err, os.ErrPermission)
	broken := errors.New("broken")
	_, err = antientropy.Load(iotest.ErrReader(broken), 1000)
	refused(t, err, broken)
	_, err = antientropy.Load(io.MultiReader(bytes.NewReader(saved(shopping())), iotest.ErrReader(broken)), 1000)
	refused(t, err, broken)
}

// Rows of another range are damage of their leaf.
func TestRowsOfAnotherRange(t *testing.T) {
	spot := must(antientropy.Place(2, 8, []byte("cart")))
	r := must(antientropy.NewReplica(antientropy.Config{Format: 2, Bits: 8, Range: spot.Range, Limit: 10}))
	put(r, "cart", "milk")
	damage := isDamaged(t, changed(saved(r), 11), antientropy.DamageLeaf, "the rows of leaf ")
	equal(t, damage.Leaf, spot.Leaf)
}

// The error of a file that can't be read or written is wrapped, and isn't damage.
func TestErrorsOfFiles(t *testing.T) {
	file := saved(shopping())
	for length := range file[:60] {
		broken := io.MultiReader(bytes.NewReader(file[:length]), iotest.ErrReader(os.ErrPermission))
		_, err := antientropy.Load(broken, 1000)
		refused(t, err, os.ErrPermission)
		equal(t, errors.Is(err, antientropy.ErrDamaged), false)
		equal(t, strings.Contains(err.Error(), "the checkpoint can't be read: "), true)
	}
	_, err := shopping().Save(fullDisk{})
	equal(t, strings.Contains(err.Error(), "the checkpoint can't be written: "), true)
}

func TestNamesOfDamage(t *testing.T) {
	equal(t, fmt.Sprint(antientropy.DamageNotCheckpoint, antientropy.DamageTruncated, antientropy.DamageTooLong,
		antientropy.DamageRoot, antientropy.DamageLeaf), "NotCheckpoint Truncated TooLong Root Leaf")
}

func TestCut(t *testing.T) {
	file := saved(shopping())
	for _, length := range []int{0, 7, 8, 43, 44, 50, len(file) / 2, len(file) - 1} {
		isDamaged(t, file[:length], antientropy.DamageTruncated, "it is truncated, or a length in it is damaged")
	}
}

func TestTooLong(t *testing.T) {
	isDamaged(t, append(saved(shopping()), 0), antientropy.DamageTooLong, "bytes follow its last leaf")
}

func TestChangedHead(t *testing.T) {
	file := saved(shopping())
	for place := 0; place < 9; place++ {
		isDamaged(t, changed(file, place), antientropy.DamageNotCheckpoint, "it doesn't begin as a checkpoint does")
	}
	isDamaged(t, changed(file, 20), antientropy.DamageRoot, "its root differs")
	for place := 9; place < 12; place++ {
		_, err := load(changed(file, place))
		refused(t, err, antientropy.ErrBadRing)
	}
}

func TestChangedRows(t *testing.T) {
	file := saved(shopping())
	isDamaged(t, changed(file, bytes.Index(file, []byte("eggs"))), antientropy.DamageRoot, "its root differs")
	leaf := must(antientropy.Place(2, 0, []byte("cart"))).Leaf
	damage := isDamaged(t, changed(file, bytes.Index(file, []byte("cart"))-1), antientropy.DamageLeaf, "rows of leaf ")
	equal(t, *damage, antientropy.Damage{Kind: antientropy.DamageLeaf, Leaf: leaf})
}

func TestHugeLength(t *testing.T) {
	for _, first := range []byte{0x7f, 0xff} {
		file := saved(shopping())
		copy(file[44:], bytes.Repeat([]byte{0xff}, 8))
		file[44] = first
		isDamaged(t, file, antientropy.DamageTruncated, "it is truncated, or a length in it is damaged")
	}
}

func TestLimitOfALoad(t *testing.T) {
	_, err := antientropy.Load(bytes.NewReader(saved(shopping())), 2)
	refused(t, err, antientropy.ErrJournalFull)
}
